"""Reads the definitions of crates/widths/specs and lists them: `width FIRST LAST WIDTH` and `white FIRST LAST` lines, in decimal."""
import pathlib
import re

SPECS = pathlib.Path(__file__).resolve().parents[2] / "crates/widths/specs"
NUMBER = r"(0x[0-9A-F]+|\d+)"

table = (SPECS / "Table.antt").read_text(encoding="utf-8")
for first, last, width in re.findall(rf"span {NUMBER} {NUMBER} {NUMBER} ∷", table):
    print("width", int(first, 0), int(last, 0), int(width, 0))

white = (SPECS / "WhiteSpace.antt").read_text(encoding="utf-8").partition("white_space c =")[2]
for term in "".join(white.split("\n")).split("||"):
    span = re.fullmatch(rf"\s*\(?leb {NUMBER} c && leb c {NUMBER}\)?\s*", term)
    single = re.fullmatch(rf"\s*eqb c {NUMBER}\s*", term)
    first, last = span.groups() if span else (single.group(1), single.group(1))
    print("white", int(first, 0), int(last, 0))
