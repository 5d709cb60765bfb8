#!/usr/bin/env python3
"""A year with the accident in it, made by the accident's own tool, and audited: year.py COMMAND ORACLE [SEED]

365 notes of 1 to 64 KiB, 41 of them with a stray byte at a place by chance, formatted by the Rust original (ORACLE, tests/oracle) and by Debian's
rust-coreutils: both end their output at the stray byte. The audit must name the 41 and no other, and of each exactly the lines from the byte's on. The
same year by GNU fmt, par and `fold -s', which lose nothing: nothing may be called missing. Then every way to cut a digest short. Tools that are not
at hand are named. Exit: 0 as expected, 1 not.
"""
import datetime
import json
import os
import pathlib
import random
import shutil
import subprocess
import sys
import tempfile
import time

HERE = pathlib.Path(__file__).resolve().parent
sys.path.insert(0, str(HERE))
import rule  # noqa: E402
from model import Options  # noqa: E402

WORDS = "the valve at north gate opened late was closed by hand after a rise of pressure; see log. pump tripped on low flow, restarted (bled). filter due 4.2 K helium level nominal? yes! über 漢字 detector cold head".split()
STRAY = [b"\xb0", b"\xff", b"\xe2\x82", b"\x80"]
os.environ["LC_ALL"] = "C"


def note(chance, size):
    """Paragraphs of an operator's notes, some with an indent, of about so many bytes and with no paragraph of over 1,024 words."""
    out = ""
    while len(out.encode()) < size:
        indent = chance.choice(["", "", "", "  ", "    "])
        for _ in range(chance.randrange(1, 12)):
            out += indent + " ".join(chance.choice(WORDS) for _ in range(chance.randrange(1, 14))) + "\n"
        out += "\n"
    return out.encode()


def year(chance):
    """Names, notes, and for the 41 the line of the stray byte, from 1."""
    stray, days = set(chance.sample(range(365), 41)), []
    for i in range(365):
        day = datetime.date(2025, 1, 1) + datetime.timedelta(i)
        notes, line = note(chance, int(1024 * 64 ** chance.random())), None
        if i in stray:
            at = chance.randrange(len(notes))
            while notes[at] & 0xC0 == 0x80:
                at -= 1
            notes, line = notes[:at] + chance.choice(STRAY) + notes[at:], notes[:at].count(b"\n") + 1
        days.append((f"{day:%Y/%m}/{day}", notes, line))
    return days


def run(words, notes):
    return subprocess.run(words, input=notes, stdout=subprocess.PIPE, stderr=subprocess.DEVNULL).stdout


def tools(oracle):
    """The tools at hand by name; and whether they end their output at a stray byte."""
    rust = next((p for p in ("/usr/lib/cargo/bin/coreutils/fmt", shutil.which("uu-fmt") or "") if p and os.access(p, os.X_OK)), None)
    asked = {"the original": ([oracle, "fmt", "--build", "cube", "-w", "60"] if os.access(oracle, os.X_OK) else None, True),
             "rust-coreutils": ([rust, "-w", "60"] if rust else None, True),
             "GNU fmt": (["fmt", "-w", "60"] if b"GNU" in run(["fmt", "--version"], b"") else None, False),
             "par": (["par", "60"] if shutil.which("par") else None, False),
             "fold -s": (["fold", "-s", "-w", "60"], False)}
    for name, (words, _) in asked.items():
        if words is None:
            print(f"audit: left out: {name}, which is not at hand")
    return {name: row for name, row in asked.items() if row[0]}


def audit(command, notes, digests):
    begun = time.time()
    done = subprocess.run([command, "audit", "--json", "-w", "60", str(notes), str(digests)], stdout=subprocess.PIPE, stderr=subprocess.DEVNULL)
    return [json.loads(line) for line in done.stdout.splitlines()], done.returncode, time.time() - begun


def expect(fact, words):
    if not fact:
        print(f"audit: {words}")
        sys.exit(1)


def lost_from(notes, line):
    """What of notes is lost if all is from a line on."""
    rest = [w for w in rule.sequence(Options(keep=True), notes, True) if w[1] >= line]
    return rule.lines_from(rest)


def try_tool(command, folder, days, name, words, stops):
    digests = folder / name.replace(" ", "-")
    for key, notes, _ in days:
        (digests / key).parent.mkdir(parents=True, exist_ok=True)
        (digests / f"{key}.dig").write_bytes(run(words, notes))
    records, status, took = audit(command, folder / "notes", digests)
    expect(len(records) == 365, f"{name}: {len(records)} records")
    named = 0
    for (key, notes, line), record in zip(sorted(days), records):
        digest = (digests / f"{key}.dig").read_bytes()
        expect(record["notes"].endswith(key + ".txt") and record["digest"].endswith(key + ".dig"), f"{name}: {record['notes']} in the place of {key}")
        if stops and line is not None:
            expect((record["verdict"], record["missing"]) == ("missing", lost_from(notes, line)), f"{name}: {key}: {record}, stray byte in line {line}")
            named += 1
        else:
            same = [w for w, _ in rule.sequence(Options(keep=True), notes, False)] == [w for w, _ in rule.sequence(Options(keep=True), digest, False)]
            expect(same == (record["verdict"] in ("carried", "layout")), f"{name}: {key}: {record['verdict']}, and the words are {'' if same else 'not '}all there")
            expect(same or name == "par", f"{name}: {key}: the tool itself loses words")
    expect(status == (1 if stops or any(r["verdict"] not in ("carried", "layout") for r in records) else 0), f"{name}: status {status}")
    print(f"audit: the year by {name}: {named} named, " + ", ".join(f"{sum(r['verdict'] == v for r in records)} {v}" for v in ("carried", "layout", "missing", "added", "both")) + f"; {took:.2f} s")


def try_cuts(command, folder, notes):
    """A digest that ends at any byte lacks exactly what is behind it."""
    digest = run([command, "format", "-w", "60"], notes)
    (folder / "cut").mkdir()
    (folder / "whole").mkdir()
    for i in range(len(digest)):
        (folder / "cut" / f"{i:05}.d").write_bytes(digest[:i])
        (folder / "whole" / f"{i:05}.n").write_bytes(notes)
    records, _, _ = audit(command, folder / "whole", folder / "cut")
    a = rule.sequence(Options(keep=True), notes, True)
    for i, record in enumerate(records):
        b = rule.sequence(Options(keep=True), digest[:i], True)
        if len(b) == len(a) and b[-1][0] == a[-1][0]:
            expect(record["verdict"] == "layout", f"cut at {i}: {record}")
        elif [w for w, _ in b] == [w for w, _ in a[:len(b)]]:
            expect((record["verdict"], record["missing"]) == ("missing", rule.lines_from(a[len(b):])), f"cut at {i}: {record}")
        else:
            expect(record["verdict"] == rule.judge(Options(keep=True, width=60), notes, digest[:i])[0], f"cut at {i}, within a word: {record}")
    print(f"audit: a digest cut at each of {len(records)} places: as expected")


def main():
    command, oracle, seed = sys.argv[1], sys.argv[2], int(sys.argv[3]) if len(sys.argv) > 3 else 2025
    chance = random.Random(seed)
    days = year(chance)
    with tempfile.TemporaryDirectory() as name:
        folder = pathlib.Path(name)
        for key, notes, _ in days:
            (folder / "notes" / key).parent.mkdir(parents=True, exist_ok=True)
            (folder / "notes" / f"{key}.txt").write_bytes(notes)
        for tool, (words, stops) in tools(oracle).items():
            try_tool(command, folder, days, tool, words, stops)
        try_cuts(command, folder, note(chance, 700))


main()
