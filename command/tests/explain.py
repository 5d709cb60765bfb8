"""explain: reasons in words, written out by hand; and of a long file the digest beside them."""
import os
import pathlib
import random
import subprocess

from .calls import RUDIGNALS, SANITIZED, expect, expect_same, run

EVEN = "line 1: chosen: 70 of 74 columns, cost 16,129 (line 51, word 37, change 38)\n"
REFUSED = "rudignals: standard input: line 1, column 2: byte B0 begins no UTF-8 character; --keep leaves such a line as it is\n"

# options, notes, line, what is said of it
LINES = [
    (["-w10", "-q"], b"aaaa bbbbbb c\n", 1, "line 1: ends here because the next word, 6 columns, would reach column 11 of 10\n"),
    (["-w10", "-q"], b"aaaa bbbbbb c\n", 2, "line 2: ends here because its paragraph ends\n"),
    (["-g7", "-q"], b"aaaa bbbbbb c\n", 1, "line 1: ends here because the next word, 6 columns, would reach column 11 of 10\n"),
    # a sentence ends: 8 columns, a gap of 1, 1 added, and the word
    (["-w10", "-q", "-u"], b"aaa bbb.  ccc dddd\n", 1, "line 1: ends here because the next word, 3 columns, would reach column 13 of 10\n"),
    ([], b"a" * 66 + b" bbb " + b"c" * 20, 1, EVEN),
    (["--keep"], b"a\n\xb0\n\nc", 2, "line 2: a plain line, which ends as it does in the notes\n"),
    (["--keep"], b"a\n\xb0\n\nc", 3, "line 3: a blank line of the notes\n"),
    # nothing stays: 3 + 1 + 7 is 11, over 10, and 11 - 10 is less than 4 - 3: behind the word
    (["-w10"], b"aa bbbbbbbb c\n", 1, "line 1: ends here because its last word fits on no line that leads to it: the break is forced after it, which is the lesser evil\n"),
    # 4 + 1 + 7 is 12; 12 - 10 is more than 4 - 4
    (["-w10"], b"aaaa bbbbbbb c\n", 1, "line 1: ends here because the next word fits on no line that leads to it: the break is forced before it\n"),
]


def table(rows):
    return b"".join(f"{number:4d}  {reason}".ljust(55).encode() + b"|" + line + b"\n" for number, (reason, line) in enumerate(rows, 1))


def by_hand(folder):
    for options, notes, line, words in LINES:
        expect(f"explain: {options} {notes!r} {line}", run(["explain", *options, "-", str(line)], notes, RUDIGNALS), (0, words.encode(), ""))
    path = pathlib.Path(folder) / "notes"
    path.write_bytes(b"aaaa bbbbbb c\n\n\td\n")
    rows = [("next word, 6 columns, would reach 11 of 10", b"aaaa"), ("end of paragraph", b"bbbbbb c"), ("blank line", b""), ("end of paragraph", b"\td")]
    expect("explain: every line", run(["explain", "-w10", "-q", str(path)], b"", RUDIGNALS), (0, table(rows), ""))
    rows = [("next word, 3 columns, would reach 13 of 10", b"aaa bbb."), ("end of paragraph", b"ccc dddd")]
    expect("explain: a sentence's end", run(["explain", "-w10", "-q", "-u", "-"], b"aaa bbb.  ccc dddd\n", RUDIGNALS), (0, table(rows), ""))
    expect("explain: nothing", run(["explain", "-"], b"", RUDIGNALS), (0, b"", ""))
    absent = "rudignals: standard input: there is no line 5: the digest has 4 lines\n"
    expect("explain: no such line", run(["explain", "-w10", "-q", "-", "5"], path.read_bytes(), RUDIGNALS), (1, b"", absent))
    expect("explain: refused notes", run(["explain", "-", "1"], b"a\xb0", RUDIGNALS), (1, b"", REFUSED))
    expect("explain: no file", run(["explain"], b"", RUDIGNALS)[:2], (2, b""))
    expect("explain: no number", run(["explain", "-", "7x"], b"", RUDIGNALS)[:2], (2, b""))
    expect("explain: refused options", run(["explain", "-w5", "-", "1"], b"", RUDIGNALS)[:2], (2, b""))
    # a line of a later part, and the digest of a file of several
    long = b"".join(b"word " * (1 + k % 40) + b"\n\n" for k in range(1200))
    digest = run(["format"], long, RUDIGNALS)[1]
    status, got, words = run(["explain", "-"], long, RUDIGNALS)
    expect("explain: status and words of a long file", (status, words), (0, ""))
    expect_same("explain: the digest beside", b"".join(line.split(b"|", 1)[1] + b"\n" for line in got.splitlines()), digest)
    last = digest.count(b"\n") - 1
    expect("explain: a line of the last part", run(["explain", "-", str(last)], long, RUDIGNALS), (0, f"line {last}: ends here because its paragraph ends\n".encode(), ""))


WORDS = ["a", "bb", "ccc", "To:", "From", "From x", "x:y", "\u00e9", "\u4e2d\u6587", ": a", "a:", "\u00a0", ".", "e.", ">", "# x", "a\x7f:"]


def some_notes(rng):
    """Headers, indents, prefixes, blank and damaged lines."""
    lines = []
    for _ in range(rng.randrange(1, 14)):
        text = rng.choice(["", "", "", " ", "  ", "\t", "> ", " > "]) + " ".join(rng.choice(WORDS) for _ in range(rng.randrange(1, 7))) + rng.choice(["", "", " ", "\r"])
        lines.append(rng.choice(["", " ", "\u3000"]) if rng.random() < 0.12 else text)
    notes = "\n".join(lines).encode() + rng.choice([b"", b"\n"])
    return notes.replace(b"bb", b"\xb0", 1) if rng.random() < 0.3 else notes


# what next-mail decides: a header behind a plain line, a paragraph, a header, a blank line
HEADER = b"To: aaa bbbb cc ddddd e ff ggg hhhh\n ii jjj kk llll\n"
MAIL = [before + HEADER for before in (b"", b"\xb0\n", b"x\n", b"x\n\n", b"From x\n", b"From: x\n", b" From x\n", b"Fromx y\n", b":\n", b"a b: c\n", b"\xc3\xa9:\n", b"a\x7f:\n", b"\xb0\n" + HEADER, b"a:\n" * 5, b"x\n" + b"a:\n" * 3)]


def all_and_one(folder):
    """Every line as it is told of all, and by itself: then the library is asked about the notes as they stand."""
    rng = random.Random(38)
    told = 0
    for case in range(60 + len(MAIL)):
        notes = some_notes(rng) if case < 60 else MAIL[case - 60]
        options = ["--keep", "-w", str(rng.choice([10, 15, 20]))] + [letter for letter in ("-c", "-t", "-s", "-u", "-q", "--glue") if rng.random() < 0.25]
        options += ["-m"] if rng.random() < 0.7 or case >= 60 else []
        options += ["-p", rng.choice([">", "", "#"])] if rng.random() < 0.3 and case < 60 else []
        options += ["-P", "#"] if rng.random() < 0.2 else []
        options = options if case < 60 else ["--keep", "-m", "-w", "12"]
        (folder / "notes").write_bytes(notes)
        status, every, words = run(["explain", "--json", *options, "notes"], b"", RUDIGNALS, cwd=folder)
        rows = every.splitlines(keepends=True)
        expect(f"explain {options} {notes!r}", (status, words, len(rows)), (0, "", run(["format", *options, "notes"], b"", RUDIGNALS, cwd=folder)[1].count(b"\n")))
        for number, row in enumerate(rows, 1):
            expect(f"explain {options} {notes!r}, line {number}", run(["explain", "--json", *options, "notes", str(number)], b"", RUDIGNALS, cwd=folder), (0, row, ""))
        told += len(rows)
    expect("lines were told", told > 300, True)


LONGEST = [
    ("one-word lines, split", ["-s"], b"a\n" * 32768),
    ("the same with mail", ["-s", "-m"], b"a\n" * 32768),
    ("headers", ["-m"], b"a:\n" * 21845),
    ("headers, split", ["-s", "-m"], b"a:\n" * 21845),
    ("blank lines", [], b"\n" * 65536),
    ("long words", [], (b"a" * 63 + b"\n") * 1024),
    ("long words in a narrow column", ["-w", "6"], (b"a" * 63 + b"\n") * 1024),
    ("short words", [], (b"a " * 1024 + b"\n\n") * 31),
    ("plain lines", ["-p", ">"], b"a\n" * 32768),
]


def within_a_second(folder):
    """64 KiB of whatever notes; by the processor's time, since a machine may have other work."""
    if SANITIZED:
        return
    for what, options, notes in LONGEST:
        (folder / "notes").write_bytes(notes)
        with open(folder / "out", "wb") as out:
            child = subprocess.Popen([RUDIGNALS, "explain", *options, "notes"], stdout=out, cwd=folder)
            _, status, used = os.wait4(child.pid, 0)
        expect(f"explain: {what}", (status, used.ru_utime + used.ru_stime < 1), (0, True))


ALL = [by_hand, all_and_one, within_a_second]
