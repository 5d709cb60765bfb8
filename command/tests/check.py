"""check: a digest against its notes; quiet if it is accepted, else the line in words."""
import pathlib

from .calls import RUDIGNALS, expect, run
from .words import DAMAGED, LONG

NOTES = b"The valve at the north gate\nopened late.\n\n  Pump 7 was\n  started.\n"
BY_HAND = b"The valve at the north\ngate opened late.\n\n  Pump 7\n  was started.\n"
ON = "no digest of these notes goes on with it\n"

# notes, digest, status, and the words behind the digest's or the notes' name
CASES = [
    ([], NOTES, BY_HAND, 0, ""),
    (["-w", "20"], NOTES, BY_HAND, 0, ""),
    ([], NOTES, BY_HAND.replace(b"  Pump", b"Pump"), 1, "digest: line 4: " + ON),
    ([], NOTES, BY_HAND.replace(b"north", b"south"), 1, "digest: line 1: " + ON),
    ([], NOTES, BY_HAND.replace(b"7\n", b"7 7\n"), 1, "digest: line 4: " + ON),
    ([], NOTES, BY_HAND + b"\n", 1, "digest: line 6: " + ON),
    ([], NOTES, BY_HAND[:-15], 1, "digest: line 5: is missing; the digest is cut short\n"),
    ([], NOTES, BY_HAND[:-1], 1, "digest: line 5: is not ended by a line feed\n"),
    ([], NOTES, b"", 1, "digest: line 1: is missing; the digest is cut short\n"),
    (["-p", ">"], b"> a b\n> c\nd  e\n", b"> a\n> b c\nd  e\n", 0, ""),
    (["-p", ">"], b"> a b\n> c\nd  e\n", b"> a\n> b c\nd e\n", 1, "digest: line 3: " + ON),
    ([], b"> a b\n> c\n", b"> a\n> b c\n", 1, "digest: line 2: " + ON),
    ([], b"", b"", 0, ""),
    ([], b"", b"x", 1, "digest: line 1: is not ended by a line feed\n"),
    ([], b"a\n\xb0 b\n", b"a\n", 2, "notes: line 2, column 1: byte B0 begins no UTF-8 character; --keep leaves such a line as it is\n"),
    (["--keep"], b"a\n\xb0 b\n", b"a\n\xb0 b\n", 0, ""),
    ([], b"a b\n", b"a" + b" " * 65533 + b"b\n", 0, ""),
    ([], b"a b\n", b"a" + b" " * 65534 + b"b\n", 0, ""),
    ([], b"a b\n", b"a b\n" * 100000, 1, "digest: line 2: " + ON),
    ([], b"a b\n", b"a" + b" " * 1048576 + b"b\n", 2, "digest: the digest of the paragraph at line 1 of the notes has more than 1048576 bytes\n"),
    ([], b"a\n\n" + b"b " * 524289 + b"\n", b"x" * 70000, 2, "notes: line 3, column 1: " + LONG),
    # damage is told wherever it stands
    ([], b"a\n\n" * 50000 + b"\xb0\n", b"x\n", 2, "notes: line 100001, column 1: byte B0 " + DAMAGED),
]

# Longer than a call takes: the line is the first in the whole. Parts end at blank lines, or where a piece begins; their digests may be longer.
MANY = b"".join(b"%06d aaa\n%06d bbb\n\n" % (k, k) for k in range(40000))  # 22 bytes a paragraph, 3 lines
BROKEN = MANY.replace(b" aaa\n", b"\naaa ")  # each paragraph in two lines that break elsewhere
PIECES = b"".join(b" " * (k % 2) + b"%06d aaa\n" % k for k in range(100000))  # no blank line at all, a paragraph a line
ONE = b"%06d\n" * 100000 % tuple(range(100000))  # a single paragraph of 100,000 words
LONG_CASES = [
    ([], MANY, BROKEN, 0, ""),
    ([], MANY, b"", 1, "digest: line 1: is missing; the digest is cut short\n"),
    ([], MANY, BROKEN + b"x\n", 1, "digest: line 120001: " + ON),
    ([], MANY, BROKEN[:-1], 1, "digest: line 120000: is missing; the digest is cut short\n"),
    ([], MANY, BROKEN.replace(b"030000\naaa", b"030000\nAaa", 1), 1, "digest: line 90002: " + ON),
    ([], MANY, BROKEN.replace(b"\n\n039000", b"\n039000", 1), 1, "digest: line 117000: " + ON),
    ([], MANY, BROKEN.replace(b"\n\n039000", b"\n\n\n039000", 1), 1, "digest: line 117001: " + ON),
    ([], MANY, BROKEN[: BROKEN.index(b"039000")], 1, "digest: line 117001: is missing; the digest is cut short\n"),
    ([], PIECES, PIECES, 0, ""),
    ([], PIECES, PIECES.replace(b"080001 aaa", b"080001\n aaa"), 0, ""),
    ([], PIECES, PIECES.replace(b"080001 aaa", b"080001 aab"), 1, "digest: line 80002: " + ON),
    ([], PIECES, PIECES.replace(b" 080001 aaa\n", b""), 1, "digest: line 80002: " + ON),
    ([], PIECES, PIECES[:-1], 1, "digest: line 100000: is not ended by a line feed\n"),
    ([], ONE, ONE, 0, ""),
    ([], ONE, ONE.replace(b"\n", b" ")[:-1] + b"\n", 0, ""),
    ([], ONE, ONE.replace(b"070000", b"070001"), 1, "digest: line 70001: " + ON),
    # notes of two paragraphs in one part, with digests of 600,000 bytes each; then of one with a longer digest
    (["-q", "-w6"], (b" " * 3000 + b"a " * 200 + b"\n\n") * 2, ((b" " * 3000 + b"a\n") * 200 + b"\n") * 2, 0, ""),
    (["-q", "-w6"], (b" " * 3000 + b"a " * 200 + b"\n") * 2 + b"b\n", (b" " * 3000 + b"a\n") * 400 + b"b\n", 2, "digest: the digest of the paragraph at line 1 of the notes has more than 1048576 bytes\n"),
    # next-mail is false behind the first line
    (["-m"], b"x\n" + b"To: a\n b\n" * 20000 + b"\nTo: c\n d\n", b"x To: a\n" + b" b\nTo: a\n" * 19999 + b" b\n\nTo: c d\n", 0, ""),
    (["-m"], b"x\n" + b"To: a\n b\n" * 20000 + b"\nTo: c\n d\n", b"x To: a\n" + b" b\nTo: a\n" * 19999 + b" b\n\nTo: c\n d\n", 1, "digest: line 40003: " + ON),
]


def run_all(folder):
    notes, digest = pathlib.Path(folder) / "notes", pathlib.Path(folder) / "digest"
    for options, text, formatted, status, words in CASES + LONG_CASES:
        notes.write_bytes(text)
        digest.write_bytes(formatted)
        said = f"rudignals: {words}" if words else ""
        expect(f"check {options} {text[:40]!r} {formatted[:60]!r}", run(["check", *options, "notes", "digest"], b"", RUDIGNALS, cwd=folder), (status, b"", said))
    notes.write_bytes(NOTES)
    digest.write_bytes(BY_HAND)
    expect("check: notes from standard input", run(["check", "-", "digest"], NOTES, RUDIGNALS, cwd=folder), (0, b"", ""))
    wrong = "rudignals: standard input: line 1: " + ON
    expect("check: a digest from standard input", run(["check", "notes", "-"], b"x\n", RUDIGNALS, cwd=folder), (1, b"", wrong))
    own = run(["format", "-w", "30", "notes"], b"", RUDIGNALS, cwd=folder)[1]
    expect("check: what format writes", run(["check", "-w", "30", "notes", "-"], own, RUDIGNALS, cwd=folder), (0, b"", ""))
    missing = "rudignals: nothing: No such file or directory\n"
    expect("check: no such digest", run(["check", "notes", "nothing"], b"", RUDIGNALS, cwd=folder), (2, b"", missing))
    hint = "Try 'rudignals check --help'.\n"
    expect("check: one file", run(["check", "notes"], b"", RUDIGNALS, cwd=folder), (2, b"", "rudignals: NOTES and DIGEST are two files\n" + hint))
    both = "rudignals: NOTES and DIGEST cannot both be standard input\n" + hint
    expect("check: both from standard input", run(["check", "-", "-"], b"", RUDIGNALS, cwd=folder), (2, b"", both))
    expect("check: refused options", run(["check", "-w", "5", "notes", "digest"], b"", RUDIGNALS, cwd=folder)[:2], (2, b""))
    expect("check: help", run(["check", "--help"], b"", RUDIGNALS, cwd=folder)[0], 0)
