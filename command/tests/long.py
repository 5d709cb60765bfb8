"""Files longer than one call of the library takes: cut at blank lines, formatted whole or refused whole."""
from .calls import RUDIGNALS, expect, expect_same, run
from .words import DAMAGED, LONG
from . import rust

WORD = b"a" * 65535 + b"\n"  # 65,536 bytes, the most that a part has where it can be cut
LINE = b"a" * 1048575 + b"\n"  # 1,048,576 bytes, the most of a paragraph
MANY_LINES = b"a\n\n" * 30000  # 60,000 lines

# arguments, notes, output: by hand. A blank line of any kind is a place for a cut, on either side.
CUT = [
    ([], MANY_LINES, MANY_LINES),
    ([], b"\n" * 200000, b"\n" * 200000),
    ([], b"a\nb\n\n" * 30000 + b"c\nd", b"a b\n\n" * 30000 + b"c d\n"),
    ([], b"a\r\nb\r\n\r\n" * 30000, b"a b\n\n" * 30000),
    ([], b"a\nb\n \t \n" * 30000, b"a b\n\n" * 30000),
    ([], WORD + b"\n" + WORD, WORD + b"\n" + WORD),
    ([], WORD + b"\r\n" + WORD, WORD + b"\n" + WORD),
    ([], WORD + b" \t\n" + WORD, WORD + b"\n" + WORD),
    ([], WORD + b"\r\v\f\r\n" + WORD, WORD + b"\n" + WORD),
    ([], WORD + b" " * 65535 + b"\n" + WORD, WORD + b"\n" + WORD),
    ([], WORD + b"\n" + WORD[:-1], WORD + b"\n" + WORD),
    ([], LINE + b"\n" + LINE[:-1], LINE + b"\n" + LINE),
    ([], b"x\n\n" + LINE[3:] + b"\xc2\xa0\n" + LINE, b"x\n\n" + LINE[3:] + b"\n" + LINE),
    (["--glue"], WORD + b"\xc2\xa0\n" + WORD, WORD + b"\n" + WORD),
    ([], WORD + b"\xc2\x85\n" + WORD, WORD + b"\n" + WORD),
    # no blank line at all: a piece begins with another indent, with a damaged line and behind it, with split at every line
    (["-s"], b"a b\n" * 500000, b"a b\n" * 500000),
    (["-q", "-w6"], (b"a\n" * 3 + b" b\n" * 2) * 150000, b"a a a\n b b\n" * 150000),
    (["--keep"], b"a\nb\n\xb0\n" * 200000, b"a b\n\xb0\n" * 200000),
    (["-p", ">"], b"> a\n> \n" * 200000, b"> a\n> \n" * 200000),
    # a paragraph of more than 1,024 words, of 65,536 bytes, and of nearly 1,048,576
    (["-q", "-w6"], b"a\n" * 1026, b"a a a\n" * 342),
    (["-q", "-w6"], b"a\n" * 60000, b"a a a\n" * 20000),
    (["-q", "-w6"], b"x\n\n" + b"a\n" * 524286 + b"\ny\n", b"x\n\n" + b"a a a\n" * 174762 + b"\ny\n"),
    # next-mail is false behind the first line, and no header is one, up to the blank line
    (["-m"], b"x\n" + b"To: a\n b\n" * 150000 + b"\nTo: c\n d\n", b"x To: a\n" + b" b\nTo: a\n" * 149999 + b" b\n\nTo: c d\n"),
    ([], b"\n" + WORD + b"\n\n", b"\n" + WORD + b"\n\n"),
    (["-s"], b"a\n" * 32768 + b"\n" + b"b\n" * 32768, b"a\n" * 32768 + b"\n" + b"b\n" * 32768),
    (["--keep"], b"\xb0 b\nc\nd\n\n" * 30000, b"\xb0 b\nc d\n\n" * 30000),
    (["--keep"], b"\xb0" * 65535 + b"\n\n" + WORD, b"\xb0" * 65535 + b"\n\n" + WORD),
    (["-q", "-w6", "--glue"], b"a\xc2\xa0b cc\n\n" * 20000, b"a\xc2\xa0b cc\n\n" * 20000),
    # a control character is no blank: its line is one of its paragraph's, at the end of the first part too
    (["-q", "-w6"], b"a\n\n" * 21800 + b"a\n" * 60 + b"\x0e\n" + b"a\n" * 62, b"a\n\n" * 21800 + b"a a a\n" * 20 + b"\x0e a a\n" + b"a a a\n" * 20),
    # next-mail is true behind a blank line and false behind other lines
    (["-m"], b"To: a\n b\n\nTo: c\n d\nTo: e\n\n" * 10000, b"To: a b\n\nTo: c d\nTo: e\n\n" * 10000),
    (["-m"], b"x\nTo: a\n b\n\n" * 10000, b"x To: a\n b\n\n" * 10000),
]

# arguments, notes, and the words. The place is that in the whole file; of several codes the lowest counts, wherever it stands.
REFUSED = [
    ([], LINE[:-1] + b"a\n\n" + LINE, f"line 1, column 1: {LONG}"),
    ([], b"x\n\n" + LINE + b"a\n\nb\n", f"line 3, column 1: {LONG}"),
    ([], MANY_LINES + LINE + b"a", f"line 60001, column 1: {LONG}"),
    ([], b"x\n" + b" " * 1048576 + b"\ny\n", f"line 2, column 1: {LONG}"),
    ([], b"x\n\n" + b"a\n" * 524289 + b"\ny\n", f"line 3, column 1: {LONG}"),
    # a line that is too long by itself is named, not the paragraph that it is in
    ([], b"x\n\na\nb\n" + LINE[:-1] + b"a\nc\n\ny\n", f"line 5, column 1: {LONG}"),
    ([], b"a\nb\n" + LINE + b"\ny\n", f"line 1, column 1: {LONG}"),
    ([], b"a\nb\n" + LINE[:-1] + b"a", f"line 1, column 1: {LONG}"),
    ([], b"a\nb\n" + LINE[:-1] + b"aa", f"line 3, column 1: {LONG}"),
    ([], MANY_LINES + b"\xb0", f"line 60001, column 1: byte B0 {DAMAGED}"),
    ([], MANY_LINES + b"b\n\xc3\xa9\xc3\xa9 x\xff\n" + MANY_LINES + b"\xb0\n", f"line 60002, column 5: byte FF {DAMAGED}"),
    ([], b"\xff\n\n" + MANY_LINES + b"\xb0\n", f"line 1, column 1: byte FF {DAMAGED}"),
    ([], b"w " * 1025 + b"\n\n" + MANY_LINES + b"\xb0\n", f"line 60003, column 1: byte B0 {DAMAGED}"),
    ([], b"a\n" * 300000 + b"\xb0\n", f"line 300001, column 1: byte B0 {DAMAGED}"),
    ([], b"\xb0\n\n" + MANY_LINES + LINE + b"a\n", f"line 60003, column 1: {LONG}"),
]


def by_hand(folder):
    for arguments, notes, output in CUT:
        status, written, errors = run(arguments, notes)
        expect(f"{arguments} on {notes[:60]}", (status, errors), (0, ""))
        expect_same(f"{arguments} on {notes[:60]}", written, output)
    for arguments, notes, words in REFUSED:
        expect(f"{arguments} on {notes[:60]}", run(arguments, notes), (1, b"", "fmt: standard input: " + words))
    caption = run(["panel"], b"a\nb\n\n" * 30000 + b"c\nd", RUDIGNALS)[1]
    expect("a panel of several parts", (b"60001 lines, none damaged; above: 59977 lines" in caption, caption.split(b"\n")[24].strip(b"| ")), (True, b"c d"))
    (folder / "good").write_bytes(MANY_LINES)
    (folder / "bad").write_bytes(MANY_LINES + b"\xb0")
    expect("a long file", run(["good"], cwd=folder), (0, MANY_LINES, ""))
    words = f"fmt: bad: line 60001, column 1: byte B0 {DAMAGED}"
    expect("refused whole, and none written", run(["good", "bad", "good"], cwd=folder), (1, b"", words))
    skipped = MANY_LINES + b"REFUSED: " + words[5:].encode() + MANY_LINES
    expect("refused whole, the others written, a line in its place", run(["--skip-refused", "good", "bad", "good"], cwd=folder), (1, skipped, words))


def against_the_rust(folder):
    rust.run_all(folder)


def files_of_this_machine(folder):
    if rust.at_hand():
        rust.machine(folder)


ALL = [by_hand, against_the_rust, files_of_this_machine]
