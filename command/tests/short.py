"""Short notes under every option."""
from .calls import ROOT, RUDIGNALS, expect, link, run, SOURCES

WIDE = b"aaaa bbbb cccc dddd eeee ffff gggg\n"
QUOTED = b"> a\n> b\n  > c\n  > d\n"

# arguments, notes, and what the Rust original writes
CASES = [
    ([], b"", b""),
    ([], b" \t\n", b"\n"),
    ([], b"abc", b"abc\n"),
    ([], b"abc\r\n", b"abc\n"),
    ([], b"a\0b  c\n", b"a\0b  c\n"),
    ([], b"x a.\nb\n", b"x a.  b\n"),
    ([], b"  a b\nc d\nc e\n", b"  a b\nc d c e\n"),
    (["-c", "-w", "10"], b"  a b\nc d\nc e\n", b"  a b c\nd c e\n"),
    (["--crown-margin", "--width", "10"], b"  a b\nc d\nc e\n", b"  a b c\nd c e\n"),
    (["-t", "-w", "8"], b"a b\n  c d\n  e f\n", b"a b c\n  d e f\n"),
    (["-t", "-w8"], b"a b\na c\n", b"a b\na c\n"),
    (["--tagged-paragraph"], b"a b\na c\n", b"a b\na c\n"),
    (["-ctw8"], b"a b\na c\n", b"a b a c\n"),
    (["-m"], b"From x\nTo: a\n b\n\nbody\nmore\n", b"From x\nTo: a b\n\nbody more\n"),
    (["--preserve-headers"], b"From x\nTo: a\n b\n\nbody\nmore\n", b"From x\nTo: a b\n\nbody more\n"),
    (["-s", "-w", "10"], b"aaaa bbbb cccc\ndd\n", b"aaaa bbbb\ncccc\ndd\n"),
    (["--split-only", "--width=10"], b"aaaa bbbb cccc\ndd\n", b"aaaa bbbb\ncccc\ndd\n"),
    ([], b"a   b.  c\td\n", b"a   b.  c\td\n"),
    (["-u"], b"a   b.  c\td\n", b"a b.  c d\n"),
    (["--uniform-spacing"], b"a   b.  c\td\n", b"a b.  c d\n"),
    (["-p", ">"], QUOTED, b"> a b\n  > c d\n"),
    (["--prefix", ">"], QUOTED, b"> a b\n  > c d\n"),
    (["-p>", "-x"], QUOTED, b"> a b\n  > c\n  > d\n"),
    (["--prefix=>", "--exact-prefix"], QUOTED, b"> a b\n  > c\n  > d\n"),
    (["-p", ""], b"a\nb\n", b"a b\n"),
    (["-P", "#"], b"  # a\n  # b\nc\nd\n", b"  # a\n  # b\nc d\n"),
    (["--skip-prefix", "#"], b"  # a\n  # b\nc\nd\n", b"  # a\n  # b\nc d\n"),
    (["-P", "#", "-X"], b"  # a\n  # b\nc\nd\n", b"  # a # b\nc d\n"),
    (["--skip-prefix=#", "--exact-skip-prefix"], b"  # a\n  # b\nc\nd\n", b"  # a # b\nc d\n"),
    (["-P", ""], b"a\nb\n", b"a\nb\n"),
    (["-w", "10"], b"aa bbbbbbbb c\n", b"aa bbbbbbbb\nc\n"),
    (["-w", "+10", "-q"], b"aa bbbbbbbb c\n", b"aa\nbbbbbbbb c\n"),
    (["--quick", "--width", "010"], b"aa bbbbbbbb c\n", b"aa\nbbbbbbbb c\n"),
    (["-g", "10"], WIDE, b"aaaa bbbb\ncccc dddd\neeee ffff\ngggg\n"),
    (["--goal", "10"], WIDE, b"aaaa bbbb\ncccc dddd\neeee ffff\ngggg\n"),
    (["-w", "16"], WIDE, b"aaaa bbbb cccc\ndddd eeee ffff\ngggg\n"),
    (["-w", "16", "-g", "8"], WIDE, b"aaaa bbbb\ncccc dddd\neeee ffff gggg\n"),
    (["-w", "12"], b"\taaaa bbbb cccc dd\n", b"\taaaa\n\tbbbb\n\tcccc\n\tdd\n"),
    (["-w", "12", "-T", "2"], b"\taaaa bbbb cccc dd\n", b"\taaaa bbbb\n\tcccc dd\n"),
    (["-w", "12", "--tab-width", "0"], b"\taaaa bbbb cccc dd\n", b"\taaaa bbbb\n\tcccc dd\n"),
    (["-q", "-w", "6"], b"aaa\xc2\xa0bbb\n", b"aaa\nbbb\n"),
]

# the same answers, asked for in the ways that are ours: the last value counts, a width may be the first argument, a name be cut short
OTHERWISE = [
    (["-w", "40", "-w", "16"], WIDE, b"aaaa bbbb cccc\ndddd eeee ffff\ngggg\n"),
    (["--width=9", "-g", "40", "-w16", "--goal", "8"], WIDE, b"aaaa bbbb\ncccc dddd\neeee ffff gggg\n"),
    (["-c", "--wid", "10", "-c"], b"  a b\nc d\nc e\n", b"  a b c\nd c e\n"),
    (["-p", "#", "-p", ">"], QUOTED, b"> a b\n  > c d\n"),
    (["-P", "", "-P", "#"], b"  # a\n  # b\nc\nd\n", b"  # a\n  # b\nc d\n"),
    (["-T", "8", "-w", "12", "-T", "2"], b"\taaaa bbbb cccc dd\n", b"\taaaa bbbb\n\tcccc dd\n"),
    (["-16"], WIDE, b"aaaa bbbb cccc\ndddd eeee ffff\ngggg\n"),
    (["-16", "-g", "8"], WIDE, b"aaaa bbbb\ncccc dddd\neeee ffff gggg\n"),
    (["-40", "-w", "16"], WIDE, b"aaaa bbbb cccc\ndddd eeee ffff\ngggg\n"),
]

# likewise for what RULES adds; the digests of the last three are longer than the notes, up to a hundred times
OURS = [
    (["-q", "-w", "6", "--glue"], b"aaa\xc2\xa0bbb\n", b"aaa\xc2\xa0bbb\n"),
    (["-u"], b"a.\xc2\xa0b\n", b"a.  b\n"),
    (["-u", "--sentence-characters"], b"a.\xc2\xa0b\n", b"a. b\n"),
    (["-u", "--sentence-characters"], b"a.\xc2\xa0 b\n", b"a.  b\n"),
    (["--sentence-characters"], b"a.\xc2\xa0b\n", b"a.\xc2\xa0b\n"),
    (["--keep"], b"a\n\xb0 b\nc\n", b"a\n\xb0 b\nc\n"),
    (["--keep"], b"a\nb\n\xe4\xb8 x\n\nc\nd\n", b"a b\n\xe4\xb8 x\n\nc d\n"),
    (["--keep"], b"a\nb\n\xe4\xb8\x80 x\n\nc\nd\n", b"a b \xe4\xb8\x80 x\n\nc d\n"),
    (["-q", "-w", "6"], b"a\n" * 1024, b"a a a\n" * 341 + b"a\n"),
    ([], b"a" * 65536, b"a" * 65536 + b"\n"),
    (["-q", "-w", "6"], b" " * 200 + b"aaaaa " * 500, (b" " * 200 + b"aaaaa\n") * 500),
    (["-q", "-w", "6"], b" " * 2000 + b"a " * 1000 + b"\n", (b" " * 2000 + b"a\n") * 1000),
]


def tables():
    for arguments, notes, output in CASES + OTHERWISE + OURS:
        expect(f"{arguments} on {notes[:60]}", run(arguments, notes), (0, output, ""))
    expect("the subcommand", run(["format", "-16", "-g", "8"], WIDE, RUDIGNALS), (0, b"aaaa bbbb\ncccc dddd\neeee ffff gggg\n", ""))


def arguments_of(block):
    """An option block as the arguments that make it."""
    names = {2: "--width", 3: "--goal", 4: "--tab-width", 5: "--prefix", 6: "--skip-prefix"}
    flags = ["-c", "-t", "-m", "-s", "-u", "-q", "-x", "-X", "--keep", "--glue"]
    out = []
    while block:
        tag, length = block[0], int.from_bytes(block[1:3], "big")
        value, block = block[3 : 3 + length], block[3 + length :]
        if tag == 1:
            out += [flag for bit, flag in enumerate(flags) if int.from_bytes(value, "big") >> bit & 1]
        else:
            out += [names[tag], str(int.from_bytes(value, "big")) if tag < 5 else value]
    return out


def rows_of(text):
    """Answers of the Rust, a line each: arguments, notes, output. An argument cannot hold a zero byte."""
    for row in text.splitlines():
        block, notes, output = (bytes.fromhex(field.strip("-")) for field in row.split())
        arguments = arguments_of(block)
        if not any(b"\0" in word for word in arguments if isinstance(word, bytes)):
            yield arguments, notes, output


def committed():
    return rows_of((ROOT / "crates/replay/data/vectors.txt").read_text())


def cut_to(size, rows, program, count):
    """The command built for parts of so many bytes, on notes that are longer."""
    fitting = [row for row in rows if size < len(row[1])]
    for arguments, notes, output in fitting[:count]:
        expect(f"{arguments} in parts of {size} on {notes[:60]}", run(["format", *arguments], notes, program), (0, output, ""))


def rust_answers():
    for arguments, notes, output in list(committed())[::20]:
        expect(f"{arguments} on {notes[:60]}", run(arguments, notes), (0, output, ""))


def in_parts(folder):
    for size in 12, 200:
        cut_to(size, committed(), link(folder, f"parts-{size}", f"-DMOST_PART={size}u", *SOURCES), 150)


ALL = [tables, rust_answers, in_parts]
