"""What the command says: refusals, wrong calls, help."""
import re

from .calls import FMT, RUDIGNALS, expect, run

DAMAGED = "begins no UTF-8 character; --keep leaves such a line as it is\n"
LONG = "a paragraph or a line is too long: nothing in the 1048576 bytes from here on shows where one ends; part it by an empty line\n"
HINT = "Try 'fmt --help'.\n"

# options that are refused, and the words for it
REFUSED_OPTIONS = [
    (["-w", "0"], "--width 0: must be 1 to 1000\n"),
    (["-w", "1001"], "--width 1001: must be 1 to 1000\n"),
    (["-w", "2000"], "--width 2000: must be 1 to 1000\n"),
    (["-w", "65546"], "--width 65546: must be 1 to 1000\n"),
    (["-w", "18446744073709551626"], "--width 18446744073709551626: must be 1 to 1000\n"),
    (["-w", "1" * 70000], "--width " + "1" * 70000 + ": must be 1 to 1000\n"),
    (["-w", "ten"], "--width ten: must be 1 to 1000\n"),
    (["-w", "10x"], "--width 10x: must be 1 to 1000\n"),
    (["-60x"], "--width 60x: must be 1 to 1000\n"),
    (["-2000"], "--width 2000: must be 1 to 1000\n"),
    (["--width="], "--width '': must be 1 to 1000\n"),
    (["-g", "0"], "--goal 0: must be 1 to 1000\n"),
    (["-cw", "50", "-g", "1001"], "--goal 1001: must be 1 to 1000\n"),
    (["-g", "+"], "--goal +: must be 1 to 1000\n"),
    (["-T", "101"], "--tab-width 101: must be 0 to 100\n"),
    (["-T", "-1"], "--tab-width -1: must be 0 to 100\n"),
    (["-w", "5"], "--width 5: must be 6 to 1000 without --goal\n"),
    (["-5"], "--width 5: must be 6 to 1000 without --goal\n"),
    (["-g", "2"], "--goal 2: must be 3 to 940 without --width\n"),
    (["-g", "941"], "--goal 941: must be 3 to 940 without --width\n"),
    (["-w", "50", "-g", "51"], "--goal 51: must be 25 to 50 with --width 50\n"),
    (["-w", "51", "-g", "25"], "--goal 25: must be 26 to 51 with --width 51\n"),
    (["-p", "x" * 256], "--prefix: must have at most 255 bytes, and has 256\n"),
    (["-p", "x" * 70000], "--prefix: must have at most 255 bytes, and has 70000\n"),
    (["-P", b"\xe4\xb8"], "--skip-prefix: must be UTF-8\n"),
    (["-P", b"x" * 255 + b"\xb0"], "--skip-prefix: must have at most 255 bytes, and has 256\n"),
]

# notes that are refused, and the words for it
REFUSED_NOTES = [
    ([], b"\xb0", "line 1, column 1: byte B0 " + DAMAGED),
    ([], b"a\r\n\tb\xc3\xa9 \xb0x\n\xff", "line 2, column 5: byte B0 " + DAMAGED),
    ([], "a\n\n中e\u0301\U0001f600".encode() + b"\xed\xa0\x80\n", "line 3, column 5: byte ED " + DAMAGED),
    ([], b"a \xc3\n", "line 1, column 3: byte C3 " + DAMAGED),
    ([], b"a" * 1048577, "line 1, column 1: " + LONG),
    (["--keep"], b"\xb0" * 1100000, "line 1, column 1: " + LONG),
    ([], b"x\n\nb\n" + b"a " * 524288 + b"\n", "line 4, column 1: " + LONG),  # the line, not the paragraph that it is in
    (["--keep"], b"\xb0\n" + b"a\n" * 524289, "line 2, column 1: " + LONG),
    (["-s"], b"a\n" * 2000 + b"a " * 524289, "line 2001, column 1: " + LONG),  # where a paragraph ends is seen by the line after it, and that one is the long one
]

# calls that are wrong, and the words for it
WRONG_CALLS = [
    (["-z"], "fmt: invalid option -- 'z'\n"),
    (["--nope"], "fmt: unrecognized option '--nope'\n"),
    (["-w"], "fmt: option requires an argument -- 'w'\n"),
    (["--quick=1"], "fmt: option '--quick' doesn't allow an argument\n"),
    (["-s", "-60"], "fmt: -WIDTH must be the first argument; use -w WIDTH\n"),
    (["-s60"], "fmt: -WIDTH must be the first argument; use -w WIDTH\n"),
]


def refusals():
    for arguments, words in REFUSED_OPTIONS:
        expect(f"options {arguments}", run(arguments, b"a\n"), (2, b"", "fmt: " + words))
    for arguments, notes, words in REFUSED_NOTES:
        expect(f"{arguments} on {notes[:60]}", run(arguments, notes), (1, b"", "fmt: standard input: " + words))
    for arguments, words in WRONG_CALLS:
        expect(f"the call {arguments}", run(arguments), (2, b"", words + HINT))


def subcommands():
    """The command by its own name: what it says begins with it."""
    hint = "Try 'rudignals --help'.\n"
    expect("no subcommand", run([], b"", RUDIGNALS), (2, b"", "rudignals: a subcommand is missing\n" + hint))
    expect("another subcommand", run(["frmat"], b"", RUDIGNALS), (2, b"", "rudignals: frmat: no such subcommand; did you mean format?\n" + hint))
    expect("refused options", run(["format", "-w5"], b"", RUDIGNALS), (2, b"", "rudignals: --width 5: must be 6 to 1000 without --goal\n"))
    expect("a wrong call", run(["format", "-z"], b"", RUDIGNALS), (2, b"", "rudignals: invalid option -- 'z'\nTry 'rudignals format --help'.\n"))
    expect("refused notes", run(["format"], b"\xb0", RUDIGNALS), (1, b"", "rudignals: standard input: line 1, column 1: byte B0 " + DAMAGED))


def help_text(program, arguments, usage):
    status, output, errors = run([*arguments, "none"], b"", program)
    text = output.decode()
    expect(f"{arguments}", (status, text.split("\n")[0], errors), (0, usage, ""))
    expect(f"{arguments} fits a terminal", max(map(len, text.split("\n"))) <= 79, True)
    return text


def helps():
    usage = " [-WIDTH] [OPTION]... [FILE]..."
    for asked in "--help", "-h":
        help_text(RUDIGNALS, [asked], "Usage: rudignals SUBCOMMAND [OPTION]... [FILE]...")
        help_text(RUDIGNALS, ["format", asked], "Usage: rudignals format" + usage)
        text = help_text(FMT, [asked], "Usage: fmt" + usage)
    for letter in "ctmsupPxXwgqThV":
        expect(f"--help tells of -{letter}", f"\n  -{letter}, --" in text, True)
    for words in "--keep", "--glue", "--sentence-characters", "1048576 bytes", "6 to 1000", "3 to 940", "255 bytes", "last value", "Exit status: 0":
        expect(f"--help tells of {words}", words in text.replace("\n", " "), True)


def versions():
    for asked in "--version", "-V":
        for program, arguments in (RUDIGNALS, [asked]), (RUDIGNALS, ["format", asked]), (FMT, [asked]):
            status, output, errors = run(arguments, b"", program)
            expect(f"{arguments}", (status, bool(re.fullmatch(rb"rudignals \d+\.\d+\.\d+\n", output)), errors), (0, True, ""))


ALL = [refusals, subcommands, helps, versions]
