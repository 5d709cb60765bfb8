"""The wall panel: frames, pictures and pages against cells written down by hand, what stands below them, failures, files that are followed."""
import os
import pty
import re
import select
import shutil
import signal
import stat
import struct
import subprocess
import termios
import time
import xml.etree.ElementTree
from fcntl import ioctl
from resource import RLIMIT_FSIZE, setrlimit

from .calls import RUDIGNALS, expect, run
from .words import DAMAGED, LONG

RULE = "+" + "-" * 80 + "+\n"
AS_IT_IS = ["--keep", "-P", ""]  # every line has the empty prefix and is left as it is: the digest is the notes
NO_SUCH = "No such file or directory"
FULL = "No space left on device"
READING = "NOT READ: there may be notes, and none is shown"
REFUSING = "REFUSED: there may be notes, and none is shown"
WITH_NOTES = "REFUSED: not formatted; above is the end of the notes as they are"
ZONE = "XST-5:45"  # the panel's times are those of the place where it stands
DAY = time.struct_time((2026, 1, 2, 3, 4, 5, 0, 0, 0))
OF_DAY = "2026-01-02 03:04:05"
os.environ["TZ"] = ZONE
time.tzset()


def panel(arguments, notes=b"", **more):
    return run(["panel", *arguments], notes, RUDIGNALS, **more)


def moment(text):
    return time.mktime(time.strptime(text, "%Y-%m-%d %H:%M:%S"))


def without_time(text, began):
    """The time of drawing, which must be now (the clock of whole seconds may be some milliseconds behind), as NOW."""
    for found in set(re.findall(r"drawn (\d{4}-\d\d-\d\d \d\d:\d\d:\d\d)", text)):
        expect(f"drawn {found}: this is now", int(began) - 1 <= moment(found) <= time.time(), True)
        text = text.replace(f"drawn {found}", "drawn NOW")
    return text


def shown(arguments, notes=b"", **more):
    """Status, frame without its time, standard error."""
    began = time.time()
    status, output, errors = panel(arguments, notes, **more)
    return status, without_time(output.decode(), began), errors


def frame(rows, counted, dated="standard input", failure=()):
    """Rows are texts, those that go on with the line above have ON before them; those above are blank. A wide character takes two columns."""
    sides = [(">", row[1:]) if row.startswith(ON) else ("|", row) for row in [""] * (24 - len(rows) - len(failure)) + rows]
    wide = lambda row: sum(c in WIDE for c in row)
    body = "".join(f"{side}{row:{80 - wide(row)}}|\n" for side, row in sides) + "".join(f"!{line:80}!\n" for line in failure)
    dated = f"drawn NOW: {dated}" if ":" not in dated else f"drawn NOW, changed {dated}"
    return RULE + body + RULE + f" {counted}\n {dated}\n"


WIDE = "三号\U00020000"
ON = "\0"

# A line, the options, its row with --cut, how many lines are damaged and how many are cut; all by hand from RULES 15.
LINES = [
    ("plain", b"pump 2", [], "pump 2", 0, 0),
    ("a tab", b"a\tb", [], "a       b", 0, 0),
    ("two tabs", b"\t\tb", ["-T", "4"], "        b", 0, 0),
    ("tab width 0", b"a\tb", ["-T", "0"], "a b", 0, 0),
    ("a stop beyond", b"a\tb", ["-T", "100"], "a" + " " * 78 + "+", 0, 1),
    ("a tab alone never runs over", b"a\t", ["-T", "100"], "a", 0, 0),
    ("a tab behind a full row with a plus", b"x" * 79 + b"+\t", [], "x" * 79 + "+", 0, 0),
    ("Latin", "Müller".encode(), [], "Müller", 0, 0),
    ("wide", "a三号b".encode(), [], "a三号b", 0, 0),
    ("wide, the last two cells", b"x" * 78 + "三".encode(), [], "x" * 78 + "三", 0, 0),
    ("wide, one cell left", b"x" * 79 + "三".encode(), [], "x" * 79 + "+", 0, 1),
    ("wide, its filler gone", b"x" * 78 + "三y".encode(), [], "x" * 78 + " +", 0, 1),
    ("80 columns", b"x" * 80, [], "x" * 80, 0, 0),
    ("80 columns, a plus", b"x" * 79 + b"+", [], "x" * 79 + "+", 0, 0),
    ("81 columns", b"x" * 81, [], "x" * 79 + "+", 0, 1),
    ("a combining mark", "e\u0301x".encode(), [], "ex", 0, 0),
    ("81 characters, 80 columns", b"e" + "\u0301".encode() + b"x" * 79, [], "e" + "x" * 79, 0, 0),
    ("directions", "a\u202eb\u200fc\u2066d\u202c".encode(), [], "abcd", 0, 0),
    ("no joiner, no mark of byte order", "a\u200db\ufeffc".encode(), [], "abc", 0, 0),
    ("controls", b"a\x1b[31m\x07b\x7fc\x00d", [], "a [31m b c d", 0, 0),
    ("controls of two bytes", b"a\xc2\x9b31m\xc2\x85b", [], "a 31m b", 0, 0),
    ("damage, byte by byte", b"41\xb0C \xe2\x82 \xff", [], "41\ufffdC \ufffd\ufffd \ufffd", 1, 0),
    ("a surrogate", b"\xed\xa0\x80", [], "\ufffd" * 3, 1, 0),
    ("damage that is cut", b"x" * 90 + b"\xff", [], "x" * 79 + "+", 1, 1),
    ("the replacement character is none", "\ufffd".encode(), [], "\ufffd", 0, 0),
    ("separators", "a\u2028b\u2029c\u00a0d".encode(), [], "a b c\u00a0d", 0, 0),
    ("a soft hyphen", "a\u00adb".encode(), [], "a-b", 0, 0),
    ("no characters", "\uffff\ufffe".encode(), [], "\ufffd\ufffd", 0, 0),
    ("beyond the first plane", "𠀀 𝄞".encode(), [], "𠀀 𝄞", 0, 0),
    ("a carriage return", b"a\r", [], "a", 0, 0),
]

# The same with the rows that a line is folded into, by the rule of folding at 80 columns.
FOLDED = [
    ("80 columns", b"x" * 80, [], ["x" * 80], 0),
    ("81 columns", b"x" * 81, [], ["x" * 80, ON + "x"], 0),
    ("241 columns", b"x" * 241, [], ["x" * 80, ON + "x" * 80, ON + "x" * 80, ON + "x"], 0),
    ("a blank at the edge", b"x" * 80 + b" y", [], ["x" * 80, ON + " y"], 0),
    ("wide, one cell left", b"x" * 79 + "三号".encode(), [], ["x" * 79, ON + "三号"], 0),
    ("wide, all the way", "三".encode() * 41, [], ["三" * 40, ON + "三"], 0),
    ("a tab to the edge", b"x" * 75 + b"\tb", [], ["x" * 75, ON + "b"], 0),
    ("a tab over the edge begins a row", b"x" * 80 + b"\tb", [], ["x" * 80, ON + "        b"], 0),
    ("a stop beyond the edge", b"a\tb", ["-T", "100"], ["a", ON, ON + "b"], 0),
    ("a mark stays with its letter", b"x" * 80 + "\u0301y".encode(), [], ["x" * 80, ON + "y"], 0),
    ("a plus in the last column", b"x" * 79 + b"+y", [], ["x" * 79 + "+", ON + "y"], 0),
    ("damage", b"\xb0" * 79 + b"ab", [], ["\ufffd" * 79 + "a", ON + "b"], 1),
    ("what was cut off", b"pump \xb0 " + b"." * 100 + b" DO NOT CYCLE", [], ["pump \ufffd " + "." * 73, ON + "." * 27 + " DO NOT CYCLE"], 1),
    ("a > of the notes", b"> said", [], ["> said"], 0),
]


def some(number, what):
    return f"{number or 'none'} {what}"


def frames():
    for what, line, options, row, damaged, cut in LINES:
        counted = f"1 line, {some(damaged, 'damaged')}, {some(cut, 'cut')}; none above"
        expect(f"a panel, cut, {what}", shown([*AS_IT_IS, "--cut", *options], line + b"\n"), (0, frame([row], counted), ""))
        if cut == 0 and not line.endswith(b"\t"):
            counted = f"1 line, {some(damaged, 'damaged')}; none above"
            expect(f"a panel, {what}", shown([*AS_IT_IS, *options], line + b"\n"), (0, frame([row], counted), ""))
    for what, line, options, rows, damaged in FOLDED:
        wanted = frame(rows, f"1 line, {some(damaged, 'damaged')}; none above")
        expect(f"a panel, folded, {what}", shown([*AS_IT_IS, *options], line + b"\n"), (0, wanted, ""))
        expect(f"a panel, folded, {what}, not ended", shown([*AS_IT_IS, *options], line), (0, wanted, ""))
    expect("no notes", shown([]), (0, frame([], "no notes: the file is empty"), ""))


def counted(notes, options=()):
    """The rows that are not blank, from the first on, and what is counted."""
    status, output, errors = shown([*AS_IT_IS, *options], notes)
    lines = output.split("\n")
    rows = [(line[0] + line[1:-1].rstrip()).removeprefix("|") for line in lines[1:25]]
    while rows and rows[0] == "":
        rows.pop(0)
    return (status, errors), rows, lines[26][1:]


def counts():
    """What is above is told, and blank lines at the end scroll nothing off."""
    well = (0, "")
    numbers = [str(i) for i in range(1, 31)]
    lines = lambda first, last: "".join(f"{i}\n" for i in range(first, last + 1)).encode()
    expect("24 lines", counted(lines(1, 24)), (well, numbers[:24], "24 lines, none damaged; none above"))
    expect("25 lines", counted(lines(1, 25)), (well, numbers[1:25], "25 lines, none damaged; above: 1 line, none damaged"))
    expect("30 lines", counted(lines(1, 30)), (well, numbers[6:30], "30 lines, none damaged; above: 6 lines, none damaged"))
    expect("not ended", counted(lines(1, 30)[:-1]), (well, numbers[6:30], "30 lines, none damaged; above: 6 lines, none damaged"))
    expect("a damaged line above", counted(b"\xb0\n" + lines(1, 24)), (well, numbers[:24], "25 lines, 1 damaged; above: 1 line, 1 damaged"))
    both = b"\xb0\nx\n\xff\xff\n" + lines(2, 24) + b"\xb0\n"
    expect("damaged lines above and below", counted(both), (well, numbers[1:24] + ["\ufffd"], "27 lines, 3 damaged; above: 3 lines, 2 damaged"))
    for what, blank, count in [("empty", b"\n" * 24, 24), ("blanks", b" \t\n\r\n \x0b\x0c\n", 3), ("wide blanks", "\u3000\u00a0\n".encode(), 1), ("marks", "\u0301\n".encode(), 1),
                               ("controls, not ended", b"\x07\x1b", 1)]:
        expect(f"blank lines at the end, {what}", counted(b"text\n" + blank), (well, ["text"], f"{1 + count} lines, none damaged; none above; {count} blank below"))
    expect("blank lines within", counted(b"a\n\n\nb\n"), (well, ["a", "", "", "b"], "4 lines, none damaged; none above"))
    expect("blank and over the edge is not blank", counted(b" " * 100 + b"x\n"), (well, [">" + " " * 20 + "x"], "1 line, none damaged; none above"))
    expect("blank notes", counted(b"\n\n"), (well, [], "no text: 2 blank lines"))
    expect("one blank line", counted(b" \n"), (well, [], "no text: 1 blank line"))
    expect("damaged alone", counted(b"\xb0\n\n"), (well, ["\ufffd"], "2 lines, 1 damaged; none above; 1 blank below"))
    long = b"y" * 81 + b"\n" + lines(1, 23)
    expect("a line that begins above", counted(long), (well, [">y"] + numbers[:23], "24 lines, none damaged; above: 1 line, none damaged"))
    torn = b"first\n\xb0" + b"y" * 160 + b"\n" + lines(1, 22)
    rows = [">" + "y" * 80, ">y"] + numbers[:22]
    expect("a damaged line that begins above", counted(torn), (well, rows, "24 lines, 1 damaged; above: 2 lines, 1 damaged"))
    torn_below = b"first\n" + b"y" * 160 + b"\xb0\n" + lines(1, 22)
    rows = [">" + "y" * 80, ">" + "\ufffd"] + numbers[:22]
    expect("a damaged line that begins above, damaged below", counted(torn_below), (well, rows, "24 lines, 1 damaged; above: 2 lines, 1 damaged"))
    torn_twice = torn_below.replace(b"\ny", b"\n\xb0", 1)
    expect("a damaged line, damaged above and below", counted(torn_twice), (well, rows, "24 lines, 1 damaged; above: 2 lines, 1 damaged"))
    rows = ["first", "\ufffd" + "y" * 78 + "+"] + numbers[:22]
    expect("the same, cut", counted(torn, ["--cut"]), (well, rows, "24 lines, 1 damaged, 1 cut; none above"))
    expect("cut above", counted(b"z" * 81 + b"\n" + lines(1, 24), ["--cut"]), (well, numbers[:24], "25 lines, none damaged, 1 cut; above: 1 line, none damaged"))
    filled = [">" + "z" * 80] * 24
    expect("a line longer than the panel", counted(b"z" * 80 * 26 + b"\n"), (well, filled, "1 line, none damaged; above: 1 line, none damaged"))
    last = b"x\n\n" * 35000 + b"\xe4\xb8\n" + b"x\n" * 24
    expect("many lines", counted(last), (well, ["x"] * 24, "70025 lines, 1 damaged; above: 70001 lines, 1 damaged"))
    whole = b"x" * 65535 + "三".encode() + b"\n"  # its bytes stand on both sides of what is asked about at once
    expect("a character over a limit is whole", counted(whole)[2], "1 line, none damaged; above: 1 line, none damaged")


def formatted(folder):
    """What is shown is what `format` writes, of files over 65,536 bytes too; the tab width is the options' own."""
    (folder / "night").write_bytes(b"aaaa bbbb cc\n")
    os.utime(folder / "night", (time.mktime(DAY),) * 2)
    wanted = frame(["aaaa", "bbbb cc"], "2 lines, none damaged; none above", f"{OF_DAY}: night")
    expect("a width", shown(["-8", "night"], cwd=folder), (0, wanted, ""))
    expect("options in any order", shown(["night", "--text", "--wid=8"], cwd=folder), (0, wanted, ""))
    long = b"filler words\nof a long night\n\n" * 5000 + b"the\nend\n"
    tail = ["filler words of a long night", ""] * 11 + ["the end"]
    wanted = frame([""] + tail, "10001 lines, none damaged; above: 9977 lines, none damaged")
    expect("a long file", shown([], long), (0, wanted, ""))


def dated(folder):
    """The file's name and the time of its last change: of today without the day."""
    file = folder / "dated"
    file.write_bytes(b"x\n")
    for seconds, day in (0, False), (3 * 86400, True):
        then = time.time() - seconds
        os.utime(file, (then, then))
        status, output, errors = panel(["dated"], cwd=folder)
        drawn, changed = re.search(r"drawn (\S+ \S+), changed (.*): dated\n", output.decode()).groups()
        wanted = time.strftime("%Y-%m-%d %H:%M:%S", time.localtime(then))
        expect(f"changed {seconds} seconds ago", changed, wanted if day or wanted[:10] != drawn[:10] else wanted[11:])
    names = "a" * 50, "三" * 20, "tab\tand\nfeed\x1b[31m"
    for name, told in zip(names, ("a" * 34 + "+", "三" * 17 + "+", "tab^Iand^Jfeed^[[31m")):
        (folder / name).write_bytes(b"x\n")
        wanted = f" drawn NOW, changed {time.strftime('%H:%M:%S')}"
        status, output, errors = shown([name], cwd=folder)
        last = re.sub(r"changed \d\d:\d\d:\d\d", "changed TODAY", output.split("\n")[-2])
        expect(f"a name {name!r}", last, f" drawn NOW, changed TODAY: {told}")


PARTED = ["a" * 10, "b" * 69 + ": No such", "file or directory", READING]  # together the first two words have 81 columns

# What is asked for, the notes, what is said, the lines on the panel (where they are not given, the same words in some lines), what is counted, how
# the file is called, the status.
FAILURES = [
    (["none"], b"", f"none: {NO_SUCH}", [f"none: {NO_SUCH}", READING], "not read", "none", 1),
    (["-w", "5"], b"a\n", "--width 5: must be 6 to 1000 without --goal", None, "refused", "standard input", 2),
    (["-T", "101"], b"a\n", "--tab-width 101: must be 0 to 100", ["--tab-width 101: must be 0 to 100", REFUSING], "refused", "standard input", 2),
    (["a\nb\x1b[31m"], b"", f"a^Jb^[[31m: {NO_SUCH}", [f"a^Jb^[[31m: {NO_SUCH}", READING], "not read", "a^Jb^[[31m", 1),
    (["a\u009b31m"], b"", f"a<U+009B>31m: {NO_SUCH}", [f"a<U+009B>31m: {NO_SUCH}", READING], "not read", "a<U+009B>31m", 1),
    (["n" * 90], b"", "n" * 90 + f": {NO_SUCH}", ["n" * 80, "n" * 10 + ":", NO_SUCH, READING], "not read", "n" * 52 + "+", 1),
    (["a" * 10 + " " + "b" * 69], b"", " ".join(PARTED[:-1]), PARTED, "not read", "a" * 10 + " " + "b" * 41 + "+", 1),
    (["三号.txt"], b"", f"三号.txt: {NO_SUCH}", None, "not read", "三号.txt", 1),
]


def bar_of(output):
    return [line[1:-1].rstrip() for line in output.split("\n") if line[:1] == line[-1:] == "!"]


def failures(folder):
    """Where there is no digest the words stand at the bottom, and nothing looks like a quiet night."""
    for arguments, notes, said, words, caption, name, wanted in FAILURES:
        status, output, errors = shown(arguments, notes, cwd=folder)
        bar, name = bar_of(output), f" drawn NOW: {name}"
        expect(f"a failure, {name}", (status, errors, output.split("\n")[-3:-1]), (wanted, f"rudignals: {said}\n", [" " + caption, name]))
        expect(f"its words, {name}", " ".join(bar[:-1]).replace(" ", ""), said.replace(" ", ""))
        expect(f"its bottom line, {name}", bar[-1:], [READING if caption[0] == "n" else REFUSING])
        if words is not None:
            expect(f"its rows, {name}", bar, words)
    status, output, errors = shown(["."], cwd=folder)
    expect("a folder", (status, bar_of(output), errors), (1, [".: Is a directory", READING], "rudignals: .: Is a directory\n"))
    feigned = panel([*AS_IT_IS, "--text"], (f"none: {NO_SUCH}\n" + READING + "\n").encode())[1]
    expect("notes that read like a failure", b"!" in feigned, False)


REASON = ["standard input: line 3, column 1: byte B0 begins no UTF-8 character; --keep", "leaves such a line as it is", WITH_NOTES]


def refused():
    """Above the red lines of a refused night stands the end of its notes as they are."""
    said = "rudignals: standard input: line 3, column 1: byte B0 " + DAMAGED
    wanted = frame(["ok  \tthen"[:4] + "    then", "", "\ufffd"], "refused: 3 lines, 1 damaged; none above", failure=REASON)
    expect("a refused night", shown([], b"ok  \tthen\n\n\xb0\n"), (1, wanted, said))
    notes = b"a\n\n\xb0\n" + b"".join(b"%d\n" % i for i in range(25)) + b"z" * 90 + b"\n\n\n"
    rows = [str(i) for i in range(6, 25)] + ["z" * 80, ON + "z" * 10]
    wanted = frame(rows, "refused: 31 lines, 1 damaged; above: 9 lines, 1 damaged; 2 blank below", failure=REASON)
    expect("a long refused night", shown([], notes), (1, wanted, said))
    rows = [str(i) for i in range(5, 25)] + ["z" * 79 + "+"]
    wanted = frame(rows, "refused: 31 lines, 1 damaged, 1 cut; above: 8 lines, 1 damaged; 2 blank below", failure=REASON)
    expect("the same, cut", shown(["--cut"], notes), (1, wanted, said))
    long = b"a" * 1048577 + b"\n" + b"\n".join(b"line %d" % i for i in range(40000))
    status, output, errors = shown([], long)
    lines = output.split("\n")
    expect("too long: to the end", (status, lines[21][1:12], bar_of(output)[-1]), (1, "line 39999 ", WITH_NOTES))
    expect("too long: counted", lines[26], " refused: 40001 lines, none damaged; above: 39980 lines, none damaged")
    expect("too long: said", errors, "rudignals: standard input: line 1, column 1: " + LONG)


def wrong_calls():
    hint = "Try 'rudignals panel --help'.\n"
    for arguments, words in [
        (["one", "two"], "the panel shows one file, and 2 are named"),
        (["--follow"], "--follow: a file must be named"),
        (["--follow", "-"], "--follow: a file must be named"),
        (["--follow", "--svg", "-", "one"], "--follow: the picture must go to a file"),
        (["--follow", "--html", "-", "one"], "--follow: the page must go to a file"),
        (["--text", "--svg", "-"], "--text and --svg - would both go to standard output"),
        (["--text", "--html", "-"], "--text and --html - would both go to standard output"),
        (["--svg", "-", "--html", "-"], "--svg - and --html - would both go to standard output"),
        (["--svg", "a", "--html", "a"], "--svg and --html name the same file"),
    ]:
        expect(f"a panel {arguments}", panel(arguments), (2, b"", f"rudignals: {words}\n" + hint))
    status, output, errors = panel(["--svg"])
    expect("a panel without a picture's name", (status, output), (2, b""))
    expect("format has no --svg", run(["format", "--svg", "x"], b"", RUDIGNALS)[0], 2)
    status, output, errors = panel(["--help"])
    text = output.decode()
    expect("a panel's help", (status, errors, max(map(len, text.split("\n"))) <= 79), (0, "", True))
    for option in "--text", "--svg PICTURE", "--html PAGE", "--follow", "--cut", "--tab-width TAB", "--keep", "Exit status: 0":
        expect(f"a panel's help tells of {option}", option in text, True)


SVG = "{http://www.w3.org/2000/svg}"


class Picture:
    """What a picture has, by places: letters, coloured grounds, arrows; the names in it; its title without the time."""

    def __init__(self, text, began=None):
        self.letters, self.runs, self.grounds, self.arrows, self.title = {}, {}, {}, [], None
        try:
            tree = xml.etree.ElementTree.fromstring(text)
        except xml.etree.ElementTree.ParseError as fault:
            self.title = f"no XML: {fault}"
            return
        for item in tree.iter(SVG + "text"):
            if item.get("textLength"):
                self.runs[item.get("x"), item.get("y"), item.get("textLength")] = (item.text, item.get("class"))
            else:
                self.letters[item.get("x"), item.get("y")] = (item.text, item.get("class"))
        self.grounds = {(item.get("x"), item.get("y"), item.get("width")): item.get("class") for item in tree.iter(SVG + "rect")}
        self.arrows = [item.get("d").split("v")[0] for item in tree.iter(SVG + "path")]
        self.names = {item.tag.replace(SVG, "") for item in tree.iter()}
        self.known = {name for item in tree.iter() for name in item.attrib}
        self.title = tree.find(SVG + "title").text
        if began is not None:
            self.title = without_time(self.title, began)

    def row(self, height):
        return {place: letter for place, letter in self.letters.items() if place[1] == height}

    def words(self, height):
        return "".join(letter for letter, _ in self.row(height).values())


def picture(arguments, notes=b"", **more):
    began = time.time()
    status, output, errors = panel([*arguments, "--svg", "-"], notes, **more)
    return (status, errors), Picture(output, began)


ELEMENTS = {"svg", "title", "style", "rect", "text", "path"}
ATTRIBUTES = {"x", "y", "width", "height", "d", "class", "viewBox", "textLength", "lengthAdjust"}


# A cell is 23 x 40; the bottom row begins at 44, 932, its letters stand at 963 and the middle of the first is 55.5.
def pictures():
    notes = "a三<+\n".encode() + b"x" * 80 + b"y\n\xb0&\"'>\xef\xbf\xbf\n"
    told, drawn = picture([*AS_IT_IS, "--cut"], notes)
    expect("a picture", (told, drawn.title), ((0, ""), "3 lines, 1 damaged, 1 cut; none above; drawn NOW: standard input"))
    expect("nothing but shapes", (drawn.names, drawn.known), (ELEMENTS - {"path"}, ATTRIBUTES - {"d", "textLength", "lengthAdjust"}))
    expect("its first row", drawn.row("883"), {(x, "883"): (c, None) for x, c in zip(("55.5", "90", "124.5", "147.5"), "a三<+")})
    second = {(f"{55.5 + 23 * i:.1f}", "923"): ("x", None) for i in range(79)}
    second[("1872.5", "923")] = ("+", "over")
    expect("its second row", drawn.row("923"), second)
    third = zip(("55.5", "78.5", "101.5", "124.5", "147.5", "170.5"), "\ufffd&\"'>\ufffd")
    expect("its third row", drawn.row("963"), {(x, "963"): (c, "damaged" if c == "\ufffd" else None) for x, c in third})
    marked = {("1861", "892", "23"): "over", ("44", "932", "23"): "damaged", ("159", "932", "23"): "damaged"}
    expect("its colours", {k: v for k, v in drawn.grounds.items() if k[2] == "23"}, marked)
    expect("below it", (drawn.words("1010"), drawn.words("1043")[:8]), ("3lines,1damaged,1cut;noneabove", "drawn202"))
    told, drawn = picture(AS_IT_IS, notes)
    expect("a folded picture", (drawn.words("883"), drawn.words("923"), drawn.arrows), ("x" * 80, "y", ["M10 898"]))
    expect("nothing is cut there", {kind for _, kind in drawn.letters.values()} & {"over"}, set())
    told, drawn = picture(AS_IT_IS, b"x" * 79 + b"+y\n")
    expect("a plus of the notes", drawn.row("923")["1872.5", "923"], ("+", None))
    told, drawn = picture([])
    expect("a picture of no notes", (drawn.words("963"), len(drawn.grounds), drawn.title), ("", 2, "no notes: the file is empty; drawn NOW: standard input"))
    told, drawn = picture(["<none>"])
    expect("a picture of a failure", (drawn.words("963"), drawn.title), (READING.replace(" ", ""), "not read; drawn NOW: <none>"))
    expect("its bar, of two rows", (drawn.grounds.get(("36", "892", "1856")), drawn.row("963")["55.5", "963"][1]), ("bar", "bar"))
    expect("below it, in red", {kind for (_, y), (_, kind) in drawn.letters.items() if y == "1010"}, {"failed"})
    told, drawn = picture(AS_IT_IS, b"\xb0\n" + b"x\n" * 24)
    expect("damage above, in amber", {kind for (_, y), (_, kind) in drawn.letters.items() if y == "1010"}, {"warned"})


def scripts():
    """Words that are written from the right are one text in the box of their cells, and so are letters that join; the cells stay."""
    # what is written; the runs: the first column, how many, the text and how; the letters that stand by themselves
    for what, line, runs, rest in [
        ("Hebrew", "ab אבג cd", [(3, 3, "אבג", "rtl")], "abcd"),
        ("a sentence", "אב גד, 12 הו.", [(0, 13, "אב גד, 12 הו.", "rtl")], ""),
        ("a number behind", "7 אבג 03:10", [(2, 9, "אבג 03:10", "rtl")], "7"),
        ("a number with letters", "אבג 41C", [(0, 3, "אבג", "rtl")], "41C"),
        ("brackets", "(אב) x", [(0, 4, "(אב)", "rtl")], "x"),
        ("a bracket that was opened before", "(see אב 4).", [(5, 4, "אב 4", "rtl")], "(see)."),
        ("one within", "(see אב (4)) [x]", [(5, 6, "אב (4)", "rtl")], "(see)[x]"),
        ("one that was closed before", "(see) אב 4).", [(6, 6, "אב 4).", "rtl")], "(see)"),
        ("two blanks part", "אב  גד", [(0, 2, "אב", "rtl"), (4, 2, "גד", "rtl")], ""),
        ("within a word", "x=אב and", [(2, 2, "אב", "rtl")], "x=and"),
        ("other letters behind", "אבx גד", [(0, 2, "אב", "rtl"), (4, 2, "גד", "rtl")], "x"),
        ("a letter alone", "a א b", [], "aאb"),
        ("Arabic without its marks", "سَلام", [(0, 4, "سلام", "rtl")], ""),
        ("Hindi", "की गया", [(0, 2, "की", "run"), (3, 3, "गया", "run")], ""),
        ("Chinese", "三号", [], "三号"),
    ]:
        told, drawn = picture(AS_IT_IS, line.encode() + b"\n")
        middle = lambda first, many: f"{44 + first * 23 + many * 11.5:g}"
        wanted = {(middle(first, many), "963", str(23 * many)): (text, how) for first, many, text, how in runs}
        expect(f"a script, {what}", (drawn.runs, drawn.words("963")), (wanted, rest))
    told, drawn = picture(["אבג"])
    expect("on the bar", [kind for (_, y, _), (_, kind) in drawn.runs.items() if y == "923"], ["rtl bar"])
    row = shown(AS_IT_IS, "אבג cd\n".encode())[1].split("\n")[24]
    expect("in a frame the cells stay", row, f"|{'אבג cd':80}|")


def picture_files(folder):
    """What an operator wrote is not written over; a picture is, and never seen half."""
    night, began = folder / "night", time.time()
    night.write_bytes(b"calm\n")
    (folder / "empty.svg").write_bytes(b"")
    title = lambda name: re.sub(r"changed [^:]*:\d\d:\d\d", "changed THEN", Picture((folder / name).read_bytes(), began).title)
    calm = "1 line, none damaged; none above; drawn NOW, changed THEN: night"
    for name in "wall.svg", "wall.svg", "empty.svg", "linked.svg":
        (folder / "linked.svg").unlink(missing_ok=True)
        (folder / "linked.svg").symlink_to("wall.svg")
        expect(f"a picture in {name}", panel(["--svg", name, "night"], cwd=folder), (0, b"", ""))
        expect(f"what is in {name}", title(name), calm)
    expect("a link stays one", (folder / "linked.svg").is_symlink(), True)
    (folder / "wall.svg").chmod(0o640)
    panel(["--svg", "wall.svg", "night"], cwd=folder)
    expect("its mode stays", stat.S_IMODE((folder / "wall.svg").stat().st_mode), 0o640)
    odd = folder / "tab\tand\x1b[31m"
    odd.mkdir()
    expect("a folder of any name", panel(["--svg", f"{odd.name}/wall.svg", "night"], cwd=folder), (0, b"", ""))
    expect("its picture", (os.listdir(odd), title(f"{odd.name}/wall.svg")), (["wall.svg"], calm))
    status, output, errors = shown(["--text", "--svg", "wall.svg", "none"], cwd=folder)
    expect("both", (status, bar_of(output), errors), (1, [f"none: {NO_SUCH}", READING], f"rudignals: none: {NO_SUCH}\n"))
    expect("no old picture stays behind a failure", title("wall.svg"), "not read; drawn NOW: none")
    panel(["--svg", "wall.svg", "night"], cwd=folder)
    panel(["-w5", "--svg", "wall.svg", "night"], cwd=folder)
    expect("nor behind refused options", title("wall.svg"), "refused; drawn NOW, changed THEN: night")
    for option, kind in ("--svg", "picture of a panel"), ("--html", "page of a wall"):
        told = f"rudignals: night: is there and is no {kind}; it is not written over\n"
        expect(f"notes in the place of {option}", panel([option, "night"], b"x\n", cwd=folder), (1, b"", told))
        expect("they are as they were", night.read_bytes(), b"calm\n")
        told = f"rudignals: no/wall: {NO_SUCH}\n"
        expect(f"no such folder, {option}", panel([option, "no/wall", "night"], cwd=folder), (1, b"", told))
        expect(f"a full device, {option}", panel([option, "/dev/full", "night"], cwd=folder), (1, b"", f"rudignals: /dev/full: {FULL}\n"))
    short = panel(["--svg", "wall.svg", "night"], cwd=folder, restore_signals=False, preexec_fn=lambda: setrlimit(RLIMIT_FSIZE, (1000, 1000)))
    expect("a picture that does not fit", short, (1, b"", "rudignals: wall.svg: File too large\n"))
    both = shown(["--text", "--svg", "no/wall.svg", "night"], cwd=folder)[1].split("\n")
    expect("the text tells of it", re.sub(r"\d\d:\d\d:\d\d", "TIME", both[26]), f" not written from TIME to TIME: no/wall.svg: {NO_SUCH}")
    before = set(os.listdir(folder))
    panel(["--svg", "no/wall.svg", "night"], cwd=folder)
    expect("nothing is left beside", ([name for name in before if "rudignals-" in name], set(os.listdir(folder))), ([], before))


def pages(folder):
    """The page is the picture's shapes and its own style and script; tests/panel looks at it in a browser."""
    (folder / "night").write_bytes("a <b> & 三\n".encode())
    began = time.time()
    for name in "wall.html", "wall.html":
        expect(f"a page in {name}", panel(["--html", name, "--svg", "same.svg", "night"], cwd=folder), (0, b"", ""))
    text = (folder / "wall.html").read_text(encoding="utf-8")
    drawn = int(re.search(r"<body data-drawn=(\d+) data-every=3 data-old=120>\n", text)[1])
    expect("a page's time", int(began) - 1 <= drawn <= time.time(), True)
    shapes = re.search("<svg.*</svg>", text, re.S)[0]
    same = re.sub("<style>.*</style>\n", "", (folder / "same.svg").read_text(encoding="utf-8"), flags=re.S)
    expect("a page's shapes", shapes, re.search("<svg.*</svg>", same, re.S)[0])
    expect("a page's policy", re.search("content=\"(default-src 'none'; )", text) is not None and "unsafe" not in text, True)
    status, output, errors = panel(["--html", "-", "none"], cwd=folder)
    expect("a page of a failure", (status, b"<title>not read</title>" in output, errors), (1, True, f"rudignals: none: {NO_SUCH}\n"))


class Terminal:
    """A terminal of our own with the command on it."""

    def __init__(self, arguments, columns, rows, folder, kind="xterm"):
        self.ours, theirs = pty.openpty()
        self.resize(columns, rows)
        self.before = termios.tcgetattr(theirs)
        self.theirs = theirs
        self.child = subprocess.Popen(
            [RUDIGNALS, "panel", *arguments],
            stdin=theirs,
            stdout=theirs,
            stderr=theirs,
            cwd=folder,
            env={**os.environ, "TERM": kind},
            start_new_session=True,
            preexec_fn=lambda: ioctl(0, termios.TIOCSCTTY, 0),
        )
        self.seen = b""

    def resize(self, columns, rows):
        ioctl(self.ours, termios.TIOCSWINSZ, struct.pack("HHHH", rows, columns, 0, 0))

    def read(self, seconds):
        ready = select.select([self.ours], [], [], seconds)[0]
        if ready:
            self.seen += os.read(self.ours, 65536)
        return bool(ready)

    def wait_for(self, text):
        """What comes up to the text and behind it, until it is quiet; what came before is forgotten."""
        self.seen = b""
        end = time.monotonic() + 10
        while text not in self.seen and time.monotonic() < end:
            self.read(0.2)
        while self.read(0.1):
            pass
        return self.seen

    def ends(self, number):
        self.child.send_signal(number)
        self.seen = b""
        try:
            status = self.child.wait(10)
        except subprocess.TimeoutExpired:
            self.child.kill()
            status = "it did not end"
        while self.read(0.1):
            pass
        same = termios.tcgetattr(self.theirs) == self.before
        os.close(self.ours)
        os.close(self.theirs)
        return status, same, self.seen


ENTER = b"\x1b[?1049h\x1b[?25l\x1b[?7l"
LEAVE = b"\x1b[0m\x1b[?7h\x1b[?25h\x1b[?1049l"
RED, PLAIN, AMBER, CYAN = "\x1b[0;1;37;41m", "\x1b[0m", "\x1b[0;1;33m", "\x1b[0;36m"


def on_a_terminal(folder):
    (folder / "odd").write_bytes(b"x" * 81 + b"\n41\xb0C\n\x1b]0;title\x07\n" + "三a\n".encode())
    for columns, left, right in (82, "|", "|"), (81, " ", ""), (80, "", ""):
        terminal = Terminal([*AS_IT_IS, "--cut", "odd"], columns, 40, folder)
        drawn = terminal.wait_for(b": odd").decode().replace("\r", "")
        expect(f"colours at {columns} columns", f"\n{left}{'x' * 79}\x1b[0;30;43m+{PLAIN}{right}\n" in drawn, True)
        expect(f"damage at {columns} columns", f"\n{left}41{RED}\ufffd\x1b[{4 + len(left)}G{PLAIN}C" in drawn, True)
        expect(f"no title is set at {columns} columns", f"\n{left} ]0;title " in drawn, True)
        expect(f"wide at {columns} columns", f"\n{left}三\x1b[{3 + len(left)}Ga " in drawn, True)
        expect(f"the terminal at {columns} columns", terminal.ends(signal.SIGTERM)[1], True)
    for columns, wanted in (82, f">{'x':80}|\n"), (81, f">{'x':80}\n"), (80, f"\n{CYAN}{'x':80}{PLAIN}\n"):
        terminal = Terminal([*AS_IT_IS, "odd"], columns, 40, folder)
        drawn = terminal.wait_for(b": odd").decode().replace("\r", "")
        expect(f"a row that goes on, at {columns} columns", (wanted in drawn, "\x1b[0;30;43m" in drawn), (True, False))
        terminal.ends(signal.SIGTERM)


def needed(columns, rows):
    return f"The panel needs 80 columns and 25 rows, and this window has {columns} and {rows}."


def sizes(folder):
    """A window that is too small shows that it is, and nothing else; any other shows each cell at its place."""
    file = folder / "sized"
    file.write_bytes(b"\xb0\n" + b"".join(b"%02d " % i + b"%079d\n" % 1500 for i in range(30)))
    options = [*AS_IT_IS, "--cut", "sized"]
    for columns, rows in (60, 20), (79, 30), (200, 24), (80, 24), (7, 3):
        terminal = Terminal(options, columns, rows, folder)
        drawn = terminal.wait_for(b"\n").decode().replace("\r", "")
        words = drawn.removeprefix(RED).removesuffix("\n").removesuffix(PLAIN)
        expect(f"too small at {columns} x {rows}", (words.replace("\n", "").replace(" ", ""), max(map(len, words.split("\n"))) <= columns), (needed(columns, rows).replace(" ", ""), True))
        expect(f"in red at {columns} x {rows}", (drawn.startswith(RED), terminal.child.wait(10)), (True, 1))
        terminal.ends(signal.SIGTERM)
    terminal = Terminal(options, 60, 20, folder, "dumb")
    expect("without colours", terminal.wait_for(b"\n").decode().replace("\r\n", " "), needed(60, 20) + " ")
    terminal.ends(signal.SIGTERM)
    brief = re.compile(r"^\d\d:\d\d:\d\d 31 lines, 1 damaged, 30 cut; above 7, 1 damaged; changed \d\d:\d\d sized$")
    terminal = Terminal(["--follow", *options], 60, 20, folder)
    drawn = terminal.wait_for(b"60 and")
    expect("too small, followed", drawn.decode().replace("\r", ""), ENTER.decode() + "\x1b[H\x1b[2J" + RED + needed(60, 20).replace("has ", "has\n") + PLAIN)
    for columns, rows, framed, left in (80, 25, False, ""), (200, 60, True, "|"), (82, 28, True, "|"), (82, 27, False, " "), (81, 26, False, " "):
        terminal.resize(columns, rows)
        lines = terminal.wait_for(b"sized").decode().replace("\r", "").removeprefix("\x1b[H\x1b[2J").split("\n")
        cells = lines[1:25] if framed else lines[:24]
        wanted = [f"{left}{i:02} {'0' * 75}1\x1b[0;30;43m+{PLAIN}{'|' if framed else ''}" for i in range(6, 30)]
        expect(f"cells at {columns} x {rows}", cells, wanted)
        below = [re.sub(r"\x1b\[[0-9;]*m", "", line) for line in lines[24 + 2 * framed :]]
        if rows == 25:
            expect("below them in one line", (len(below), brief.match(below[0]) is not None, lines[24].startswith(AMBER)), (1, True, True))
        else:
            expect(f"below them at {columns} x {rows}", below[0].strip(), "31 lines, 1 damaged, 30 cut; above: 7 lines, 1 damaged")
            expect(f"and the time at {columns} x {rows}", (len(below), below[1].strip()[:6]), (2, "drawn "))
        expect(f"all of it fits {columns} x {rows}", len(lines) <= rows, True)
    terminal.resize(79, 60)
    drawn = terminal.wait_for(b"79 and 60").decode().replace("\r\n", " ")
    expect("too small again", drawn, "\x1b[H\x1b[2J" + RED + needed(79, 60) + PLAIN)
    expect("ended too small", terminal.ends(signal.SIGTERM)[0], 1)


def followed(folder):
    """A file that comes, grows, is refused, goes; on a terminal."""
    file = folder / "live"
    terminal = Terminal(["--follow", "live"], 100, 30, folder)
    drawn = terminal.wait_for(b": live")
    expect("a screen of its own", (drawn.startswith(ENTER), READING.encode() in drawn), (True, True))
    file.write_bytes(b"")
    expect("an empty file", b"no notes: the file is empty" in terminal.wait_for(b": live"), True)
    file.write_bytes(b"first\n")
    drawn = terminal.wait_for(b": live")
    expect("a line", (b"|first " in drawn, b" 1 line, none" in drawn), (True, True))
    with file.open("ab") as more:
        more.write(b"\nsecond\n")
    drawn = terminal.wait_for(b": live")
    expect("it grows", (b"|second " in drawn, b" 3 lines, none" in drawn), (True, True))
    with file.open("ab") as more:
        more.write(b"\xb0\n")
    drawn = terminal.wait_for(b": live")
    expect("it is refused", (WITH_NOTES.encode() in drawn, b"|second" in drawn, b"refused: 4 lines, 1 damaged" in drawn), (True, True, True))
    file.unlink()
    drawn = terminal.wait_for(b": live")
    expect("it goes", (READING.encode() in drawn, b"second" in drawn, b"rudignals: " in drawn), (True, False, False))
    file.write_bytes(b"back\n")
    expect("it comes back", b"|back " in terminal.wait_for(b": live"), True)
    before = file.stat().st_mtime_ns
    file.write_bytes(b"sack\n")
    os.utime(file, ns=(before, before))
    expect("the same length and time", b"|sack " in terminal.wait_for(b": live"), True)
    os.kill(terminal.child.pid, signal.SIGTSTP)
    stopped = os.WIFSTOPPED(os.waitpid(terminal.child.pid, os.WUNTRACED)[1])
    terminal.seen = b""
    terminal.read(0.5)
    expect("stopped", (stopped, terminal.seen), (True, LEAVE))
    os.kill(terminal.child.pid, signal.SIGCONT)
    expect("continued", terminal.wait_for(b": live").startswith(ENTER), True)
    expect("ended", terminal.ends(signal.SIGINT), (0, True, LEAVE))
    file.unlink()
    terminal = Terminal(["--follow", "live"], 100, 30, folder)
    terminal.wait_for(b": live")
    expect("ended behind a failure", terminal.ends(signal.SIGHUP), (1, True, LEAVE + f"rudignals: live: {NO_SUCH}\r\n".encode()))


def wait_until(condition, seconds=10):
    end = time.monotonic() + seconds
    while not condition() and time.monotonic() < end:
        time.sleep(0.05)
    return condition()


def follower(arguments, folder, **more):
    return subprocess.Popen([RUDIGNALS, "panel", "--follow", *arguments], stderr=subprocess.PIPE, cwd=folder, **more)


def ended(child, number=signal.SIGTERM):
    """By a signal, or by itself: its status and what it said."""
    try:
        child.send_signal(number)
        errors = child.communicate(timeout=10)[1]
    except subprocess.TimeoutExpired:
        child.kill()
        return "it did not end", child.communicate()[1].decode()
    return child.returncode, errors.decode()


def title_of(wall):
    """What a picture counts, without the time; none if it is not there."""
    return Picture(wall.read_bytes()).title.split("; drawn")[0] if wall.exists() else None


def followed_elsewhere(folder):
    """In a picture, and in a file of frames."""
    file, wall, log = folder / "live", folder / "live.svg", folder / "frames"
    file.write_bytes(b"first\n")
    with log.open("wb") as out:
        child = follower(["--text", "--svg", "live.svg", "--html", "live.html", "live"], folder, stdout=out)
        expect("a picture that follows", wait_until(lambda: title_of(wall) == "1 line, none damaged; none above"), True)
        file.write_bytes(b"first\n\nsecond\n")
        expect("it follows", wait_until(lambda: title_of(wall) == "3 lines, none damaged; none above"), True)
        file.unlink()
        expect("it tells", wait_until(lambda: title_of(wall) == "not read"), True)
        wait_until(lambda: b" not read\n" in log.read_bytes())
        told = ended(child)
    expect("its end is told", (title_of(wall), b"<title>no longer followed</title>" in (folder / "live.html").read_bytes()), ("no longer followed", True))
    expect("said once", told, (1, f"rudignals: live: {NO_SUCH}\n"))
    frames = log.read_text().split(RULE)[1::2]
    expect("frames one behind the other", [rows.split("\n")[-2].rstrip(" |!")[1:] for rows in frames], ["first", "second", READING])
    file.write_bytes(b"first\n")
    (folder / "notes.txt").write_bytes(b"precious\n")
    told = "rudignals: notes.txt: is there and is no picture of a panel; it is not written over\n"
    expect("a picture that never can be", ended(follower(["--svg", "notes.txt", "live"], folder), 0), (1, told))
    expect("a folder in its place", ended(follower(["--svg", ".", "live"], folder), 0), (1, "rudignals: .: Is a directory\n"))
    reading, writing = os.pipe()
    os.close(reading)
    expect("nobody reads", ended(follower(["live"], folder, stdout=writing), 0), (1, "rudignals: standard output: Broken pipe\n"))
    os.close(writing)
    os.mkfifo(folder / "pipe")
    terminal = Terminal(["--follow", "pipe"], 100, 30, folder)
    expect("a pipe", b"pipe: is no file that can be followed" in terminal.wait_for(b": pipe"), True)
    expect("a pipe, ended", terminal.ends(signal.SIGTERM)[0], 1)


class SmallDisk:
    """A file system of 1 MiB, where the system lets us have one."""

    def __init__(self, folder):
        self.folder = folder / "small"
        self.folder.mkdir(exist_ok=True)
        self.there = self.mount()

    def mount(self):
        tool = shutil.which("mount")
        return tool is not None and subprocess.run([tool, "-t", "tmpfs", "-o", "size=1m", "tmpfs", self.folder], capture_output=True).returncode == 0

    def fill(self):
        with open(self.folder / "filler", "wb", buffering=0) as out:
            try:
                while True:
                    out.write(bytes(4096))
            except OSError:
                pass

    def empty(self):
        (self.folder / "filler").unlink()

    def take_away(self):
        return subprocess.run(["umount", "-l", self.folder], capture_output=True).returncode == 0


TROUBLE = re.compile(r"not written from (\d\d:\d\d:\d\d) to (\d\d:\d\d:\d\d): (.*)")


def trouble_in(wall):
    """What the third line below a picture says."""
    if not wall.exists():
        return ""
    letters = [(float(x), letter) for (x, y), (letter, kind) in Picture(wall.read_bytes()).letters.items() if y == "1076"]
    columns = {round((x - 44 - 7.5) / 15): letter for x, letter in letters}
    return "".join(columns.get(column, " ") for column in range(max(columns, default=-1) + 1))


def failures_that_pass(folder):
    """A folder that is not there yet, a full disk, a file system that goes away: it is tried again, told, and drawn when it can be."""
    file, wall = folder / "live", folder / "later" / "wall.svg"
    file.write_bytes(b"first\n")
    child = follower(["--svg", "later/wall.svg", "live"], folder)
    time.sleep(1)
    expect("it goes on without a folder", child.poll(), None)
    wall.parent.mkdir()
    expect("drawn when there is one", wait_until(wall.exists), True)
    found = TROUBLE.fullmatch(trouble_in(wall))
    expect("what was wrong stands on the wall", found and found[3], f"later/wall.svg: {NO_SUCH}")
    expect("said once", ended(child), (0, f"rudignals: later/wall.svg: {NO_SUCH}\n"))
    disk = SmallDisk(folder)
    if not disk.there:
        print("command: the panel on a full disk is left out: no file system can be mounted here")
        return
    try:
        on_small_disk(folder, disk)
    finally:
        disk.take_away()


def told_in_one_line(folder):
    """Where there is one line below the cells, what is wrong stands behind time and counts, as long as it lasts."""
    (folder / "live").write_bytes(b"first\n")
    terminal = Terminal(["--follow", "--text", "--svg", "no/wall.svg", "live"], 80, 25, folder)
    last = terminal.wait_for(b"written").decode().replace("\r", "").split("\n")[-1]
    wanted = f"{RED}TIME 1 line, none damaged; none above; not written: no/wall.svg: No such fi+{PLAIN}"
    expect("in one line, as long as it lasts", re.sub(r"\d\d:\d\d:\d\d", "TIME", last), wanted)
    (folder / "no").mkdir()
    wait_until((folder / "no" / "wall.svg").exists)
    (folder / "live").write_bytes(b"first\n\nsecond\n")
    last = terminal.wait_for(b"3 lines").decode().replace("\r", "").split("\n")[-1]
    told = re.sub(r"\d\d:\d\d(:\d\d)?", "TIME", last)
    expect("and no longer", told, "TIME 3 lines, none damaged; none above; changed TIME live")
    expect("ended", terminal.ends(signal.SIGTERM)[0], 0)


def on_small_disk(folder, disk):
    file, wall, frames = folder / "live", disk.folder / "wall.svg", disk.folder / "frames"
    with frames.open("wb") as out:
        child = follower(["--text", "--svg", "small/wall.svg", "live"], folder, stdout=out)
        expect("on a small disk", wait_until(lambda: title_of(wall) == "1 line, none damaged; none above"), True)
        disk.fill()
        began = time.strftime("%H:%M:%S")
        file.write_bytes(b"first\n\nsecond\n")
        time.sleep(3)
        expect("a full disk does not end it", (child.poll(), title_of(wall)), (None, "1 line, none damaged; none above"))
        disk.empty()
        expect("an emptied one is drawn on", wait_until(lambda: title_of(wall) == "3 lines, none damaged; none above"), True)
        found = TROUBLE.fullmatch(trouble_in(wall))
        expect("and tells that it was full", found and (began <= found[1] < found[2] <= time.strftime("%H:%M:%S"), found[3]), (True, f"small/wall.svg: {FULL}"))
        text = lambda: frames.read_text()
        expect("frames go on too", wait_until(lambda: "|second" in text() and text().endswith(": live\n")), True)
        expect("each from a line's start", re.findall(r"[^\n]\+-{80}\+", text()), [])
        expect("said once, and not the end of it", ended(child), (0, f"rudignals: small/wall.svg: {FULL}\n"))
    expect("its end is told", title_of(wall), "no longer followed")
    shutil.copy(file, disk.folder / "notes")
    child = follower(["--svg", "away.svg", "small/notes"], folder)
    wall = folder / "away.svg"
    expect("notes on a small disk", wait_until(lambda: title_of(wall) == "3 lines, none damaged; none above"), True)
    expect("it is taken away", disk.take_away(), True)
    expect("that is on the wall", wait_until(lambda: title_of(wall) == "not read"), True)
    disk.mount()
    shutil.copy(file, disk.folder / "notes")
    expect("and that it is back", wait_until(lambda: title_of(wall) == "3 lines, none damaged; none above"), True)
    expect("a disk that went, said once", ended(child), (0, f"rudignals: small/notes: {NO_SUCH}\n"))


def drawn_every_minute(folder):
    """A wall whose notes do not change is drawn anew all the same."""
    wall = folder / "standing.svg"
    drawn = lambda: moment(re.search(r"drawn (\S+ \S+),", Picture(wall.read_bytes()).title)[1])
    (folder / "standing").write_bytes(b"quiet\n")
    child = follower(["--svg", "standing.svg", "standing"], folder)
    wait_until(wall.exists)
    first = drawn()
    expect("drawn anew within a minute", wait_until(lambda: drawn() > first, 60), True)
    expect("ended", ended(child), (0, ""))


ALL = [frames, counts, formatted, dated, failures, refused, wrong_calls, pictures, scripts, picture_files, pages, on_a_terminal, sizes, followed, followed_elsewhere,
       failures_that_pass, told_in_one_line, drawn_every_minute]
