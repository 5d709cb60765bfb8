"""Pages without a browser: every byte of notes and digest stands in them, as the other subcommands and the library have them."""
import random
import re
import subprocess

from reader import Page

# What is typed, and the option block that it makes, by RULES 3.
OPTIONS = [
    ([], b""),
    (["-q"], b"\1\0\2\0\x20"),
    (["-w", "30"], b"\2\0\2\0\x1e"),
    (["-w", "12", "-g", "9", "-T", "3"], b"\2\0\2\0\x0c\3\0\2\0\x09\4\0\2\0\3"),
    (["-c", "-u", "-g", "20"], b"\1\0\2\0\x11\3\0\2\0\x14"),
    (["-m", "-w", "40"], b"\1\0\2\0\4\2\0\2\0\x28"),
    (["-s", "-q", "-w", "20"], b"\1\0\2\0\x28\2\0\2\0\x14"),
    (["-p", ">", "-w", "25"], b"\2\0\2\0\x19\5\0\1>"),
]
KEEP = 0x100
PIECES = ["a", "bc", "pump", "tripped.", "restarted", "a-very-long-word-that-fits-in-no-line", "\u4e09\u53f7", "e\u0301", "\u0928\u092e\u0938\u094d\u0924\u0947", "\U0001f527", "\u0416\u0443\u043a",
          "\u05d0\u05d1", "<b>", "&amp;", "'", '"', "</pre>", "\0", "\x1b[31m", "\x7f", "\u0085", "\u009b", "\u00ad", "\u00a0", "\u202e", "\u2066", "\u2028", "\u200b", "\ufeff", "\u200d", "\ufffd",
          "\ufffe", "\u0301", "\u3000", "To:", "From ", ">", "\u1160", "\U000e0041"]
DAMAGE = [b"\xb0", b"\xe2\x82", b"\xff\xfe", b"\xed\xa0\x80", b"\xc0\xaf", b"\xf0\x9f"]
BLANKS = [" "] * 8 + ["  ", "\t", "\n", "\n", "\n\n", "\n  ", "\r\n", "\n\n\n", " \n \n"]


def blocks(block):
    """With the flag keep."""
    if block[:1] == b"\1":
        flags = int.from_bytes(block[3:5], "big") | KEEP
        return block[:3] + flags.to_bytes(2, "big") + block[5:]
    return b"\1\0\2" + KEEP.to_bytes(2, "big") + block


def random_notes(chance):
    parts = []
    for _ in range(chance.randrange(1, 90)):
        word = chance.choice(PIECES).encode() if chance.random() < 0.95 else chance.choice(DAMAGE)
        parts += [word, chance.choice(BLANKS).encode()]
    return b"".join(parts)


# The columns of the words among PIECES, by hand: RULES 4.2 and 15. The others are blanks, which are no words.
WORDS = {"a": 1, "bc": 2, "pump": 4, "tripped.": 8, "restarted": 9, "a-very-long-word-that-fits-in-no-line": 37, "\u4e09\u53f7": 4, "e\u0301": 1, "\u0928\u092e\u0938\u094d\u0924\u0947": 4, "\U0001f527": 2,
         "\u0416\u0443\u043a": 3, "\u05d0\u05d1": 2, "<b>": 3, "&amp;": 5, "'": 1, '"': 1, "</pre>": 6, "\0": 1, "\x1b[31m": 5, "\x7f": 1, "\u009b": 1, "\u00ad": 1, "\u202e": 0, "\u2066": 0, "\u200b": 0, "\ufeff": 0,
         "\u200d": 0, "\ufffd": 1, "\ufffe": 1, "\u0301": 0, "To:": 3, "From": 4, ">": 1, "\u1160": 0, "\U000e0041": 0}
FORCED = "No line had room for {} word: the break is forced {} it."
PLAIN = ["Its paragraph ends here.", "A plain line: it ends as it does in the notes.", "A blank line of the notes.", "The next word did not fit.", "Ending here gives a better spread over the lines that follow.",
         FORCED.format("the next", "before"), FORCED.format("its last", "after")]
TOGETHER = 100  # so many blank lines of the same bytes are told together, at most


def first_word(line, prefix):
    """The columns of a line's first word, behind its indent and the prefix."""
    text = line.decode().lstrip()
    word = text.removeprefix(prefix).split()[0] if text.startswith(prefix) else ""
    return WORDS[word] if word in WORDS else len(word)


def words_for(numbers, goal, width, following, damaged=False):
    """A reason as the page has it: plainly, and its numbers. A chosen break before a word that could not have stood on the line is plainly that."""
    kind, a, b, c, d, e = numbers
    if kind == 3:
        return PLAIN[3], f"It takes {d} column{'' if d == 1 else 's'} and would reach column {a + b + c + d} of {width}."
    if kind == 4:
        return PLAIN[3 if a + 1 + following() > width else 4], f"Chosen: {a} of {goal} columns, cost {e:,} (line {b}, word {c}, change {d})."
    return "A damaged line, kept: it ends as it does in the notes." if kind == 1 and damaged else PLAIN[kind], ""


def together(index, notes, reasons):
    """The records, those of blank lines that are told together joined: place, bytes of one, how many, first line, lines."""
    joined = []
    for place, length, first, count in index:
        part, blank = notes[place : place + length], reasons[first][0] == 2
        if joined and blank and joined[-1][5] and joined[-1][1] == part and joined[-1][2] < TOGETHER:
            joined[-1][2] += 1
            joined[-1][4] += count
        else:
            joined.append([place, part, 1, first, count, blank])
    return joined


def margins(width, goal):
    """RULES 3.4, width and goal."""
    if width is None and goal is None:
        return 74, 79
    if goal is None:
        return min(width * 94 // 100, width - 3), width
    return goal, max(goal * 100 // 94, goal + 3) if width is None else width


def number_behind(arguments, option):
    return int(arguments[arguments.index(option) + 1]) if option in arguments else None


class Command:
    def __init__(self, program, reasons):
        self.program, self.reasons = str(program), str(reasons)

    def run(self, arguments, notes):
        return subprocess.run([self.program, *arguments], input=notes, capture_output=True)

    def page(self, arguments, notes):
        found = self.run(["page", *arguments], notes)
        return found.returncode, Page(found.stdout), found.stderr.decode()

    def reasons_of(self, block, notes):
        found = subprocess.run([self.reasons, block.hex()], input=notes, capture_output=True)
        return found.returncode, [tuple(map(int, row.split())) for row in found.stdout.decode().split("\n")[:-1]]


def judge(command, arguments, block, notes):
    """What is wrong with the page of these notes, if anything is."""
    status, page, said = command.page([*arguments, "--keep"], notes)
    if status:
        return [f"status {status}: {said}"]
    return page.faults or compare(command, page, arguments, blocks(block), notes)


def compare(command, page, arguments, block, notes):
    faults = []

    def same(what, found, wanted):
        if found != wanted:
            faults.append(f"{what}: found {found!r:.300}, wanted {wanted!r:.300}")

    digest = command.run(["format", *arguments, "--keep"], notes).stdout
    lines = digest.split(b"\n")[:-1]
    rows = [tuple(map(int, row.split())) for row in command.run(["index", *arguments, "--keep"], notes).stdout.decode().split("\n")[:-1]]
    index = [(place, length, first - 1, count) for place, length, first, count in rows]
    same("the digest", page.digest(), digest)
    same("the notes", page.all_notes(), notes)
    same("the lines", [line[0] for line in page.lines], list(range(1, len(lines) + 1)))
    goal, width = margins(number_behind(arguments, "-w"), number_behind(arguments, "-g"))
    same("the ruler", page.rulers[-2:], [f"goal {goal}, width {width}", "\n"])
    status, reasons = command.reasons_of(block, notes)
    same("the reasons' program", status, 0)
    same("the reasons", len(reasons), len(lines))
    if faults:
        return faults
    prefix = arguments[arguments.index("-p") + 1] if "-p" in arguments else ""
    pieces, expected = list(page.pieces.items()), together(index, notes, reasons)
    same("the count of pieces", len(pieces), len(expected))
    for (anchor, piece), (place, part, times, first, count, _) in zip(pieces, expected):
        start, length = notes[:place].count(b"\n") + 1, len(part) * times
        end = start + times - 1 + part.rstrip(b"\n").count(b"\n")
        bytes_at = f"{span('byte', place, place + length - 1)} of {len(notes):,}"
        same("a piece", (anchor, piece[0], piece[2].strip(), piece[3]), (f"n{start}", start, f"{span('Line', start, end)} of the notes {bytes_at}", part * times))
        told = [first] if times > 1 else range(first, first + count)
        same("its lines", sorted(piece[1]), [line + 1 for line in told])
        for line in range(first, first + count):
            same("where a line leads", page.lines[line][2], anchor)
        for line in told:
            following = lambda: first_word(lines[line + 1], prefix) if line + 1 < len(lines) else 0  # noqa: E731, B023
            wanted = words_for(reasons[line], goal, width, following, is_damaged(lines[line])) if times == 1 else ("Blank lines of the notes.", "")
            same(f"the reason of line {line + 1}", tuple(piece[1][line + 1][1:]), (*wanted, span("Line", line + 1, line + (count if times > 1 else 1))))
    damaged = [i + 1 for i, line in enumerate(lines) if is_damaged(line)]
    same("damaged lines", page.warned.get("d", ["", []])[1], damaged[:60])
    same("their marks", [line[0] for line in page.lines if line[1] == "d"], damaged)
    over = [i + 1 for i in range(len(lines)) if columns_said(pieces, i + 1) > width and i + 1 not in damaged]
    same("lines over the width", page.warned.get("o", ["", []])[1], over[:60])
    return faults


def span(what, first, last):
    return f"{what} {first:,}" if first == last else f"{what}s {first:,} to {last:,}"


def columns_said(pieces, line):
    for _, piece in pieces:
        if line in piece[1]:
            return int(piece[1][line][0].split()[0].replace(",", ""))
    return 0


def is_damaged(line):
    try:
        line.decode("utf-8")
    except UnicodeDecodeError:
        return True
    return False


# A line, and the columns that it takes, by hand: RULES 4.2 and 15. Tabs are at 8.
COLUMNS = [(b"pump 2", 6), ("a\u4e09\u53f7b".encode(), 6), ("e\u0301x".encode(), 2), (b"a\tb", 9), (b"a\t", 1), ("a\t\u0301".encode(), 1), (b"41\xb0C", 4), ("a\u202eb".encode(), 2), (b"\x1b[0m", 4), ("\u0928\u092e\u0938\u094d\u0924\u0947".encode(), 4),
           ("\U0001f469\u200d\U0001f527".encode(), 4), ("\u00ad".encode(), 1), ("\u1112\u119e\u11ab".encode(), 2), (b"x" * 80, 80), ("\u05d0\u05d1".encode(), 2)]


def columns(command, tell):
    for line, wanted in COLUMNS:
        page = command.page(["--keep", "-P", ""], line + b"\n")[1]
        found = columns_said(list(page.pieces.items()), 1)
        tell(f"the columns of {line!r}", found, wanted)


# What is asked for, the notes, the status, and what the page's heading, its words and its excerpt have to say.
FAILURES = [
    ([], b"ok\n\n41\xb0C\nend\n", 1, "REFUSED", "line 3, column 3: byte B0 begins no UTF-8 character", (b"ok\n\n41\xb0C\nend\n", b"\xb0")),
    ([], b"x\n" * 9 + b"\xff\xff\n" + b"y\n" * 9, 1, "REFUSED", "line 10, column 1", (b"x\n" * 3 + b"\xff\xff\n" + b"y\n" * 3, b"\xff")),
    ([], b"\n" + b"a " * 524289 + b"\n", 1, "REFUSED", "nothing in the 1048576 bytes from here on", None),
    (["-w", "5"], b"a\n", 2, "REFUSED: there may be notes", "--width 5: must be 6 to 1000 without --goal", None),
    (["none"], b"", 1, "NOT READ", "none: No such file or directory", None),
    (["a", "b"], b"", 2, "NOT READ", "the page shows one file, and 2 are named", None),
    (["--no-such"], b"", 2, "NOT READ", "said why on standard error", None),
]


def failures(command, tell):
    """Where there is no digest the page says so, and shows the notes and the place."""
    for arguments, notes, status, heading, words, excerpt in FAILURES:
        found, page, _ = command.page(arguments, notes)
        what = f"a failure, {words}"
        tell(what, (found, page.faults, page.lines), (status, [], []))
        tell(f"{what}: its heading", (heading in page.heading, heading in page.texts["title"] or heading[:7] in page.texts["title"], words in page.texts["top"]), (True, True, True))
        tell(f"{what}: the panel", (len(page.rows), heading.split(":")[0] in page.rows[-1]), (24, True))
        if excerpt:
            marked = excerpt[1]
            tell(f"{what}: its excerpt", (page.notes[0][1], page.notes[0][2] if marked else None), excerpt)
            tell(f"{what}: the notes", page.notes[-1][1], notes)


def edges(command, tell):
    status, page, _ = command.page([], b"")
    tell("no notes", (status, page.faults, page.lines, page.texts["calm"]), (0, [], [], "No notes: the file is empty."))
    for notes, count, said in ((b"\n\n", 2, "every"), (b"\n", 1, "only"), (b" \t", 1, "only"), (b"\r\n \xc2\xa0\n\xe3\x80\x80\n", 3, "every"), ("\u200b\n".encode(), 1, ""), (b"a\n\n", 2, "")):
        status, page, _ = command.page([], notes)
        words = {"every": "No text: every line of the notes is blank.", "only": "No text: the only line of the notes is blank.", "": "Nothing is damaged, and no line is over the width."}[said]
        tell(f"notes of {notes!r}", (status, len(page.lines), page.texts["calm"]), (0, count, words))
    page = command.page(["--keep"], b"\xb0" + b"x" * 90 + b"\n\n" + b"y" * 90 + b"\n")[1]
    tell("a damaged line is not told again as over the width", {kind: lines for kind, (_, lines) in page.warned.items()}, {"d": [1], "o": [3]})
    data = command.run(["page"], b"\n" * 65536).stdout
    page = Page(data)
    tell("65,536 empty lines, in under 3 MB", (page.faults, page.all_notes() == b"\n" * 65536, len(page.lines), len(page.pieces), len(data) < 3000000), ([], True, 65536, 656, True))
    crowd = b"".join(b" " * (i % 2) + b"a\n" for i in range(11000))
    status, page, _ = command.page([], crowd)
    tell("more lines than are asked about", (status, page.faults, len(page.warned["n"][1]), page.warned["n"][0].split(":")[0]), (0, [], 60, "11,000 lines whose ends were not asked about"))
    long = b"filler words\nof a long night\n\n" * 3000 + b"the\nend\n"
    page = command.page([], long)[1]
    tell("a file over 65,536 bytes", (page.faults, page.all_notes() == long, page.digest() == command.run(["format"], long).stdout), ([], True, True))


def above(command, tell):
    """Of a digest that no page has room for the last lines are shown, with their numbers, their notes and their reasons; the others are counted."""
    tail = b"a\nb\n\n" * 20000
    for arguments, notes, count in (["--keep"], b"41\xb0C\n\n" * 3 + b"c\n\n" * 20000 + tail, 80006), (["-m", "--keep"], b"41\xb0C\n\n" * 3 + b"c\n\n" * 20000 + tail, 80006):
        status, page, _ = command.page(arguments, notes)
        hidden = count - 65536
        tell("a long digest", (status, page.faults, len(page.lines), page.lines[0][0], page.lines[-1][0]), (0, [], 65536, hidden + 1, count))
        tell("a long digest: what is above", page.warned["a"][0].strip(), f"{hidden:,} lines above are not on this page, 3 of them damaged: it has room for the last of the digest. rudignals format writes all of it.")
        tell("a long digest: its end", page.digest(), command.run(["format", *arguments], notes).stdout.split(b"\n", hidden)[-1])
        tell("a long digest: its notes", notes.endswith(page.all_notes()) and len(page.all_notes()) > len(tail), True)
    # one paragraph, of which the last lines are shown
    wide = b" " * 60000 + b"a " * 1000
    status, page, _ = command.page([], wide)
    tell("a wide digest", (status, page.faults, len(page.lines), page.lines[-1][0], page.warned["a"][0].split(" lines")[0]), (0, [], 69, 1000, "931"))
    tell("a wide digest: why its lines end", [words for _, (_, reasons, _, _) in list(page.pieces.items()) for _, words, _, _ in list(reasons.values())[-1:]], ["Its paragraph ends here."])


# Of every kind that a wall folds: a damaged line, words without blanks, an address; more rows than there are; and a wall without a digest.
FOLDED = [
    (["--keep"], b"41\xb0C " + b"DO NOT CYCLE " * 16 + b"\n\nquiet\n"),
    ([], "\u4e09\u53f7".encode() * 100 + b"\nhttps://example.org/" + b"a" * 200 + b"\n"),
    ([], b"x" * 2500 + b"\n"),
    ([], b"x" * 90 + b"\n\n\xb0\n"),
]


def wall_view(command, tell):
    """The wall in the page is the wall: folded, each row at its place and marked where it goes on."""
    for arguments, notes in FOLDED:
        page = command.page(arguments, notes)[1]
        drawn = command.run(["panel", *arguments], notes).stdout.decode().split("\n")[1:25]
        if page.lines:
            tell(f"the wall of {notes[:20]!r}", (page.sides, page.rows), ([row[0] for row in drawn], [row[1:-1] + "\n" for row in drawn]))
            tell(f"rows of {notes[:20]!r} go on", ">" in page.sides, True)
        else:
            tell(f"the wall of {notes[:20]!r}", (page.sides[-1], page.rows[-1].split(":")[0]), ("!", "REFUSED"))


# A page of these notes, changed in one place: what, and the change.
SPOILED = b"22:40 Pump 2 <img> tripped on low pressure. Restarted by hand after the valve was\nbled\xe2\x80\xae.\n\n41\xb0C\n\n\n"
FAULTS = [
    ("a byte of the digest", rb"(<a id=1 [^>]*>22:4)0", rb"\g<1>1"),
    ("a byte of the notes", rb"(<li>22:4)0", rb"\g<1>1"),
    ("markup of the notes", rb"&lt;img&gt;", rb"<img>"),
    ("a line's piece", rb"(<a id=1 href=#n)1", rb"\g<1>4"),
    ("a number of a reason", rb"(Chosen: \d+ of )74", rb"\g<1>75"),
    ("another reason", rb"Its paragraph ends here", rb"The next word did not fit"),
    ("the wrong plain words for a chosen break", rb"(<em>)(The next word did not fit|Ending here gives[^.]*)", lambda found: found[1] + (b"The next word did not fit" if found[2][:1] == b"E" else b"Ending here gives a better spread over the lines that follow")),
    ("no numbers", rb" <small class=x>[^<]*</small>", rb""),
    ("another number of blank lines", rb"2 lines of these same bytes", rb"3 lines of these same bytes"),
    ("a damaged line told again", rb"(<li class=d>.*\n)", rb"\1<li class=o><strong>1 line over the width</strong>: line <a href=#4>4</a>\n"),
    ("the place in the notes", rb"bytes 0 to", rb"bytes 1 to"),
    ("no warning", rb"<li class=d>.*\n", rb""),
    ("no mark at the line", rb"(<a id=4) class=d", rb"\1"),
    ("another number shown", rb"data-x='B\n0'", rb"data-x='B\n1'"),
    ("a direction that acts", rb"<u class='z'[^>]*>\[202E\]</u>", b"\xe2\x80\xae"),
    ("another policy", rb"script-src 'sha256-.", rb"script-src 'sha256-A"),
    ("no policy", rb"<meta http-equiv[^>]*>", rb""),
    ("a page cut short", rb"<i id=end></i>", rb""),
    ("a second script", rb"<main>", rb"<main><script></script>"),
    ("an attribute that acts", rb"<main>", rb"<main onclick=x>"),
]


def faults(command, tell):
    data = command.run(["page", "--keep"], SPOILED).stdout
    seen = 0
    for what, old, new in [("nothing", b"", b"")] + FAULTS:
        changed = re.sub(old, new, data, count=1)
        page = Page(changed)
        found = page.faults or compare(command, page, [], blocks(b""), SPOILED)
        tell(f"a fault put in on purpose: {what}", (bool(found), changed != data), (what != "nothing",) * 2)
        seen += bool(found)
    print(f"page: faults put in on purpose: {seen} of {len(FAULTS)} seen", flush=True)


def run_all(command, tell, seed, count):
    chance = random.Random(seed)
    columns(command, tell)
    failures(command, tell)
    edges(command, tell)
    wall_view(command, tell)
    above(command, tell)
    faults(command, tell)
    for arguments, block in OPTIONS:
        for _ in range(count):
            notes = random_notes(chance)
            tell(f"{' '.join(arguments)} {notes!r}", judge(command, arguments, block, notes), [])
