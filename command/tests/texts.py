"""Long notes: generated, and real ones from this machine. In none is a paragraph too long, or a stretch without a blank line."""
import gzip
import pathlib
import random

SMALL = 4096
LETTERS = "abcdefghijklmnopqrstuvwxyz"
ODD = ["a.", "b?", "end!", "(see)", "x\u00e9y", "\u00a0", "\u0085", "q:", "From", "\u02ff", "e.g.", ">", "#", "--", "0", "\x07"]


def word():
    return random.choice(ODD) if random.random() < 0.15 else "".join(random.choices(LETTERS, k=random.randint(1, 12)))


def line(indent=""):
    gaps = [random.choice([" ", " ", " ", "  ", "\t", " \t "]) for _ in range(random.randint(1, 14))]
    return indent + "".join(word() + gap for gap in gaps) + word() + random.choice(["", "", "", " ", "\r"]) + "\n"


def blank():
    return random.choice(["\n", "\n", "\n", "\r\n", "  \n", "\t\r\n", "\n\n\n", "\v\f\n"])


# indents of a paragraph's first line and of the others: flush, indented, hanging, quoted, commented, and what looks like mail
INDENTS = [("", ""), ("  ", "  "), ("    ", "  "), ("", "\t"), ("> ", "> "), ("  > ", "  > "), ("# ", "# "), ("From ", ""), ("To: ", " ")]


def paragraph():
    first, later = random.choice(INDENTS)
    return line(first) + "".join(line(later) for _ in range(random.randint(0, 9)))


def header():
    return random.choice(["To: ", "Subject: ", "Received: "]) + line() + line("  ") * random.randint(0, 2)


def message():
    """A letter of a mail folder."""
    head = "From ops@site Mon Nov 15\n" + header() + header() + header()
    return head + "\n" + blank().join(paragraph() for _ in range(random.randint(1, 5)))


def joined(make, size, stretch, often):
    """Pieces up to a size. A blank line stands between two neighbours as often as told, and where a stretch without one would get too long."""
    out, length, run = [], 0, 0
    while length < size:
        piece = make()
        if run + len(piece.encode()) > stretch or random.random() < often:
            out.append(blank())
            run = 0
        out.append(piece)
        run += len(piece.encode())
        length += len(piece)
    return "".join(out).encode()


def generated(part=65536):
    """Names and notes, for parts of so many bytes."""
    size = 40 * part if part < 65536 else 1200000
    return [
        ("prose", joined(paragraph, size, part // 16, 0.3)),
        ("mail", joined(message, size, part // 4, 0.3)),
        ("few empty lines", joined(lambda: line(random.choice(["", "", "", "  "])), size, part, 0.0001)),
        ("many empty lines", b"".join(random.choice([b"\n", b"\r\n", b"a\n", b" \n", b"b c.\n"]) for _ in range(size // 2))),
    ]


def accepted(text):
    """What the formatter does not accept becomes a question mark."""
    return "".join(c if c <= "\u02ff" and c != "\u00ad" else "?" for c in text)


def fits(text):
    """No stretch without a blank line has over 1,024 words or 65,536 bytes."""
    stretch = []
    for row in [*text.split("\n"), ""]:
        if row.strip(" \t\r\v\f"):
            stretch.append(row)
            continue
        joined_rows = "\n".join(stretch)
        if len(joined_rows.split()) > 1024 or len(joined_rows.encode()) > 65000:
            return False
        stretch = []
    return True


def read(path):
    raw = gzip.open(path).read() if path.suffix == ".gz" else path.read_bytes()
    return accepted(raw.decode(errors="replace"))


def some_files(patterns, size):
    out, length = [], 0
    for path in sorted(path for pattern in patterns for path in pathlib.Path("/usr/share").glob(pattern)):
        text = read(path) if path.is_file() else ""
        if text and fits(text):
            out.append(text + ("" if text.endswith("\n") else "\n"))
            length += len(text)
        if length > size:
            break
    return "\n".join(out).encode()


def real():
    """Changelogs, and licences and other documents, as this machine has them."""
    found = [
        ("changelogs", some_files(["doc/*/changelog*.gz", "doc/*/NEWS*.gz"], 3000000)),
        ("licences and documents", some_files(["common-licenses/*", "doc/*/copyright", "doc/*/README*"], 3000000)),
    ]
    for what, notes in found:
        print(f"command: {what}: {len(notes)} bytes" + ("" if len(notes) > 65536 else ", left out"))
    return [(what, notes) for what, notes in found if len(notes) > 65536]


def some_marked(notes):
    """Some lines begin with @@, in the place of two letters, and no other has it."""
    rows = notes.replace(b"@", b"a").split(b"\n")
    return b"\n".join(b"@@" + row[2:] if i % 7 == 3 and row[:2].isalpha() else row for i, row in enumerate(rows))
