"""Options and notes by chance: what operators write, with every kind of line that RULES knows."""
from model import Options

S = "\u00a0"
WORDS = "the valve at north gate opened late a I was closed by 4.2 K rise of pressure; see log, no. 7 ok? yes! (pump) B-12 e.g. approx. - -- * >> From: x".split()
OTHERS = ["\u00fcber", "\u6f22\u5b57", "e\u0301t\u00e9", "\u0441\u043b\u043e\u0432\u043e", "\U0001f600", "\u0e01\u0e33", "a\u00adb", "\u200b", "\u1100\u1161"]
PROSE = [w for w in WORDS if w.isalpha()]
BLANKS = ["\t", "\x0b", "\x0c", "\r", "\x85", "\u2003", "\u3000", "\u2028", S]


def options(chance):
    given = {}
    for name, odds in [("crown", 5), ("tagged", 5), ("mail", 5), ("split", 8), ("uniform", 3), ("quick", 2), ("exact_prefix", 8), ("exact_skip", 12), ("keep", 3), ("glue", 3), ("characters", 8)]:
        if chance.randrange(odds) == 0:
            given[name] = True
    if chance.randrange(3):
        given["width"] = chance.choice([6, 10, 20, 33, 60, 72, 79, 100])
    if chance.randrange(4) == 0:
        given["tab"] = chance.choice([0, 1, 3, 4, 8, 100])
    if chance.randrange(4) == 0:
        given["prefix"] = chance.choice([b">", b"> ", b"#", b"", b"From", "\u3000".encode()])
    if chance.randrange(8) == 0:
        given["skip"] = chance.choice([b"#", b"-", b".", b""]) if chance.randrange(3) else b"%"
    return Options(**given)


def gap(chance):
    if chance.randrange(6):
        return " "
    return "".join(chance.choice([" ", " ", *BLANKS]) for _ in range(chance.randrange(1, 4)))


def word(chance):
    found = chance.choice(WORDS) if chance.randrange(7) else chance.choice(OTHERS)
    return found + S + chance.choice(WORDS) if chance.randrange(25) == 0 else found


def line(chance, o, indent):
    kind = chance.randrange(20)
    if kind == 0:
        return chance.choice(["", " ", "\t ", S, "\u3000", " " + S])
    text = indent
    if o.prefix is not None and chance.randrange(5):
        text = chance.choice(["", "", " ", "\t"]) + o.prefix.decode() + chance.choice(["", " ", S, "  "]) + indent
    if o.mail and chance.randrange(4) == 0:
        text = chance.choice(["To: ", "From ", " ", "Subject: "])
    if o.skip and chance.randrange(6) == 0:
        text = o.skip.decode() + text
    words = [word(chance) for _ in range(chance.choice([1, 1, 2, 3, 5, 8, 13, 20]))]
    text += "".join(w + gap(chance) for w in words[:-1]) + words[-1]
    return text + chance.choice(["", "", "", "", " ", "\t", S, "\r"])


def simple(chance):
    """Prose of paragraphs and blank lines, which other formatters take alike."""
    out = b""
    for _ in range(chance.randrange(1, 5)):
        indent = " " * chance.choice([0, 0, 2, 4])
        for _ in range(chance.randrange(1, 6)):
            out += (indent + " ".join(chance.choice(PROSE) for _ in range(chance.randrange(1, 15))) + "\n").encode()
        out += b"\n"
    return out


def notes(chance, o):
    """Notes of up to some 60 lines."""
    out, indent = b"", ""
    for _ in range(chance.choice([0, 1, 2, 3, 4, 6, 9, 14, 20, 60])):
        if chance.randrange(4) == 0:
            indent = chance.choice(["", "", " ", "  ", "    ", "\t", "\u3000", S, " \t"])
        text = line(chance, o, indent).encode()
        if chance.randrange(40) == 0 and text and (o.keep or chance.randrange(8) == 0):
            at = chance.randrange(len(text))
            text = text[:at] + chance.choice([b"\xb0", b"\xff", b"\xe2\x82", b"\xc3"]) + text[at:]
        out += text + chance.choice([b"\n", b"\n", b"\n", b"\r\n"])
    return out[:-1] if out and chance.randrange(10) == 0 else out
