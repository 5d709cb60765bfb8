"""Texts for the comparisons: notes of words that matter to mail, and mail of any lines."""
import random

WORDS = [b"a", b"From", b">", b">>x", b"--", b"-", b"valve", b"4.2", b"K.", b"ok?", b"\xc3\xa9t\xc3\xa9", b"x" * 30, b"-- x", b"0", b"From:", b"B!", b"bar)", b".."]
GAPS = [b" ", b" ", b" ", b"  ", b"\t", b"   "]
INDENTS = [b"", b"", b"", b" ", b"  ", b"\t", b"    "]
LINES = [b"-- ", b"--", b"--  ", b" -- ", b"> q", b">q ", b">>r ", b"> > s", b"From x", b"From ", b" From y", b"", b" ", b"  ", b"> ", b">", b"a ", b"b", b" c", b"x\ty ", b"\r", b"d \r", b">-- ", b"> -- ", b">--", b">  -- ", b"e  "]


def line(rng):
    words = [rng.choice(WORDS) for _ in range(rng.randrange(1, 9))]
    text = rng.choice(INDENTS) + words[0]
    for word in words[1:]:
        text += rng.choice(GAPS) + word
    return text + rng.choice([b"", b"", b"", b" ", b"  "])


def notes(rng, ends=(b"\n", b"\n", b"\r\n")):
    """Notes: paragraphs of lines with one indent, blank lines, lines that stand by themselves."""
    text = b""
    for _ in range(rng.randrange(1, 7)):
        kind, indent = rng.random(), rng.choice(INDENTS)
        if kind < 0.6:
            for _ in range(rng.randrange(1, 5)):
                text += indent + line(rng).lstrip() + rng.choice(ends)
        elif kind < 0.8:
            text += rng.choice([b"", b" ", b"\t"]) + rng.choice(ends)
        else:
            text += rng.choice(LINES).replace(b"\r", b"") + rng.choice(ends)
    return text[:-1] if text and rng.random() < 0.1 else text


def mail(rng):
    """Mail that no good writer would send, too."""
    text = b""
    for _ in range(rng.randrange(0, 9)):
        text += (rng.choice(LINES) if rng.random() < 0.7 else line(rng)) + rng.choice([b"\r\n", b"\r\n", b"\n"])
    return text[: len(text) - 1] if text and rng.random() < 0.1 else text


def anything(rng):
    return bytes(rng.choice(b"\r\n >-Fromab\xc3\x00") for _ in range(rng.randrange(0, 40)))


def seeded(seed):
    return random.Random(seed)
