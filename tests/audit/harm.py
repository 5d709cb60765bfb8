"""What may become of a digest beside the damages of tests/check: twenty more kinds and combinations, each by its name."""
import pathlib
import sys

sys.path.insert(0, str(pathlib.Path(__file__).resolve().parents[1] / "check"))
import damages as checked  # noqa: E402


def letter_changed(chance, d):
    a, b = chance.choice(checked.words(d))
    at = chance.randrange(a, b)
    return d[:at] + (b"Q" if d[at:at + 1] != b"Q" else b"X") + d[at + 1:]


def moved(chance, d):
    found = checked.words(d)
    a, b = chance.choice(found)
    e, _ = chance.choice(found)
    word = d[a:b]
    return d[:e] + word + b" " + d[e:a] + d[b:] if e < a else d[:a] + d[b:e] + word + b" " + d[e:]


def lines_exchanged(chance, d):
    found = checked.lines(d)
    i = chance.randrange(len(found) - 1)
    (a, b), (e, f) = found[i], found[i + 1]
    return d[:a] + d[e:f] + d[a:b] + d[f:]


def blank_dropped(chance, d):
    empty = [(a, b) for a, b in checked.lines(d) if b - a == 1]
    a, b = chance.choice(empty)
    return d[:a] + d[b:]


def line_ends(chance, d):
    return d.replace(b"\n", b"\r\n")


def trailing_blanks(chance, d):
    a, b = chance.choice(checked.lines(d))
    return d[:b - 1] + chance.choice([b" ", b"\t", b"  ", "\u3000".encode()]) + d[b - 1:]


def another_day(chance, d):
    a, _ = chance.choice(checked.lines(d))
    return d[:a] + b"Night shift: the gate valve was bled\nand refilled by hand.\n\n" + d[a:]


def tail_repeated(chance, d):
    a, _ = chance.choice(checked.lines(d))
    return d + d[a:]


def paragraph_dropped(chance, d):
    parts = d.split(b"\n\n")
    if len(parts) < 2:
        raise IndexError
    del parts[chance.randrange(len(parts))]
    return b"\n\n".join(parts)


def emptied(chance, d):
    return chance.choice([b"", b"\n", b"\n\n", b" \n"])


def twice(chance, d):
    """Two damages one behind the other."""
    first, second = chance.sample(DAMAGES, 2)
    return second(chance, first(chance, d))


DAMAGES = checked.DAMAGES + [letter_changed, moved, lines_exchanged, blank_dropped, line_ends, trailing_blanks, another_day, tail_repeated, paragraph_dropped, emptied]


def damaged(chance, digest):
    for damage in [*DAMAGES, twice]:
        try:
            yield damage.__name__, damage(chance, digest)
        except (IndexError, ValueError):
            continue
