"""One-place damages of a digest, each by its name: what a site's formatter, an editor or a line may do to it."""
import re

WORD = re.compile(rb"[^\s]+")


def words(digest):
    return [m.span() for m in WORD.finditer(digest)]


def lines(digest):
    """Spans of lines, with their line feeds."""
    found, at = [], 0
    for part in digest.split(b"\n")[:-1]:
        found.append((at, at + len(part) + 1))
        at += len(part) + 1
    return found


def dropped(chance, d):
    a, b = chance.choice(words(d))
    return d[:a] + d[b:]


def dropped_with_gap(chance, d):
    """The word and the blank before or behind it."""
    a, b = chance.choice(words(d))
    return d[:a] + d[b + 1:] if d[b:b + 1] == b" " else d[:max(a - 1, 0)] + d[b:]


def doubled(chance, d):
    a, b = chance.choice(words(d))
    return d[:b] + b" " + d[a:b] + d[b:]


def swapped(chance, d):
    found = words(d)
    i = chance.randrange(max(len(found) - 1, 1))
    if i + 1 >= len(found):
        return d
    (a, b), (e, f) = found[i], found[i + 1]
    return d[:a] + d[e:f] + d[b:e] + d[a:b] + d[f:]


def split(chance, d):
    a, b = chance.choice(words(d))
    at = chance.randrange(a, b) + 1
    return d[:at] + chance.choice([b" ", b"\n", b"\t", b"\xc2\xa0"]) + d[at:]


def joined(chance, d):
    found = words(d)
    i = chance.randrange(max(len(found) - 1, 1))
    if i + 1 >= len(found):
        return d
    return d[:found[i][1]] + d[found[i + 1][0]:]


def line_dropped(chance, d):
    a, b = chance.choice(lines(d))
    return d[:a] + d[b:]


def line_doubled(chance, d):
    a, b = chance.choice(lines(d))
    return d[:b] + d[a:b] + d[b:]


def indent_changed(chance, d):
    a, b = chance.choice(lines(d))
    if chance.randrange(2) and d[a:a + 1] in (b" ", b"\t"):
        return d[:a] + d[a + 1:]
    return d[:a] + chance.choice([b" ", b"\t", b"\xc2\xa0", b">"]) + d[a:]


def blank_added(chance, d):
    a, b = chance.choice(lines(d))
    return d[:b] + chance.choice([b"\n", b" \n"]) + d[b:]


def feed_lost(chance, d):
    a, b = chance.choice(lines(d))
    return d[:b - 1] + chance.choice([b"", b" "]) + d[b:]


def feed_changed(chance, d):
    a, b = chance.choice(lines(d))
    return d[:b - 1] + b"\r\n" + d[b:]


def cut(chance, d):
    return d[:chance.randrange(len(d))]


def cut_behind_a_line(chance, d):
    return d[:chance.choice(lines(d))[0]]


def gap_changed(chance, d):
    """Still acceptable in a paragraph, unless it is U+00A0 with glue on."""
    found = [i for i in range(len(d)) if d[i] == 32]
    if not found:
        return d
    i = chance.choice(found)
    return d[:i] + chance.choice([b"  ", b"\t", b"\xc2\xa0", b" \xc2\xa0", b"\xe3\x80\x80", b"\n"]) + d[i + 1:]


def byte_changed(chance, d):
    i = chance.randrange(len(d))
    return d[:i] + bytes([chance.choice([0, 9, 10, 13, 32, 65, 0x80, 0xC2, 0xFF, d[i] ^ 1])]) + d[i + 1:]


def byte_lost(chance, d):
    i = chance.randrange(len(d))
    return d[:i] + d[i + 1:]


def tail(chance, d):
    return d + chance.choice([b"\n", b" ", b"x", b"x\n", b"\x00"])


DAMAGES = [dropped, dropped_with_gap, doubled, swapped, split, joined, line_dropped, line_doubled, indent_changed, blank_added, feed_lost, feed_changed, cut, cut_behind_a_line, gap_changed, byte_changed, byte_lost, tail]


def damaged(chance, digest):
    """Each damage once: its name, and the digest with it."""
    for damage in DAMAGES:
        try:
            yield damage.__name__, damage(chance, digest)
        except (IndexError, ValueError):
            continue
