"""What RULES 18 asks, from the words of RULES alone; nothing is shared with the library.

The notes are read into pieces, the pieces become a small machine that spells every acceptable digest, and a digest is read by all of
that machine's ways at once. So nothing is decided here by looking ahead or by taking the longest: a line can be continued if one way is
left behind its line feed, since from each state the machine can reach its end.

Widths are of Python's own Unicode version; the texts of the tests have no character that is newer than Unicode 14.
"""
import unicodedata

# RULES 4.3: the White_Space set
BLANKS = {9, 10, 11, 12, 13, 0x20, 0x85, 0xA0, 0x1680, *range(0x2000, 0x200B), 0x2028, 0x2029, 0x202F, 0x205F, 0x3000}
NO_BREAK = 0xA0


def width(code):
    """P4: the columns of a character."""
    if code != 0xAD and unicodedata.category(chr(code)) in ("Mn", "Me", "Cf") or 0x1160 <= code <= 0x11FF:
        return 0
    return 2 if unicodedata.east_asian_width(chr(code)) in ("W", "F") else 1


class Options:
    def __init__(self, **given):
        self.crown = self.tagged = self.mail = self.split = self.uniform = self.quick = False
        self.exact_prefix = self.exact_skip = self.keep = self.glue = self.characters = False
        self.width = self.goal = self.prefix = self.skip = None
        self.tab = 8
        self.given = given
        self.__dict__.update(given)
        self.tab = self.tab or 1
        if self.crown:
            self.tagged = False
        if self.split:
            self.crown = self.tagged = False

    FLAGS = ["crown", "tagged", "mail", "split", "uniform", "quick", "exact_prefix", "exact_skip", "keep", "glue", "characters"]

    def block(self):
        """The option block, RULES 3."""
        g, out = self.given, b""
        flags = sum(1 << i for i, name in enumerate(self.FLAGS) if g.get(name))
        for tag, value in [(1, flags), (2, g.get("width")), (3, g.get("goal")), (4, g.get("tab"))]:
            if value is not None and (tag > 1 or value):
                out += bytes([tag, 0, 2, value >> 8, value & 255])
        for tag, value in [(5, g.get("prefix")), (6, g.get("skip"))]:
            if value is not None:
                out += bytes([tag, 0, len(value)]) + value
        return out


# ---- characters and lines

def character(s, at):
    """The character at a place and its length (RFC 3629), or None."""
    for n in (1, 2, 3, 4):
        try:
            return ord(s[at:at + n].decode("utf-8")), n
        except (UnicodeDecodeError, TypeError):
            continue
    return None


def damage(s):
    at = 0
    while at < len(s):
        c = character(s, at)
        if c is None:
            return at
        at += c[1]
    return None


class Glyph:
    def __init__(self, place, size, code):
        self.place, self.size, self.code = place, size, code
        self.blank = code in BLANKS


def glyphs(line, glue):
    """The characters of a line; with glue on, which U+00A0 are blank, by the rule of RULES 4.4."""
    found, at = [], 0
    while at < len(line):
        c = character(line, at)
        code, size = c if c else (None, 1)
        found.append(Glyph(at, size, code))
        at += size
    if glue:
        others = [None] + [g for g in found if g.code != NO_BREAK] + [None]
        left = 0
        for g in found:
            if g.code == NO_BREAK:
                a, b = others[left], others[left + 1]
                g.blank = a is None or b is None or a.code in BLANKS or b.code in BLANKS
            else:
                left += 1
    return found


def lines(notes):
    parts = notes.split(b"\n")
    last = parts.pop()
    found = [p[:-1] if p.endswith(b"\r") else p for p in parts]
    return found + [last] if last else found


def find(text, exact, gs, prefix, size):
    """Where a prefix is found in a line, or None."""
    for g in gs:
        if text.startswith(prefix, g.place):
            return g.place
        if exact or not g.blank:
            return None
    return size if text.startswith(prefix, size) and (not exact or size == 0) else None


def columns(o, gs):
    column = 0
    for g in gs:
        column = (column // o.tab + 1) * o.tab if g.code == 9 else column + width(g.code)
    return column


class Shape:
    pass


def classify(o, line):
    """blank, plain, or the shape of a formatted line."""
    gs = glyphs(line, o.glue)
    if all(g.blank for g in gs):
        return "blank"
    if any(g.code is None for g in gs):
        return "plain"
    place = 0 if o.prefix is None else find(line, o.exact_prefix, gs, o.prefix, len(line))
    if place is None:
        return "plain"
    end = place + len(o.prefix or b"")
    behind = [g for g in gs if g.place >= end]
    if all(g.blank for g in behind):
        return "plain"
    if o.skip is not None and find(line, o.exact_skip, gs, o.skip, len(line)) is not None:
        return "plain"
    s = Shape()
    s.prefix_place = place
    s.indent_end = next(g.place for g in behind if not g.blank)
    s.indent_length = columns(o, [g for g in gs if g.place < s.indent_end])
    s.prefix_length = columns(o, [g for g in gs if g.place < end])
    s.words, word = [], b""
    for g in behind:
        if g.blank:
            s.words, word = s.words + [word] if word else s.words, b""
        else:
            word += line[g.place:g.place + g.size]
    s.words = s.words + [word] if word else s.words
    s.whole, word = [], b""
    for g in gs:
        if g.blank:
            s.whole, word = s.whole + [word] if word else s.whole, b""
        else:
            word += line[g.place:g.place + g.size]
    s.whole = s.whole + [word] if word else s.whole
    return s


# ---- paragraphs

def header(line):
    name = line.split(b":")[0]
    return line.startswith(b"From ") or (b":" in line and name != b"" and all(33 <= b <= 126 for b in name))


def agrees(a, b):
    return (a.indent_end, a.prefix_place, a.indent_length, a.prefix_length) == (b.indent_end, b.prefix_place, b.indent_length, b.prefix_length)


def pieces(o, notes):
    """Each piece: ("line", bytes), or ("paragraph", first indent, indent, words, place in the notes)."""
    texts = lines(notes)
    places, at = [], 0
    for part in notes.split(b"\n"):
        places.append(at)
        at += len(part) + 1
    shapes = [classify(o, t) for t in texts]
    found, i, next_mail = [], 0, True
    while i < len(texts):
        s = shapes[i]
        if s == "blank":
            found.append(("line", b""))
            next_mail, i = True, i + 1
            continue
        if s == "plain":
            found.append(("line", texts[i]))
            next_mail, i = False, i + 1
            continue
        mail = o.mail and next_mail and s.indent_end == 0 and header(texts[i])
        first = texts[i][:s.indent_end]
        indent = first
        j = i + 1

        def formatted(k):
            return k < len(texts) and not isinstance(shapes[k], str)

        if mail:
            first, indent = b"", b"  "
        if o.split:
            pass
        elif mail:
            while formatted(j) and shapes[j].indent_end > 0 and (o.prefix is None or shapes[j].prefix_place > 0):
                j += 1
        elif o.crown or o.tagged:
            t = shapes[j] if formatted(j) else None
            if t and t.prefix_place == s.prefix_place and t.prefix_length == s.prefix_length and not (
                    o.tagged and t.indent_end == s.indent_end and t.indent_length == s.indent_length):
                indent = texts[j][:t.indent_end]
                j += 1
                while formatted(j) and agrees(t, shapes[j]):
                    j += 1
            elif o.tagged:
                indent = first + b"    "
        else:
            while formatted(j) and agrees(s, shapes[j]):
                j += 1
        words = []
        for k in range(i, j):
            words += shapes[k].whole if mail else shapes[k].words
        found.append(("paragraph", first, indent, words, places[i]))
        next_mail, i = mail, j
    return found


# ---- the machine of all acceptable digests

GAP = [chr(c).encode() for c in sorted(BLANKS - {10})]
FRONTS = {t[:n] for t in GAP for n in range(len(t))}


class Machine:
    """Texts, and between two words either a gap or a line feed and the indent.

    A state is where the next byte stands: in a text; in a line feed and its indent; or in a gap, with whether one of its blanks parts words by
    itself, and the bytes of a blank that is not complete."""

    def __init__(self, o, found):
        self.glue, self.parts = o.glue, []
        self.known = {}
        for p in found:
            if p[0] == "line":
                self.parts.append(("text", p[1] + b"\n"))
                continue
            _, first, indent, words, _ = p
            self.parts.append(("text", first + words[0]))
            for w in words[1:]:
                self.parts += [("between", b"\n" + indent), ("text", w)]
            self.parts.append(("text", b"\n"))

    def enter(self, i):
        if i == len(self.parts):
            return [("end",)]
        if self.parts[i][0] == "text":
            return [("text", i, 0)]
        return [("feed", i, 0), ("gap", i, False, b"")]

    def start(self):
        return frozenset(self.enter(0))

    def after(self, state, b):
        """The states behind one byte."""
        if state[0] == "end":
            return []
        kind, i, at = state[:3]
        if kind != "gap":
            text = self.parts[i][1]
            if text[at] != b:
                return []
            return self.enter(i + 1) if at + 1 == len(text) else [(kind, i, at + 1)]
        blank = state[3] + bytes([b])
        if blank in FRONTS:
            return [("gap", i, at, blank)]
        if blank not in GAP:
            return []
        # with glue on, U+00A0 parts words only beside another blank: a gap has one that is not U+00A0
        parts = at or not self.glue or blank != chr(NO_BREAK).encode()
        return [("gap", i, parts, b"")] + (self.enter(i + 1) if parts else [])

    def step(self, states, b):
        if (states, b) not in self.known:
            self.known[states, b] = frozenset(t for s in states for t in self.after(s, b))
        return self.known[states, b]

    def ends(self, states):
        return ("end",) in states


MOST = 65536


def refusal(o, notes):
    """Refusals 1 to 4; 1 is not made here, the block being well formed. And the pieces."""
    if len(notes) > MOST:
        return (2, 0), None
    place = None if o.keep else damage(notes)
    if place is not None:
        return (3, place), None
    found = pieces(o, notes)
    for p in found:
        if p[0] == "paragraph" and len(p[3]) > 1024:
            return (4, p[4]), None
    return None, found


MOST_LARGE = 1048576


def refusal_lent(o, notes, numbers):
    """The same where so many numbers of working room are lent: 12 in the place of 4. And the pieces, and the room needed."""
    if len(notes) > MOST_LARGE:
        return (2, 0), None, 0
    place = None if o.keep else damage(notes)
    if place is not None:
        return (3, place), None, 0
    found = pieces(o, notes)
    needed = (7 if o.quick else 15) * max([len(p[3]) for p in found if p[0] == "paragraph"], default=0)
    return ((12, needed) if numbers < needed else None), found, needed


def judged(machine, digest):
    """The verdict on a digest: (0, 0), or 10 and the line."""
    states, line, fresh = machine.start(), 0, True
    for b in digest:
        fresh = False
        if states:
            states = machine.step(states, b)
        if b == 10:
            if not states:
                return 10, line
            line, fresh = line + 1, True
    return (0, 0) if fresh and machine.ends(states) else (10, line)


def check(o, notes, digest):
    """What the call answers: code and N."""
    code, found = refusal(o, notes)
    if code:
        return code
    if len(digest) > MOST:
        return 9, 0
    return judged(Machine(o, found), digest)
