"""RULES 17 alone: what the writer writes and the reader reads, with the rules for quick and uniform digests (RULES 6 and 7).

Nothing here was taken from the library's code or from its definitions. Written for lines of bytes, one rule after the other.
"""

MOST_BYTES, MOST_WORDS = 65536, 1024
SOFT, MARK, SEPARATOR = b" ", b">", b"-- "


# ---- RULES 4.5: lines


def lines(text):
    """A line ends at a line feed, and a carriage return just before it goes too; a last line without a line feed counts as it is."""
    found = []
    while text:
        line, feed, text = text.partition(b"\n")
        found.append(line[:-1] if feed and line.endswith(b"\r") else line)
    return found


# ---- the reader: RFC 3676, section 4, DelSp=no


def stuffed(content):
    """4.4: lines that start with a space, `>` or `From ` get a space."""
    return b" " + content if content.startswith((b" ", b">", b"From ")) else content


def taken_apart(line):
    """4.1: quote marks are counted and deleted, then a space is, and a line that ends in a space is soft; 4.3: not so a separator."""
    depth = 0
    while line[depth : depth + 1] == MARK:
        depth += 1
    content = line[depth:]
    if content.startswith(b" "):
        content = content[1:]
    separator = line == SEPARATOR or (depth > 0 and content == SEPARATOR)
    return depth, content, separator, content.endswith(SOFT) and not separator


def paragraphs(text):
    """A soft line goes on in the next one, if that has the same depth and is no separator."""
    read, is_open = [], False
    for line in lines(text):
        depth, content, separator, soft = taken_apart(line)
        if is_open and depth == read[-1][0] and not separator:
            read[-1] = depth, read[-1][1] + content
        else:
            read.append((depth, content))
        is_open = soft
    return read


def unflowed(text):
    return b"".join(MARK * depth + stuffed(content) + b"\r\n" for depth, content in paragraphs(text))


def unflow(text, room):
    """Code, N, and the output afterwards; None if it is unchanged."""
    if len(text) > MOST_BYTES:
        return 2, 0, None
    out = unflowed(text)
    if len(out) > room:
        return 5, len(out), bytes(room)
    return 0, len(out), out


# ---- RULES 4 to 7 for what the writer writes: uniform, quick, without prefix, crown, tagged and mail


def character(data, at):
    """The character at a place and the bytes that it takes, or None where none of UTF-8 begins (RULES 4.2)."""
    for size in (1, 2, 3, 4):
        try:
            return ord(data[at : at + size].decode("utf-8")), size
        except (UnicodeDecodeError, TypeError):
            continue
    return None


WHITE_SPACE = {9, 10, 11, 12, 13, 0x20, 0x85, 0xA0, 0x1680, *range(0x2000, 0x200B), 0x2028, 0x2029, 0x202F, 0x205F, 0x3000}


def glyphs(line, glue):
    """Its characters: place, bytes, code, whether it is a blank; of a byte that is damaged the code is None."""
    at, read = 0, []
    while at < len(line):
        code, size = character(line, at) or (None, 1)
        read.append((at, line[at : at + size], code))
        at += size
    others = [(n, code) for n, (_, _, code) in enumerate(read) if code != 0xA0]

    def is_blank(n, code):
        if not glue or code != 0xA0:
            return code in WHITE_SPACE
        # RULES 4.4: the nearest characters on both sides that are no U+00A0 are there and no blanks
        before = [c for k, c in others if k < n][-1:]
        behind = [c for k, c in others if k > n][:1]
        return not (before and behind and before[0] not in WHITE_SPACE and behind[0] not in WHITE_SPACE)

    return [(at, taken, code, is_blank(n, code)) for n, (at, taken, code) in enumerate(read)]


def columns(tab, indent):
    """Of characters that take a column each, as all do that texts.py has."""
    column = 0
    for _, _, code, _ in indent:
        column = (column // tab + 1) * tab if code == 9 else column + 1
    return column


class Options:
    """What the writer's rules ask of a block, with the defaults of RULES 3."""

    def __init__(self, width=79, tab=8, split=False, keep=False, glue=False, characters=False, skip=None, exact_skip=False):
        self.width, self.tab, self.split, self.keep, self.glue, self.characters = width, tab or 1, split, keep, glue, characters
        self.skip, self.exact_skip = skip, exact_skip


def classified(line, o):
    """None for a blank line, the line itself for a plain one, else its indent's bytes, its columns, and its words' glyphs."""
    found = glyphs(line, o.glue)
    if all(blank for _, _, _, blank in found):
        return None
    if any(code is None for _, _, code, _ in found):
        return line
    front = 0
    while found[front][3]:
        front += 1
    if o.skip is not None:
        places = [0] if o.exact_skip else [at for at, _, _, _ in found[: front + 1]]
        if any(line.startswith(o.skip, at) for at in places):
            return line
    return line[: found[front][0]], columns(o.tab, found[:front]), found[front:]


def words_of(found, o):
    """The words of a line: bytes, characters, the blank before each in bytes (or characters: RULES 6.2), whether it ends in punctuation."""
    words, gap, at = [], 0, 0
    while at < len(found):
        end = at
        while end < len(found) and not found[end][3]:
            end += 1
        if end > at:
            text = b"".join(b for _, b, _, _ in found[at:end])
            words.append((text, end - at, gap, text[-1:] in (b".", b"?", b"!")))
            gap, at = 0, end
        else:
            # a tab is as wide as two blanks
            gap += 2 if found[at][2] == 9 else 1 if o.characters else len(found[at][1])
            at += 1
    return words


def pieces(notes, o):
    """Blank lines as None, plain lines as bytes, paragraphs as their start, indent and the words of each of their lines."""
    found, place, open_shape = [], 0, None
    for raw, line in zip(notes.split(b"\n"), lines(notes)):
        shape = classified(line, o)
        if isinstance(shape, tuple):
            key = len(shape[0]), shape[1]
            if open_shape == key and not o.split:
                found[-1][2].append(words_of(shape[2], o))
            else:
                found.append([place, shape[0], [words_of(shape[2], o)], shape[1]])
            open_shape = key
        else:
            found.append(shape)
            open_shape = None
        place += len(raw) + 1
    return found


def broken(indent_columns, rows, width):
    """The lines of a paragraph, each a list of what stands between the words and of the words: quick, with the added space of RULES 6.5."""
    done, line, column, punct = [], [], 0, False
    for row in rows:
        for number, (text, size, gap, ends) in enumerate(row):
            new_line = number == 0
            sentence = not new_line and row[number - 1][3] and gap > 1
            if not line and not done:
                line, column, punct = [text], indent_columns + size, False
                continue
            added = 2 if sentence or (new_line and punct) else 1
            if column + added + size > width:
                done.append(line)
                line, column = [text], indent_columns + size
            else:
                line += [b" " * added, text]
                column += added + size
            punct = ends
    return done + [line]


# ---- the writer: RULES 17


def flowed_piece(piece, o):
    """A piece as it is sent, and how many of its lines would be separators."""
    if piece is None:
        return b"\r\n", 0
    if isinstance(piece, bytes):
        kept = piece if piece == SEPARATOR else piece.rstrip(b" ")
        return stuffed(kept) + b"\r\n", 0
    _, indent, rows, indent_columns = piece
    sent, dashes = b"", 0
    done = broken(indent_columns, rows, o.width)
    for number, line in enumerate(done):
        text = indent + b"".join(line)
        if number < len(done) - 1:
            text += SOFT
            if text == SEPARATOR:
                text, dashes = b"--", dashes + 1
        sent += stuffed(text) + b"\r\n"
    return sent, dashes


def flow(o, notes, room, most_bytes=MOST_BYTES, most_words=MOST_WORDS):
    """Code, N, the output afterwards (None if it is unchanged) and the count of dashes, for a block that is accepted and not refused."""
    if len(notes) > most_bytes:
        return 2, 0, None, 0
    if not o.keep:
        at = 0
        while at < len(notes):
            found = character(notes, at)
            if not found:
                return 3, at, None, 0
            at += found[1]
    sent, dashes = b"", 0
    for piece in pieces(notes, o):
        if isinstance(piece, list) and sum(map(len, piece[2])) > most_words:
            return 4, piece[0], bytes(room), 0
        text, count = flowed_piece(piece, o)
        sent, dashes = sent + text, dashes + count
    if len(sent) > room:
        return 5, len(sent), bytes(room), 0
    return 0, len(sent), sent, dashes
