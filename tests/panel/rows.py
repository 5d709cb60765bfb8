"""What a wall shows of a text, written from the words of RULES 15 and of folding for this test alone: rows, marks, and the words that count."""

ROWS, COLUMNS = 24, 80

# A rule changed on purpose, to see that the comparison sees it.
FAULTS = ["no fold", "fold late", "fold early", "wide over the edge", "a mark begins a row", "tab stays", "stop of the line", "first rows", "blank lines kept",
          "above without the torn line", "damage not counted", "damage below counted as above", "no plus", "no mark beside"]


def widths(listing):
    """Of each character that does not take one column."""
    found = {}
    for line in listing.split("\n"):
        fields = line.split(" ")
        if fields[0] == "width":
            for code in range(int(fields[1]), int(fields[2]) + 1):
                found[code] = int(fields[3])
    return found


class Wall:
    def __init__(self, widths, fault=None):
        self.widths, self.fault = widths, fault

    def signs(self, line):
        """Each character with its columns, a tab having none of its own; a byte that begins none stands for itself."""
        at = 0
        while at < len(line):
            for length in range(1, 5):
                try:
                    character = line[at : at + length].decode()
                    break
                except UnicodeDecodeError:
                    continue
            else:
                yield "\ufffd", 1
                at += 1
                continue
            at += length
            yield character, self.widths.get(ord(character), 1)

    def fold(self, line, tab):
        """The signs of each row."""
        rows, column, begin = [[]], 0, 0
        for character, width in self.signs(line):
            behind = (column // tab + 1) * tab if character == "\t" else column + width
            most = COLUMNS + (self.fault == "fold late") - (self.fault == "fold early") + (self.fault == "wide over the edge" and width == 2)
            full = behind > most and (width > 0 or character == "\t" or self.fault == "a mark begins a row") and not (character == "\t" and self.fault == "tab stays")
            if full and rows[-1] and self.fault != "no fold":
                rows.append([])
                if self.fault == "stop of the line":
                    begin += column
                column = 0
                behind = (begin // tab + 1) * tab - begin if character == "\t" else width
            rows[-1].append((character, width))
            column = behind
        return rows

    def cells(self, signs, tab):
        """A row of the panel, fillers left out; and whether it runs over."""
        cells, column, over = [" "] * COLUMNS, 0, False
        for character, width in signs:
            if character == "\t":
                column = (column // tab + 1) * tab
                continue
            if width == 0:
                continue
            if column + width <= COLUMNS:
                cells[column] = " " if ord(character) < 32 or 127 <= ord(character) <= 159 else character
                if width == 2:
                    cells[column + 1] = ""
            else:
                over = True
            column += width
        if over and self.fault != "no plus":
            if cells[-1] == "":
                cells[-2] = " "
            cells[-1] = "+"
        return "".join(cells), over

    def lines(self, text):
        """Without their line ends."""
        parts = text.split(b"\n")
        ended = [part[:-1] if part.endswith(b"\r") else part for part in parts[:-1]]
        return ended + ([parts[-1]] if parts[-1] else [])

    def seen(self, row):
        """As it is drawn."""
        return "".join({"\u2028": " ", "\u2029": " ", "\u00ad": "-", "\ufffe": "\ufffd", "\uffff": "\ufffd"}.get(c, c) for c in row)

    def is_blank(self, line, tab):
        return not self.cells(self.signs(line), tab)[0].strip(" \u00a0\u1680\u2000\u2001\u2002\u2003\u2004\u2005\u2006\u2007\u2008\u2009\u200a\u2028\u2029\u202f\u205f\u3000")

    def damaged(self, line):
        try:
            line.decode()
            return False
        except UnicodeDecodeError:
            return True

    def show(self, text, tab, cut):
        """The sides and rows, and what is counted."""
        tab, lines = tab or 1, self.lines(text)
        ends = len(lines)
        while ends > 0 and self.is_blank(lines[ends - 1], tab) and self.fault != "blank lines kept":
            ends -= 1
        rows = []  # the line's number, whether it is its first row, the cells
        over = 0
        for number, line in enumerate(lines):
            if cut:
                cells, runs = self.cells(self.signs(line), tab)
                over += runs
                rows += [(number, True, cells)] if number < ends else []
            elif number < ends and number >= ends - ROWS:
                rows += [(number, at == 0, self.cells(signs, tab)[0]) for at, signs in enumerate(self.fold(line, tab))]
        rows = rows[:ROWS] if self.fault == "first rows" else rows[-ROWS:]
        above = rows[0][0] + (not rows[0][1] and self.fault != "above without the torn line") if rows else 0
        drawn = [("|" if first or self.fault == "no mark beside" else ">") + self.seen(cells) + "|" for _, first, cells in rows]
        drawn = ["|" + " " * COLUMNS + "|"] * (ROWS - len(rows)) + drawn
        return drawn, self.count(lines, ends, above, over if cut else None)

    def count(self, lines, ends, above, over):
        if not lines:
            return "no notes: the file is empty"
        if ends == 0:
            return f"no text: {len(lines)} blank line{'s' * (len(lines) > 1)}"
        damaged = [0 if self.fault == "damage not counted" else self.damaged(line) for line in lines]
        of = lambda number, what: f"{number or 'none'} {what}"
        plural = lambda number: f"{number} line{'' if number == 1 else 's'}"
        words = f"{plural(len(lines))}, {of(sum(damaged), 'damaged')}" + ("" if over is None else f", {of(over, 'cut')}")
        torn = sum(damaged) if self.fault == "damage below counted as above" else sum(damaged[:above])
        words += f"; above: {plural(above)}, {of(torn, 'damaged')}" if above else "; none above"
        words += f"; {len(lines) - ends} blank below" if ends < len(lines) else ""
        return words if len(words) <= COLUMNS else words[: COLUMNS - 1] + "+"
