"""Rudignals: a paragraph formatter for operators' notes, in which every function is proved.

>>> import rudignals
>>> notes = "22:40 Pump 2 tripped on low pressure. Restarted by hand.\\n"
>>> print(rudignals.format(notes, width=30), end="")
22:40 Pump 2 tripped on low
pressure. Restarted by hand.

A text is str or bytes, and the result is of the same type: str goes in and out as UTF-8, bytes as they are. Nothing else is taken, and nothing is guessed. Options have
the names of the command's long options, with `_` for `-`; None means that an option was not given. The library alone says whether they are right. What it refuses is
raised as Refused, with code, place, line, column and the words that the command says.

Notes may have any length, but at most 1,048,576 bytes without an empty line. Offsets are in bytes, and lines of a digest are counted from 0. Threads may call at
the same time: the library keeps no state, and the interpreter's lock is released during a call.
"""
from __future__ import annotations

import ctypes
import itertools
import typing

from ._library import MOST_NOTES, PANEL_COLUMNS, PANEL_ROWS, Code, RecordStruct, call, call_for, most_for, number_of, slice_of, version
from ._options import Options, block_of, bytes_of
from ._options import number_of as _option_number
from ._parts import parts_of_copy, parts_of_lines, parts_of_mail, parts_of_notes
from ._reasons import BlankLine, Chosen, EndOfParagraph, ForcedAfter, ForcedBefore, NotFit, PlainLine, Reason, reason_of
from ._refusals import Refused, notes_refused, options_refused, refused_at

__all__ = ["BlankLine", "Chosen", "Code", "EndOfParagraph", "ForcedAfter", "ForcedBefore", "Mended", "NotFit", "Options", "PlainLine", "Reason", "Record", "Refused", "check", "explain",
           "flow", "fold", "format", "index", "lookup", "measure", "mend", "panel", "restore", "unflow", "version"]
__version__ = "1.1.0"

Text = typing.TypeVar("Text", str, bytes)


class Record(typing.NamedTuple):
    """A paragraph, plain line or blank line of the notes: where it begins and its length, in bytes; and the first line and the number of lines of the digest that it
    became."""

    place: int
    length: int
    first: int
    count: int  # type: ignore[assignment]  # the field comes before the method of tuples


class Mended(typing.NamedTuple):
    """A mended copy, and what was changed: offsets in the old notes, with the old bytes."""

    copy: bytes
    changes: list[tuple[int, int]]


def _like(text: Text, made: bytes) -> Text:
    return made.decode("utf-8") if isinstance(text, str) else made


def _refused(name: str, code: Code, number: int, options: Options, block: bytes, notes: bytes, at: int) -> Refused:
    """What a call refuses, of notes of which the part from `at` on was given to it."""
    return options_refused(number, options, block) if code == Code.OPTIONS else notes_refused(code, number, notes, at, most_for(name))


# ---- formatting

def measure(text: str | bytes, **options: typing.Unpack[Options]) -> int:
    """How many bytes the digest of a text has.

    >>> rudignals.measure("a\\nb\\n")
    4
    """
    notes, block = bytes_of(text), block_of(options)
    return sum(_measured(options, block, notes, at, part) for at, part in parts_of_notes(notes, most_for("measure")))


def _measured(options: Options, block: bytes, notes: bytes, at: int, part: bytes) -> int:
    code, number = call_for(part, "measure", *slice_of(block), *slice_of(part))
    if code == Code.ROOM:  # of large notes: no answer could say how long it is
        raise Refused("the digest has more than 4294967295 bytes", code, number)
    if code != Code.DONE:
        raise _refused("measure", code, number, options, block, notes, at)
    return number


def format(text: Text, **options: typing.Unpack[Options]) -> Text:
    """The digest of a text.

    >>> rudignals.format("a.\\nb\\n", width=60, quick=True)
    'a. b\\n'
    """
    notes, block, out = bytes_of(text), block_of(options), []
    for at, part in parts_of_notes(notes, most_for("write")):
        output = ctypes.create_string_buffer(_measured(options, block, notes, at, part))
        call_for(part, "write", *slice_of(block), *slice_of(part), *slice_of(output))
        out.append(output.raw)
    return _like(text, b"".join(out))


def _indexed(options: Options, block: bytes, notes: bytes, at: int, part: bytes) -> list[Record]:
    """The records of a part: the first call tells how many there are."""
    filled, output = ctypes.c_uint64(), ctypes.create_string_buffer(_measured(options, block, notes, at, part))
    code, pieces = call_for(part, "write_indexed", *slice_of(block), *slice_of(part), *slice_of(output), None, 0, ctypes.byref(filled))
    if code not in (Code.DONE, Code.INDEX_FULL):
        raise _refused("write_indexed", code, pieces, options, block, notes, at)
    records = (RecordStruct * (pieces if code == Code.INDEX_FULL else 0))()
    call_for(part, "write_indexed", *slice_of(block), *slice_of(part), *slice_of(output), *slice_of(records), ctypes.byref(filled))
    return [Record(r.place, r.length, r.first, r.count) for r in itertools.islice(records, filled.value)]


def index(text: str | bytes, **options: typing.Unpack[Options]) -> list[Record]:
    """A record for each paragraph, plain line and blank line of the notes. They follow each other without a gap.

    >>> for record in rudignals.index("a\\nb\\n\\nc\\n"):
    ...     print(record)
    Record(place=0, length=4, first=0, count=1)
    Record(place=4, length=1, first=1, count=1)
    Record(place=5, length=2, first=2, count=1)
    """
    notes, block, found, lines = bytes_of(text), block_of(options), list[Record](), 0
    for at, part in parts_of_notes(notes, most_for("write_indexed")):
        records = _indexed(options, block, notes, at, part)
        found += [Record(at + r.place, r.length, lines + r.first, r.count) for r in records]
        lines += records[-1].first + records[-1].count if records else 0
    return found


def lookup(records: typing.Sequence[Record], text: Text, line: int) -> Text | None:
    """The part of the notes that a line of the digest came from, or None if there is none.

    >>> notes = "a\\nb\\n\\nc\\n"
    >>> rudignals.lookup(rudignals.index(notes), notes, 2)
    'c\\n'
    """
    notes, part = bytes_of(text), (ctypes.c_uint64 * 2)()
    table = (RecordStruct * len(records))(*[RecordStruct(*record) for record in records])
    if line < 0 or number_of("lookup", *slice_of(table), len(records), *slice_of(notes), line, part) == 0:
        return None
    return _like(text, notes[part[0]:part[0] + part[1]])


def explain(text: str | bytes, line: int, **options: typing.Unpack[Options]) -> Reason:
    """Why a line of the digest ends where it does.

    >>> rudignals.explain("aaaa bbbbb c", 0, width=10, quick=True)
    NotFit(column=10, gap=1, added=0, word=1)
    """
    notes, block, reason, before = bytes_of(text), block_of(options), (ctypes.c_uint64 * 6)(), 0
    for at, part in parts_of_notes(notes, most_for("explain")):
        code, number = call_for(part, "explain", *slice_of(block), *slice_of(part), max(line - before, -1) % (1 << 64), reason)
        if code == Code.DONE:
            return reason_of(list(reason))
        if code != Code.NO_LINE:
            raise _refused("explain", code, number, options, block, notes, at)
        before += number
    raise Refused(f"there is no line {line + 1}: the digest has {before} line{'' if before == 1 else 's'}", Code.NO_LINE, before)


def check(text: str | bytes, digest: str | bytes, **options: typing.Unpack[Options]) -> int | None:
    """None if a digest carries its notes; else the first of its lines that cannot be right. Each has at most 1,048,576 bytes.

    >>> print(rudignals.check("a b\\n", "a\\nb\\n"))
    None
    >>> rudignals.check("a b\\n", "a\\nc\\n")
    1
    """
    notes, made, block = bytes_of(text), bytes_of(digest), block_of(options)
    code, number = call_for(notes, "check", *slice_of(block), *slice_of(notes), *slice_of(made))
    if code == Code.LONG:
        raise Refused(f"the notes have more than {most_for('check')} bytes", code, number)
    if code == Code.LONG_DIGEST:
        raise Refused(f"the digest has more than {most_for('check')} bytes", code, number)
    if code not in (Code.DONE, Code.NOT_ACCEPTED):
        raise _refused("check", code, number, options, block, notes, 0)
    return number if code == Code.NOT_ACCEPTED else None


# ---- the wall

def panel(digest: str | bytes, tab_width: int = 8) -> list[str]:
    """The last 24 lines of a digest as the wall panel shows them: 24 rows, the newest at the bottom. A wide character is one character of its row.

    >>> rudignals.panel("a\\tb\\n")[-1].rstrip()
    'a       b'
    """
    text, cells = bytes_of(digest), (ctypes.c_uint32 * (PANEL_ROWS * PANEL_COLUMNS))()
    code, number = call("panel", *slice_of(text), _option_number(tab_width), cells)
    if code != Code.DONE:
        raise Refused(f"--tab-width {tab_width}: must be 0 to 100", code, number)
    return ["".join(chr(cell) for cell in cells[row:row + PANEL_COLUMNS] if cell) for row in range(0, PANEL_ROWS * PANEL_COLUMNS, PANEL_COLUMNS)]


def fold(text: Text, columns: int, tab_width: int = 8) -> Text:
    """A text with line feeds put in, so that no row takes more columns, except for a single character that is wider.

    >>> rudignals.fold("abcdef\\n", 4)
    'abcd\\nef\\n'
    """
    given, tab, most = bytes_of(text), _option_number(tab_width), _option_number(columns)
    code, number = call("fold", *slice_of(given), tab, most, None, 0)
    if code == Code.OPTIONS:
        raise Refused(f"--tab-width {tab_width}: must be 0 to 100" if not 0 <= tab_width <= 100 else f"columns {columns}: must be 1 to 1000", code, number)
    if code == Code.LONG:
        raise Refused("the text has more than 1073741824 bytes", code, number)
    output = ctypes.create_string_buffer(number)
    call("fold", *slice_of(given), tab, most, *slice_of(output))
    return _like(text, output.raw)


# ---- notes in ISO 8859-1

def mend(notes: bytes) -> Mended:
    """Notes in ISO 8859-1 made readable: in a line that is not UTF-8 each byte from 80 to FF becomes the same character in UTF-8. A line has at most 65,536 bytes.

    >>> rudignals.mend(b"40\\xb0\\n")
    Mended(copy=b'40\\xc2\\xb0\\n', changes=[(2, 176)])
    """
    copies, changes = list[bytes](), list[tuple[int, int]]()
    for at, part in parts_of_lines(bytes_of(notes)):
        size = len(part)
        copy, places, old = ctypes.create_string_buffer(2 * size), (ctypes.c_uint32 * size)(), (ctypes.c_uint8 * size)()
        code, number = call("mend", *slice_of(part), *slice_of(copy), *slice_of(places), *slice_of(old))
        if code != Code.DONE:
            raise refused_at(code, number, notes, at, f"the line has more than {MOST_NOTES} bytes")
        copies.append(copy.raw[:number])
        changes += [(at + place, byte) for place, byte in zip(places[:number - size], old[:number - size])]
    return Mended(b"".join(copies), changes)


def restore(mended: Mended) -> bytes:
    """The old notes from a mended copy and its changes.

    >>> rudignals.restore(rudignals.mend(b"40\\xb0\\n"))
    b'40\\xb0\\n'
    """
    out, length, done = list[bytes](), 0, 0
    for at, part in parts_of_copy(mended.copy):
        end = done
        while end < len(mended.changes) and mended.changes[end][0] + end < at + len(part):
            end += 1
        out.append(_restored(part, [(place - length, byte) for place, byte in mended.changes[done:end]], done))
        length, done = length + len(out[-1]), end
    if done < len(mended.changes):
        raise Refused(f"change {done} does not belong to the copy", Code.LIST, done)
    return b"".join(out)


def _restored(copy: bytes, changes: list[tuple[int, int]], before: int) -> bytes:
    """The old notes of a part of a copy; so many changes are before it."""
    right = list(itertools.takewhile(lambda change: 0 <= change[0] <= 0xFFFFFFFF and 0 <= change[1] <= 255, changes))
    places, old = (ctypes.c_uint32 * len(right))(*[place for place, _ in right]), (ctypes.c_uint8 * len(right))(*[byte for _, byte in right])
    notes = ctypes.create_string_buffer(len(copy))
    code, number = call("restore", *slice_of(copy), *slice_of(places), *slice_of(old), *slice_of(notes))
    if code == Code.DONE and len(right) < len(changes):
        code, number = Code.LIST, len(right)
    if code != Code.DONE:
        raise Refused(f"change {before + number} does not belong to the copy" if code == Code.LIST else "a line of the copy is longer than any mended one", code, before + number)
    return notes.raw[:number]


# ---- mail

def flow(text: Text, **options: typing.Unpack[Options]) -> Text:
    """The digest as the body of mail of format=flowed.

    >>> rudignals.flow("a\\nb\\n")
    'a b\\r\\n'
    """
    notes, block, out, dashes = bytes_of(text), block_of(options), [], ctypes.c_uint64()
    for at, part in parts_of_notes(notes, most_for("flow")):
        code, number = call_for(part, "flow", *slice_of(block), *slice_of(part), None, 0, ctypes.byref(dashes))
        if code == Code.OPTIONS and call("measure", *slice_of(block), None, 0)[0] == Code.DONE:
            raise Refused("mail takes no prefix, crown margin, tagged paragraphs or headers", code, number)
        if code not in (Code.DONE, Code.ROOM):
            raise _refused("flow", code, number, options, block, notes, at)
        output = ctypes.create_string_buffer(number)
        call_for(part, "flow", *slice_of(block), *slice_of(part), *slice_of(output), ctypes.byref(dashes))
        out.append(output.raw)
    return _like(text, b"".join(out))


def unflow(text: Text) -> Text:
    """Mail of format=flowed as one line for each paragraph. A paragraph has at most 65,536 bytes.

    >>> rudignals.unflow("a \\r\\nb\\r\\n")
    'a b\\r\\n'
    """
    mail, out = bytes_of(text), []
    for at, part in parts_of_mail(mail):
        code, number = call("unflow", *slice_of(part), None, 0)
        if code == Code.LONG:
            raise refused_at(code, number, mail, at, f"a paragraph has more than {MOST_NOTES} bytes")
        output = ctypes.create_string_buffer(number)
        call("unflow", *slice_of(part), *slice_of(output))
        out.append(output.raw)
    return _like(text, b"".join(out))
