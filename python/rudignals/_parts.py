"""Where a text may be cut into parts that a call takes: the parts' results, joined, are the whole text's."""
from __future__ import annotations

import typing

from ._library import MOST_COPY, MOST_NOTES

Parts = typing.Iterator[tuple[int, bytes]]


def _line_start(text: bytes, least: int, end: int) -> int:
    """The start of the line that has the byte before `end`, or `least` if it begins earlier."""
    return max(text.rfind(b"\n", least, end) + 1, least)


def _blank_cut(notes: bytes, at: int, most: int) -> int:
    """The end of the part that begins at `at`: at the last blank line within the limit. Before and after it notes may be cut, since a blank line is a
    full boundary. Only lines of ASCII blanks are looked for. Without one the part is all that is left."""
    limit, begin = at + most, _line_start(notes, at, at + most)
    while True:
        end = notes.find(b"\n", begin) + 1
        if end and not notes[begin:end].strip(b" \t\n\v\f\r"):
            cut = end if end <= limit else begin
            return cut if cut > at else len(notes)
        if begin == at:
            return len(notes)
        begin = _line_start(notes, at, begin - 1)


def _fixed_cut(mail: bytes, at: int, most: int) -> int:
    """Likewise for mail: after the last line that does not end in a space. It ends its paragraph."""
    end = mail.rfind(b"\n", at, at + most) + 1
    while end:
        line = mail[_line_start(mail, at, end - 1):end - 1]
        if not line.removesuffix(b"\r").endswith(b" "):
            return end
        end = mail.rfind(b"\n", at, end - 1) + 1
    return len(mail)


def _line_cut(text: bytes, at: int, most: int) -> int:
    """Likewise where each line is by itself."""
    return (text.rfind(b"\n", at, at + most) + 1) or len(text)


def _cut(text: bytes, most: int, cut: typing.Callable[[bytes, int, int], int]) -> Parts:
    at = 0
    while len(text) - at > most:
        end = cut(text, at, most)
        yield at, text[at:end]
        at = end
    if at < len(text) or not text:
        yield at, text[at:]


def parts_of_notes(notes: bytes, most: int) -> Parts:
    return _cut(notes, most, _blank_cut)


def parts_of_mail(mail: bytes) -> Parts:
    return _cut(mail, MOST_NOTES, _fixed_cut)


def parts_of_lines(notes: bytes) -> Parts:
    return _cut(notes, MOST_NOTES, _line_cut)


def parts_of_copy(copy: bytes) -> Parts:
    return _cut(copy, MOST_COPY, _line_cut)
