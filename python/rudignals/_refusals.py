"""What the library refuses, as an exception with the words that the command says."""
from __future__ import annotations

import typing

from ._library import Code
from ._options import NUMBERS, PREFIXES, Options, bytes_of


class Refused(ValueError):
    """The library refuses a call.

    `code` is the library's code and `number` the N of its answer. Where the refusal has a place in the notes, `place` is its offset in bytes
    from 0, and `line` and `column` are its line and its column in characters, from 1; elsewhere they are None. The message is the one that
    the command gives; the option that it calls `--keep` is `keep=True` here.

    >>> try:
    ...     rudignals.format(b"Valve at 40\\xb0, bled.\\n")
    ... except rudignals.Refused as refused:
    ...     print(refused.code.name, refused.place, refused.line, refused.column)
    TEXT 11 1 12
    """

    def __init__(self, words: str, code: Code, number: int = 0, place: int | None = None, line: int | None = None, column: int | None = None) -> None:
        super().__init__(words)
        self.code, self.number, self.place, self.line, self.column = code, number, place, line, column

    def __reduce__(self) -> tuple[typing.Any, ...]:
        return Refused, (str(self), self.code, self.number, self.place, self.line, self.column)


Refused.__module__ = "rudignals"


def _must_be(options: Options, name: str, rule: str) -> str:
    return f"--{name.replace('_', '-')} {options[name]}: must be {rule}"  # type: ignore[literal-required]


def _options_words(options: Options, block: bytes, offset: int) -> str:
    """What the command says of refused options. At the end of the block there is no field: width and goal do not go together."""
    if offset == len(block):
        if options.get("goal") is None:
            return _must_be(options, "width", "6 to 1000 without --goal")
        if options.get("width") is None:
            return _must_be(options, "goal", "3 to 940 without --width")
        return _must_be(options, "goal", f"{(options['width'] + 1) // 2} to {options['width']} with --width {options['width']}")
    name = (NUMBERS + PREFIXES)[block[offset] - 2]
    if name in NUMBERS:
        return _must_be(options, name, "0 to 100" if name == "tab_width" else "1 to 1000")
    length = len(bytes_of(options[name]))  # type: ignore[literal-required]
    return f"--{name.replace('_', '-')}: must " + (f"have at most 255 bytes, and has {length}" if length > 255 else "be UTF-8")


def options_refused(number: int, options: Options, block: bytes) -> Refused:
    return Refused(_options_words(options, block, number), Code.OPTIONS, number)


def refused_at(code: Code, number: int, notes: bytes, place: int, words: str) -> Refused:
    """A refusal at an offset of the notes."""
    line, start = notes.count(b"\n", 0, place) + 1, notes.rfind(b"\n", 0, place) + 1
    column = 1 + sum(byte & 0xC0 != 0x80 for byte in notes[start:place])
    return Refused(f"line {line}, column {column}: {words}", code, number, place, line, column)


def notes_refused(code: Code, number: int, notes: bytes, before: int, most: int) -> Refused:
    """The refusal of a part of the notes that begins at the offset `before`, by a call that takes `most` bytes."""
    if code == Code.TEXT:
        place = before + number
        return refused_at(code, number, notes, place, f"byte {notes[place]:02X} begins no UTF-8 character; --keep leaves such a line as it is")
    if code == Code.WORDS:
        return refused_at(code, number, notes, before + number, "the paragraph that begins here has more than 1024 words; part it by an empty line")
    return refused_at(code, number, notes, before, f"more than {most} bytes from here on have no empty line; put one between paragraphs")
