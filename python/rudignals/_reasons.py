"""Why a line of a digest ends where it does: a class for each reason, with the numbers that the breaker worked with."""
from __future__ import annotations

import dataclasses
import typing


@dataclasses.dataclass(frozen=True)
class Reason:
    """Why a line of the digest ends where it does."""


@dataclasses.dataclass(frozen=True)
class EndOfParagraph(Reason):
    """The paragraph ends."""


@dataclasses.dataclass(frozen=True)
class PlainLine(Reason):
    """The line is not formatted."""


@dataclasses.dataclass(frozen=True)
class BlankLine(Reason):
    """The line is blank."""


@dataclasses.dataclass(frozen=True)
class NotFit(Reason):
    """With `quick`, and in mail headers: the next word did not fit. The four numbers together are more than the width."""

    column: int
    gap: int
    added: int
    word: int


@dataclasses.dataclass(frozen=True)
class Chosen(Reason):
    """The breaker chose this break. `columns` are those of the line; `length`, `word` and `difference` rate its length, its last word and its difference from
    the line before; `cost` is (1 + length + word + difference) squared."""

    columns: int
    length: int
    word: int
    difference: int
    cost: int


@dataclasses.dataclass(frozen=True)
class ForcedBefore(Reason):
    """No line could take the next word, and the break is before it."""


@dataclasses.dataclass(frozen=True)
class ForcedAfter(Reason):
    """No line could take the last word; the lesser evil was to put it on this line, and the break is after it."""


_KINDS: list[type[Reason]] = [EndOfParagraph, PlainLine, BlankLine, NotFit, Chosen, ForcedBefore, ForcedAfter]


def reason_of(numbers: typing.Sequence[int]) -> Reason:
    """The reason that the library's six numbers mean."""
    kind = _KINDS[numbers[0]]
    return kind(*numbers[1:1 + len(dataclasses.fields(kind))])
