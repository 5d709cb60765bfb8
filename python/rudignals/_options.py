"""The options by the command's long names, and the option block that the library reads."""
from __future__ import annotations

import typing

FLAGS = ["crown_margin", "tagged_paragraph", "preserve_headers", "split_only", "uniform_spacing", "quick", "exact_prefix", "exact_skip_prefix", "keep", "glue", "sentence_characters"]
NUMBERS = ["width", "goal", "tab_width"]
PREFIXES = ["prefix", "skip_prefix"]


class Options(typing.TypedDict, total=False):
    """The options of formatting, by the command's long names. The library alone says whether a value is right."""

    crown_margin: bool
    tagged_paragraph: bool
    preserve_headers: bool
    split_only: bool
    uniform_spacing: bool
    quick: bool
    exact_prefix: bool
    exact_skip_prefix: bool
    keep: bool
    glue: bool
    sentence_characters: bool
    width: int
    goal: int
    tab_width: int
    prefix: str | bytes
    skip_prefix: str | bytes


def bytes_of(text: str | bytes) -> bytes:
    if isinstance(text, str):
        return text.encode("utf-8")
    if isinstance(text, bytes):
        return text
    raise TypeError(f"text is str or bytes, not {type(text).__name__}")


def number_of(value: int) -> int:
    """What two bytes cannot hold is given as 65,535, which the library refuses for every option."""
    if not isinstance(value, int):
        raise TypeError(f"a number is int, not {type(value).__name__}")
    return value if 0 <= value <= 65535 else 65535


def _field(tag: int, value: bytes) -> bytes:
    return bytes([tag]) + len(value).to_bytes(2, "big") + value


def block_of(options: Options) -> bytes:
    """The option block. An option that is None was not given. Of a prefix that is too long so much is put that the library refuses it."""
    unknown = set(options) - set(FLAGS) - set(NUMBERS) - set(PREFIXES)
    if unknown:
        raise TypeError(f"no such option: {', '.join(sorted(unknown))}")
    given: dict[str, typing.Any] = dict(options)
    flags = sum(1 << bit for bit, name in enumerate(FLAGS) if given.get(name))
    block = _field(1, flags.to_bytes(2, "big")) if flags else b""
    for tag, name in enumerate(NUMBERS, 2):
        if given.get(name) is not None:
            block += _field(tag, number_of(given[name]).to_bytes(2, "big"))
    for tag, name in enumerate(PREFIXES, 5):
        if given.get(name) is not None:
            block += _field(tag, bytes_of(given[name])[:256])
    return block
