"""The shared library by ctypes, which lets other threads run during a call."""
from __future__ import annotations

import ctypes
import enum
import os
import typing

MOST_NOTES = 65536
MOST_LARGE = 1048576
MOST_COPY = 2 * MOST_NOTES
PANEL_ROWS, PANEL_COLUMNS = 24, 80


class Code(enum.IntEnum):
    """What a call of the library answers.

    >>> rudignals.Code.TEXT.words
    'a character of the notes is damaged'
    """

    DONE = 0
    OPTIONS = 1
    LONG = 2
    TEXT = 3
    WORDS = 4
    ROOM = 5
    INDEX_FULL = 6
    LIST_FULL = 7
    NO_LINE = 8
    LONG_DIGEST = 9
    NOT_ACCEPTED = 10
    LIST = 11
    WORK_ROOM = 12

    @property
    def words(self) -> str:
        """The code in a few words."""
        words: bytes = _library.rudignals_code_words(self.value)
        return words.decode()


class RecordStruct(ctypes.Structure):
    """`struct rudignals_record`."""

    _fields_ = [("place", ctypes.c_uint64), ("length", ctypes.c_uint64), ("first", ctypes.c_uint64), ("count", ctypes.c_uint64)]


def _load() -> ctypes.CDLL:
    """The library, with the types of every call: a slice is a pointer and a length."""
    try:
        library = ctypes.CDLL(os.environ.get("RUDIGNALS_LIBRARY", "librudignals.so.1"))
    except OSError as fault:
        raise ImportError(f"{fault}; install Debian's librudignals1, or name the library in RUDIGNALS_LIBRARY (make leaves it in target/package)") from None
    part: list[typing.Any] = [ctypes.c_void_p, ctypes.c_size_t]
    number, put = ctypes.c_uint64, ctypes.c_void_p
    calls = {
        "measure": part * 2, "write": part * 3, "write_indexed": [*part * 4, put], "lookup": [*part, number, *part, number, put], "explain": [*part * 2, number, put], "check": part * 3,
        "panel": [*part, number, put], "fold": [*part, number, number, *part], "mend": part * 4, "restore": part * 4, "flow": [*part * 3, put], "unflow": part * 2,
    }
    calls.update({f"{name}_large": [*calls[name], *part] for name in ("measure", "write", "write_indexed", "explain", "flow", "check") if hasattr(library, f"rudignals_{name}_large")})
    for name, arguments in calls.items():
        function = getattr(library, f"rudignals_{name}")
        function.argtypes, function.restype = arguments, ctypes.c_uint64
    library.rudignals_version.argtypes, library.rudignals_version.restype = [], ctypes.c_char_p
    library.rudignals_code_words.argtypes, library.rudignals_code_words.restype = [ctypes.c_uint32], ctypes.c_char_p
    return library


_library = _load()


def version() -> str:
    """The version of the library that is loaded.

    >>> rudignals.version() >= "1.1.0"
    True
    """
    words: bytes = _library.rudignals_version()
    return words.decode()


def number_of(name: str, *arguments: typing.Any) -> int:
    """What a call answers, as it is."""
    answer: int = getattr(_library, f"rudignals_{name}")(*arguments)
    return answer


def call(name: str, *arguments: typing.Any) -> tuple[Code, int]:
    """The code and the number that a call answers."""
    code, number = divmod(number_of(name, *arguments), 1 << 32)
    return Code(code), number


def most_for(name: str) -> int:
    """How many bytes of notes a call takes, in lent working room where the library has such a call."""
    return MOST_LARGE if hasattr(_library, f"rudignals_{name}_large") else MOST_NOTES


def call_for(notes: bytes, name: str, *arguments: typing.Any) -> tuple[Code, int]:
    """The call for these notes: the small one and, where it refuses for length or words, the large one with working room that is always enough."""
    code, number = call(name, *arguments)
    if code in (Code.LONG, Code.WORDS, Code.LONG_DIGEST) and len(notes) <= most_for(name) == MOST_LARGE:
        work = (ctypes.c_uint32 * (8 * (len(notes) + 1)))()
        code, number = call(f"{name}_large", *arguments, *slice_of(work))
    return code, number


def slice_of(elements: bytes | ctypes.Array[typing.Any]) -> tuple[typing.Any, int]:
    return elements, len(elements)
