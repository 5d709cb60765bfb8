#!/usr/bin/env python3
"""The lines that the model of the writer sends are those of the digest: lines.py LIBRARY [SEED [COUNT]]

The library formats generated notes with quick and uniform on; the model's lines, each with a line feed behind it, must be the same, and so must
codes 0, 3 and the place. Split, keep, glue, the count of sentences by characters, tab widths and skip prefixes vary.
Exit: 0 no difference, 1 a difference.
"""
import ctypes
import sys

import model
import texts

UNIFORM, QUICK = 16, 32
FLAGS = ((8, "split"), (256, "keep"), (512, "glue"), (1024, "characters"))


def options(rng):
    """A block and what the model takes for it."""
    flags, width, tab, chosen = UNIFORM | QUICK, rng.choice([10, 20, 40, 72]), rng.choice([0, 3, 8]), {}
    for bit, name in FLAGS:
        if rng.random() < 0.25:
            flags |= bit
            chosen[name] = True
    block = bytes([1, 0, 2, flags >> 8, flags & 255, 2, 0, 2, 0, width, 4, 0, 2, 0, tab])
    if rng.random() < 0.3:
        chosen["skip"] = rng.choice([b"", b">", b"--", b"From"])
        block += bytes([6, 0, len(chosen["skip"])]) + chosen["skip"]
    return block, model.Options(width=width, tab=tab, **chosen)


def digest(notes, o):
    found = b""
    for piece in model.pieces(notes, o):
        if piece is None:
            found += b"\n"
        elif isinstance(piece, bytes):
            found += piece + b"\n"
        else:
            found += b"".join(piece[1] + b"".join(line) + b"\n" for line in model.broken(piece[3], piece[2], o.width))
    return found


def main():
    write = ctypes.CDLL(sys.argv[1]).rudignals_write
    write.restype = ctypes.c_uint64
    write.argtypes = [ctypes.c_char_p, ctypes.c_size_t, ctypes.c_char_p, ctypes.c_size_t, ctypes.c_void_p, ctypes.c_size_t]
    seed, count = (int(a) for a in (sys.argv[2:] + ["2026", "20000"][len(sys.argv) - 2 :]))
    out, rng, refused = ctypes.create_string_buffer(1 << 20), texts.seeded(seed), 0
    for number in range(count):
        block, o = options(rng)
        notes = texts.notes(rng) if rng.random() < 0.8 else texts.anything(rng)
        if rng.random() < 0.3:
            notes = notes.replace(b"a", rng.choice([b"\xc2\xa0", b"\xff", b"\xc2\x85", b"a.  b"]))
        answer = write(block, len(block), notes, len(notes), ctypes.addressof(out), len(out))
        code, value = answer >> 32, answer & 0xFFFFFFFF
        want = model.flow(o, notes, 1 << 20)
        if code != want[0] or (code and value != want[1]) or (not code and out.raw[:value] != digest(notes, o)):
            raise SystemExit(f"lines: notes {number}, block {block.hex()}: {notes!r}: {code} {value} {out.raw[:value]!r}, the model {want[:2]} {digest(notes, o)!r}")
        refused += code == 3
    print(f"lines: {count} notes, {refused} of them refused by both, no difference")


main()
