#!/usr/bin/env python3
"""The library's reader against the model: reader.py LIBRARY [SEED [COUNT]]

By hand, on generated mail and on bytes of any kind; with all the room that is needed, with one byte less, with none and with more. Output and the
bytes around it are compared whole, on refusals too. Before that, rules changed on purpose must be seen.
Exit: 0 no difference, 1 a difference.
"""
import ctypes
import sys

import model
import texts

EDGE = 16  # bytes on either side of the output, which stay as they are


class Reader:
    def __init__(self, path):
        self.call = ctypes.CDLL(path).rudignals_unflow
        self.call.restype = ctypes.c_uint64
        self.call.argtypes = [ctypes.c_char_p, ctypes.c_size_t, ctypes.c_void_p, ctypes.c_size_t]
        self.calls = 0

    def __call__(self, text, room):
        """Code, N, and the output afterwards, between its edges; None if it is as it was."""
        before = b"\xa5" * (room + 2 * EDGE)
        held = ctypes.create_string_buffer(before, len(before))
        self.calls += 1
        answer = self.call(text, len(text), ctypes.addressof(held) + EDGE if room else None, room)
        after = held.raw
        if after[:EDGE] != before[:EDGE] or after[EDGE + room :] != before[:EDGE]:
            raise SystemExit(f"reader: {text!r}, room {room}: written beside the output")
        output = after[EDGE : EDGE + room]
        return answer >> 32, answer & 0xFFFFFFFF, None if output == before[EDGE : EDGE + room] else output


def expected(text, room):
    code, number, output = model.unflow(text, room)
    if output is not None:
        output = output + b"\xa5" * (room - len(output))
    return code, number, output if room else None


def compare(read, text, rooms=None):
    needed = len(model.unflowed(text)) if len(text) <= model.MOST_BYTES else 10
    for room in rooms or {needed, max(needed - 1, 0), 0, needed + 3}:
        got, want = read(text, room), expected(text, room)
        if got != want and not (want[2] is not None and got[2] is None and want[2] == b"\xa5" * room):
            return f"{text[:200]!r}, room {room}: {str(got)[:300]}, the model {str(want)[:300]}"
    return None


HAND = [
    b"", b"\n", b"\r\n", b"\r", b" ", b">", b">\n", b"> \n", b"-- ", b"-- \n", b" -- \na\n", b">-- \n>a\n", b"> -- \n>a\n", b">  -- \n>a\n", b"a \n-- \nb\n",
    b"a \n\nb\n", b"a \n>b\n", b">a \n>>b\n", b">a \n> b\n", b"From x\n", b"From\n", b">From x\n", b"From \nx\n", b" From x\n", b" > a\n", b"> > a\n", b"  a\n",
    b"a \r\nb \r\nc\r\n", b"a \r", b"a \n", b"--\n", b"--  \nx\n", b"\0 \n\0\n", b"\xff \n\xfe", b"a\r\r\n", b" \n \n \n", b">" * 5000, b"x \n" * 5000,
    b"x" * model.MOST_BYTES, b"\n" * model.MOST_BYTES, b">" * model.MOST_BYTES, b"x" * (model.MOST_BYTES + 1), b"> \n" * 21845,
]


def changed_rules():
    """Each a changed rule of the model, which the comparison must see."""
    seen = []
    kept = model.taken_apart, model.stuffed, model.paragraphs

    def delsp(text):
        return [(d, c.replace(b" ", b"", 1) if c.endswith(b" ") else c) for d, c in kept[2](text)]

    def no_depth(text):
        read, is_open = [], False
        for line in model.lines(text):
            depth, content, separator, soft = model.taken_apart(line)
            if is_open and not separator:
                read[-1] = read[-1][0], read[-1][1] + content
            else:
                read.append((depth, content))
            is_open = soft
        return read

    def joined_separator(line):
        depth, content, _, _ = kept[0](line)
        return depth, content, False, content.endswith(b" ")

    def stuffed_separator(line):
        depth, content, _, _ = kept[0](line)
        separator = content == model.SEPARATOR
        return depth, content, separator, content.endswith(b" ") and not separator

    seen.append(("a soft line loses its space", "paragraphs", delsp))
    seen.append(("depth is not compared", "paragraphs", no_depth))
    seen.append(("`-- ` is joined", "taken_apart", joined_separator))
    seen.append(("a stuffed ` -- ` is a separator", "taken_apart", stuffed_separator))
    seen.append(("`>` is not stuffed", "stuffed", lambda c: b" " + c if c.startswith((b" ", b"From ")) else c))
    seen.append(("`From ` is not stuffed", "stuffed", lambda c: b" " + c if c.startswith((b" ", b">")) else c))
    return seen


def main():
    read = Reader(sys.argv[1])
    seed, count = (int(a) for a in (sys.argv[2:] + ["2026", "100000"][len(sys.argv) - 2 :]))
    for name, which, rule in changed_rules():
        kept = getattr(model, which)
        setattr(model, which, rule)
        found = any(compare(read, text) for text in HAND if len(text) < 1000)
        setattr(model, which, kept)
        if not found:
            raise SystemExit(f"reader: a changed rule is not seen: {name}")
    print(f"reader: {len(changed_rules())} changed rules of {len(changed_rules())} seen")
    for text in HAND:
        fault = compare(read, text)
        if fault:
            raise SystemExit("reader: " + fault)
    read.calls, rng, total = 0, texts.seeded(seed), 0
    for number in range(count):
        text = (texts.mail if number % 3 else texts.anything)(rng)
        fault = compare(read, text)
        if fault:
            raise SystemExit(f"reader: text {number}: {fault}")
        total += len(text)
    print(f"reader: {len(HAND)} texts by hand; {count} generated, {total} bytes, {read.calls} calls, no difference")


main()
