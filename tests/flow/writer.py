#!/usr/bin/env python3
"""The library's writer against the model: writer.py LIBRARY [SEED [COUNT]]

By hand, on generated notes and on bytes of any kind, with varied options; with all the room that is needed, with one byte less, with none and
with more. The output, the bytes around it and the count of lines `--` are compared whole, on refusals too; so are the blocks that the writer
refuses. What was written is read by the library's reader, and must come back as the model reads it. The same notes, and longer ones, are written
in lent room: with none, with what code 12 asks for, with a number less, and with what is always enough. Before that, rules changed on purpose
must be seen, and faults put in after the large call. Exit: 0 no difference, 1 a difference.
"""
import ctypes
import sys

import model
import texts

EDGE = 16  # bytes on either side of the output, which stay as they are
FLAGS = ((8, "split"), (16, None), (32, None), (64, None), (256, "keep"), (512, "glue"), (1024, "characters"))


class Writer:
    def __init__(self, path):
        library = ctypes.CDLL(path)
        self.call, self.read = library.rudignals_flow, library.rudignals_unflow
        for call in self.call, self.read:
            call.restype = ctypes.c_uint64
        part = [ctypes.c_char_p, ctypes.c_size_t]
        self.call.argtypes = part + part + [ctypes.c_void_p, ctypes.c_size_t, ctypes.POINTER(ctypes.c_uint64)]
        self.read.argtypes = part + [ctypes.c_void_p, ctypes.c_size_t]
        self.lent = library.rudignals_flow_large
        self.lent.restype, self.lent.argtypes = ctypes.c_uint64, self.call.argtypes + [ctypes.c_void_p, ctypes.c_size_t]
        self.calls, self.fault = 0, None

    def __call__(self, block, notes, room, numbers=None):
        """Code, N, the output afterwards, between its edges, and the count; with so many numbers lent, which lie between edges too."""
        before = b"\xa5" * (room + 2 * EDGE)
        held, dashes = ctypes.create_string_buffer(before, len(before)), ctypes.c_uint64(77)
        self.calls += 1
        given = block, len(block), notes, len(notes), ctypes.addressof(held) + EDGE if room else None, room, ctypes.byref(dashes)
        if numbers is None:
            answer = self.call(*given)
        else:
            work = ctypes.create_string_buffer(4 * numbers + 2 * EDGE)
            answer = self.lent(*given, ctypes.addressof(work) + EDGE if numbers else None, numbers)
            if work.raw[:EDGE] + work.raw[EDGE + 4 * numbers :] != bytes(2 * EDGE):
                raise SystemExit(f"writer: {notes[:200]!r}, {numbers} numbers: written beside the lent room")
            answer += self.fault is not None and answer >> 32 == self.fault
        after = held.raw
        if after[:EDGE] != before[:EDGE] or after[EDGE + room :] != before[:EDGE]:
            raise SystemExit(f"writer: {notes!r}, room {room}: written beside the output")
        return answer >> 32, answer & 0xFFFFFFFF, after[EDGE : EDGE + room], dashes.value

    def back(self, mail):
        held = ctypes.create_string_buffer(4 * len(mail) + 1)
        answer = self.read(mail, len(mail), ctypes.addressof(held), len(held) - 1)
        return held.raw[: answer & 0xFFFFFFFF] if answer >> 32 == 0 else None


def number(tag, value):
    return bytes([tag, 0, 2, value >> 8, value & 255])


def options(rng):
    """A block that the writer takes, and what the model takes for it."""
    flags, chosen, block = 0, {}, b""
    for bit, name in FLAGS:
        if rng.random() < 0.25:
            flags |= bit
            if name:
                chosen[name] = True
    if flags or rng.random() < 0.5:
        block += number(1, flags)
    chosen["width"] = rng.choice([10, 20, 40, 72, 79])
    if chosen["width"] != 79:
        block += number(2, chosen["width"])
    if rng.random() < 0.5:
        chosen["tab"] = rng.choice([0, 3, 8])
        block += number(4, chosen["tab"])
    if rng.random() < 0.3:
        chosen["skip"] = rng.choice([b"", b">", b"--", b"From"])
        block += bytes([6, 0, len(chosen["skip"])]) + chosen["skip"]
        chosen["exact_skip"] = False
    return block, model.Options(**chosen)


def refused_blocks(rng):
    """Blocks that are right in themselves, and that the writer refuses with their length; and faulty ones, with the fault's place."""
    for bit in 1, 2, 4, 7, 1 | 8, 2 | 8, 3 | 8, 4 | 16, 1 | 1024:
        yield number(1, bit), None
        yield number(1, bit) + number(2, 40), None
    for prefix in b"", b">", b"x" * 255:
        yield bytes([5, 0, len(prefix)]) + prefix, None
        yield number(1, 32) + number(2, 40) + bytes([5, 0, len(prefix)]) + prefix + bytes([6, 0, 1]) + b"#", None
    yield number(1, 2048), 0
    yield number(1, 1) + number(1, 1), 5
    yield number(1, 1) + number(2, 5), 10
    yield number(2, 40) + number(1, 0), 5
    yield number(1, 1) + b"\x07", 5
    yield bytes([5, 1, 0]) + b"x" * 256, 0
    yield number(1, 4) + bytes([rng.randrange(7, 256)]) + b"\0\0", 5


def expected(o, notes, room, *limits):
    code, value, output, dashes = model.flow(o, notes, room, *limits)
    return code, value, (b"" if output is None else output) + b"\xa5" * (room - len(output or b"")), dashes


def compare(write, block, o, notes):
    code, needed, _, _ = model.flow(o, notes, 1 << 26)
    needed = needed if code == 0 else 40
    for room in {needed, max(needed - 1, 0), 0, needed + 3}:
        got, want = write(block, notes, room), expected(o, notes, room)
        if got != want:
            return f"block {block.hex()}, {notes[:200]!r}, room {room}: {str(got)[:300]}, the model {str(want)[:300]}"
    return None


LARGE = 1048576, 1 << 30  # RULES 19: the most bytes; words without a limit


def compare_lent(write, block, o, notes):
    """The same in lent room: what code 12 asks for is enough, a number less is not, and is asked for again."""
    code, size, _, _ = model.flow(o, notes, 1 << 26, *LARGE)
    size = size if code == 0 else 40
    always = 8 * (len(notes) + 1) if len(notes) <= LARGE[0] else 16
    asked, need, output, dashes = write(block, notes, size, 0)
    if asked != 12:
        need = 0
    elif code or need > always or output != b"\xa5" * size or dashes:
        return f"block {block.hex()}, {notes[:200]!r}: 12 and {need}, the model {code}"
    elif not any(isinstance(piece, list) for piece in model.pieces(notes, o)):
        return f"block {block.hex()}, {notes[:200]!r}: 12 without a paragraph"
    for room in {size, max(size - 1, 0)}:
        want = expected(o, notes, room, *LARGE)
        tried = [(need, want), (always, want)] + ([(need - 1, (12, need, b"\xa5" * room, 0))] if need else [])
        for numbers, right in tried:
            got = write(block, notes, room, numbers)
            if got != right:
                return f"block {block.hex()}, {notes[:200]!r}, room {room}, {numbers} numbers lent: {str(got)[:300]}, the model {str(right)[:300]}"
    return None


def longer(rng, notes):
    """Notes that the small call refuses: a paragraph of over 1,024 words, or over 65,536 bytes."""
    if rng.random() < 0.5:
        return b"x " * rng.randrange(1000, 3000) + b"\n" + notes
    return (notes + b"\n") * (rng.choice([66000, 100000, 200000]) // (len(notes) + 1) + 1)


NARROW = number(2, 10), model.Options(width=10)
HAND = [
    b"", b"\n", b"\r\n", b" \t\n", b"a", b"a\r", b"a  b\n", b"x a.\nb\n", b"aaaa bbbbb c\n", b"aaaaaaaa -- bbbbbbbb c\n", b"-- \naaaaaaaa\n", b"  -- aaaaaa\n", b"aaaaaaaa --\n",
    b"From x is long\n", b"aaaaaa From bbbbbb\n", b"aaaaaaaa From\n", b"> aaaaaaa >b\n", b"  a bbbbbb\n", b"a\r\n\r\nb", b"--\n", b"-- -- aaaaaaaa -- aaaaaaaa --\n",
    b"\tFrom a b c d\n", b"From" + b"x" * 20 + b" y\n", b"Fro m aaaaaaa\n", b"--- aaaaaaaa\n", b"- aaaaaaaaaa\n", b">" * 30 + b" a\n", b"a " * 1024, b"a " * 1025, b"b\n" + b"a " * 1025,
    b"x" * model.MOST_BYTES, b"\n" * model.MOST_BYTES, b"x" * (model.MOST_BYTES + 1), b"\xff", b"a\xc3", (b" " * 512 + b"a " * 40 + b"\n") * 4, b"a \n" * 20000,
]
PLAIN = bytes([6, 0, 0]), model.Options(skip=b"")
HAND_PLAIN = [b"a  \n", b"-- \n", b"--  \n", b"From  \n", b"From x\n", b" >\n", b"x \r", b" -- \n", b"-- x \n", b"   a   ", b">  \n", b"F\nFr\nFro\nFrom\nFrom.\n", b"a \t \n"]


def changed_rules():
    """Each a changed rule of the model, which the comparison must see."""
    kept = model.flowed_piece

    def last_soft(piece, o):
        sent, dashes = kept(piece, o)
        return (sent[:-2] + b" \r\n", dashes) if isinstance(piece, list) else (sent, dashes)

    def dashes_soft(piece, o):
        sent, dashes = kept(piece, o)
        return sent.replace(b"--\r\n", b"-- \r\n", 1), dashes

    def not_counted(piece, o):
        return kept(piece, o)[0], 0

    def spaces_stay(piece, o):
        return (model.stuffed(piece) + b"\r\n", 0) if isinstance(piece, bytes) else kept(piece, o)

    def separator_trimmed(piece, o):
        return (model.stuffed(piece.rstrip(b" ")) + b"\r\n", 0) if isinstance(piece, bytes) else kept(piece, o)

    yield "the last line is soft", "flowed_piece", last_soft
    yield "`--` is sent as `-- `", "flowed_piece", dashes_soft
    yield "`--` is not counted", "flowed_piece", not_counted
    yield "a plain line keeps its spaces", "flowed_piece", spaces_stay
    yield "a plain `-- ` loses its space", "flowed_piece", separator_trimmed
    yield "`>` is not stuffed", "stuffed", lambda c: b" " + c if c.startswith((b" ", b"From ")) else c
    yield "a space is not stuffed", "stuffed", lambda c: b" " + c if c.startswith((b">", b"From ")) else c
    yield "`From ` is not stuffed", "stuffed", lambda c: b" " + c if c.startswith((b" ", b">")) else c
    yield "`From` is stuffed", "stuffed", lambda c: b" " + c if c.startswith((b" ", b">", b"From")) else c


def by_hand(write, most=1 << 30):
    for (block, o), given in (NARROW, HAND), (PLAIN, HAND_PLAIN):
        for notes in given:
            fault = len(notes) < most and compare(write, block, o, notes)
            if fault:
                return fault
    return None


def refusals(write, rng):
    count = 0
    for block, place in refused_blocks(rng):
        for notes in b"a b\n", b"\xff", b"x" * (model.MOST_BYTES + 1), b"a " * 1025:
            for room in 0, 50:
                want = 1, len(block) if place is None else place, b"\xa5" * room, 0
                got = write(block, notes, room)
                if got != want:
                    raise SystemExit(f"writer: block {block.hex()}: {got}, not {want}")
                count += 1
    return count


def lent(write, rng, count):
    """The large call: faults put in after it are seen, then at its limits and on generated notes. How many were compared."""
    block, o = NARROW
    faults = [(0, b"a b\n"), (5, b"a b\n"), (12, b"a b\n"), (3, b"\xff"), (2, b"x" * (LARGE[0] + 1))]
    for code, notes in faults:
        write.fault = code
        if not compare_lent(write, block, o, notes):
            raise SystemExit(f"writer: a fault in the large call's answer {code} is not seen")
    write.fault = None
    print(f"writer: {len(faults)} of {len(faults)} faults after the large call seen")
    at_limits = [b"a " * 1025, b"b\n" + b"a " * 1025, b"x" * LARGE[0], b"x" * (LARGE[0] + 1), b"\n" * 100000, b"a " * 100000]
    given = [*at_limits, *(notes for notes in HAND if len(notes) < 65000)]
    for notes in given:
        fault = compare_lent(write, block, o, notes)
        if fault:
            raise SystemExit(f"writer: {fault}")
    for number_of in range(count):
        block, o = options(rng)
        notes = texts.notes(rng)
        if number_of % 400 == 399:
            notes = longer(rng, notes)
        fault = compare_lent(write, block, o, notes)
        if fault:
            raise SystemExit(f"writer: large, notes {number_of}: {fault}")
    return len(given) + count


def main():
    write = Writer(sys.argv[1])
    seed, count = (int(a) for a in (sys.argv[2:] + ["2026", "20000"][len(sys.argv) - 2 :]))
    rules = list(changed_rules())
    for name, which, rule in rules:
        kept = getattr(model, which)
        setattr(model, which, rule)
        found = by_hand(write, 1000)
        setattr(model, which, kept)
        if not found:
            raise SystemExit(f"writer: a changed rule is not seen: {name}")
    print(f"writer: {len(rules)} changed rules of {len(rules)} seen")
    fault = by_hand(write)
    if fault:
        raise SystemExit("writer: " + fault)
    rng = texts.seeded(seed)
    print(f"writer: {refusals(write, rng)} calls with blocks that are refused, no difference")
    write.calls, total, dashes, refused = 0, 0, 0, 0
    for number_of in range(count):
        block, o = options(rng)
        notes = texts.notes(rng) if rng.random() < 0.85 else texts.anything(rng)
        if rng.random() < 0.3:
            notes = notes.replace(b"a", rng.choice([b"\xc2\xa0", b"\xff", b"\xc2\x85", b"a.  b"]))
        fault = compare(write, block, o, notes)
        if fault:
            raise SystemExit(f"writer: notes {number_of}: {fault}")
        code, value, output, made = write(block, notes, 1 << 16)
        if code == 0:
            if write.back(output[:value]) != model.unflowed(output[:value]):
                raise SystemExit(f"writer: notes {number_of}: {output[:value]!r} is not read as the model reads it")
            dashes += made
        refused += code == 3
        total += len(notes)
    small = write.calls
    print(f"writer: {lent(write, rng, count // 4)} notes in lent room, {write.calls - small} of the calls below, no difference")
    print(f"writer: {len(HAND) + len(HAND_PLAIN)} notes by hand; {count} generated, {total} bytes, {write.calls} calls, {dashes} lines `--`, {refused} refused, no difference")


if __name__ == "__main__":
    main()
