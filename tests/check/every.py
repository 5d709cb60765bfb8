#!/usr/bin/env python3
"""Every digest of a few symbols for short notes, by the library and by the model: every.py PROGRAM [SYMBOLS]

Exit: 0 all agree, 1 one does not, which is printed.
"""
import subprocess
import sys

from model import Machine, Options, pieces

S = b"\xc2\xa0"
USUAL = [b"a", b"b", b" ", S, b"\n"]
NOTES = [
    (Options(), b"", USUAL),
    (Options(), b"\n", USUAL),
    (Options(), b"a b\n", USUAL),
    (Options(), b"a\n\nb\n", USUAL),
    (Options(), b" a\n b\n", USUAL),
    (Options(), b"ab a\n", USUAL),
    (Options(), b"a b a", USUAL),
    (Options(uniform=True, quick=True), b"a a\n\na\n", USUAL),
    (Options(glue=True), b"a b\n", USUAL),
    (Options(glue=True), b"a" + S + b"b a\n", USUAL),
    (Options(glue=True, prefix=b"b"), b"b" + S + b"a\nb" + S + b"a\n", USUAL),
    (Options(glue=True, prefix=b"b"), b"b" + S + S + b"a\n", USUAL),
    (Options(prefix=b"b"), b"ba a\na\n", USUAL),
    (Options(prefix=b"b"), b"b a\n b a\n", USUAL),
    (Options(tagged=True), b"a b\n", [b"a", b"b", b"    ", b" ", b"\n"]),
    (Options(crown=True), b" a\nb\n", USUAL),
    (Options(mail=True), b"a: b\n a\n", [b"a", b"a:", b"b", b" ", b"\n"]),
    (Options(split=True), b"a\nb\n", USUAL),
    (Options(keep=True), b"a\n\xb0\nb\n", [b"a", b"b", b"\xb0", b" ", b"\n"]),
    (Options(), b"a\r\nb\n", [b"a", b"b", b"\r", b"\t", b"\n"]),
    (Options(skip=b"a"), b"a b\n", USUAL),
    (Options(), "\u00e4 \u6f22\n".encode(), ["\u00e4".encode(), "\u6f22".encode(), "\u3000".encode(), b"\xe3\x80", b"\n"]),
]


def verdicts(machine, symbols, depth):
    """One byte for each digest, in the order of the program's walk."""
    out = bytearray()

    def told(states, line, fresh):
        return 255 if fresh and machine.ends(states) else line

    def walk(states, line, fresh, fault, left):
        out.append(told(states, line, fresh) if fault is None else fault)
        if not left:
            return
        for s in symbols:
            now, at, new, bad = states, line, fresh, fault
            for b in s:
                new = False
                if now:
                    now = machine.step(now, b)
                if b == 10:
                    if not now and bad is None:
                        bad = at
                    at, new = at + 1, True
            walk(now, at, new, bad, left - 1)

    walk(machine.start(), 0, True, None, depth)
    return bytes(out)


def named(symbols, depth, number):
    """The digest of a number, in the order of the walk."""
    size = [sum(len(symbols) ** k for k in range(d + 1)) for d in range(depth + 1)]
    out = b""
    while number:
        number -= 1
        out += symbols[number // size[depth - 1]]
        number, depth = number % size[depth - 1], depth - 1
    return out


def main():
    program, depth = sys.argv[1], int(sys.argv[2]) if len(sys.argv) > 2 else 8
    count = accepted = 0
    for o, notes, symbols in NOTES:
        words = [program, str(depth), *(part.hex() for part in (o.block(), notes, *symbols))]
        got = subprocess.run(words, stdout=subprocess.PIPE, check=True).stdout
        want = verdicts(Machine(o, pieces(o, notes)), symbols, depth)
        if got != want:
            at = next((i for i in range(min(len(got), len(want))) if got[i] != want[i]), -1)
            sys.exit(f"every: {o.given} {notes!r} {named(symbols, depth, at)!r}: {got[at]}, not {want[at]}")
        count += len(got)
        accepted += got.count(255)
    if not accepted:
        sys.exit("every: none is accepted")
    print(f"every digest of up to {depth} of 5 symbols, for {len(NOTES)} notes: {count} checked, {accepted} of them accepted, no difference")


main()
