#!/usr/bin/env python3
"""Digests of several programs and one-place damages of them, by the library and by the model: scale.py LIBRARY ORACLE SEED COUNT [FAULT]

For each of COUNT notes by chance: the library's own digest, that of the Rust original (ORACLE, if it is there), of GNU fmt and of par, and each
damage of two accepted ones. What is accepted must be exactly what the model accepts, and the line named that of the model. Every digest of the
library must be accepted, and of GNU fmt every one of simple prose, tagged paragraphs apart, whose indents it takes from elsewhere. FAULT changes the
library's answers on purpose; then a difference must be seen. Exit: 0 no difference, 3 one, which is printed, 1 anything else.
"""
import collections
import os
import random
import shutil
import subprocess
import sys

import texts
from cases import CASES
from damages import damaged
from library import Library
from model import MOST, MOST_LARGE, Machine, Options, judged, refusal, refusal_lent

FAULTS = {
    "line": lambda answer: (answer[0], answer[1] + 1) if answer[0] == 10 else answer,
    "short": lambda answer: (0, 0) if answer[0] == 10 and answer[1] > 3 else answer,
    "strict": lambda answer: (10, 0) if answer == (0, 0) else answer,
    "order": lambda answer: (9, 0) if answer[0] == 4 else answer,
    "room": lambda answer: (12, answer[1] + 1) if answer[0] == 12 else answer,
    "twelve": lambda answer: (9, 0) if answer[0] == 12 else answer,
}
os.environ["LC_ALL"] = "C"


def run(words, notes):
    done = subprocess.run(words, input=notes, stdout=subprocess.PIPE, stderr=subprocess.DEVNULL)
    return done.stdout if done.returncode == 0 else None


def by_rust(oracle, o, notes):
    """The Rust knows neither keep nor glue nor the bit of sentence characters; fmt and par know fewer."""
    if not os.access(oracle, os.X_OK) or o.keep or o.glue or o.characters:
        return None
    g, words = o.given, [oracle, "fmt", "--build", "cube"]
    for name, word in [("crown", "-c"), ("tagged", "-t"), ("mail", "-m"), ("split", "-s"), ("uniform", "-u"), ("quick", "-q"), ("exact_prefix", "-x"), ("exact_skip", "-X")]:
        words += [word] if g.get(name) else []
    for name, word in [("width", "-w"), ("tab", "-T"), ("prefix", "-p"), ("skip", "-P")]:
        words += [word, g[name].decode() if isinstance(g[name], bytes) else str(g[name])] if name in g else []
    return run(words, notes)


def is_gnu():
    return shutil.which("fmt") is not None and b"GNU coreutils" in (run(["fmt", "--version"], b"") or b"")


def by_fmt(gnu, o, notes):
    if not gnu or o.skip is not None or o.mail:
        return None
    g, words = o.given, ["fmt", "-w", str(o.given.get("width", 79))]
    for name, word in [("crown", "-c"), ("tagged", "-t"), ("split", "-s"), ("uniform", "-u")]:
        words += [word] if g.get(name) else []
    words += ["-p", o.prefix.decode()] if o.prefix else []
    return run(words, notes)


def by_par(o, notes):
    if not shutil.which("par") or o.prefix or o.skip is not None or o.crown or o.tagged or o.mail or o.split:
        return None
    return run(["par", "s0", str(o.given.get("width", 79))], notes)


def main():
    library, oracle, seed, count = Library(sys.argv[1]), sys.argv[2], int(sys.argv[3]), int(sys.argv[4])
    fault = FAULTS[sys.argv[5]] if len(sys.argv) > 5 else lambda answer: answer
    chance, gnu = random.Random(seed), is_gnu()
    tried, good, refused = collections.Counter(), collections.Counter(), 0

    def compare(kind, o, notes, digest, want):
        got = fault(library.check(o.block(), notes, digest))
        tried[kind] += 1
        good[kind] += got[0] == 0
        if got != want:
            print(f"check: {kind}, seed {seed}: {o.given} {notes[:2000]!r} {digest[:2000]!r}: {got}, not {want}")
            sys.exit(3)
        return got[0] == 0

    def compare_lent(o, notes, digest, verdict):
        """The large call with the room that the model says it needs, with one number less, and with none."""
        early, _, needed = refusal_lent(o, notes, MOST_LARGE * 16)
        for numbers in {needed, max(needed, 1) - 1, 0}:
            want = early or ((12, needed) if numbers < needed else (9, 0) if len(digest) > MOST_LARGE else verdict)
            got = fault(library.check_large(o.block(), notes, digest, numbers))
            tried["in lent room"] += 1
            good["in lent room"] += got[0] == 0
            if got != want:
                print(f"check: {numbers} numbers lent, seed {seed}: {o.given} {notes[:2000]!r} {digest[:2000]!r}: {got}, not {want}")
                sys.exit(3)

    for o, notes, digest, code, n in CASES:
        compare("by hand", o, notes, digest, (code, n))
    for block in (b"\1", b"\1\0\2\x10\0", b"\2\0\2\0\5"):
        if fault(library.check(block, b"\xff" * 70000, b"x" * 70000)) != library.measure(block, b"\xff" * 70000):
            sys.exit(f"check: a faulty block {block!r} is not refused first")

    for _ in range(count):
        o, simple = texts.options(chance), chance.randrange(5) == 0
        notes = texts.simple(chance) if simple else texts.notes(chance, o)
        code, found = refusal(o, notes)
        if code:
            refused += 1
            compare("refused notes", o, notes, b"x" * chance.choice([0, 3, MOST + 1]), code)
            compare_lent(o, notes, b"x" * chance.choice([0, MOST_LARGE + 1]), (10, 0))
            continue
        machine = Machine(o, found)
        own = library.digest(o.block(), notes)
        digests = {"own": own}
        if simple or chance.randrange(5) == 0:
            digests |= {"the Rust": by_rust(oracle, o, notes), "GNU fmt": by_fmt(gnu, o, notes), "par": by_par(o, notes)}
        accepted = []
        for kind, digest in digests.items():
            if digest is not None and len(digest) <= MOST:
                compare_lent(o, notes, digest, judged(machine, digest))
                if compare(kind, o, notes, digest, judged(machine, digest)):
                    accepted.append(digest)
                elif kind == "own" or kind == "GNU fmt" and simple and not o.tagged:
                    sys.exit(f"check: {kind}: refused, seed {seed}: {o.given} {notes!r}")
        for digest in accepted[:2]:
            for kind, other in damaged(chance, digest):
                compare("damage: " + kind, o, notes, other, judged(machine, other))
                if chance.randrange(8) == 0:
                    compare_lent(o, notes, other, judged(machine, other))
    # more words to a paragraph and more bytes than the small call takes, each limit at its edge and one beside it
    for size in (1025, 3000, 40000):
        for quick in (False, True):
            o, words = Options(quick=quick), [b"w%d" % chance.randrange(1000) for _ in range(size)]
            notes, digest = b" ".join(words), b"\n".join(words) + b"\n"
            if fault(library.check(o.block(), notes, digest)) != ((2, 0) if len(notes) > MOST else (4, 0)):
                sys.exit("check: the small call takes too many words")
            for other, verdict in [(digest, (0, 0)), (b" ".join(words) + b"\n", (0, 0)), (digest[:-1], (10, size - 1)), (digest + b"\n", (10, size)), (digest.replace(b"\n", b"\n ", 1), (10, 1))]:
                compare_lent(o, notes, other, verdict)
    for size in (MOST_LARGE, MOST_LARGE + 1):
        compare_lent(Options(), b"\n" * size, b"\n" * size, (0, 0))
        compare_lent(Options(), b"a", b"\n" * size, (10, 0))
    total = sum(tried.values())
    for kind in tried:
        print(f"{kind:28} {tried[kind]:8} checked, {good[kind]:8} accepted")
    lame = [kind for kind in tried if kind.startswith("damage") and good[kind] == tried[kind]]
    if lame or good["own"] != tried["own"]:
        sys.exit(f"check: {lame} never refused")
    for program in ("the Rust", "GNU fmt", "par"):
        if not tried[program]:
            print(f"check: left out: {program}, which is not at hand")
    print(f"at scale: {total} digests of {count} notes, {refused} of them refused, no difference")


main()
