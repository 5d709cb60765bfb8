#!/usr/bin/env python3
"""How long audits take, for docs/FIGURES.md: time.py COMMAND

10,000 pairs of some 6 KB, one pair of 100 MB that is carried, one whose digest was cut at 60 MB, one with a hole of 1 MB in its middle. Of each: the
processor's time, user and system, how long it was until the end, and the most memory. Notes are words from a seed, formatted by COMMAND itself. It
needs 700 MB of room, in TMPDIR; the verdicts are held against what was done.
"""
import os
import pathlib
import random
import subprocess
import sys
import tempfile
import time

WORDS = "pump valve filter level pressure tripped restarted bled closed nominal check round gate flow low high bar night quiet handed over".split()


def notes_of(rng, size):
    """Paragraphs of 1 to 6 lines."""
    made, length = [], 0
    while length < size:
        for _ in range(rng.randrange(1, 7)):
            line = " ".join(rng.choices(WORDS, k=rng.randrange(4, 14))) + "\n"
            made.append(line)
            length += len(line)
        made.append("\n")
        length += 1
    return "".join(made).encode()


def timed(what, words, status, summary):
    began = time.monotonic()
    child = subprocess.Popen(words, stdout=subprocess.PIPE, stderr=subprocess.DEVNULL)
    output = child.stdout.read().decode(errors="replace").rstrip("\n").split("\n")[-1]
    _, ended, used = os.wait4(child.pid, 0)
    child.returncode = os.waitstatus_to_exitcode(ended)
    if child.returncode != status or summary not in output:
        sys.exit(f"time: {what}: status {child.returncode}, {output!r}; expected {status}, {summary!r}")
    print(f"{what}: {used.ru_utime:.2f} s user, {used.ru_stime:.2f} s system, {time.monotonic() - began:.2f} s until the end, {used.ru_maxrss / 1000:.1f} MB", flush=True)


def many(command, folder, rng):
    notes, digests = folder / "notes", folder / "digests"
    notes.mkdir(), digests.mkdir()
    for number in range(100):
        (folder / "sample").write_bytes(notes_of(rng, 6000))
        digest = subprocess.run([command, "format", folder / "sample"], stdout=subprocess.PIPE, check=True).stdout
        for copy in range(100):
            (notes / f"{number}-{copy}").write_bytes((folder / "sample").read_bytes())
            (digests / f"{number}-{copy}").write_bytes(digest)
    timed("10,000 pairs of 6 KB", [command, "audit", "--jobs", "2", notes, digests], 0, "10,000 pairs: 10,000 carried")


def one(command, folder, rng):
    notes, digest = folder / "n", folder / "d"
    part = notes_of(rng, 10_000_000)
    notes.write_bytes(b"".join(f"part {i}\n\n".encode() + part for i in range(10)))
    with open(digest, "wb") as file:
        subprocess.run([command, "format", notes], stdout=file, check=True)
    whole = digest.read_bytes()
    timed("one pair of 100 MB, carried", [command, "audit", notes, digest], 0, "1 pair: 1 carried")
    digest.write_bytes(whole[: 60_000_000])
    timed("its digest cut at 60 MB", [command, "audit", notes, digest], 1, "1 pair: 1 text missing")
    digest.write_bytes(whole[: 50_000_000] + whole[51_000_000:])
    timed("a hole of 1 MB in its middle", [command, "audit", notes, digest], 1, "1 pair: 1 text missing")


def main():
    command = pathlib.Path(sys.argv[1]).resolve()
    with tempfile.TemporaryDirectory() as name:
        folder = pathlib.Path(name)
        many(command, folder, random.Random(1))
        one(command, folder, random.Random(2))


main()
