"""The command against the Rust original: whole files of some MB, and short notes in small parts. Left out where the Rust is not at hand."""
import gzip
import os
import pathlib
import random
import re
import subprocess
import zlib

from . import texts
from .calls import FMT, ROOT, SOURCES, expect, expect_same, link, run
from .short import cut_to, rows_of
from .words import DAMAGED, LONG

EVERY_FILE = "RUDIGNALS_EVERY_FILE" in os.environ  # not a sample of the machine's files; set by command/test
MACHINE = ["/usr/share/doc", "/usr/share/man", "/usr/share/common-licenses", "/etc"]

MOST = 1048576  # bytes of a paragraph

ORACLE = str(ROOT / "target/oracle/oracle")

# every kind of paragraph and both breakers, prefixes and blanks
OPTIONS = [
    [],
    ["-q"],
    ["-c"],
    ["-t", "-q"],
    ["-s", "-w", "40"],
    ["-u", "-w", "60", "-g", "50"],
    ["-m"],
    ["-m", "-c", "-q"],
    ["-p", ">"],
    ["-p", ">", "-x", "-m", "-q"],
    ["-p", "> ", "-t", "-u"],
    ["-P", "#", "-T", "4"],
    ["-P", "From ", "-X", "-c", "-w", "100"],
]


def at_hand():
    status = subprocess.run([str(ROOT / "tests/oracle/build")]).returncode
    if status == 77:
        print("command: left out: long files against the Rust original, which is not at hand (see tests/oracle/README.md)")
    elif status != 0:
        raise SystemExit("command: the Rust original is not built")
    return status == 0


def rust_on(arguments, notes):
    return subprocess.run([ORACLE, "fmt", *arguments], input=notes, stdout=subprocess.PIPE, check=True).stdout


def compare(what, arguments, notes, program=FMT):
    more = ["format"] if program != FMT else []
    status, output, errors = run([*more, *arguments], notes, program)
    expect_same(f"{what} under {arguments} {errors[:200]}", b"%d " % status + output, b"0 " + rust_on(arguments, notes))


def kept(what, arguments, notes):
    """The original has no keep. Lines with a skip prefix are plain too: here they are shown to the original in the place of damaged ones."""
    damaged = notes.replace(b"@@", b"\xfe\xff")
    wanted = rust_on([*arguments, "-P", "@@"], notes).replace(b"@@", b"\xfe\xff")
    status, output, errors = run([*arguments, "--keep"], damaged)
    expect_same(f"{what} damaged under {arguments} {errors[:200]}", b"%d " % status + output, b"0 " + wanted)


def whole_files(folder):
    small = link(folder, "small", f"-DMOST_PART={texts.SMALL}u", *SOURCES)
    for what, notes in [*texts.generated(), *texts.real()]:
        for arguments in OPTIONS:
            compare(what, arguments, notes)
        for arguments in [row for row in OPTIONS if "-P" not in row][::3]:
            kept(what, arguments, texts.some_marked(notes))
    for what, notes in texts.generated(texts.SMALL):
        for arguments in OPTIONS:
            compare(f"{what} in parts of {texts.SMALL}", arguments, notes, small)


def short_notes(folder, most, seed, count):
    """Random notes under random options that may be cut into parts of so many bytes."""
    program = link(folder, "tiny", f"-DMOST_PART={most}u", *SOURCES)
    answers = subprocess.run([ORACLE, "cases", "random", str(seed), str(count)], stdout=subprocess.PIPE, check=True, text=True).stdout
    cut_to(most, rows_of(answers), program, 600)


def machine_file(found, folder, number):
    """A file of text, unpacked, or None: what has a zero byte is no text, and what this user may not read is left out."""
    try:
        text = gzip.open(found).read() if found.suffix == ".gz" else found.read_bytes()
    except (OSError, EOFError, zlib.error):
        return None
    if b"\0" in text:
        return None
    path = folder / f"{number}"
    path.write_bytes(text)
    return path, text


def is_whole(text):
    try:
        text.decode("utf-8")
    except UnicodeDecodeError:
        return False
    return True


def longest(text):
    """The bytes of the longest stretch without an empty line; no paragraph has more."""
    return max(map(len, re.split(rb"(?<=\n)[ \t\v\f\r]*\n", text)))


def long_file(found, path, text):
    """A file with a stretch that may be one paragraph of over 1,048,576 bytes: as the original has it, or refused for that. Answers how often it was
    refused."""
    refused = 0
    for arguments in OPTIONS:
        status, output, errors = run([*arguments, path])
        if status == 1 and LONG in errors:
            expect(f"{found} under {arguments}, which is too long", output, b"")
            refused += 1
        else:
            expect_same(f"{found} under {arguments} {errors[:300]}", b"%d " % status + output, b"0 " + rust_on(arguments, text))
    return refused


def machine_batches(folder, step):
    """The files in heaps of 4 MB, each with its place; every so many alone."""
    heap, size, number = [], 0, 0
    for root in MACHINE:
        for found in sorted(path for path in pathlib.Path(root).rglob("*") if not path.is_symlink() and path.is_file()):
            number += 1
            made = machine_file(found, folder, number) if number % step == 0 else None
            if made is None:
                continue
            heap.append((found, *made))
            size += len(made[1])
            if size > 4000000:
                yield heap
                heap, size = [], 0
    yield heap


def machine(folder):
    """Text files of this machine, each as a file of its own, an empty line between two; the original is shown all of them in one. None may be
    refused but for damage, or for a paragraph of over 1,048,576 bytes."""
    (folder / "blank").write_bytes(b"\n")
    files = damaged = size = 0
    long = {}
    for heap in machine_batches(folder, 1 if EVERY_FILE else 100):
        good = [(path, text) for _, path, text in heap if is_whole(text) and longest(text) <= MOST]
        joined = b"".join((text if text.endswith(b"\n") or not text else text + b"\n") + b"\n" for _, text in good)
        for arguments in OPTIONS:
            status, output, errors = run([*arguments, *[name for path, _ in good for name in (path, folder / "blank")]])
            expect_same(f"files from {heap[0][0]} on under {arguments} {errors[:300]}", b"%d " % status + output, b"0 " + rust_on(arguments, joined))
        for found, path, text in heap:
            if not is_whole(text):
                status, output, errors = run([path])
                expect(f"{found}, which is damaged", (status, output, DAMAGED in errors or (longest(text) > MOST and LONG in errors)), (1, b"", True))
                damaged += 1
            elif longest(text) > MOST:
                long[found] = long_file(found, path, text)
            size += len(text)
            path.unlink()
        files += len(good)
    print(f"command: {files} text files of this machine under {len(OPTIONS)} sets of options, {size} bytes, {damaged} more refused for damage", flush=True)
    for found, refused in long.items():
        print(f"command: {found} has a stretch of over {MOST} bytes: refused under {refused} of {len(OPTIONS)} sets, equal under the others", flush=True)


def run_all(folder):
    if at_hand():
        random.seed(2026)
        whole_files(folder)
        short_notes(folder, 12, 17, 20000)
