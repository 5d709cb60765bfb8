"""--salvage: lines in ISO 8859-1 are mended in memory first, and it is said; nothing else changes."""
import os
import random
import re
import signal
import subprocess
import time

from .calls import ROOT, RUDIGNALS, at_hand, expect, expect_same, run
from .salvage import mended
from .words import LONG


def say_of(notes, label="standard input"):
    """What is said of notes, from the request's words and the option's: lines and bytes that were mended, and bytes that have no letter."""
    lines, changed = 0, []
    for line in notes.split(b"\n"):
        try:
            line.decode("utf-8")
        except UnicodeDecodeError:
            lines += 1
            changed += [byte for byte in line if byte >= 0x80]
    nameless = sum(byte <= 0x9F for byte in changed)
    words = f"{{}}: {label}: {lines} line{'s' * (lines != 1)} mended: {len(changed)} byte{'s' * (len(changed) != 1)} read as ISO 8859-1\n" if lines else ""
    return words + (f"{{}}: {label}: {nameless} mended byte{' is' if nameless == 1 else 's are'} of 80 to 9F, for which ISO 8859-1 has no letter; the notes may be windows-1252\n" if nameless else "")


# Notes, the digest and what is said, by hand.
BY_HAND = [
    (b"", b"", ""),
    (b"plain\nnotes\n", b"plain notes\n", ""),
    ("na\u00efve\n".encode(), "na\u00efve\n".encode(), ""),
    (b"caf\xe9\n", "caf\u00e9\n".encode(), "1 line mended: 1 byte read as ISO 8859-1"),
    (b"caf\xe9\nau lait, 41\xb0C\n", "caf\u00e9 au lait, 41\u00b0C\n".encode(), "2 lines mended: 2 bytes read as ISO 8859-1"),
    # a line is mended whole: the two bytes of an e with an accent are two letters of ISO 8859-1 beside a damaged one
    (b"\xc3\xa9 \xe9\n\n\xc3\xa9\n", "\u00c3\u00a9 \u00e9\n\n\u00e9\n".encode(), "1 line mended: 3 bytes read as ISO 8859-1"),
    # a no-break space and a next line are blanks once they are characters
    (b"a\xa0b \xe9\r\n", "a b \u00e9\n".encode(), "1 line mended: 2 bytes read as ISO 8859-1"),
    (b"\xff", "\u00ff\n".encode(), "1 line mended: 1 byte read as ISO 8859-1"),
]


def by_hand():
    for notes, digest, said in BY_HAND:
        words = f"rudignals: standard input: {said}\n" if said else ""
        for more in [], ["--keep"]:
            expect(f"format --salvage {more} of {notes!r}", run(["format", "-u", "--salvage", *more], notes, RUDIGNALS), (0, digest, words))
    quotes = b"\x93Valve\x94 \x80 5\n"
    status, output, words = run(["format", "--salvage"], quotes, RUDIGNALS)
    expect("bytes 80 to 9F", (status, output, words), (0, "\u0093Valve\u0094 \u0080 5\n".encode(), say_of(quotes).format("rudignals", "rudignals")))
    expect("three of them", "3 mended bytes are of 80 to 9F, for which ISO 8859-1 has no letter" in words, True)
    status, _, words = run(["format"], b"caf\xe9\n", RUDIGNALS)
    expect("without it the notes are refused", (status, "line 1, column 4" in words), (1, True))
    for name in "check", "index", "explain", "unflow", "restore":
        status, output, words = run([name, "--salvage"], b"", RUDIGNALS)
        expect(f"{name} does not have it", (status, output, words.split("\n")[0]), (2, b"", f"rudignals: --salvage: `rudignals {name}' does not have it"))


def said_of_both(notes, label="standard input"):
    words = say_of(notes, label)
    return words.format(*["rudignals"] * words.count("{}"))


LETTERS = "abcdefgh ,.\u00e4\u00f6\u00fc\u00df\u00e9\u00b0\u00c5"


def notes_of(rng, size):
    """Lines of every kind: ASCII, UTF-8, ISO 8859-1, anything."""
    lines, total = [], 0
    while total < size:
        text = "".join(rng.choice(LETTERS) for _ in range(rng.randrange(70)))
        lines.append(rng.choice([text.encode(), text.encode("latin-1"), b"", text.encode("ascii", "ignore"), bytes(rng.randrange(32, 256) for _ in range(rng.randrange(30)))]) + rng.choice([b"\n", b"\n", b"\r\n", b"\n\n"]))
        total += len(lines[-1])
    return b"".join(lines) + rng.choice([b"", b"end", b"\xe9"])


def as_the_copy(folder):
    """format, flow and page of the notes are those of the mended copy; from a pipe, from a file, and from one that is read twice."""
    rng = random.Random(2026)
    for size in [300] * 20 + [70000] * 2 + [3 << 20]:
        notes = notes_of(rng, size)
        copy, _ = mended(notes)
        path = folder / "notes"
        path.write_bytes(notes)
        said = said_of_both(notes)
        for arguments in ["format"], ["format", "--keep", "-w", "40"], ["flow"]:
            wanted = run(arguments, copy, RUDIGNALS)
            expect(f"{arguments} of {size} bytes", wanted[0], 0)
            found = run([*arguments, "--salvage"], notes, RUDIGNALS)
            expect(f"{arguments} --salvage of {size} bytes", (found[0], found[2]), (0, said + wanted[2]))
            expect_same(f"{arguments} --salvage of {size} bytes", found[1], wanted[1])
            found = run([*arguments, "--salvage", str(path)], b"", RUDIGNALS)
            expect(f"{arguments} --salvage of a file", found[1] == wanted[1] and found[2].startswith(said_of_both(notes, str(path))), True)


def said_once(folder):
    """Of each file what was mended in it: of the second reading alone, and not with the file before."""
    (folder / "long").write_bytes(b"caf\xe9 au lait\n\n" * 120000)  # read from the disk twice, and of several files three times
    (folder / "short").write_bytes(b"41\xb0C\n\x80\n")
    long = "rudignals: long: 120000 lines mended: 120000 bytes read as ISO 8859-1\n"
    short = "rudignals: short: 2 lines mended: 2 bytes read as ISO 8859-1\nrudignals: short: 1 mended byte is of 80 to 9F, for which ISO 8859-1 has no letter; the notes may be windows-1252\n"
    for arguments, said in ([["long"], long], [["long", "short"], long + short], [["short", "long", "short"], short + long + short], [["--skip-refused", "short", "long", "short"], short + long + short]):
        status, _, words = run(["format", "--salvage", *arguments], b"", RUDIGNALS, cwd=folder)
        expect(f"what is said of {arguments}", (status, words), (0, said))
    (folder / "bad").write_bytes(b"a\xff\n")
    status, output, words = run(["format", "short", "bad"], b"", RUDIGNALS, cwd=folder)
    expect("nothing is said to be mended of what is not written", (status, output, "mended" in words), (1, b"", False))


def as_iconv_has_it():
    """Where every line is ISO 8859-1, the copy is iconv's."""
    if not at_hand("as iconv has it", "iconv", "libc-bin"):
        return
    rng = random.Random(7)
    for _ in range(20):
        notes = b"".join("".join(rng.choice(LETTERS) for _ in range(60)).encode("latin-1") + b" \xe9\n" + b"\n" * rng.randrange(3) for _ in range(40))
        other = subprocess.run(["iconv", "-f", "ISO-8859-1", "-t", "UTF-8"], input=notes, stdout=subprocess.PIPE, check=True).stdout
        expect_same("as iconv", run(["format", "--salvage"], notes, RUDIGNALS)[1], run(["format"], other, RUDIGNALS)[1])


CROWD = b"a " * 524289  # more than a paragraph may have


def places():
    """The place of a refusal is that of the file as it is: line and column."""
    for notes, place in (b"\xe9\xe9\n\n" + CROWD, f"line 3, column 1: {LONG}"), (b"\xe9 b\nc\n\n\xb0 " + CROWD + b"\n", f"line 4, column 1: {LONG}"):
        for name in "format", "flow", "panel", "page":
            status, _, words = run([name, "--salvage"], notes, RUDIGNALS)
            expect(f"{name}: {place}", (status, f"rudignals: standard input: {place}" in words), (1, True))
    # 640,000 bytes without an empty line, of which the copy has 1,264,000
    status, _, words = run(["format", "--salvage"], b"ok \xe9\n\n" + (b"\xe9" * 39 + b"\n") * 16000, RUDIGNALS)
    expect("a copy that is too long", (status, f"line 3, column 1: {LONG}" in words), (1, True))


# Notes in parts of so many bytes, mended, with the counts behind them on standard error.
PROGRAM = r"""
#include "mend.h"
#include <stdarg.h>
#include <stdio.h>
#include <stdlib.h>
void say(const char *sentence, ...) { (void)sentence; }
static struct mender mender;
static void put(void) {
    uint8_t some[7];
    size_t got;
    while ((got = take_mended(&mender, some, sizeof some)) > 0)
        fwrite(some, 1, got, stdout);
}
int main(int count, char **words) {
    static uint8_t part[1 << 20];
    size_t most = count > 1 ? strtoul(words[1], NULL, 10) : 1, got;
    do {
        got = fread(part, 1, most, stdin);
        if (!mend_next(&mender, part, got, got == 0))
            return 1;
        put();
    } while (got > 0);
    fprintf(stderr, "%zu %zu %zu", mender.mended.lines, mender.mended.bytes, mender.mended.nameless);
    free_mender(&mender);
    return 0;
}
"""


def counted(notes):
    words = [int(number) for number in re.findall(r"(\d+) (?:line|byte|mended)", say_of(notes))]
    return words + [0] * (3 - len(words))


def long_lines(folder):
    """Lines that are longer than a call takes, cut anywhere: against the model, with calls of few bytes and of many."""
    source = folder / "mending.c"
    source.write_text(PROGRAM)
    rng = random.Random(11)
    command = ROOT / "command"
    for most in 8, 12, 65536:
        program = str(folder / f"mending-{most}")
        subprocess.run(["cc", "-std=c11", "-Wall", "-Wextra", "-Werror", "-g", "-fsanitize=address,undefined", "-fno-sanitize-recover=all", f"-DMOST_PART={most}", f"-I{command}", f"-I{ROOT}/include", "-o", program, str(source),
                        str(command / "mend.c"), str(command / "damage.c"), str(command / "buffer.c"), str(ROOT / "target/native/librudignals.a")], check=True)
        for _ in range(60 if most < 100 else 6):
            size = 200 if most < 100 else 300000
            characters = ["a", "b", "\u00e9", "\u20ac", "\U0001f527", "\n" if most < 100 else "c"]
            notes = b"".join(rng.choice(characters).encode() for _ in range(size)) + b"\n"
            for _ in range(rng.randrange(3)):
                at = rng.randrange(len(notes))
                notes = notes[:at] + rng.choice([b"\xe9", b"\x80", b"\xe2\x82", b"\xff\n", b"\n"]) + notes[at:]
            notes = rng.choice([notes, notes[:-1], b"x\xb0\n" + notes])
            given = rng.choice([1, 3, 50, 70000] if most < 100 else [5000, 65536, 70000])
            status, copy, words = run([str(given)], notes, program)
            expect(f"{len(notes)} bytes, calls of {most}, parts of {given}", (status, words), (0, " ".join(map(str, counted(notes)))))
            expect_same(f"{len(notes)} bytes, calls of {most}, parts of {given}", copy, mended(notes)[0])


def on_page_and_wall(folder):
    notes = b"22:40 Pump 2: 41\xb0C\n\n23:00 \x93calm\x94\n"
    words = said_of_both(notes)
    status, page, said = run(["page", "--salvage"], notes, RUDIGNALS)
    expect("the page", (status, said), (0, words))
    expect("the page says so", re.findall(rb"<li class=m>(.*)", page), [b"<strong>2 lines of the notes mended</strong>: 3 bytes that were no UTF-8 are read as ISO 8859-1. The notes here are the mended ones."
                                                                          b" ISO 8859-1 has no letter for 2 of these bytes, 80 to 9F: they may be windows-1252."])
    expect("the page shows the copy", "41\u00b0C".encode() in page and b"class=d" not in page, True)
    expect("and its wall panel says so", b"mended: 2 lines, 3 bytes; 3 lines, none damaged" in page, True)
    expect("nothing is said of notes that were not mended", b"class=m>" in run(["page", "--salvage"], b"ok\n", RUDIGNALS)[1], False)
    status, page, said = run(["page", "--salvage"], notes + b"\n" + CROWD, RUDIGNALS)
    expect("a refused page says so", (status, b"2 lines of the notes mended" in page, b"as they were mended" in page, b"line 5, column 1" in page, words in said), (1, True, True, True, True))
    status, drawn, said = run(["panel", "--salvage"], notes, RUDIGNALS)
    expect("the wall", (status, said, b"mended: 2 lines, 3 bytes; 3 lines, none damaged" in drawn, "41\u00b0C".encode() in drawn), (0, words, True, True))
    status, drawn, said = run(["panel", "--salvage"], notes + b"\n" + CROWD, RUDIGNALS)
    expect("a refused wall", (status, b"mended: 2 lines, 3 bytes" in drawn, words in said), (1, True, True))


def followed(folder):
    """--follow says it in every drawing, and on standard error when there is something else to say."""
    path, picture = folder / "notes", folder / "wall.svg"
    path.write_bytes(b"41\xb0C\n")
    child = subprocess.Popen([RUDIGNALS, "panel", "--follow", "--salvage", "--svg", str(picture), str(path)], stderr=subprocess.PIPE)

    def waits_for(words):
        until = time.monotonic() + 20
        while time.monotonic() < until:
            if picture.exists() and words in re.sub(rb"<[^>]*>", b"", picture.read_bytes()):
                return True
            time.sleep(0.05)
        return False

    expect("followed", waits_for(b"mended: 1 line, 1 byte;"), True)
    with path.open("ab") as file:
        file.write(b"\ncaf\xe9\n")
    expect("followed further", waits_for(b"mended: 2 lines, 2 bytes;"), True)
    os.kill(child.pid, signal.SIGTERM)
    said = child.communicate()[1].decode()
    expect("said once each", said.split("\n")[:2], [f"rudignals: {path}: 1 line mended: 1 byte read as ISO 8859-1", f"rudignals: {path}: 2 lines mended: 2 bytes read as ISO 8859-1"])


ALL = [by_hand, as_the_copy, said_once, as_iconv_has_it, places, long_lines, on_page_and_wall, followed]
