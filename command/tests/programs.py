"""./digest, and the host in examples/."""
import os
import subprocess

from .calls import ROOT, expect, link, run

DIGEST = str(ROOT / "digest")
REFUSED = "digest: the notes were refused\n"


def digest(folder):
    """Status 0 and a digest, or status 1; a digest that reads like a refusal is one."""
    subprocess.run([DIGEST], input=b"", stdout=subprocess.DEVNULL, check=True)  # builds what is not built, and says so
    through = folder / "through"
    through.symlink_to(DIGEST)
    for notes in b"refused 3 0\n", b"digest: x\n", b"":
        expect(f"a digest of {notes}", run([], notes, DIGEST), (0, notes, ""))
    expect("./digest through a link", run([], b"a\nb\n", str(through), cwd=folder), (0, b"a b\n", ""))
    expect("damaged notes", run([], b"a\xb0", DIGEST), (1, b"refused 3 1\n", REFUSED))
    expect("long notes", run([], b"a" * 65537, DIGEST), (1, b"refused 2 0\n", REFUSED))
    expect("many words", run([], b"\na " + b"b " * 1024, DIGEST), (1, b"refused 4 1\n", REFUSED))
    expect("no room", run([], b"a" * 65536, DIGEST), (1, b"refused 5 65537\n", REFUSED))


def digest_streams():
    with open("/dev/full", "wb") as full:
        expect("a full device", run([], b"a\n", DIGEST, stdout=full), (1, None, "digest: standard output could not be written\n"))
        expect("a refusal on a full device", run([], b"\xb0", DIGEST, stdout=full), (1, None, REFUSED))
    folder = os.open("/", os.O_RDONLY)
    expect("a folder", run([], folder, DIGEST), (1, b"", "digest: standard input could not be read\n"))
    os.close(folder)
    for sign, words in ("<&-", "digest: standard input could not be read\n"), (">&-", "digest: standard output is closed\n"):
        done = subprocess.run(["sh", "-c", f'exec "$0" {sign}', DIGEST], input=b"", stderr=subprocess.PIPE)
        expect(f"closed, {sign}", (done.returncode, done.stderr.decode()), (1, words))
    reading, writing = os.pipe()
    os.close(reading)
    expect("a pipe that nobody reads", run([], b"a\n", DIGEST, stdout=writing)[0], 1)
    os.close(writing)


def digest_usage():
    status, output, errors = run(["notes"], b"", DIGEST)
    expect("an argument", (status, output, errors.split("\n")[:2]), (2, b"", ["digest: notes: no argument is taken", "Usage: ./digest < NOTES"]))
    for asked in "-h", "--help":
        status, output, errors = run([asked], b"", DIGEST)
        expect(f"./digest {asked}", (status, output.split(b"\n")[0], errors), (0, b"Usage: ./digest < NOTES", ""))


def example(folder):
    """A page, and what it shows."""
    source = ROOT / "examples/host.c"
    expect("a page", len(source.read_text().split("\n")) <= 60, True)
    host = link(folder, "host", str(source))
    expect("the example", run([], b"a\nb\n", host), (0, b"a b\n", ""))
    expect("a width", run(["8"], b"aaaa bbbb cc\n", host), (0, b"aaaa\nbbbb cc\n", ""))
    expect("more room", run(["6"], b" " * 2000 + b"a " * 1000, host), (0, (b" " * 2000 + b"a\n") * 1000, ""))
    refused = [
        (["5"], b"a\n", "the width must be 6 to 1000; fault in the block at byte 10"),
        ([], b"a" * 65537, "the notes have over 65536 bytes; N is 0"),
        ([], b"a\n\xb0\n", "a damaged character at byte 2"),
        ([], b"\n" + b"a " * 1025, "over 1024 words in the paragraph at byte 1"),
    ]
    for arguments, notes, words in refused:
        expect(f"the example refuses {notes[:20]}", run(arguments, notes, host), (1, b"", f"refused: {words}\n"))


# The room that the header names: a call with so much is never refused for room, and needs most of it for these.
BOUNDS = r"""
#include <rudignals.h>
#include <stdio.h>
#include <stdlib.h>
#include <string.h>
static void tell(const char *name, uint64_t answer, size_t room) { printf("%s %u %u of %zu\n", name, (unsigned)rudignals_code_of(answer), (unsigned)rudignals_number_of(answer), room); }
int main(void) {
    static uint8_t notes[RUDIGNALS_MOST_NOTES];
    size_t length = 30000 + 2 * RUDIGNALS_MOST_WORDS, room = RUDIGNALS_MOST_FLOWED(length), i;
    uint8_t *output = malloc(room);
    uint64_t dashes, worst = 0, answer;
    memset(notes, ' ', sizeof notes);
    for (i = 30000; i < length; i += 2)
        notes[i] = 'a';
    tell("flow", rudignals_flow((const uint8_t *)"\2\0\2\0\6", 5, notes, length, output, room, &dashes), room);
    room = RUDIGNALS_MOST_DIGEST(length);
    tell("digest", rudignals_write((const uint8_t *)"\2\0\2\0\6", 5, notes, length, output, room), room);
    for (i = 0; i < 15625; i++) { /* every text of six of these signs */
        static const char SIGNS[] = "> \n\ra";
        size_t k, rest = i;
        for (k = 0; k < 6; k++, rest /= 5)
            notes[k] = (uint8_t)SIGNS[rest % 5];
        for (k = 0; k <= 6; k++) {
            answer = rudignals_unflow(notes, k, output, RUDIGNALS_MOST_UNFLOWED(k));
            worst = answer > worst ? answer : worst;
        }
    }
    tell("unflow", worst, RUDIGNALS_MOST_UNFLOWED(6));
    free(output);
    return 0;
}
"""


def bounds(folder):
    source = folder / "bounds.c"
    source.write_text(BOUNDS)
    # a line of 30,001 columns for each word, and a line end of one byte or of three with the space before it, none behind the last
    flow, written = 1024 * 30001 + 1024 * 3 - 1 + 1024, 1024 * 30002
    room = 30000 + 2 * 1024
    status, output, words = run([], b"", link(folder, "bounds", str(source)))
    *told, read = (output.decode().split("\n") + [""] * 3)[:3]
    expect("the header's room", (status, told, words), (0, [f"flow 0 {flow} of {3120 * room}", f"digest 0 {written} of {1040 * room}"], ""))
    expect("of what is read", (read[:9], read[-6:]), ("unflow 0 ", " of 24"))


ALL = [digest, digest_streams, digest_usage, example, bounds]
