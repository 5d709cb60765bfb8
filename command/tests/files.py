"""Files and streams, whole and broken."""
import os
import shutil
import subprocess
import tempfile
import time

from .calls import FMT, ROOT, RUDIGNALS, SANITIZED, SOURCES, expect, link, run
from .words import DAMAGED, LONG


def several(folder):
    """Several files, each by itself; if something is wrong with one, none is written, or a line in its place says so."""
    for name, text in [("one", b"a\nb"), ("two", b"c\nd\n"), ("bad", b"ok\n\xb0\n"), ("-c", b"e\nf\n")]:
        (folder / name).write_bytes(text)
    expect("two files", run(["one", "two"], cwd=folder), (0, b"a b\nc d\n", ""))
    expect("options behind files", run(["one", "-s", "two"], cwd=folder), (0, b"a\nb\nc\nd\n", ""))
    expect("a width and files", run(["-6", "one", "two"], cwd=folder), (0, b"a b\nc d\n", ""))
    expect("standard input among files", run(["one", "-", "two"], b"x\ny\n", cwd=folder), (0, b"a b\nx y\nc d\n", ""))
    expect("standard input twice", run(["-", "-"], b"x\ny\n"), (0, b"x y\n", ""))
    expect("a file named as an option", run(["--", "-c"], cwd=folder), (0, b"e f\n", ""))
    expect("a missing file", run(["one", "none", "two"], cwd=folder), (1, b"", "fmt: none: No such file or directory\n"))
    expect("a missing file, skipped", run(["--skip-refused", "one", "none", "two"], cwd=folder), (1, b"a b\nREFUSED: none: No such file or directory\nc d\n", "fmt: none: No such file or directory\n"))
    expect("standard input among files, and one that is refused", run(["-", "bad"], b"x\ny\n", cwd=folder)[:2], (1, b""))
    expect("every refusal is told", run(["none", "bad"], cwd=folder)[2].count("\n"), 2)
    expect("an odd name", run(["a\nb\x1b[31m"], cwd=folder), (1, b"", "fmt: a^Jb^[[31m: No such file or directory\n"))
    expect("a folder", run([".", "two"], cwd=folder), (1, b"", "fmt: .: Is a directory\n"))
    refusal = "bad: line 2, column 1: byte B0 " + DAMAGED
    expect("a refused file: none is written", run(["one", "bad", "two"], cwd=folder), (1, b"", "fmt: " + refusal))
    expect("a refused file: skipped, with a line in its place", run(["--skip-refused", "one", "bad", "two"], cwd=folder), (1, b"a b\nREFUSED: " + refusal.encode() + b"c d\n", "fmt: " + refusal))
    expect("refused options, before any file", run(["-w", "5", "none"], cwd=folder)[2], "fmt: --width 5: must be 6 to 1000 without --goal\n")
    if os.getuid() != 0:
        (folder / "two").chmod(0)
        expect("a file not to be read", run(["two"], cwd=folder), (1, b"", "fmt: two: Permission denied\n"))


def read_in_pieces():
    child = subprocess.Popen([FMT], stdin=subprocess.PIPE, stdout=subprocess.PIPE)
    for piece in b"a b", b"c\nd", b"\n":
        child.stdin.write(piece)
        child.stdin.flush()
        time.sleep(0.05)
    expect("notes that come in pieces", (child.communicate()[0], child.returncode), (b"a bc d\n", 0))


def endless():
    """Notes that must be refused are not read to their end."""
    expect("an endless file", run(["/dev/zero"]), (1, b"", "fmt: /dev/zero: line 1, column 1: " + LONG))
    with tempfile.TemporaryFile() as file:
        file.write(b"a" * 3000000)
        file.seek(0)
        expect("a long file", run([], file), (1, b"", "fmt: standard input: line 1, column 1: " + LONG))
        expect("no more read than the widest window has", os.lseek(file.fileno(), 0, os.SEEK_CUR), 2 * 1048576)


def not_written():
    with open("/dev/full", "wb") as full:
        for program, arguments in (FMT, []), (FMT, ["--help"]), (FMT, ["-V"]), (RUDIGNALS, ["--help"]), (FMT, ["--skip-refused", "-", "none"]):
            name = os.path.basename(program)
            told = f"{name}: standard output: No space left on device\n"
            expect(f"a full device, {arguments}", run(arguments, b"a\n", program, stdout=full), (1, None, told))
    reading, writing = os.pipe()
    os.close(reading)
    for notes in b"a\n", b"a\n\n" * 100000:
        expect("a pipe that nobody reads", run([], notes, stdout=writing), (1, None, "fmt: standard output: Broken pipe\n"))
    os.close(writing)


def closed(folder):
    (folder / "notes").write_bytes(b"a\n")
    for name, arguments, sign in ("input", "", "<&-"), ("output", "", ">&-"), ("output", "notes", ">&-"), ("output", "--help", ">&-"):
        done = subprocess.run(["sh", "-c", f'exec "$0" {arguments} {sign}', FMT], input=b"", stderr=subprocess.PIPE, cwd=folder)
        expect(f"standard {name} closed, {arguments}", (done.returncode, done.stderr), (1, b"fmt: standard %s: Bad file descriptor\n" % name.encode()))
    done = subprocess.run(["sh", "-c", 'exec "$0" notes - <&-', FMT], stdout=subprocess.PIPE, stderr=subprocess.PIPE, cwd=folder)
    wanted = (1, b"", b"fmt: standard input: Bad file descriptor\n")
    expect("standard input closed, behind a file", (done.returncode, done.stdout, done.stderr), wanted)
    expect("the file is as it was", (folder / "notes").read_bytes(), b"a\n")


def no_memory(folder):
    """The same command with memory that does not grow over 200,000 bytes."""
    (folder / "poor.c").write_text(
        "#include <stddef.h>\nvoid *__real_realloc(void *, size_t);\nvoid *__wrap_realloc(void *, size_t);\n"
        "void *__wrap_realloc(void *old, size_t n) { return n > 200000 ? NULL : __real_realloc(old, n); }\n"
    )
    poor = link(folder, "poor", "-Wl,--wrap=realloc", *SOURCES, str(folder / "poor.c"))
    text, notes_themselves = "no memory for the formatted text", "Cannot allocate memory"
    cases = [("one part", b" " * 2000 + b"a " * 1000, text), ("short notes, which are kept", b"a\n\n" * 90000, notes_themselves)]
    for what, notes, why in cases:
        (folder / "grows").write_bytes(notes)
        words = f"rudignals: grows: {why}\n"
        expect(f"no memory, {what}", run(["format", "-w6", "--skip-refused", "grows", "-"], b"x\ny\n", poor, cwd=folder), (1, b"REFUSED: " + words.split(": ", 1)[1].encode() + b"x y\n", words))


def copied(folder):
    """The program itself: it may be copied, and linked to, anywhere."""
    other = folder / "elsewhere"
    other.mkdir()
    (other / "fmt").symlink_to(RUDIGNALS)
    (other / "twice").symlink_to(other / "fmt")
    expect("a link named fmt", run([], b"a\nb\n", str(other / "fmt")), (0, b"a b\n", ""))
    expect("a link of another name", run(["format"], b"a\nb\n", str(other / "twice")), (0, b"a b\n", ""))
    expect("the program itself", open(RUDIGNALS, "rb").read(4), b"\x7fELF")
    for name, arguments in ("copy", ["format"]), ("fmt", []):
        (other / name).unlink(missing_ok=True)
        shutil.copy(RUDIGNALS, other / name)
        expect(f"a copy named {name}", run(arguments, b"a\nb\n", str(other / name)), (0, b"a b\n", ""))


def built_while_it_runs(folder):
    """`make' while the command runs, from each place where it is put: the one that runs goes on, and the new one is in its place."""
    packaged = ROOT / "target/package/rudignals"
    builds = [(RUDIGNALS, [str(ROOT / "command/build"), *(["--sanitized"] if SANITIZED else [])]), (str(folder / "program"), [str(ROOT / "tools/link"), str(folder / "program"), *SOURCES])]
    builds += [] if SANITIZED else [(str(packaged), [str(ROOT / "tools/package"), "build"])]
    for program, words in builds:
        subprocess.run(words, capture_output=True, check=True)
        before = os.stat(program).st_ino
        child = subprocess.Popen([program, "format"], stdin=subprocess.PIPE, stdout=subprocess.PIPE)
        time.sleep(0.2)
        done = subprocess.run(words, capture_output=True)
        what = " ".join(map(os.path.basename, words[:2]))
        expect(f"{what} while the command runs", (done.returncode, done.stderr), (0, b""))
        expect(f"{what}: another file stands in its place", os.stat(program).st_ino != before, True)
        expect(f"{what}: the one that ran goes on", (child.communicate(b"a\nb\n")[0], child.returncode), (b"a b\n", 0))
        expect(f"{what}: nothing is left beside", [name for name in os.listdir(os.path.dirname(program)) if name.endswith(".new")], [])


ALL = [several, read_in_pieces, endless, not_written, closed, no_memory, copied, built_while_it_runs]
