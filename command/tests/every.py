"""Every subcommand on whatever may come: files of all kinds, odd names, and outputs that take nothing."""
import os
import re
import shutil
import subprocess

from . import calls
from .calls import expect, run

NOTES = b"The valve at the north gate\nopened late.\n"


def arguments(name, notes, folder):
    """A call of the subcommand that reads the notes by that name. What else it needs is made anew."""
    for left in "new.list", "copy":
        (folder / left).unlink(missing_ok=True)
    (folder / "no.list").write_bytes(b"")
    (folder / "digest").write_bytes(b"")
    return {"salvage": ["salvage", "new.list", notes], "restore": ["restore", "no.list", notes], "check": ["check", "--json", notes, "digest"]}.get(name, [name, notes])


READERS = ["format", "fmt", "panel", "index", "explain", "page", "salvage", "restore", "flow", "unflow", "check"]
OTHERS = [["help"], ["help", "format"], ["completion", "bash"], ["completion", "zsh"], ["completion", "fish"], ["--help"], ["--version"]]
DRAWERS = "panel", "page"  # a failure is drawn, so there is output


def failed(name):
    return 2 if name == "check" else 1


# of the same notes, what each subcommand writes; by hand
FOR_HAND = {
    "no line feed": (b"a b", {"format": b"a b\n", "index": b"0 3 1 1\n", "flow": b"a b\r\n", "unflow": b"a b\r\n", "salvage": b"a b", "restore": b"a b"}),
    "CR LF": (b"a\r\n\r\nb\r\n", {"format": b"a\n\nb\n", "index": b"0 3 1 1\n3 2 2 1\n5 3 3 1\n", "flow": b"a\r\n\r\nb\r\n", "unflow": b"a\r\n\r\nb\r\n", "salvage": b"a\r\n\r\nb\r\n", "restore": b"a\r\n\r\nb\r\n"}),
    "NUL": (b"a\0b\n\0\n", {"format": b"a\0b \0\n", "index": b"0 6 1 1\n", "flow": b"a\0b \0\r\n", "unflow": b"a\0b\r\n\0\r\n", "salvage": b"a\0b\n\0\n", "restore": b"a\0b\n\0\n"}),
    "nothing": (b"", {"format": b"", "index": b"", "explain": b"", "flow": b"", "unflow": b"", "salvage": b"", "restore": b""}),
}


def kinds(folder):
    for what, (notes, wanted) in FOR_HAND.items():
        (folder / "notes").write_bytes(notes)
        for name in READERS:
            status, output, errors = run(arguments(name, "notes", folder), b"", calls.RUDIGNALS, cwd=folder)
            good = 1 if name == "check" and notes else 0  # the digest is empty
            said = "rudignals: digest: line 1: is missing; the digest is cut short\n" if good else ""
            expect(f"{name} on {what}", (status, errors), (good, said))
            if name in wanted:
                expect(f"{name} on {what}: what it writes", output, wanted[name])
            elif name in DRAWERS:
                expect(f"{name} on {what}: it is drawn", len(output) > 1000, True)


def not_to_be_read(folder):
    """A folder, no such file, no permission: as whoever may not."""
    (folder / "a folder").mkdir()
    (folder / "notes").write_bytes(NOTES)
    (folder / "secret").write_bytes(NOTES)
    (folder / "secret").chmod(0)
    folder.chmod(0o777)
    nobody = {"user": 65534, "group": 65534, "extra_groups": []} if os.getuid() == 0 else {}
    program = str(folder / "rudignals")
    shutil.copy(calls.RUDIGNALS, program)
    for name in READERS:
        for notes, why in ("a folder", "Is a directory"), ("none", "No such file or directory"), ("secret", "Permission denied"):
            call = arguments(name, notes, folder)
            status, output, errors = run(call, b"", program, cwd=folder, **nobody)
            expect(f"{name} on {notes}", (status, errors), (failed(name), f"rudignals: {notes}: {why}\n"))
            if name not in DRAWERS and name != "check":
                expect(f"{name} on {notes}: nothing is written", output, b"")
            expect(f"{name} on {notes}: no list is left", (folder / "new.list").exists(), False)
    for call, who in (["restore", "a folder", "notes"], "a folder"), (["restore", "no.list", "a folder"], "a folder"), (["check", "notes", "a folder"], "a folder"):
        expect(f"{call}", run(call, b"", program, cwd=folder, **nobody), (failed(call[0]), b"", f"rudignals: {who}: Is a directory\n"))
    (folder / "secret").chmod(0o600)


ODD = ["two  words", "a\nline", "-w", "--help", "esc\x1b[31m", "\u202eflipped", "\x9b31m".encode("latin-1").decode("utf-8", "surrogateescape"), "\u009b31m", "naïve", "tab\tbed"]
SHOWN = {"a\nline": "a^Jline", "esc\x1b[31m": "esc^[[31m", "\u202eflipped": "<U+202E>flipped", ODD[6]: "<9B>31m", "\u009b31m": "<U+009B>31m", "tab\tbed": "tab^Ibed"}


def odd_names(folder):
    """Read by their names behind --, and shown by them where they are not there: nothing in them acts."""
    for odd in ODD:
        (folder / odd).write_bytes(b"a b\n")
        for name in READERS:
            first, *rest = arguments(name, odd, folder)
            status, output, errors = run([first, "--", *[word for word in rest if word != "--json"]], b"", calls.RUDIGNALS, cwd=folder)
            expect(f"{name} -- {odd!r}", (status, errors), (1, "rudignals: digest: line 1: is missing; the digest is cut short\n") if name == "check" else (0, ""))
        (folder / odd).unlink()
        for name in READERS:
            first, *rest = arguments(name, odd, folder)
            status, output, errors = run([first, "--", *[word for word in rest if word != "--json"]], b"", calls.RUDIGNALS, cwd=folder)
            expect(f"{name} -- {odd!r}, which is not there", (status, errors), (failed(name), f"rudignals: {SHOWN.get(odd, odd)}: No such file or directory\n"))
        wrong = f"rudignals: unrecognized option '--{SHOWN.get(odd, odd)}'" if not odd.startswith("-") else None
        if wrong:
            expect(f"an option {odd!r}", run(["format", "--" + odd], b"", calls.RUDIGNALS)[2].startswith(wrong), True)
            expect(f"a subcommand {odd!r}", run([odd], b"", calls.RUDIGNALS)[2], f"rudignals: {SHOWN.get(odd, odd)}: no such subcommand\nTry 'rudignals --help'.\n")
    for letter, shown in (b"\x9b", "<9B>"), (b"\x1b", "^["), ("\u202e".encode(), "<E2>"):
        expect(f"a letter {letter!r}", run(["format", b"-" + letter], b"", calls.RUDIGNALS)[2], f"rudignals: invalid option -- '{shown}'\nTry 'rudignals format --help'.\n")


def outputs(folder):
    """A full device, a closed output, a pipe that breaks: told once, with a status, by every subcommand."""
    (folder / "notes").write_bytes(NOTES * 40 + b"\n" + NOTES)
    (folder / "long").write_bytes((NOTES + b"\n") * 6000)
    cases = [(name, lambda name=name, notes=notes: arguments(name, notes, folder)) for name in READERS for notes in ("notes", "long") if (name, notes) not in (("page", "long"), ("check", "long"))]
    cases += [(words[0], lambda words=words: words) for words in OTHERS]
    for name, words in cases:
        if name == "check":
            (folder / "digest").write_bytes(NOTES)
        for sign, why in (">/dev/full", "No space left on device"), (">&-", "Bad file descriptor"):
            done = subprocess.run(["sh", "-c", f'exec "$0" "$@" {sign}', calls.RUDIGNALS, *words()], stdin=subprocess.DEVNULL, stderr=subprocess.PIPE, cwd=folder)
            lines = [line for line in done.stderr.decode().splitlines() if "digest: line" not in line]
            expect(f"{name} {sign}", (done.returncode, lines), (failed(name), [f"rudignals: standard output: {why}"]))
            expect(f"{name} {sign}: no list is left", (folder / "new.list").exists(), False)
        reading, writing = os.pipe()
        os.close(reading)
        status, _, errors = run(words(), b"", calls.RUDIGNALS, stdout=writing, cwd=folder)
        os.close(writing)
        lines = [line for line in errors.splitlines() if "digest: line" not in line]
        expect(f"{name} into a pipe that nobody reads", (status, lines), (failed(name), ["rudignals: standard output: Broken pipe"]))
        expect(f"{name} into a pipe that nobody reads: no list is left", (folder / "new.list").exists(), False)


def quiet_check(folder):
    """check without --json writes nothing, and so no matter where to."""
    (folder / "notes").write_bytes(NOTES)
    for digest, status in (NOTES, 0), (b"x\n", 1):
        (folder / "digest").write_bytes(digest)
        for sign in ">/dev/full", ">&-":
            done = subprocess.run(["sh", "-c", f'exec "$0" check notes digest {sign}', calls.RUDIGNALS], stderr=subprocess.PIPE, cwd=folder)
            expect(f"check of {digest!r} {sign}", done.returncode, status)


def whole_or_not(folder):
    """A damaged byte at the end of 180 KB: nothing is written before, and the place, the rule and the remedy are told."""
    notes = NOTES + b"\n"
    notes = notes * (180000 // len(notes))
    (folder / "notes").write_bytes(notes + b"x\n  \xb0\n")
    line = notes.count(b"\n") + 2
    said = f"rudignals: notes: line {line}, column 3: byte B0 begins no UTF-8 character; --keep leaves such a line as it is\n"
    for words in ["format"], ["index"], ["index", "--json"], ["index", "--line=1"], ["explain"], ["explain", "--json"], ["flow"]:
        expect(f"{words} of notes that are damaged at the end", run([*words, "notes"], b"", calls.RUDIGNALS, cwd=folder), (1, b"", said))
    expect("explain of one line of them", run(["explain", "notes", "1"], b"", calls.RUDIGNALS, cwd=folder), (1, b"", said))


LARGE = 100_000_000


def large(folder):
    """Files of 100 MB: notes that format writes as they are, so that the others can be told by hand. Memory does not grow with a regular file:
    40 MB of addresses do, and the program takes some of them itself. `explain' of every line is tried on 7 MB, which are 200,000 lines; `page'
    shows the last."""
    one = b"The valve at the north gate opened late, and pump 7 was started by day.\n\n"
    count = LARGE // len(one) + 1
    with open(folder / "large", "wb") as out:
        for _ in range(100):
            out.write(one * (count // 100))
    notes, lines = one * 100 * (count // 100), 2 * 100 * (count // 100)
    bound = 'ulimit -v 40000; exec "$0" "$@"' if not calls.SANITIZED else 'exec "$0" "$@"'

    def bounded(words, last, length):
        """The last bytes of what is written, and how many there are."""
        with open(folder / "written", "wb+") as out:
            done = subprocess.run(["sh", "-c", bound, calls.RUDIGNALS, *words], stdout=out, stderr=subprocess.PIPE, cwd=folder)
            size = out.seek(0, os.SEEK_END)
            out.seek(max(0, size - len(last)))
            expect(f"{words} of 100 MB", (done.returncode, done.stderr, out.read(), length in (None, size)), (0, b"", last, True))

    bounded(["format", "large"], one, len(notes))
    expect("format of 100 MB: the same", subprocess.run(["cmp", "-s", "large", "written"], cwd=folder).returncode, 0)
    bounded(["flow", "large"], one.replace(b"\n", b"\r\n"), len(notes) + lines)
    bounded(["index", "large"], b"%d 1 %d 1\n" % (len(notes) - 1, lines), None)
    bounded(["index", f"--line={lines - 1}", "large"], one[:-1], len(one) - 1)
    bounded(["explain", "large", str(lines)], b"line %d: a blank line of the notes\n" % lines, None)
    bounded(["format", "-o", "out", "large"], b"", 0)
    expect("format -o of 100 MB: the same", subprocess.run(["cmp", "-s", "large", "out"], cwd=folder).returncode, 0)
    # these keep what they write in memory; and a part of it is enough for the last
    bound = 'exec "$0" "$@"'
    bounded(["unflow", "large"], one.replace(b"\n", b"\r\n"), len(notes) + lines)
    bounded(arguments("salvage", "large", folder), one, len(notes))
    bounded(arguments("restore", "large", folder), one, len(notes))
    expect("panel of 100 MB", run(["panel", "large"], b"", calls.RUDIGNALS, cwd=folder)[0], 0)
    status, page, words = run(["page", "large"], b"", calls.RUDIGNALS, cwd=folder)
    above = re.search(rb"<strong>([\d,]+) lines above are not on this page</strong>", page)
    expect("page of 100 MB", (status, words, above and int(above[1].replace(b",", b"")), page.count(b"<a id=")), (0, "", lines - 65536, 65536))
    expect("check of 100 MB", run(["check", "large", "large"], b"", calls.RUDIGNALS, cwd=folder), (0, b"", ""))
    os.truncate(folder / "large", len(one) * 100_000)
    bounded(["explain", "large"], f"{200000:4d}  blank line".ljust(55).encode() + b"|\n", None)


def changed(folder):
    """A file that is written to between the two passes: told. One that only grows is formatted as it was."""
    one = NOTES + b"\n"
    (folder / "notes").write_bytes(one * 40000)
    # the output is a pipe that is read late: so the command waits in the second pass
    child = subprocess.Popen([calls.RUDIGNALS, "format", "notes"], stdout=subprocess.PIPE, stderr=subprocess.PIPE, cwd=folder)
    first = child.stdout.read(4096)
    with open(folder / "notes", "r+b") as notes:
        notes.seek(len(one) * 39990)
        notes.write(b"x")
    output, errors = child.communicate()
    expect("a file that is changed meanwhile", (child.returncode, errors), (1, b"rudignals: notes: was changed while it was read; what was written of it is not whole\n"))
    expect("what was written before", len(first + output) > 0, True)
    child = subprocess.Popen([calls.RUDIGNALS, "format", "notes"], stdout=subprocess.PIPE, stderr=subprocess.PIPE, cwd=folder)
    first = child.stdout.read(4096)
    with open(folder / "notes", "ab") as notes:
        notes.write(b"one more\n")
    output, errors = child.communicate()
    expect("a file that grows meanwhile is formatted as it was", (child.returncode, errors, (first + output)[-20:]), (0, b"", b" gate opened late.\n\n"))


def other_locale(folder):
    (folder / "notes").write_bytes("naïve \u4e2d\u6587\n".encode())
    for locale in "C", "C.UTF-8", "en_US.UTF-8", "tr_TR.UTF-8", "none":
        more = {"env": {**os.environ, "LC_ALL": locale, "LANGUAGE": "de"}, "cwd": folder}
        expect(f"LC_ALL={locale}", run(["format", "notes"], b"", calls.RUDIGNALS, **more), (0, "naïve \u4e2d\u6587\n".encode(), ""))
        expect(f"LC_ALL={locale}: an option", run(["format", "--nope"], b"", calls.RUDIGNALS, **more)[2], "rudignals: unrecognized option '--nope'\nTry 'rudignals format --help'.\n")
        expect(f"LC_ALL={locale}: a file", run(["format", "none"], b"", calls.RUDIGNALS, **more)[2], "rudignals: none: No such file or directory\n")


ALL = [kinds, not_to_be_read, odd_names, outputs, quiet_check, whole_or_not, large, changed, other_locale]
