"""What is written to a file: -o FILE, and salvage's LIST. Whole and in its place, or not at all, with nothing left behind."""
import os
import pathlib
import re
import signal
import subprocess
import time

from .calls import RUDIGNALS, SANITIZED, expect, run
from .every import arguments

NOTES = b"The valve at the north gate\nopened late.\n"
DIGEST = b"The valve at the north gate opened late.\n"
WRITERS = ["format", "fmt", "panel", "index", "explain", "page", "salvage", "restore", "flow", "unflow", "check"]


def listed(folder):
    return sorted(os.listdir(folder))


def timeless(drawn):
    """Without the second at which a panel was drawn."""
    return re.sub(rb"drawn [-0-9]+ [0-9:]+", b"drawn NOW", drawn)


def same_as_standard_output(folder):
    """-o FILE has what standard output would have had, which is then empty; wherever the option stands, short or long."""
    (folder / "notes").write_bytes(NOTES)
    cases = [lambda name=name: arguments(name, "notes", folder) for name in WRITERS]
    cases += [lambda words=words: words for words in (["help"], ["help", "index"], ["completion", "bash"], ["completion", "zsh"], ["completion", "fish"])]
    for words in cases:
        status, wanted, errors = run(words(), b"", RUDIGNALS, cwd=folder)
        for option in ["-o", "out"], ["-oout"], ["--output", "out"], ["--output=out"]:
            (folder / "out").write_bytes(b"old\n" * 100)
            call = [*words(), *option]
            expect(f"{call}", (run(call, b"", RUDIGNALS, cwd=folder), timeless((folder / "out").read_bytes())), ((status, b"", errors), timeless(wanted)))
    call = ["format", "-o", "-", "notes"]
    expect("-o -", run(call, b"", RUDIGNALS, cwd=folder), (0, DIGEST, ""))
    expect("and no file of that name", (folder / "-").exists(), False)
    run(["format", "-o", "notes", "notes"], b"", RUDIGNALS, cwd=folder)
    expect("-o the notes themselves", (folder / "notes").read_bytes(), DIGEST)
    expect("nothing is left beside", [name for name in listed(folder) if name.startswith(".")], [])


def kept_where_refused(folder):
    """A file that is refused leaves the old one, where several are formatted too; a page of a failure is written, since it tells of it."""
    (folder / "notes").write_bytes(NOTES)
    (folder / "bad").write_bytes(b"a\n\xb0\n")
    said = "rudignals: bad: line 2, column 1: byte B0 begins no UTF-8 character; --keep leaves such a line as it is\n"
    for words in ["format", "bad"], ["format", "notes", "bad"], ["format", "bad", "notes"], ["index", "bad"], ["explain", "bad"], ["flow", "bad"]:
        (folder / "out").write_bytes(b"old\n")
        expect(f"{words} -o", run([*words, "-o", "out"], b"", RUDIGNALS, cwd=folder), (1, b"", said + "rudignals: out: is not written\n"))
        expect("the old one stays", (folder / "out").read_bytes(), b"old\n")
    expect("a wrong call leaves it too", (run(["panel", "-o", "out", "a", "b"], b"", RUDIGNALS, cwd=folder)[0], (folder / "out").read_bytes()), (2, b"old\n"))
    expect("a page of a failure", (run(["page", "-o", "out", "bad"], b"", RUDIGNALS, cwd=folder), b"byte B0 begins" in (folder / "out").read_bytes()), ((1, b"", said), True))
    expect("nothing is left beside", [name for name in listed(folder) if name.startswith(".")], [])


def modes_and_links(folder):
    """A file keeps its mode, a link stays, a new one has the umask's."""
    (folder / "notes").write_bytes(NOTES)
    for mode in 0o640, 0o600, 0o666, 0o755:
        (folder / "out").write_bytes(b"old\n")
        (folder / "out").chmod(mode)
        run(["format", "-o", "out", "notes"], b"", RUDIGNALS, cwd=folder)
        expect(f"mode {mode:o}", ((folder / "out").stat().st_mode & 0o7777, (folder / "out").read_bytes()), (mode, DIGEST))
    for mask, mode in (0o022, 0o644), (0o077, 0o600), (0o002, 0o664):
        (folder / "new").unlink(missing_ok=True)
        (folder / "list").unlink(missing_ok=True)
        subprocess.run([RUDIGNALS, "salvage", "-o", "new", "list", "notes"], cwd=folder, preexec_fn=lambda: os.umask(mask), check=True)
        expect(f"umask {mask:03o}", [(folder / name).stat().st_mode & 0o7777 for name in ("new", "list")], [mode, mode])
    (folder / "deep").mkdir()
    (folder / "deep/link").symlink_to("../far")
    (folder / "link").symlink_to("deep/link")
    for far in b"old\n", None:
        (folder / "far").unlink(missing_ok=True)
        if far:
            (folder / "far").write_bytes(far)
        run(["format", "-o", "link", "notes"], b"", RUDIGNALS, cwd=folder)
        expect("a link to a link", ((folder / "link").is_symlink(), (folder / "deep/link").is_symlink(), (folder / "far").is_symlink(), (folder / "far").read_bytes()), (True, True, False, DIGEST))
    (folder / "round").symlink_to("round")
    expect("a link to itself", run(["format", "-o", "round", "notes"], b"", RUDIGNALS, cwd=folder), (1, b"", "rudignals: round: Too many levels of symbolic links\n"))
    expect("nothing is left beside", [name for name in [*listed(folder), *listed(folder / "deep")] if name.startswith(".")], [])


def odd_places(folder):
    """A folder's name with a tab, a long name, a device, a pipe; a folder, none, and places that may not be written to."""
    (folder / "notes").write_bytes(NOTES)
    (folder / "a\tb\x1b").mkdir()
    for name in "a\tb\x1b/out", "o" * 255, "--out", "two words":
        expect(f"-o {name[:20]!r}", (run(["format", f"--output={name}", "notes"], b"", RUDIGNALS, cwd=folder), (folder / name).read_bytes()), ((0, b"", ""), DIGEST))
    expect("-o a device", run(["format", "-o", "/dev/stdout", "notes"], b"", RUDIGNALS, cwd=folder), (0, DIGEST, ""))
    expect("-o a full device", run(["format", "-o", "/dev/full", "notes"], b"", RUDIGNALS, cwd=folder), (1, b"", "rudignals: /dev/full: No space left on device\n"))
    for name, why in (".", "Is a directory"), ("none/out", "No such file or directory"), ("notes/out", "Not a directory"), ("o" * 256, "File name too long"), ("", "No such file or directory"):
        expect(f"-o {name[:20]!r}", run(["format", "-o", name, "notes"], b"", RUDIGNALS, cwd=folder), (1, b"", f"rudignals: {name}: {why}\n"))
    os.mkfifo(folder / "pipe")
    reader = subprocess.Popen(["cat", "pipe"], stdout=subprocess.PIPE, cwd=folder)
    expect("-o a pipe", run(["format", "-o", "pipe", "notes"], b"", RUDIGNALS, cwd=folder), (0, b"", ""))
    expect("which is read", (reader.communicate()[0], (folder / "pipe").is_fifo()), (DIGEST, True))
    expect("nothing is left beside", [name for name in listed(folder) if name.startswith(".rud")], [])
    if os.getuid() == 0:
        nobody = {"user": 65534, "group": 65534, "extra_groups": []}
        folder.chmod(0o777)
        pathlib.Path(folder / "notes").chmod(0o644)
        pathlib.Path(folder / "kept").write_bytes(b"old\n")
        pathlib.Path(folder / "kept").chmod(0o444)
        copy = folder / "rudignals"
        copy.write_bytes(pathlib.Path(RUDIGNALS).read_bytes())
        copy.chmod(0o755)
        expect("-o a file that may not be written to", run(["format", "-o", "kept", "notes"], b"", str(copy), cwd=folder, **nobody), (1, b"", "rudignals: kept: Permission denied\n"))
        (folder / "shut").mkdir(mode=0o555)
        expect("-o a folder that may not be written in", run(["format", "-o", "shut/out", "notes"], b"", str(copy), cwd=folder, **nobody), (1, b"", "rudignals: shut/out: Permission denied\n"))


def full_disk(folder):
    """A limit on the size of files: the old file stays, nothing is left beside. A limit of the process is all that a test may set."""
    if SANITIZED:
        return
    (folder / "long").write_bytes((NOTES + b"\n") * 20000)
    (folder / "out").write_bytes(b"old\n")
    limit = 'trap "" XFSZ; ulimit -f 100; exec "$0" "$@"'
    done = subprocess.run(["sh", "-c", limit, RUDIGNALS, "format", "-o", "out", "long"], stderr=subprocess.PIPE, cwd=folder)
    expect("-o on a disk that gets full", (done.returncode, done.stderr, (folder / "out").read_bytes(), listed(folder)), (1, b"rudignals: out: File too large\n", b"old\n", ["long", "out"]))
    (folder / "latin").write_bytes(b"\xe9" * 60000 + b"\n")
    done = subprocess.run(["sh", "-c", limit, RUDIGNALS, "salvage", "list", "latin"], stdout=subprocess.DEVNULL, stderr=subprocess.PIPE, cwd=folder)
    expect("LIST on a disk that gets full", (done.returncode, done.stderr, listed(folder)), (1, b"rudignals: list: File too large\n", ["latin", "long", "out"]))


def ended(folder):
    """A signal while the file is written: the old one stays, nothing is left beside."""
    os.mkfifo(folder / "pipe")
    (folder / "out").write_bytes(b"old\n")
    (folder / "long").write_bytes((NOTES + b"\n") * 20000)
    for number in signal.SIGTERM, signal.SIGINT, signal.SIGHUP:
        child = subprocess.Popen([RUDIGNALS, "format", "--skip-refused", "-o", "out", "long", "pipe"], cwd=folder)
        deadline = time.time() + 10
        while len(listed(folder)) == 3 and time.time() < deadline:
            time.sleep(0.02)
        expect("it is written beside", len(listed(folder)), 4)
        child.send_signal(number)
        expect(f"ended by {number}", (child.wait(), (folder / "out").read_bytes(), listed(folder)), (-number, b"old\n", ["long", "out", "pipe"]))


def both_or_none(folder):
    """salvage: where the copy does not arrive the list is taken back, and the next call is not refused for it."""
    (folder / "latin").write_bytes(b"caf\xe9\n")
    for sign, why in (">/dev/full", "No space left on device"), (">&-", "Bad file descriptor"), ("-o /dev/full", None), ("-o none/copy", None):
        done = subprocess.run(["sh", "-c", f'exec "$0" salvage list latin {sign}', RUDIGNALS], stdout=subprocess.DEVNULL, stderr=subprocess.PIPE, cwd=folder)
        expect(f"salvage {sign}", (done.returncode, listed(folder), len(done.stderr.splitlines())), (1, ["latin"], 1))
        expect(f"salvage {sign}: why", why is None or done.stderr.decode() == f"rudignals: standard output: {why}\n", True)
    done = run(["salvage", "list", "latin", "-o", "copy"], b"", RUDIGNALS, cwd=folder)
    expect("salvage, once more", (done, (folder / "list").read_bytes(), (folder / "copy").read_bytes()), ((0, b"", ""), b"3 E9\n", "caf\u00e9\n".encode()))
    expect("restore -o", (run(["restore", "list", "copy", "-o", "back"], b"", RUDIGNALS, cwd=folder), (folder / "back").read_bytes()), ((0, b"", ""), b"caf\xe9\n"))


ALL = [same_as_standard_output, kept_where_refused, modes_and_links, odd_places, full_disk, ended, both_or_none]
