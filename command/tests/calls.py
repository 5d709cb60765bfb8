"""Calls of the command, and the count of what was as expected."""
import os
import pathlib
import shutil
import subprocess
import sys

ROOT = pathlib.Path(__file__).resolve().parents[2]
SANITIZED = "RUDIGNALS_SANITIZED" in os.environ  # the command that reports what C leaves undefined; set by command/test
BUILT = ROOT / "target/command" / ("sanitized" if SANITIZED else ".")
RUDIGNALS = str(BUILT / "rudignals")
FMT = str(BUILT / "fmt")
SOURCES = sorted(str(path) for path in (ROOT / "command").glob("*.c"))

tried = 0
failures = 0
left_out = set()


def run(arguments, stdin=b"", program=FMT, **more):
    """Status, standard output and standard error of one call."""
    source = {"input": stdin} if isinstance(stdin, bytes) else {"stdin": stdin}
    done = subprocess.run([program, *arguments], stdout=more.pop("stdout", subprocess.PIPE), stderr=subprocess.PIPE, **source, **more)
    return done.returncode, done.stdout, done.stderr.decode(errors="backslashreplace")


def leave_out(what, package):
    """Said once of each: tests/all lists the lines that have these words."""
    if what not in left_out:
        left_out.add(what)
        print(f"command: left out: {what}: install Debian's {package}", flush=True)


def at_hand(what, tool, package):
    """Whether there is such a program. If not, what needs it is told to be left out."""
    if shutil.which(tool) is None:
        leave_out(what, package)
    return shutil.which(tool) is not None


def shown(value):
    text = str(value)
    return text if len(text) <= 400 else f"{text[:300]} .. ({len(text)})"


def expect(what, got, wanted):
    global tried, failures
    tried += 1
    if got != wanted:
        failures += 1
        print(f"command: {what}\n  gave   {shown(got)}\n  wanted {shown(wanted)}", file=sys.stderr)


def expect_same(what, got, wanted):
    """Long outputs: told is what stands where they part."""
    same = len(wanted) if got == wanted else len(os.path.commonprefix([got, wanted]))
    expect(f"{what}, from byte {same}", got[same : same + 80], wanted[same : same + 80])


def link(folder, name, *arguments):
    """The command built otherwise."""
    program = str(folder / name)
    subprocess.run([str(ROOT / "tools/link"), program, *arguments], check=True)
    return program
