"""The kit's checker as its rt calls it, over the libraries that rt left in crates/NAME/out: for tests/edits/run and tests/definition/run."""
import os
import pathlib
import re
import shutil
import subprocess
import sys

ROOT = pathlib.Path(__file__).resolve().parents[1]
KIT = pathlib.Path(shutil.which("rt") or sys.exit("rt is missing: install the Rattle kit that README.md names")).resolve().parent.parent
PARTS = ("src", "specs", "proofs")


def crates():
    """The crates, lowest first, with what each stands on."""
    rows = [line.split("#")[0] for line in (ROOT / "crates.txt").read_text(encoding="utf-8").splitlines()]
    return {name.split()[0]: deps.split() for name, deps in (row.split(":") for row in rows if ":" in row)}


DEPS = crates()


def below(names):
    """The repository's libraries that these are and stand on, lowest first."""
    todo, found = [n for n in names if n in DEPS], set()
    while todo:
        name = todo.pop()
        if name not in found:
            found.add(name)
            todo += [d for d in DEPS[name] if d in DEPS]
    return [name for name in DEPS if name in found]


def rlib(name):
    return ROOT / "crates" / name / "out/rlib" / f"{name}.rlib"


def words(crate, deps, jobs=1):
    """What `rattle check` is called with in the folder of a crate that stands on these."""
    out = ["--crate-name", crate, "src/lib.rt", "--extern", f"std={KIT}/rlibs/std.rlib", "-L", f"dependency={KIT}/rlibs"]
    out += [word for d in deps for word in ("--extern", f"{d}={rlib(d)}")]
    out += [word for d in below(deps) for word in ("-L", f"dependency={rlib(d).parent}")]
    return out + ["--antt-project", f"{KIT}/rattle/logic/antt-project.json", "--logic-built", f"{KIT}/logic_built", "--links", f"{crate}=", "--jobs", str(jobs)]


def check(crate, deps, folder, *more, jobs=1):
    """Checks a crate in a folder of its own: exit status and log."""
    run = subprocess.run([f"{KIT}/bin/rattle", "check", *words(crate, deps, jobs), *more], cwd=folder, stdin=subprocess.DEVNULL, stdout=subprocess.PIPE, stderr=subprocess.STDOUT)
    return run.returncode, run.stdout.decode("utf-8", "replace")


def ready(names, as_left):
    """Whether the libraries that these are and stand on are built, of the sources as they are; what is not is proved. As left: `rt ci` has just proved all
    of them, and left them without a stamp; those that rt's other commands built have one, and are asked for."""
    needed = below(names)
    if as_left and all(rlib(n).is_dir() and not (rlib(n).parent / "stamp").exists() for n in needed):
        return True
    tops = [n for n in names if not any(n in below(DEPS[other]) for other in names if other != n)]
    return all(subprocess.run(["rt", "lib"], cwd=ROOT / "crates" / n, stdin=subprocess.DEVNULL, stdout=subprocess.DEVNULL).returncode == 0 for n in tops)


def linked(folder, to):
    """A copy of kept work; what was proved by links, since a check replaces such a file and changes none."""

    def copy(one, other):
        try:
            if one.endswith(".oantt"):
                return os.link(one, other)
        except OSError:
            pass
        return shutil.copy2(one, other)

    shutil.copytree(folder, to, symlinks=True, copy_function=copy)


def copied(crate, folder):
    """A copy of a crate's sources."""
    for part in PARTS:
        if (ROOT / "crates" / crate / part).is_dir():
            shutil.copytree(ROOT / "crates" / crate / part, pathlib.Path(folder) / part)


def function(file, number):
    """The function of a source file that a line belongs to; an attribute belongs to the function below it."""
    lines = file.read_text(encoding="utf-8").splitlines() if file.is_file() else []
    while number <= len(lines) and lines[number - 1].lstrip().startswith("#["):
        number += 1
    names = [found.group(1) for found in (re.match(r"\s*(?:pub )?(?:extern \"C\" )?fn (\w+)", line) for line in lines[:number]) if found]
    return names[-1] if names else ""
