"""The definitions and laws of a file of crates/, as tools/unused and tools/twins read them: each with its lines, and what it may name."""
import pathlib
import re

ROOT = pathlib.Path(__file__).resolve().parents[1]
CRATES = ROOT / "crates"

NAME = re.compile(r"[^\s(){}\[\],;:.λ⌜⌝=|\"]+")
HEAD = re.compile(r"(?:unfoldable |abbrev |opaque )?(pub )?(?:(?:record|data) (\S+)|([^\s:(){}]+) :(?= |$))")
USE = re.compile(r"^\s*(?:ghost )?use (\S+?)(?:\.\{(.*)\}| as (\w+));?$")
MODULE = re.compile(r"^Rattle\.(\w+)\.(specs|proofs)\.(.+)$")


class File:
    """A file's definitions, each with its lines and the heads of the modules that it stands in; what it imports; and the lines that belong
    to no definition."""

    def __init__(self, path):
        self.path = path
        mark = "//" if path.suffix == ".rt" else "--"
        self.lines = [re.sub(r"(^|\s)" + mark + r"(\s.*)?$", "", line).rstrip() for line in path.read_text(encoding="utf-8").split("\n")]
        self.names, self.letters, self.found, self.public, self.constructors, self.loose = {}, {}, {}, set(), {}, []
        self.imported, self.origins, self.within = [], {}, {}
        self.read()

    def read(self):
        name, kind, open_modules, head_lines = None, "", [], None  # a module that is open: where its definitions stand, and its head
        for number, line in enumerate(self.lines, 1):
            if self.imports(line) or not line:
                continue
            indent = len(line) - len(line.lstrip())
            if head_lines and head_lines[-1].endswith("where"):
                open_modules.append((indent, head_lines))
                head_lines = None
            open_modules = [(at, lines) for at, lines in open_modules if at <= indent]
            if head_lines or re.match(r"\s*module ", line):
                name, head_lines = None, [*(head_lines or []), line]
                self.loose.append(line)
                continue
            head = HEAD.match(line.strip()) if indent in (0, *[at for at, _ in open_modules[-1:]]) and self.path.suffix == ".antt" else None
            if head:
                name = head.group(2) or head.group(3)
                kind = "data" if re.match(r"\s*(\w+ )*data ", line) else ""
                self.found.setdefault(name, (number, []))
                self.within[name] = [line for at, lines in open_modules if at <= indent for line in lines]
                if head.group(1):
                    self.public.add(name)
            elif kind == "data" and name and re.match(r"^\s+(\S+) :", line):
                self.constructors[re.match(r"^\s+(\S+) :", line).group(1)] = name
            (self.found[name][1] if name else self.loose).append(line)

    def imports(self, line):
        use = USE.match(line)
        if not use:
            return False
        where = MODULE.match(use.group(1))
        module = where and "/".join(where.groups()).replace(".", "/")
        if where and use.group(3):
            self.letters[use.group(3)] = module
        for item in filter(str.strip, (use.group(2) or "").split(",")):
            there, _, here = item.strip().partition(" as ")
            self.imported.append(here or there)
            # the kit passes a name on by several modules
            own = where and (CRATES / where.group(1)).is_dir()
            self.origins[here or there] = (module if own else "", there)
            if where:
                self.names[here or there] = (module, there)
        return True


def spelled(name):
    """what stands in a line for a name: of `◌∈◌` the sign"""
    return [part for part in name.split("◌") if part] if "◌" in name else [name]


def module_of(path):
    return path.relative_to(CRATES).as_posix().removesuffix(".antt").removesuffix(".rt")


def files():
    """every file of definitions and laws, by its module"""
    return {module_of(path): File(path) for path in sorted(CRATES.glob("*/*/**/*.antt")) if not {"must-fail", "out"} & {*path.parts}}
