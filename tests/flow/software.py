#!/usr/bin/env python3
"""Other mail software reads what the library's writer writes, and its mail is read here: software.py LIBRARY [SEED [COUNT]]

Horde's Text_Flowed (Debian's php-horde-text-flowed) and Roundcube's rcube_mime (roundcube-core). Their readings are compared with the model's,
paragraph by paragraph, behind what each of them does to a text besides: Horde takes white space from a paragraph's end and takes a line `0` for
an empty one; Roundcube leaves the stuffing in the first of quoted lines. Exit: 0 no difference, 77 neither is at hand, 1 a difference.
"""
import base64
import pathlib
import subprocess
import sys

import model
import texts
import writer

HERE = pathlib.Path(__file__).resolve().parent
PACKAGES = {"horde": "php-cli and php-horde-text-flowed", "roundcube": "php-cli and roundcube-core"}


def through(which, way, given):
    """The texts that a program gives for texts, or None if it is not at hand."""
    lines = b"".join(base64.b64encode(text) + b"\n" for text in given)
    try:
        run = subprocess.run(["php", str(HERE / "readers.php"), which, way], input=lines, capture_output=True)
    except FileNotFoundError:
        return None
    out = [base64.b64decode(line) for line in run.stdout.split(b"\n")[:-1]]
    return out if run.returncode == 0 and len(out) == len(given) else None


def roundcube_like(text):
    """The paragraphs as Roundcube tells them: the first of quoted lines as it stands, with its stuffing."""
    found, is_open, last = [], False, 0
    for line in model.lines(text):
        depth, content, separator, soft = model.taken_apart(line)
        if is_open and depth == last and not separator:
            found[-1] += content
        else:
            found.append(line if depth else content)
        is_open, last = soft, depth
    return found


WHITE = b" \t\n\r\0\x0b"


def horde_like(paragraphs):
    """A paragraph's end without white space, and a paragraph `0` as none; no reading gives `-- ` another end."""
    found = []
    for depth, content in paragraphs:
        kept = content if content == b"-- " else content.rstrip(WHITE)
        found.append(b">" * depth + (b"" if kept == b"0" else kept))
    return found


def known(which, text):
    """Where Roundcube is known to read otherwise: a line `0` behind a soft line, which its program takes for an empty one."""
    return which == "roundcube" and b"0" in [model.taken_apart(line)[1] for line in model.lines(text)]


def compare(which, name, sent, read, expected):
    different = passed = 0
    for text, got in zip(sent, read):
        want = b"\n".join(expected(text))
        if got.removesuffix(b"\n") == want:
            continue
        if known(which, text):
            passed += 1
            continue
        different += 1
        if different <= 3:
            print(f"{name}: {text[:300]!r}\n  reads {got[:300]!r}\n  ours  {want[:300]!r}")
    print(f"{name}: {len(sent)} texts, {different} read otherwise" + (f", besides {passed} with a line `0`" if passed else ""))
    return different


def main():
    write = writer.Writer(sys.argv[1])
    seed, count = (int(a) for a in (sys.argv[2:] + ["2026", "50000"][len(sys.argv) - 2 :]))
    rng = texts.seeded(seed)
    sent = []
    while len(sent) < count:
        code, length, output, _ = write(writer.number(2, rng.choice([10, 20, 40, 72])), texts.notes(rng), 1 << 16)
        if code == 0 and length:
            sent.append(output[:length])
    faults = tried = 0
    for which, expected in (("horde", lambda text: horde_like(model.paragraphs(text))), ("roundcube", roundcube_like)):
        read = through(which, "read", sent)
        if read is None:
            print(f"flow: left out: {which}: install Debian's {PACKAGES[which]}")
            continue
        tried += 1
        faults += compare(which, f"{which} reads what is written here", sent, read, expected)
        theirs = through(which, "write", [texts.notes(rng) for _ in range(count // 5)])
        faults += compare(which, f"{which} reads its own mail", theirs, through(which, "read", theirs), expected)
    return 77 if not tried else 1 if faults else 0


if __name__ == "__main__":
    sys.exit(main())
