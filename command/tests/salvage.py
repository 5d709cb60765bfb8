"""salvage and restore: a copy and a list, there and back, whole or not at all."""
import random

from .calls import RUDIGNALS, expect, expect_same, run


def mended(notes):
    """The copy and the list, from the request's words: Python's own decoder says which lines are well formed."""
    copy, changes, place = [], [], 0
    for line in notes.split(b"\n"):
        try:
            line.decode("utf-8")
            copy.append(line)
        except UnicodeDecodeError:
            copy.append(line.decode("latin-1").encode("utf-8"))
            changes += [f"{place + i} {b:02X}\n" for i, b in enumerate(line) if b >= 0x80]
        place += len(line) + 1
    return b"\n".join(copy), "".join(changes)


def salvage(folder, notes):
    """Status, copy, words and list of one call."""
    path = folder / "list"
    path.unlink(missing_ok=True)
    status, copy, words = run(["salvage", str(path)], notes, RUDIGNALS)
    return status, copy, words, path.read_text() if path.exists() else None


def restore(folder, copy, lines):
    path = folder / "list"
    path.write_text(lines)
    return run(["restore", str(path)], copy, RUDIGNALS)


def texts():
    yield b""
    yield b"\n"
    yield b"plain\n"
    yield b"\xe2\x82\n\xac"
    yield b"\xc3\xa9\xe9"
    yield b"caf\xe9\r\nna\xc3\xafve\r\n"
    # longer than one call takes: many lines, lines of the greatest length
    yield b"gr\xfc\xdfe an alle\nna\xc3\xafve\n" * 20000
    yield (b"\xe9" * 65535 + b"\n") * 4
    yield (b"a" * 65535 + b"\n") * 3 + b"\xff"
    rng = random.Random(2026)
    for _ in range(40):
        yield bytes(rng.choice(b"ab \n\n\x7f\x80\x9f\xa9\xac\xc2\xc3\xe2\xe9\xed\xf0\xff") for _ in range(rng.randrange(3000)))


def there_and_back(folder):
    for notes in texts():
        copy, lines = mended(notes)
        status, got, words, got_lines = salvage(folder, notes)
        nameless = sum(int(row.split()[1], 16) <= 0x9F for row in lines.split("\n")[:-1])
        said = f"rudignals: standard input: {nameless} mended byte{' is' if nameless == 1 else 's are'} of 80 to 9F, for which ISO 8859-1 has no letter; the notes may be windows-1252\n" if nameless else ""
        expect("salvage: status and words", (status, words), (0, said))
        expect_same("salvage: the copy", got, copy)
        expect_same("salvage: the list", (got_lines or "").encode(), lines.encode())
        status, back, words = restore(folder, copy, lines)
        expect("restore: status and words", (status, words), (0, ""))
        expect_same("restore: the notes", back, notes)


def refused(folder):
    path = folder / "list"
    stray = f"rudignals: {path}: line %d does not belong to this copy\n"
    # a list that is there stays as it is, and nothing is written
    path.write_text("kept\n")
    expect("a list that is there", run(["salvage", str(path)], b"\xe9", RUDIGNALS), (1, b"", f"rudignals: {path}: File exists; LIST must be a new file, and comes before FILE\n"))
    expect("and stays", path.read_text(), "kept\n")
    status, copy, words, lines = salvage(folder, b"a\n" + b"\xe9" * 65536 + b"\n")
    expect("a line too long", (status, copy, words, lines), (1, b"", "rudignals: standard input: the line at byte 2 has more than 65536 bytes\n", None))
    notes = b"caf\xe9\n" * 20000
    copy, lines = mended(notes)
    rows = lines.splitlines(keepends=True)
    for what, wrong, line in [
        ("one place off", rows[:7] + ["39 E9\n"] + rows[8:], 8),
        ("another byte", rows[:15000] + [rows[15000].replace("E9", "E8")] + rows[15001:], 15001),
        ("a low byte", ["0 63\n"] + rows, 1),
        ("an entry twice", rows[:3] + rows[2:], 4),
        ("an entry too many", rows + ["100000 E9\n"], 20001),
        ("no entry at all", ["E9 3\n"] + rows, 1),
        ("a last line without a line feed", [lines.rstrip("\n")], 20000),
    ]:
        expect(f"restore: {what}", restore(folder, copy, "".join(wrong)), (1, b"", stray % line))
    expect("no list", run(["restore", str(folder / "none")], copy, RUDIGNALS)[:2], (1, b""))
    for name in ("salvage", "restore"):
        expect(f"{name}: no LIST", run([name], b"", RUDIGNALS), (2, b"", f"rudignals: LIST is missing\nTry 'rudignals {name} --help'.\n"))
        expect(f"{name}: too many", run([name, "a", "b", "c"], b"", RUDIGNALS)[0], 2)
        status, words, errors = run([name, "--help"], b"", RUDIGNALS)
        expect(f"{name}: --help", (status, words.startswith(f"Usage: rudignals {name} [OPTION]... LIST [FILE]\n".encode()), errors), (0, True, ""))


ALL = [there_and_back, refused]
