"""A user's habits: help, mistyped names, completion, JSON, numbers, options that are read in one way everywhere."""
import json
import re
import subprocess

from .calls import RUDIGNALS, at_hand, expect, run

NAMES = ["format", "panel", "index", "explain", "page", "salvage", "restore", "flow", "unflow", "check", "audit", "night", "help", "completion"]
FORMATTING = "-c -t -m -s -u -p -P -x -X -w -g -q -T --keep --glue --sentence-characters".split()
# the options that each takes, by the manual; -h and -V apart
TAKES = {
    "format": ["--skip-refused", "-o", *FORMATTING, "--salvage"],
    "index": ["--line", "--json", "-o", *FORMATTING],
    "explain": ["--json", "-o", *FORMATTING],
    "salvage": ["-o"],
    "restore": ["-o"],
    "flow": ["--mime", "--mail-from", "--mail-to", "--mail-subject", "-o", "-s", "-u", "-P", "-X", "-w", "-g", "-q", "-T", "--keep", "--glue", "--sentence-characters", "--salvage"],
    "unflow": ["-o"],
    "check": ["--json", "-o", *FORMATTING],
    "audit": ["--pairs", "--all", "--strict", "--json", "--html", "--jobs", "-o", *[option for option in FORMATTING if option != "--keep"], "--no-keep"],
    "night": ["--to", "--mail-from", "--mail-to", "--mail-subject", "--attach-page", "--sendmail", *FORMATTING, "--salvage"],
    "help": ["-o"],
    "completion": ["-o"],
}
EVERY = sorted({option for options in TAKES.values() for option in options} | {"--text", "--svg", "--follow"})
VALUES = {"-p", "-P", "-w", "-g", "-T", "-o", "--line", "--svg", "--pairs", "--html", "--jobs", "--mail-from", "--mail-to", "--mail-subject", "--to", "--sendmail"}


def shown_options(text):
    """As help shows them, by their first name."""
    return [found[1] for found in re.finditer(r"^ {2,6}(-[a-zA-Z]|--[a-z-]+)(?:, --[a-z-]+)?(?: [A-Z]+)?(?:  |\n)", text, re.M)]


def helps(folder):
    for name in NAMES:
        status, text, errors = run([name, "--help"], b"", RUDIGNALS)
        text = text.decode()
        expect(f"{name} --help", (status, errors, text.startswith(f"Usage: rudignals {name} ")), (0, "", True))
        expect(f"{name} --help fits a terminal", max(map(len, text.split("\n"))) <= 79, True)
        expect(f"help {name}", run(["help", name], b"", RUDIGNALS), (0, text.encode(), ""))
        expect(f"{name} -h", run([name, "-h"], b"", RUDIGNALS)[1], text.encode())
        expect(f"{name} --help tells its statuses", "\nExit status: 0 " in text and "2 " in text.split("Exit status:")[1], True)
        if name not in ("help", "completion"):
            expect(f"{name} --help tells its limits", "Limits: " in text, True)
        if name in TAKES:
            expect(f"{name} --help: the options that it takes and no other", shown_options(text), [*TAKES[name], "-h", "-V"])
    listed = run(["--help"], b"", RUDIGNALS)[1].decode()
    expect("the list of subcommands", re.findall(r"^  ([a-z]+) ", listed, re.M), NAMES)
    expect("help", run(["help"], b"", RUDIGNALS), (0, listed.encode(), ""))
    expect("help of fmt", run(["help", "fmt"], b"", RUDIGNALS)[:1], (0,))
    expect("help of none", run(["help", "frmat"], b"", RUDIGNALS), (2, b"", "rudignals: frmat: no such subcommand; did you mean format?\nTry 'rudignals help --help'.\n"))


def taken(folder):
    """An option that help shows is taken, and one that it does not show is refused."""
    (folder / "notes").write_bytes(b"a\n")
    files = {"salvage": ["list", "notes"], "restore": ["/dev/null", "notes"], "check": ["notes", "notes"], "audit": ["notes", "notes"], "night": ["--to", "nights", "notes"], "help": [], "completion": ["bash"]}
    values = {"--line": "1", "-o": "out", "--html": "out.html", "--jobs": "2", "--mail-from": "a@example.org", "--mail-to": "a@example.org", "--to": "nights", "--sendmail": "cat >sent", "--pairs": "pairs"}
    (folder / "pairs").write_bytes(b"notes\tnotes\n")
    for name, options in TAKES.items():
        for option in EVERY:
            (folder / "list").unlink(missing_ok=True)
            value = [values.get(option, "20")] if option in VALUES else []
            named = [] if (name, option) == ("audit", "--pairs") else files.get(name, ["notes"])
            status, _, errors = run([name, *named, option, *value], b"", RUDIGNALS, cwd=folder)
            said = "rudignals: " if (name, option) == ("audit", "--json") else ""  # its summary
            expect(f"{name} {option}", (status, errors[:11]), (0, said) if option in options else (2, "rudignals: "))


def one_way(folder):
    """--, -, options behind files, long names cut short, in every subcommand."""
    (folder / "-x").write_bytes(b"a\nb\n")
    (folder / "empty").write_bytes(b"")
    for words, output in [(["format", "--", "-x"], b"a b\n"), (["index", "--", "-x"], b"0 4 1 1\n"), (["flow", "--", "-x"], b"a b\r\n"), (["unflow", "--", "-x"], b"a\r\nb\r\n"),
                          (["restore", "--", "empty", "-x"], b"a\nb\n"), (["salvage", "--", "-l", "-x"], b"a\nb\n"), (["salvage", "./-", "--", "-x"], b"a\nb\n")]:
        expect(f"{words}", run(words, b"", RUDIGNALS, cwd=folder), (0, output, ""))
    expect("the lists that were named", [(folder / name).read_bytes() for name in ("-l", "-")], [b"", b""])
    (folder / "-").unlink()
    for words, output in [(["format", "-"], b"x y\n"), (["fmt", "-"], b"x y\n"), (["fmt"], b"x y\n"), (["index", "-"], b"0 4 1 1\n"), (["flow", "-"], b"x y\r\n"), (["unflow", "-"], b"x\r\ny\r\n"), (["restore", "empty", "-"], b"x\ny\n"),
                          (["salvage", "l", "-"], b"x\ny\n"), (["restore", "empty", "--", "-"], b"x\ny\n")]:
        expect(f"{words}", run(words, b"x\ny\n", RUDIGNALS, cwd=folder), (0, output, ""))
    for name in "salvage", "restore":
        said = f"rudignals: LIST must be a file; standard input and standard output are taken\nTry 'rudignals {name} --help'.\n"
        expect(f"{name} -", run([name, "-", "empty"], b"", RUDIGNALS, cwd=folder), (2, b"", said))
        expect(f"{name} -: no file of that name", (folder / "-").exists(), False)
    for name in "unflow", "flow", "index":
        expect(f"{name} a b", run([name, "a", "b"], b"", RUDIGNALS), (2, b"", f"rudignals: one file at a time\nTry 'rudignals {name} --help'.\n"))
    expect("fmt --help", run(["fmt", "--help"], b"", RUDIGNALS)[1].decode().split("\n")[0], "Usage: rudignals fmt [-WIDTH] [OPTION]... [FILE]...")
    expect("a letter behind a long one", run(["format", "--keep", "-zs"], b"", RUDIGNALS), (2, b"", "rudignals: invalid option -- 'z'\nTry 'rudignals format --help'.\n"))


def nearest(folder):
    for typed, meant in ("frmat", "format"), ("formt", "format"), ("fromat", "format"), ("pannel", "panel"), ("exlpain", "explain"), ("unflwo", "unflow"), ("chek", "check"), ("index ", "index"), ("Format", "format"), ("restor", "restore"):
        expect(f"{typed}", run([typed], b"", RUDIGNALS), (2, b"", f"rudignals: {typed}: no such subcommand; did you mean {meant}?\nTry 'rudignals --help'.\n"))
    for typed in "xyzzy", "q", "", "a" * 1000:
        expect(f"{typed[:20]!r}", run([typed], b"", RUDIGNALS), (2, b"", f"rudignals: {typed}: no such subcommand\nTry 'rudignals --help'.\n"))
    for typed, meant in ("--widht", "width"), ("--wdith=60", "width"), ("--sentence-caracters", "sentence-characters"), ("--kep", "keep"), ("--hlep", "help"):
        expect(f"{typed}", run(["format", typed], b"", RUDIGNALS), (2, b"", f"rudignals: unrecognized option '{typed}'; did you mean --{meant}?\nTry 'rudignals format --help'.\n"))
    expect("an option that is cut too short", run(["format", "--s"], b"", RUDIGNALS), (2, b"", "rudignals: option '--s' is cut too short: several begin so\nTry 'rudignals format --help'.\n"))
    expect("a long option without its value", run(["format", "--width"], b"", RUDIGNALS), (2, b"", "rudignals: option '--width' requires an argument\nTry 'rudignals format --help'.\n"))


def numbers(folder):
    """Digits and nothing else: as lines, and in a list."""
    (folder / "notes").write_bytes(b"a\n")
    for typed in "0", "x", "", "1x", " 1", "+1", "-1", "1 ", "0x1", "1e0", "18446744073709551616", "99999999999999999999999":
        said = f"rudignals: {typed or chr(39) * 2}: no line number; lines are counted from 1\n"
        expect(f"index --line {typed!r}", run(["index", f"--line={typed}", "notes"], b"", RUDIGNALS, cwd=folder), (2, b"", said + "Try 'rudignals index --help'.\n"))
        expect(f"explain {typed!r}", run(["explain", "--", "notes", typed], b"", RUDIGNALS, cwd=folder), (2, b"", said + "Try 'rudignals explain --help'.\n"))
    for typed in "2", "18446744073709551615":
        said = f"rudignals: notes: there is no line {typed}: the digest has 1 line\n"
        expect(f"index --line {typed}", run(["index", "--line", typed, "notes"], b"", RUDIGNALS, cwd=folder), (1, b"", said))
        expect(f"explain {typed}", run(["explain", "notes", typed], b"", RUDIGNALS, cwd=folder), (1, b"", said))
    expect("leading zeros are digits", run(["index", "--line=001", "notes"], b"", RUDIGNALS, cwd=folder), (0, b"a\n", ""))
    copy = "caf\u00e9\n".encode()
    for line in "3E9\n", "-18446744073709551613 E9\n", "+3 E9\n", " 3 E9\n", "3  E9\n", "3 E9 \n", "3 0xE9\n", "3 9\n", "3 E9", "3 E9\r\n", "3 E9\0\n", "\n", "18446744073709551619 E9\n", "3 -7\n", "3\tE9\n", "3 EG\n", "E9 3\n":
        (folder / "list").write_bytes(line.encode())
        expect(f"a list {line!r}", run(["restore", "list"], copy, RUDIGNALS, cwd=folder), (1, b"", "rudignals: list: line 1 does not belong to this copy\n"))
    for line in "3 E9\n", "3 e9\n", "03 E9\n":
        (folder / "list").write_bytes(line.encode())
        expect(f"a list {line!r}", run(["restore", "list"], copy, RUDIGNALS, cwd=folder), (0, b"caf\xe9\n", ""))


def counted_from_one(folder):
    """A line has the same number everywhere."""
    (folder / "notes").write_bytes(b"a\n\nb\nb\n\nc\n")
    expect("index", run(["index", "notes"], b"", RUDIGNALS, cwd=folder), (0, b"0 2 1 1\n2 1 2 1\n3 4 3 1\n7 1 4 1\n8 2 5 1\n", ""))
    expect("index --line=3", run(["index", "--line=3", "notes"], b"", RUDIGNALS, cwd=folder), (0, b"b\nb\n", ""))
    expect("explain 4", run(["explain", "notes", "4"], b"", RUDIGNALS, cwd=folder), (0, b"line 4: a blank line of the notes\n", ""))
    expect("explain", [row.split()[0] for row in run(["explain", "notes"], b"", RUDIGNALS, cwd=folder)[1].splitlines()], [b"1", b"2", b"3", b"4", b"5"])
    (folder / "digest").write_bytes(b"a\n\nb b\n\nx\n")
    expect("check", run(["check", "notes", "digest"], b"", RUDIGNALS, cwd=folder), (1, b"", "rudignals: digest: line 5: no digest of these notes goes on with it\n"))
    text = " ".join(run(["index", "--help"], b"", RUDIGNALS)[1].decode().split()) + " ".join(run(["explain", "--help"], b"", RUDIGNALS)[1].decode().split())
    expect("help says so", text.count("Lines are counted from 1"), 2)


# ---- JSON


def objects(words, folder, stdin=b""):
    """Read by jq where it is at hand, else by Python: each line is an object of its own."""
    status, output, errors = run(words, stdin, RUDIGNALS, cwd=folder)
    rows = [json.loads(line) for line in output.decode().split("\n")[:-1]]
    if at_hand("JSON read by jq", "jq", "jq"):
        again = subprocess.run(["jq", "-c", "."], input=output, stdout=subprocess.PIPE, check=True).stdout
        expect(f"jq reads {words}", [json.loads(line) for line in again.decode().split("\n")[:-1]], rows)
    expect(f"{words}: an object a line", output.count(b"\n"), len(rows))
    return status, rows, errors


ODD_TEXT = 'a"b\\c\x01\x1b\x7f\u009b\u2028\u202e\u4e2d\U0001f600\U000e0041'


def as_json(folder):
    (folder / "notes").write_bytes(b"aaaa bbbbbb c\n\n\td\n")
    place = {"place": 0, "length": 14, "first": 1, "count": 2}
    expect("index --json", objects(["index", "--json", "-qw10", "notes"], folder), (0, [place, {"place": 14, "length": 1, "first": 3, "count": 1}, {"place": 15, "length": 3, "first": 4, "count": 1}], ""))
    expect("index --json --line", objects(["index", "--json", "--line=4", "-qw10", "notes"], folder), (0, [{"line": 4, "place": 15, "length": 3, "notes": "\td\n"}], ""))
    why = "ends here because the next word, 6 columns, would reach column 11 of 10"
    first = {"line": 1, "kind": "not fit", "column": 4, "gap": 1, "added": 0, "word": 6, "width": 10, "why": why, "text": "aaaa"}
    paragraph = {"kind": "end of paragraph", "why": "ends here because its paragraph ends"}
    rows = [first, {"line": 2, **paragraph, "text": "bbbbbb c"}, {"line": 3, "kind": "blank line", "why": "a blank line of the notes", "text": ""}, {"line": 4, **paragraph, "text": "\td"}]
    expect("explain --json", objects(["explain", "--json", "-qw10", "notes"], folder), (0, rows, ""))
    expect("explain --json of a line", objects(["explain", "--json", "-qw10", "notes", "2"], folder), (0, rows[1:2], ""))
    (folder / "even").write_bytes(b"a" * 66 + b" bbb " + b"c" * 20)
    chosen = {"line": 1, "kind": "chosen", "columns": 70, "goal": 74, "cost": 16129, "length": 51, "word": 37, "change": 38, "why": "chosen: 70 of 74 columns, cost 16,129 (line 51, word 37, change 38)", "text": "a" * 66 + " bbb"}
    expect("explain --json of a chosen line", objects(["explain", "--json", "even", "1"], folder), (0, [chosen], ""))
    (folder / "odd").write_bytes(ODD_TEXT.encode() + b"\n")
    expect("explain --json of odd text", objects(["explain", "--json", "odd"], folder)[1][0]["text"], ODD_TEXT)
    expect("index --json of odd text", objects(["index", "--json", "--line=1", "odd"], folder)[1][0]["notes"], ODD_TEXT + "\n")
    (folder / "damaged").write_bytes(b"x\n\xb0\xff y\n")
    expect("explain --json of damaged text", objects(["explain", "--json", "--keep", "damaged", "2"], folder)[1], [{"line": 2, "kind": "plain line", "why": "a plain line, which ends as it does in the notes", "text": None, "text-hex": "B0FF2079"}])
    expect("index --json of damaged text", objects(["index", "--json", "--keep", "--line=2", "damaged"], folder)[1], [{"line": 2, "place": 2, "length": 5, "notes": None, "notes-hex": "B0FF20790A"}])
    expect("index --json of nothing", objects(["index", "--json"], folder), (0, [], ""))


def check_as_json(folder):
    """Three statuses, and a record whatever the verdict is."""
    (folder / "notes").write_bytes(b"a b\n")
    (folder / "bad").write_bytes(b"a\xb0\n")
    for name, text in ("good", b"a\nb\n"), ("wrong", b"a c\n"), ("short", b""):
        (folder / name).write_bytes(text)
    cut = "line 1: is missing; the digest is cut short"
    for notes, digest, status, verdict, line, why in [
        ("notes", "good", 0, "accepted", None, None),
        ("notes", "wrong", 1, "not accepted", 1, "wrong: line 1: no digest of these notes goes on with it"),
        ("notes", "short", 1, "not accepted", 1, "short: " + cut),
        ("notes", "none", 2, "not judged", None, "none: No such file or directory"),
        ("none", "good", 2, "not judged", None, "none: No such file or directory"),
        ("bad", "good", 2, "not judged", None, "bad: line 1, column 2: byte B0 begins no UTF-8 character; --keep leaves such a line as it is"),
        (".", "good", 2, "not judged", None, ".: Is a directory"),
    ]:
        said = f"rudignals: {why}\n" if why else ""
        record = {"notes": notes, "digest": digest, "verdict": verdict, "line": line, "why": why}
        expect(f"check {notes} {digest}", run(["check", notes, digest], b"", RUDIGNALS, cwd=folder), (status, b"", said))
        expect(f"check --json {notes} {digest}", objects(["check", "--json", notes, digest], folder), (status, [record], said))
    expect("check, a wrong call", run(["check", "notes"], b"", RUDIGNALS, cwd=folder)[0], 2)
    expect("check, refused options", run(["check", "-w5", "notes", "good"], b"", RUDIGNALS, cwd=folder)[0], 2)
    odd = "a\x1b[31m\"\u202e"
    (folder / odd).write_bytes(b"a b\n")
    expect("check --json of an odd name", objects(["check", "--json", odd, "good"], folder)[1][0]["notes"], odd)


# ---- completion


def bash(script, line, folder):
    """What bash completes the last word of a line to."""
    words = " ".join(f"'{word}'" for word in line)
    text = f"source '{script}'\nCOMP_WORDS=({words})\nCOMP_CWORD={len(line) - 1}\n_rudignals 2>&1\nprintf '%s\\n' \"${{COMPREPLY[@]}}\"\ncomplete -p rudignals\n"
    rows = subprocess.run(["bash", "-c", text], stdout=subprocess.PIPE, cwd=folder).stdout.decode().split("\n")
    expect("bash knows the command", rows[-2], "complete -F _rudignals rudignals")
    return sorted(row for row in rows[:-2] if row)


def completed_by_bash(folder):
    script = folder / "completion.bash"
    script.write_bytes(run(["completion", "bash"], b"", RUDIGNALS)[1])
    inside = folder / "inside"
    inside.mkdir()
    (inside / "some notes").write_bytes(b"")
    (inside / "fold").mkdir()
    for line, wanted in [
        (["rudignals", "fo"], ["format"]),
        (["rudignals", ""], sorted([*NAMES, "fmt", "--help", "--version"])),
        (["rudignals", "format", "--wi"], ["--width"]),
        (["rudignals", "fmt", "--ke"], ["--keep"]),
        (["rudignals", "salvage", "--"], ["--help", "--output", "--version"]),
        (["rudignals", "flow", "--c"], []),
        (["rudignals", "format", "so"], ["some notes"]),
        (["rudignals", "format", "-w", ""], []),
        (["rudignals", "format", "-o", "so"], ["some notes"]),
        (["rudignals", "completion", ""], ["bash", "fish", "zsh"]),
        (["rudignals", "help", "fl"], ["flow"]),
        (["rudignals", "index", "--l"], ["--line"]),
    ]:
        expect(f"bash completes {line}", bash(script, line, inside), wanted)


def completed_by_fish(folder):
    if not at_hand("completion by fish", "fish", "fish"):
        return
    script = folder / "completion.fish"
    script.write_bytes(run(["completion", "fish"], b"", RUDIGNALS)[1])
    for line, wanted in [("rudignals fo", ["format"]), ("rudignals salvage --", ["--help", "--output", "--version"]), ("rudignals fmt --ke", ["--keep"]), ("rudignals flow --cr", []), ("rudignals completion ", ["bash", "fish", "zsh"])]:
        rows = subprocess.run(["fish", "-N", "-c", f"source {script}; complete -C '{line}'"], stdout=subprocess.PIPE, cwd=folder).stdout.decode().splitlines()
        expect(f"fish completes {line}", sorted(row.split("\t")[0] for row in rows), wanted)


def complete_for_all(folder):
    """Every subcommand and every option stands in each of the three; the shells that are at hand read them."""
    for shell in "bash", "zsh", "fish":
        status, script, errors = run(["completion", shell], b"", RUDIGNALS)
        text = script.decode()
        expect(f"completion {shell}", (status, errors), (0, ""))
        for name in NAMES:
            options = {option for option in re.findall(r"--([a-z-]+)", run([name, "--help"], b"", RUDIGNALS)[1].decode().split("\nA repeated")[0])}
            rows = [row for row in re.split(r"\n(?=    [a-z]+(?: \| fmt)?\))" if shell != "fish" else r"\n", text) if re.match(rf"    {name}\b|complete .*_from {name}\b", row)]
            missing = [option for option in sorted(options) if not re.search(rf"(--| -l ){option}\b", "\n".join(rows))]
            expect(f"completion {shell} has {name}'s options", missing, [])
        path = folder / f"script.{shell}"
        path.write_bytes(script)
        if at_hand(f"completion by {shell}", shell, shell):
            done = subprocess.run([shell, "-n", str(path)], capture_output=True)
            expect(f"{shell} reads it", (done.returncode, done.stderr), (0, b""))
    for words in [], ["csh"], ["bash", "zsh"]:
        expect(f"completion {words}", run(["completion", *words], b"", RUDIGNALS), (2, b"", "rudignals: a shell is asked for: bash, zsh or fish\nTry 'rudignals completion --help'.\n"))


ALL = [helps, taken, one_way, nearest, numbers, counted_from_one, as_json, check_as_json, completed_by_bash, completed_by_fish, complete_for_all]
