"""audit: one verdict a pair, in words and as records; folders, lists and files; statuses; wrong calls. Every expected text is written by hand."""
import json
import os
import pathlib
import subprocess

from .calls import RUDIGNALS, at_hand, expect, run

NOTES = b"The valve at the north gate\nopened late.\n\nPump 7 was\nstarted.\n"
DIGEST = b"The valve at the north gate opened late.\n\nPump 7 was started.\n"

# notes, digest, options, verdict, line, missing and added as (first, last, words), and what is said behind the name
CASES = [
    (NOTES, DIGEST, [], "carried", None, [], [], "carried"),
    (NOTES, b"The valve at the\nnorth gate opened\nlate.\n\nPump 7 was started.\n", [], "carried", None, [], [], "carried"),
    (NOTES, DIGEST.replace(b"late.", b"late. "), [], "layout", 1, [], [], "laid out otherwise: line 1 of the digest has blanks at its end"),
    (NOTES, DIGEST.replace(b"\n", b"\r\n"), [], "layout", 1, [], [], "laid out otherwise: line 1 of the digest ends in CR LF"),
    (NOTES, DIGEST.replace(b"Pump", b"  Pump"), [], "layout", 3, [], [], "laid out otherwise: line 3 of the digest has another indent"),
    (NOTES, DIGEST.replace(b"\n\n", b"\n\n\n"), [], "layout", 3, [], [], "laid out otherwise: line 3 of the digest is empty, and the notes have no blank line there"),
    (NOTES, DIGEST.replace(b"\n\n", b"\n \n"), [], "layout", 2, [], [], "laid out otherwise: line 2 of the digest has blanks where an empty line is due"),
    (NOTES, DIGEST[:-1], [], "layout", 3, [], [], "laid out otherwise: line 3 of the digest is not ended by a line feed"),
    (b"a\n\n", b"a\n", [], "layout", 2, [], [], "laid out otherwise: line 2 of the digest is missing: a blank line of the notes is not there"),
    (b"", b"\n", [], "layout", 1, [], [], "laid out otherwise: line 1 of the digest is empty, and the notes have no blank line there"),
    (b"\n", b"", [], "layout", 1, [], [], "laid out otherwise: line 1 of the digest is missing: a blank line of the notes is not there"),
    (b"", b"", [], "carried", None, [], [], "carried"),
    # a damaged line that was broken is all there; only where other words are missing it counts whole
    (b"a b \xb0 c d\n", b"a b \xb0\nc d\n", [], "layout", 1, [], [], "laid out otherwise: line 1 of the digest has a damaged character and is not a whole line of the notes: a damaged line was broken or joined"),
    (b"x y\na \xb0 b\nz\n", b"x y\na \xb0 b\n", [], "missing", None, [(3, 3, 1)], [], 'text missing: all from line 3 of the notes on, 1 word, the first "z" (after line 2 of the digest)'),
    (b"x y\na \xb0 b\nz\n", b"x y\n", [], "missing", None, [(2, 3, 2)], [], 'text missing: all from line 2 of the notes on, 2 words, the first "a <B0> b" (after line 1 of the digest)'),
    (NOTES, b"The valve at the north gate opened late.\n", [], "missing", None, [(4, 5, 4)], [], 'text missing: all from line 4 of the notes on, 4 words, the first "Pump" (after line 1 of the digest)'),
    (NOTES, b"The valve at\n", [], "missing", None, [(1, 5, 9)], [], 'text missing: all from "the" in line 1 of the notes on, 9 words (after line 1 of the digest)'),
    (NOTES, b"", [], "missing", None, [(1, 5, 12)], [], 'text missing: all from line 1 of the notes on, 12 words, the first "The" (before line 1 of the digest)'),
    (NOTES, DIGEST.replace(b"north ", b""), [], "missing", None, [(1, 1, 1)], [], 'text missing: line 1 of the notes, 1 word, the first "north" (after line 1 of the digest)'),
    (NOTES, DIGEST.replace(b"valve", b"valve valve"), [], "added", None, [], [(1, 1, 1)], None),
    (NOTES, DIGEST + b"\nAnd more.\n", [], "added", None, [], [(5, 5, 2)], 'text added: all from line 5 of the digest on, 2 words, the first "And" (after line 5 of the notes)'),
    (NOTES, DIGEST.replace(b"7", b"8"), [], "both", None, [(4, 4, 1)], [(3, 3, 1)],
     'text missing and text added: missing line 4 of the notes, 1 word, the first "7" (after line 3 of the digest); added line 3 of the digest, 1 word, the first "8" (after line 4 of the notes)'),
    # words are matched from the front: what is cut off is missing, even if the notes end in the same words
    (b"a b\nc\na b\n", b"a b\n", [], "missing", None, [(2, 3, 3)], [], 'text missing: all from line 2 of the notes on, 3 words, the first "c" (after line 1 of the digest)'),
    # blank lines may lie within an item, a line that stands whole may not
    (b"a\n\nb\n\nc\nd\n", b"d\n", [], "missing", None, [(1, 5, 3)], [], 'text missing: lines 1 to 5 of the notes, 3 words, the first "a" (before line 1 of the digest)'),
    (b"a\nb\nc\nd\n", b"b\nd\n", [], "missing", None, [(1, 1, 1), (3, 3, 1)], [],
     'text missing: line 1 of the notes, 1 word, the first "a" (before line 1 of the digest); line 3 of the notes, 1 word, the first "c" (after line 1 of the digest)'),
    (b"a \xb0\n", b"a \xb0\n", ["--no-keep"], "unjudged", None, [], [], "could not be judged: line 1 of the notes has a damaged character, and --no-keep is given"),
    (b"> a\n> b\n", b"> a b\n", ["-p", ">"], "carried", None, [], [], "carried"),
    (b"> a\n> b\n", b"> a b \n", ["-p", ">"], "layout", 1, [], [], "laid out otherwise: line 1 of the digest has blanks at its end"),
    (b"> a\n> b\n", b"> a\n", ["-p", ">"], "missing", None, [(2, 2, 1)], [], 'text missing: all from line 2 of the notes on, 1 word, the first "b" (after line 1 of the digest)'),
    ("a\u00a0b\n".encode(), b"a b\n", ["--glue"], "layout", 1, [], [], None),
]


def items(rows):
    return [{"first": a, "last": b, "words": n} for a, b, n in rows]


def status_for(verdict):
    return {"carried": 0, "layout": 0, "unjudged": 2}.get(verdict, 1)


def audit(folder, *arguments, **more):
    return run(["audit", *arguments], more.pop("stdin", b""), RUDIGNALS, cwd=folder, **more)


def summary(words):
    return f"{words}\n"


def run_cases(folder):
    for notes, digest, options, verdict, line, missing, added, words in CASES:
        (folder / "n").write_bytes(notes)
        (folder / "d").write_bytes(digest)
        what = f"audit {options} {notes!r} {digest!r}"
        status, out, _ = audit(folder, "--json", *options, "n", "d")
        record = json.loads(out) if out else None
        got = (status, record and [record[key] for key in ("notes", "digest", "verdict", "line", "missing", "added")])
        expect(what, got, (status_for(verdict), ["n", "d", verdict, line, items(missing), items(added)]))
        expect(f"{what}: keys", record and list(record), ["notes", "digest", "verdict", "line", "missing", "added", "why"])
        if words is not None:
            expect(f"{what}: words", audit(folder, "--all", *options, "n", "d")[1].decode().split("\n")[0], f"n: {words}")


def run_folders(folder):
    notes, digests = folder / "notes", folder / "digests"
    for path, text in {"2025/01/a.txt": NOTES, "2025/01/b.txt": NOTES, "c.v1.txt": NOTES, "only": b"x\n", ".hidden": b"h\n"}.items():
        (notes / path).parent.mkdir(parents=True, exist_ok=True)
        (notes / path).write_bytes(text)
    for path, text in {"2025/01/a.dig": DIGEST, "2025/01/b.dig": b"The valve\n", "c.v1": DIGEST, "c.v1.dig": DIGEST, "extra.dig": b"y\n", ".hidden": b"h\n"}.items():
        (digests / path).parent.mkdir(parents=True, exist_ok=True)
        (digests / path).write_bytes(text)
    status, out, said = audit(folder, "--json", "notes", "digests")
    records = [json.loads(line) for line in out.splitlines()]
    expect("audit of folders: pairs, in the order of their names", [(r["notes"], r["digest"], r["verdict"]) for r in records], [
        ("notes/.hidden", "digests/.hidden", "carried"), ("notes/2025/01/a.txt", "digests/2025/01/a.dig", "carried"), ("notes/2025/01/b.txt", "digests/2025/01/b.dig", "missing"),
        (None, "digests/c.v1", "no-notes"), ("notes/c.v1.txt", "digests/c.v1.dig", "carried"), (None, "digests/extra.dig", "no-notes"), ("notes/only", None, "no-digest")])
    expect("audit of folders: status, and the summary on standard error", (status, said), (1, "rudignals: 7 pairs: 3 carried, 1 text missing, 1 no digest, 2 no notes\n"))
    plain = audit(folder, "notes", "digests")[1].decode().split("\n")
    expect("audit of folders: only what is not carried is written", [line.split(": ")[1] for line in plain[:-2]], ["text missing", "no notes", "no notes", "no digest"])
    expect("audit of folders: the summary", plain[-2], "7 pairs: 3 carried, 1 text missing, 1 no digest, 2 no notes")
    for jobs in "1", "2", "7":
        expect(f"audit: the same whatever the jobs are ({jobs})", audit(folder, "--json", "--jobs", jobs, "notes", "digests")[1], out)
    if at_hand("JSON read by jq", "jq", "jq"):
        done = subprocess.run(["jq", "-c", "[.verdict, (.missing | length)]"], input=out, stdout=subprocess.PIPE)
        expect("audit: jq reads the records", (done.returncode, len(done.stdout.splitlines())), (0, 7))
    (folder / "empty").mkdir()
    expect("audit: no pair at all", audit(folder, "empty", "empty"), (0, b"0 pairs\n", ""))


def run_lists(folder):
    (folder / "n").write_bytes(NOTES)
    (folder / "d").write_bytes(DIGEST)
    listed = b"n\td\r\n\nn\tgone\ngone\td\nnotes\td\nno tab\n"
    status, out, _ = audit(folder, "--json", "--pairs", "-", stdin=listed)
    records = [json.loads(line) for line in out.splitlines()]
    expect("audit of a list", [(r["notes"], r["digest"], r["verdict"]) for r in records],
           [("gone", "d", "no-notes"), ("n", "d", "carried"), ("n", "gone", "no-digest"), ("no tab", None, "unjudged"), ("notes", "d", "unjudged")])
    expect("audit of a list: why", [r["why"] for r in records], [None, None, None, "line 6 of the list is not two names with a tab between them", "the file of notes cannot be read: Is a directory"])
    expect("audit of a list: unjudged wins", status, 2)
    (folder / "list").write_bytes(b"n\td\n")
    expect("audit of a list in a file", audit(folder, "--pairs", "list"), (0, b"1 pair: 1 carried\n", ""))


def run_statuses(folder):
    (folder / "n").write_bytes(NOTES)
    (folder / "d").write_bytes(DIGEST.replace(b"late.", b"late. "))
    expect("audit: laid out otherwise is 0", audit(folder, "n", "d")[0], 0)
    expect("audit --strict: it is 1", audit(folder, "--strict", "n", "d")[0], 1)
    for arguments, said in [
        ([], "NOTES and DIGESTS are two folders, or two files"), (["n"], "NOTES and DIGESTS are two folders, or two files"), (["n", "d", "d"], "NOTES and DIGESTS are two folders, or two files"),
        (["gone", "d"], "gone: No such file or directory"), (["n", "gone"], "gone: No such file or directory"),
        (["notes", "d"], "NOTES and DIGESTS are two folders or two files; notes is a folder"), (["--pairs", "list", "n"], "--pairs names the files: no other can be"),
        (["--pairs", "gone"], "gone: No such file or directory"), (["--jobs", "0", "n", "d"], "--jobs 0: a number from 1 to 64 is asked for"), (["--jobs", "2x", "n", "d"], "--jobs 2x: a number from 1 to 64 is asked for"),
    ]:
        expect(f"audit {arguments}: a wrong call writes nothing", audit(folder, *arguments), (2, b"", f"rudignals: {said}\nTry 'rudignals audit --help'.\n"))
    if os.path.exists("/dev/full"):
        with open("/dev/full", "wb") as full:
            expect("audit: a full disk", audit(folder, "--all", "n", "d", stdout=full)[0], 2)
    expect("audit -o: written though text is missing", (audit(folder, "-o", "out", "notes", "digests")[0], (folder / "out").read_bytes().count(b"\n")), (1, 5))


def run_hostile(folder):
    """Names and notes act nowhere: not on a terminal's bytes, not in the report."""
    folder = folder / "hostile"
    evil = "<script>alert(1)<!--\x1b]0;x\x07\u202e"
    (folder / "a").mkdir(parents=True)
    (folder / "b").mkdir()
    (folder / "a" / f"{evil.replace('/', '')}.txt").write_bytes(b"<img src=x onerror=alert(1)> </mark><script>alert(2)</script>\n\x1b[2J\n")
    (folder / "b" / f"{evil.replace('/', '')}.dig").write_bytes(b"</li></ol><script>alert(3)</script>\n")
    status, out, _ = audit(folder, "--html", "report.html", "a", "b")
    page = (folder / "report.html").read_bytes()
    body = page.split(b"</script>", 1)[1]
    expect("audit: names and notes are shown, not acted on", (status, b"\x1b" in out, b"\x07" in out), (1, False, False))
    expect("the report: no markup of notes or names", [body.count(word) for word in (b"<script", b"<img", b"\x1b", b"onerror=alert(1)>")], [0, 0, 0, 0])


def run_all(folder):
    here = pathlib.Path(folder) / "audit"
    here.mkdir()
    run_cases(here)
    run_folders(here)
    run_lists(here)
    run_statuses(here)
    run_hostile(here)
