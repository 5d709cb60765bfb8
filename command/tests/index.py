"""index: records and notes of files of one part and of several, written out by hand."""
import json

from .calls import RUDIGNALS, expect, expect_same, run

# options, notes, records: place, length, first line, count of lines
RECORDS = [
    ([], b"", []),
    ([], b"a\nb\n\n  c d\n", [(0, 4, 1, 1), (4, 1, 2, 1), (5, 6, 3, 1)]),
    (["-w6", "-q"], b"aaa bbb ccc\n\nd\n", [(0, 12, 1, 3), (12, 1, 4, 1), (13, 2, 5, 1)]),
    (["--keep"], b"a\nb\n\xb0\nc", [(0, 4, 1, 1), (4, 2, 2, 1), (6, 1, 3, 1)]),
]


def rows(records, form):
    return "".join(form % record for record in records).encode()


TEXT = "%d %d %d %d\n"
JSON = '{"place":%d,"length":%d,"first":%d,"count":%d}\n'


def by_hand():
    for options, notes, records in RECORDS:
        for more, form in ([], TEXT), (["--json"], JSON):
            expect(f"index {options} {more} of {notes!r}", run(["index", *options, *more], notes, RUDIGNALS), (0, rows(records, form), ""))


def several_parts():
    """Paragraphs of two lines and blank lines, each paragraph by its number: a wrong place or line anywhere is seen."""
    records, texts, place, line = [], [], 0, 1
    for k in range(18000):
        text, count = (b"%05d aaa\n%05d\n" % (k, k), 2) if k % 2 == 0 else (b"\n", 1)
        records.append((place, len(text), line, count))
        texts.append(text)
        place, line = place + len(text), line + count
    notes = b"".join(texts)
    status, got, words = run(["index", "-w9", "-q"], notes, RUDIGNALS)
    expect("index of several parts", (status, words), (0, ""))
    expect_same("index of several parts", got, rows(records, TEXT))
    for number in 0, 1, 2, 7, 6000, 9001, 17998, 17999:
        place, length, first, count = records[number]
        for asked in {first, first + count - 1}:
            expect(f"the notes of line {asked}", run(["index", "-w9", "-q", f"--line={asked}"], notes, RUDIGNALS), (0, texts[number], ""))
            status, got, words = run(["index", "-w9", "-q", "--json", f"--line={asked}"], notes, RUDIGNALS)
            wanted = {"line": asked, "place": place, "length": length, "notes": texts[number].decode()}
            expect(f"the notes of line {asked}, as an object", (status, json.loads(got or b"null"), words), (0, wanted, ""))
    expect("no such line", run(["index", "-w9", "-q", f"--line={line}"], notes, RUDIGNALS), (1, b"", f"rudignals: standard input: there is no line {line}: the digest has {line - 1} lines\n"))


ALL = [by_hand, several_parts]
