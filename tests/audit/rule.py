"""What the audit is to find of a pair, from the words of its rule alone (docs/RULES.md); nothing is shared with the command.

The rule. Words are what stands between blanks (White_Space). With equal sequences of words a pair is carried, if the checker accepts it, or laid
out otherwise. Only where they differ a damaged or plain line counts as one word. Words are matched from the front as far as they agree, behind
that by any longest common subsequence.
"""
import pathlib
import sys

sys.path.insert(0, str(pathlib.Path(__file__).resolve().parents[1] / "check"))
from model import BLANKS, Machine, character, classify, damage, find, glyphs, judged, lines, refusal  # noqa: E402


def words_between_blanks(text):
    """The words of a line, whatever its bytes are."""
    found, word, at = [], b"", 0
    while at < len(text):
        c = character(text, at)
        code, size = c if c else (None, 1)
        if code in BLANKS:
            found, word = found + [word] if word else found, b""
        else:
            word += text[at:at + size]
        at += size
    return found + [word] if word else found


def formatted(o, line):
    """What of a line may hold words: all, or what is behind the prefix of a formatted line; and whether the line is formatted."""
    kind = classify(o, line)
    if isinstance(kind, str):
        return line, False
    if o.prefix is None:
        return line, True
    place = find(line, o.exact_prefix, glyphs(line, o.glue), o.prefix, len(line))
    return line[place + len(o.prefix):], True


def sequence(o, text, whole):
    """The words of a text, each with its line from 1. With `whole' a line that is not formatted and has words is one."""
    found = []
    for number, line in enumerate(lines(text), 1):
        part, is_formatted = formatted(o, line)
        words = words_between_blanks(part)
        if words and whole and not is_formatted:
            words = [("line", *words)]
        found += [(w, number) for w in words]
    return found


def common_length(a, b):
    """The length of a longest common subsequence, by bits (Crochemore and others, 2001)."""
    masks, ones = {}, (1 << len(a)) - 1
    for i, word in enumerate(a):
        masks[word] = masks.get(word, 0) | 1 << i
    state = ones
    for word in b:
        part = state & masks.get(word, 0)
        state = (state + part | state - part) & ones
    return len(a) - bin(state).count("1")


def judge(o, notes, digest):
    """The verdict; the line, from 1; how many words are missing and added; and the two sequences that these were counted in."""
    if not o.keep and damage(notes) is not None:
        return "unjudged", None, 0, 0, None
    code, found = refusal(o, notes)
    verdict = code or judged(Machine(o, found), digest)
    if verdict == (0, 0):
        return "carried", None, 0, 0, None
    if [w for w, _ in sequence(o, notes, False)] == [w for w, _ in sequence(o, digest, False)]:
        return ("layout", verdict[1] + 1, 0, 0, None) if verdict[0] == 10 else ("unjudged", None, 0, 0, None)
    a, b = sequence(o, notes, True), sequence(o, digest, True)
    common = common_length([w for w, _ in a], [w for w, _ in b])
    missing, added = len(a) - common, len(b) - common
    return ("both" if missing and added else "missing" if missing else "added"), None, missing, added, (a, b)


def lines_from(rest):
    """Words that all are lost, by lines: one item."""
    return [{"first": rest[0][1], "last": rest[-1][1], "words": len(rest)}] if rest else []


def exact_items(a, b):
    """The one list that can be right: where one sequence begins with the other. None elsewhere."""
    if [w for w, _ in a[:len(b)]] == [w for w, _ in b]:
        return lines_from(a[len(b):]), []
    if [w for w, _ in b[:len(a)]] == [w for w, _ in a]:
        return [], lines_from(b[len(a):])
    return None


def fault_in(items, words, count):
    """What is wrong with a list of items, or None: each begins and ends at a line with words, has no more of them than its lines have and at least one
    a line, they ascend, and between two stands a line with words that is in neither."""
    by_line = {}
    for _, line in words:
        by_line[line] = by_line.get(line, 0) + 1
    last = 0
    for item in items:
        if list(item) != ["first", "last", "words"]:
            return "keys"
        held = [n for line, n in by_line.items() if item["first"] <= line <= item["last"]]
        if item["first"] not in by_line or item["last"] not in by_line:
            return "an item that does not begin and end at a line with words"
        if not len(held) <= item["words"] <= sum(held):
            return "words that its lines do not have"
        if item["first"] <= last or (last and not any(last < line < item["first"] for line in by_line)):
            return "items that do not ascend, or should be one"
        last = item["last"]
    return None if sum(item["words"] for item in items) == count else "another number of words"
