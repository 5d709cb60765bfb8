#!/usr/bin/env python3
"""Damaged digests through `rudignals audit --json', against the model: scale.py COMMAND SEED PAIRS [FAULT]

For notes by chance, under options by chance: the library's own digest and each damage of it. Of each pair the verdict, the line, how many words are
missing and added, and the lists of lines must be those of the model. FAULT changes a record on purpose; then a difference must be seen.
Exit: 0 no difference, 3 one, which is printed, 1 anything else.
"""
import collections
import json
import pathlib
import random
import subprocess
import sys
import tempfile

HERE = pathlib.Path(__file__).resolve().parent
sys.path[:0] = [str(HERE), str(HERE.parent / "check")]
import rule  # noqa: E402
from harm import damaged  # noqa: E402

sys.path.insert(0, str(HERE.parent / "check"))
import texts  # noqa: E402

FAULTS = {
    "verdict": lambda r: r.update(verdict="missing") if r["verdict"] == "both" else None,
    "line": lambda r: r.update(line=r["line"] + 1) if r["line"] else None,
    "words": lambda r: r["missing"][0].update(words=r["missing"][0]["words"] + 1) if r["missing"] else None,
    "added": lambda r: r.update(added=[]),
    "layout": lambda r: r.update(verdict="carried") if r["verdict"] == "layout" else None,
}
FLAGS = {"crown": "-c", "tagged": "-t", "mail": "-m", "split": "-s", "uniform": "-u", "quick": "-q", "exact_prefix": "-x", "exact_skip": "-X", "glue": "--glue", "characters": "--sentence-characters"}


def words_of(o):
    """The options on a command line. Keep is on unless it is turned off."""
    words = [] if o.keep else ["--no-keep"]
    for name, word in FLAGS.items():
        words += [word] if o.given.get(name) else []
    for name, word in [("width", "-w"), ("tab", "-T"), ("prefix", "-p"), ("skip", "-P")]:
        if name in o.given:
            value = o.given[name]
            words += [word, value.decode() if isinstance(value, bytes) else str(value)]
    return words


def expected_fault(o, notes, digest, record):
    verdict, line, missing, added, both = rule.judge(o, notes, digest)
    if list(record) != ["notes", "digest", "verdict", "line", "missing", "added", "why"]:
        return "keys"
    if (record["verdict"], record["line"]) != (verdict, line):
        return f"{verdict}, line {line} expected"
    if (record["why"] is not None) != (verdict in ("layout", "unjudged")):
        return "why"
    if both is None:
        return "lists" if record["missing"] or record["added"] else None
    exact = rule.exact_items(*both)
    if exact is not None and (record["missing"], record["added"]) != exact:
        return f"{exact} expected"
    return rule.fault_in(record["missing"], both[0], missing) or rule.fault_in(record["added"], both[1], added)


def audit(command, o, folder, pairs):
    for i, (notes, digest, _) in enumerate(pairs):
        (folder / f"{i:04}.n").write_bytes(notes)
        (folder / f"{i:04}.d").write_bytes(digest)
    listed = "".join(f"{folder}/{i:04}.n\t{folder}/{i:04}.d\n" for i in range(len(pairs)))
    done = subprocess.run([command, "audit", "--json", *words_of(o), "--pairs", "-"], input=listed.encode(), stdout=subprocess.PIPE, stderr=subprocess.PIPE)
    records = [json.loads(line) for line in done.stdout.splitlines()]
    if len(records) != len(pairs) or done.returncode not in (0, 1, 2):
        sys.exit(f"audit: {len(records)} records of {len(pairs)}, status {done.returncode}: {done.stderr.decode(errors='replace')}")
    return records


def digest_of(command, o, notes):
    words = [w for w in words_of(o) if w != "--no-keep"] + (["--keep"] if o.keep else [])
    done = subprocess.run([command, "format", *words], input=notes, stdout=subprocess.PIPE, stderr=subprocess.DEVNULL)
    return done.stdout if done.returncode == 0 else None


def main():
    command, seed, count = sys.argv[1], int(sys.argv[2]), int(sys.argv[3])
    fault = FAULTS[sys.argv[4]] if len(sys.argv) > 4 else None
    chance, done, seen = random.Random(seed), 0, collections.Counter()
    with tempfile.TemporaryDirectory() as name:
        folder = pathlib.Path(name)
        while done < count:
            o, pairs = texts.options(chance), []
            for _ in range(12):
                notes = texts.notes(chance, o)
                digest = digest_of(command, o, notes)
                if digest is None:
                    pairs.append((notes, notes, "refused"))
                    continue
                pairs += [(notes, digest, "own"), (notes, texts.notes(chance, o), "foreign")]
                pairs += [(notes, bad, kind) for kind, bad in damaged(chance, digest)]
            for (notes, digest, kind), record in zip(pairs, audit(command, o, folder, pairs)):
                if fault:
                    fault(record)
                wrong = expected_fault(o, notes, digest, record)
                if wrong:
                    print(f"differs ({kind}): {wrong}\n  options {words_of(o)}\n  notes {notes!r}\n  digest {digest!r}\n  record {record}")
                    sys.exit(3)
                seen[record["verdict"]] += 1
            done += len(pairs)
    print(f"audit: {done} pairs, seed {seed}, 0 differ ({', '.join(f'{n} {v}' for v, n in sorted(seen.items()))})")


main()
