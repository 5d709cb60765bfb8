"""The Python module: against the command and the library on the same input, against the models of tests/flow and tests/check, laws, threads, time, docstrings.

Run by tests/python/run; needs Debian's python3-hypothesis.
"""
import concurrent.futures
import dataclasses
import doctest
import importlib.util
import json
import os
import pathlib
import pickle
import re
import subprocess
import sys
import threading
import time
import unittest

import rudignals
from hypothesis import HealthCheck, example, given, settings
from hypothesis import strategies as st
from rudignals import _library, _options, _parts

ROOT = pathlib.Path(__file__).resolve().parents[2]
COMMAND = os.environ["RUDIGNALS_COMMAND"]
settings.register_profile("all", deadline=None, max_examples=int(os.environ.get("RUDIGNALS_EXAMPLES", "120")), suppress_health_check=list(HealthCheck), derandomize=False, database=None)
settings.load_profile("all")


def model(name):
    """A model of another test: written from the rules alone."""
    spec = importlib.util.spec_from_file_location(f"{name}_model", ROOT / f"tests/{name}/model.py")
    module = importlib.util.module_from_spec(spec)
    spec.loader.exec_module(module)
    return module


MAIL, CHECK = model("flow"), model("check")
LETTERS = "ab .?!\t\n\n  >-\r\u00a0\u3000\u6f22\u0301\u00e9\u202e:From "
NOTES = st.text(st.sampled_from(LETTERS), max_size=200)
DAMAGED = st.lists(st.sampled_from([b"a", b" ", b"\n", b"\xb0", b"\xe2\x82", b"\xff", "\u6f22".encode(), b"\r", b"\x00"]), max_size=80).map(b"".join)
ANY = st.one_of(NOTES.map(str.encode), DAMAGED)
OPTIONS = st.fixed_dictionaries({}, optional={
    **{name: st.booleans() for name in _options.FLAGS}, "width": st.sampled_from([None, -1, 0, 1, 5, 6, 10, 40, 79, 1000, 1001, 70000]), "goal": st.sampled_from([None, 0, 1, 2, 3, 9, 74, 940, 941]),
    "tab_width": st.sampled_from([0, 1, 8, 100, 101]), "prefix": st.sampled_from(["", ">", "> ", "x" * 255, "x" * 256]), "skip_prefix": st.sampled_from(["", "-", b"\xff"])})
RIGHT = st.fixed_dictionaries({}, optional={**{name: st.booleans() for name in _options.FLAGS}, "width": st.sampled_from([10, 20, 79]), "prefix": st.sampled_from(["", ">", "> "])})

MAILED = st.fixed_dictionaries({}, optional={**{name: st.booleans() for name in ("split_only", "exact_skip_prefix", "keep", "glue", "sentence_characters")}, "width": st.sampled_from([10, 20, 79]),
                                             "skip_prefix": st.sampled_from(["", "-"])})


def words_of(options):
    words = []
    for name, value in options.items():
        long = "--" + name.replace("_", "-")
        if name in _options.FLAGS:
            words += [long] if value else []
        elif value is not None:
            words += [f"{long}={value}".encode() if not isinstance(value, bytes) else long.encode() + b"=" + value]
    return words


def by_command(subcommand, notes, options, *more):
    done = subprocess.run([COMMAND, subcommand, *words_of(options), *more], input=notes, stdout=subprocess.PIPE, stderr=subprocess.PIPE, env={**os.environ, "LC_ALL": "C"})
    return done.returncode, done.stdout, done.stderr.decode()


def outcome(call, *arguments, **options):
    """What a call gives, or the words of its refusal."""
    try:
        return call(*arguments, **options), None
    except rudignals.Refused as refused:
        return None, str(refused)


class AgainstTheCommand(unittest.TestCase):
    def same(self, subcommand, made, notes, options, *more):
        """The same output, or refused with the same words."""
        status, out, said = by_command(subcommand, notes, options, *more)
        if made[1] is None:
            self.assertEqual((status, out), (0, made[0]), said)
        else:
            self.assertNotEqual(status, 0)
            self.assertEqual(re.sub(r"^rudignals: (standard input: )?", "", said).rstrip("\n"), made[1])

    @given(ANY, OPTIONS)
    @example(b"", {"width": 5})
    @example(b"a\n\xb0\n", {"goal": 941})
    @example(b"ab\xc3\xa9 \xb0\n", {})
    def test_format(self, notes, options):
        made = outcome(rudignals.format, notes, **options)
        self.same("format", made, notes, options)
        if made[1] is None:
            self.assertEqual(rudignals.measure(notes, **options), len(made[0]))

    @given(ANY, RIGHT)
    def test_index(self, notes, options):
        records = outcome(rudignals.index, notes, **options)
        lines = "".join(f'{{"place":{r.place},"length":{r.length},"first":{r.first + 1},"count":{r.count}}}\n' for r in records[0] or [])
        self.same("index", (lines.encode(), records[1]), notes, options, "--json")

    @given(ANY, RIGHT)
    def test_explain(self, notes, options):
        status, out, _ = by_command("explain", notes, options, "--json")
        for line, told in enumerate(json.loads(row) for row in out.decode().splitlines()):
            reason = rudignals.explain(notes, line, **options)
            self.assertEqual(re.sub(r"(?<!^)(?=[A-Z])", " ", type(reason).__name__).lower(), told["kind"])
            numbers = [value for name, value in told.items() if isinstance(value, int) and name not in ("line", "width", "goal")]
            self.assertEqual(list(dataclasses.astuple(reason)), numbers)
        if status == 0:
            with self.assertRaises(rudignals.Refused) as caught:
                rudignals.explain(notes, len(out.splitlines()), **options)
            self.assertEqual((caught.exception.code, caught.exception.number), (rudignals.Code.NO_LINE, len(out.splitlines())))

    @given(ANY, MAILED)
    def test_flow(self, notes, options):
        self.same("flow", outcome(rudignals.flow, notes, **options), notes, options)

    @given(ANY)
    def test_unflow(self, mail):
        self.same("unflow", outcome(rudignals.unflow, mail), mail, {})


class AgainstModels(unittest.TestCase):
    @given(ANY)
    def test_unflow(self, mail):
        self.assertEqual(rudignals.unflow(mail), MAIL.unflowed(mail))

    @given(NOTES, NOTES, RIGHT)
    @example("a b\n", "a\nc\n", {})
    def test_check(self, notes, digest, options):
        names = dict(zip(_options.FLAGS, CHECK.Options.FLAGS))
        asked = CHECK.Options(**{names.get(name, name): value.encode() if isinstance(value, str) else value for name, value in options.items()})
        for made in (digest, rudignals.format(notes, **options)):
            code, number = CHECK.check(asked, notes.encode(), made.encode())
            self.assertEqual(rudignals.check(notes, made, **options), number if code == 10 else None)

    @given(DAMAGED)
    def test_mend(self, notes):
        mended, changes = [], []
        for line in re.findall(rb"[^\n]*\n|[^\n]+", notes):
            try:
                line.decode("utf-8")
                mended.append(line)
            except UnicodeDecodeError:
                at = len(b"".join(re.findall(rb"[^\n]*\n|[^\n]+", notes)[:len(mended)]))
                mended.append(line.decode("latin-1").encode("utf-8"))
                changes += [(at + i, byte) for i, byte in enumerate(line) if byte >= 0x80]
        self.assertEqual(rudignals.mend(notes), (b"".join(mended), changes))
        self.assertEqual(rudignals.restore(rudignals.mend(notes)), notes)
        rudignals.format(b"".join(mended))

    @given(st.lists(st.text(st.characters(min_codepoint=32, max_codepoint=126), max_size=100), max_size=40))
    def test_panel(self, lines):
        rows = [line[:79] + "+" if len(line) > 80 else line.ljust(80) for line in lines][-24:]
        self.assertEqual(rudignals.panel("".join(line + "\n" for line in lines)), [" " * 80] * (24 - len(rows)) + rows)

    @given(NOTES, st.integers(1, 90))
    def test_fold(self, notes, columns):
        folded = rudignals.fold(notes, columns)
        self.assertEqual(folded.replace("\n", ""), notes.replace("\n", ""))
        if re.fullmatch(r"[ -~\t\n]*", notes):
            self.assertEqual(folded.encode(), subprocess.run(["fold", "-w", str(columns)], input=notes.encode(), stdout=subprocess.PIPE).stdout)

    @given(st.lists(st.sampled_from([b"a\n", b"\n", b" \t\n", b"bb\r\n", b"\r\n", b"ccc", b" \n"]), max_size=60).map(b"".join), st.integers(1, 12))
    def test_cuts(self, notes, most):
        """Parts as the rules of cutting have them: forward, line by line, the last blank line that begins within the limit; after it if it also ends there."""
        at, want = 0, []
        while len(notes) - at > most:
            cut, begin = 0, at
            while begin - at <= most and (end := notes.find(b"\n", begin) + 1):
                if not notes[begin:end].strip():
                    cut = end if end - at <= most else begin
                begin = end
            end = cut if cut > at else len(notes)
            want.append((at, notes[at:end]))
            at = end
        want += [(at, notes[at:])] if at < len(notes) or not notes else []
        self.assertEqual(list(_parts._cut(notes, most, _parts._blank_cut)), want)

    @given(st.one_of(ANY, st.lists(st.sampled_from([b"a \r\n", b"b\r\n", b"> c \n", b"d\n", b"-- \r\n", b" "]), max_size=20).map(b"".join)), st.integers(1, 12))
    def test_cut_mail(self, mail, most):
        """Mail cut after fixed lines is read as the whole, and no part but one that cannot be cut is too long."""
        parts = [part for _, part in _parts._cut(mail, most, _parts._fixed_cut)]
        self.assertEqual(b"".join(parts), mail)
        self.assertEqual(b"".join(map(rudignals.unflow, parts)), rudignals.unflow(mail))


class Laws(unittest.TestCase):
    @given(NOTES, OPTIONS)
    def test_text_comes_out_as_it_went_in(self, notes, options):
        as_bytes, as_text = outcome(rudignals.format, notes.encode(), **options), outcome(rudignals.format, notes, **options)
        self.assertEqual((as_text[0].encode() if as_text[0] is not None else None, as_text[1]), as_bytes)
        self.assertIsInstance(as_text[0], (str, type(None)))

    @given(ANY)
    def test_index_covers_notes_and_digest(self, notes):
        records = rudignals.index(notes, keep=True)
        self.assertEqual(b"".join(notes[r.place:r.place + r.length] for r in records), notes)
        self.assertEqual(sum(r.count for r in records), rudignals.format(notes, keep=True).count(b"\n"))
        for record in records:
            self.assertEqual(rudignals.lookup(records, notes, record.first), notes[record.place:record.place + record.length])
        self.assertIsNone(rudignals.lookup(records, notes, sum(r.count for r in records)))
        self.assertIsNone(rudignals.lookup(records, notes, -1))

    @given(DAMAGED, st.lists(st.tuples(st.integers(-2, 80), st.integers(-1, 256)), max_size=4))
    def test_restore_takes_what_belongs(self, copy, changes):
        """A list that is accepted loses nothing; another is refused by the number of its first wrong entry."""
        try:
            notes = rudignals.restore(rudignals.Mended(copy, changes))
            self.assertEqual(len(notes), len(copy) - len(changes))
            for place, byte in changes:
                self.assertEqual(notes[place], byte)
        except rudignals.Refused as refused:
            self.assertEqual(refused.code, rudignals.Code.LIST)
            self.assertLess(refused.number, len(changes))

    def test_wrong_calls(self):
        for call in (lambda: rudignals.format(5), lambda: rudignals.format("a", wide=3), lambda: rudignals.format(bytearray(b"a")), lambda: rudignals.format("a", width="60"),
                     lambda: rudignals.format("a", width=60.0), lambda: rudignals.format("a", prefix=5), lambda: rudignals.fold("a", "3")):
            with self.assertRaises(TypeError):
                call()
        for call, words in ((lambda: rudignals.panel("a", 101), "--tab-width 101: must be 0 to 100"), (lambda: rudignals.fold("a", 0), "columns 0: must be 1 to 1000"),
                            (lambda: rudignals.fold("a", 5, -1), "--tab-width -1: must be 0 to 100"), (lambda: rudignals.flow("a", prefix=">"), "mail takes no prefix, .*"),
                            (lambda: rudignals.explain("a\n", 1), "there is no line 2: the digest has 1 line"), (lambda: rudignals.check("a", "b" * 1048577), "the digest has more than [0-9]+ bytes"),
                            (lambda: rudignals.check("b" * 1048577, "a"), "the notes have more than [0-9]+ bytes")):
            with self.assertRaisesRegex(rudignals.Refused, f"^{words}$"):
                call()

    def test_refusals_have_their_place(self):
        with self.assertRaises(rudignals.Refused) as caught:
            rudignals.format("a\n\né ".encode() + b"\xb0")
        told = caught.exception
        self.assertEqual((told.code, told.number, told.place, told.line, told.column), (rudignals.Code.TEXT, 6, 6, 3, 3))
        again = pickle.loads(pickle.dumps(told))
        self.assertEqual((str(again), again.code, again.number, again.place, again.line, again.column), (str(told), told.code, 6, 6, 3, 3))


class LongNotes(unittest.TestCase):
    notes = (b"word " * 20 + b"\n\n") * 20000

    def test_format_and_index(self):
        self.assertEqual(rudignals.format(self.notes, width=30), by_command("format", self.notes, {"width": 30})[1])
        self.assertEqual(rudignals.flow(self.notes, width=30), by_command("flow", self.notes, {"width": 30})[1])
        lines = "".join(f'{{"place":{r.place},"length":{r.length},"first":{r.first + 1},"count":{r.count}}}\n' for r in rudignals.index(self.notes, width=30))
        self.assertEqual(lines.encode(), by_command("index", self.notes, {"width": 30}, "--json")[1])

    @unittest.skipUnless(_library.most_for("write") == _library.MOST_LARGE, "the library has no large calls")
    def test_large_paragraphs(self):
        """Paragraphs of more words and bytes than a small call takes: as quick digests can be foretold, word by word."""
        words = [b"w%d" % (n * 7919 % 100000) for n in range(60000)]
        lines, line = [], b""
        for word in words:
            if line and len(line) + 1 + len(word) > 40:
                lines.append(line)
                line = b""
            line += (b" " if line else b"") + word
        digest = b"".join(line + b"\n" for line in [*lines, line])
        notes = b" ".join(words) + b"\n"
        self.assertGreater(len(notes), 300_000)
        self.assertEqual(rudignals.format(notes, width=40, quick=True), digest)
        self.assertEqual(rudignals.measure(notes, width=40, quick=True), len(digest))
        if _library.most_for("write_indexed") == _library.MOST_LARGE:
            self.assertEqual(rudignals.index(notes, width=40, quick=True), [(0, len(notes), 0, digest.count(b"\n"))])
        self.assertEqual(rudignals.explain(notes, digest.count(b"\n") - 1, width=40, quick=True), rudignals.EndOfParagraph())
        self.assertIsNone(rudignals.check(notes, digest))
        self.assertEqual(rudignals.check(notes, digest.replace(b"w7919 ", b"w7918 ", 1)), 0)
        self.assertEqual(rudignals.flow(notes, width=40), digest.replace(b"\n", b" \r\n")[:-3] + b"\r\n")
        kept = rudignals.format(notes)
        self.assertEqual(kept.split(), words)

    def test_too_large(self):
        notes = b"a\n\n" + b"b " * 600_000
        with self.assertRaisesRegex(rudignals.Refused, f"^line 3, column 1: more than {_library.most_for('measure')} bytes from here on have no empty line; put one between paragraphs$") as caught:
            rudignals.format(notes)
        self.assertEqual((caught.exception.code, caught.exception.place), (rudignals.Code.LONG, 3))

    def test_refused_far_in(self):
        with self.assertRaises(rudignals.Refused) as caught:
            rudignals.format(self.notes + b"\xb0\n")
        told = caught.exception
        self.assertEqual((told.code, told.place, told.line, told.column), (rudignals.Code.TEXT, len(self.notes), 40001, 1))

    def test_explain_far_in(self):
        last = rudignals.format(self.notes, width=30, quick=True).count(b"\n") - 1
        self.assertEqual(rudignals.explain(self.notes, last, width=30, quick=True), rudignals.BlankLine())
        self.assertEqual(rudignals.explain(self.notes, last - 2, width=30, quick=True), rudignals.explain(self.notes, 2, width=30, quick=True))

    def test_mend_and_restore(self):
        notes = (b"40\xb0 and more\n" + "\u6f22\n".encode()) * 20000
        mended = rudignals.mend(notes)
        self.assertEqual(len(mended.changes), 20000)
        self.assertEqual(mended.copy, (b"40\xc2\xb0 and more\n" + "\u6f22\n".encode()) * 20000)
        self.assertEqual(rudignals.restore(mended), notes)
        wrong = mended._replace(changes=mended.changes[:15000] + [(1, 176)] + mended.changes[15001:])
        with self.assertRaises(rudignals.Refused) as caught:
            rudignals.restore(wrong)
        self.assertEqual((caught.exception.code, caught.exception.number), (rudignals.Code.LIST, 15000))
        with self.assertRaisesRegex(rudignals.Refused, "^line 2, column 1: the line has more than 65536 bytes$"):
            rudignals.mend(b"a\n" + b"\xb0" * 70000)

    def test_unflow(self):
        mail = b"a \r\nb\r\n" * 30000
        self.assertEqual(rudignals.unflow(mail), b"a b\r\n" * 30000)


class Threads(unittest.TestCase):
    def test_many_at_once(self):
        texts = [("w%d " % i * 900 + "\n\n").encode() * 10 for i in range(16)]
        alone = [(rudignals.format(t), rudignals.index(t), rudignals.flow(t)) for t in texts]
        with concurrent.futures.ThreadPoolExecutor(8) as pool:
            for _ in range(4):
                self.assertEqual(list(pool.map(lambda t: (rudignals.format(t), rudignals.index(t), rudignals.flow(t)), texts)), alone)

    def test_the_lock_is_released(self):
        """While the library folds a long text this thread goes on: of what it notes, something is well within the call."""
        text, span, ready = b"a b " * 20_000_000, [], threading.Event()

        def fold():
            ready.set()
            span.append(time.perf_counter())
            _library.call("fold", *_library.slice_of(text), 8, 80, None, 0)
            span.append(time.perf_counter())

        worker, noted = threading.Thread(target=fold), []
        worker.start()
        ready.wait()
        while worker.is_alive():
            noted.append(time.perf_counter())
            time.sleep(0.001)
        third = (span[1] - span[0]) / 3
        self.assertTrue(any(span[0] + third < at < span[1] - third for at in noted), (span, len(noted)))


class Rest(unittest.TestCase):
    def test_docstrings(self):
        tried = [doctest.testmod(module, extraglobs={"rudignals": rudignals}) for module in (rudignals, _library)]
        self.assertEqual([result.failed for result in tried], [0, 0])
        self.assertGreater(sum(result.attempted for result in tried), 15)
        shown = [name for name in rudignals.__all__ if callable(getattr(rudignals, name)) and not getattr(rudignals, name).__doc__]
        self.assertEqual(shown, [])

    def test_version(self):
        self.assertEqual(rudignals.version(), rudignals.__version__)

    def test_codes(self):
        self.assertEqual(len({code.words for code in rudignals.Code}), 13)

    def test_time(self):
        """64 KiB through Python take at most twice what a C program takes for them."""
        notes = (("The valve at the north gate was opened late, and closed by hand. " * 12 + "\n\n").encode() * 90)[:65536]
        best = min(self.seconds(notes) for _ in range(40))
        by_c = float(subprocess.run([os.environ["RUDIGNALS_TIME"]], input=notes, stdout=subprocess.PIPE, check=True).stdout)
        print(f"python: 64 KiB formatted in {best * 1e6:.0f} us; in C {by_c * 1e6:.0f} us")
        self.assertLess(best, 2 * by_c)

    @staticmethod
    def seconds(notes):
        begun = time.perf_counter()
        rudignals.format(notes)
        return time.perf_counter() - begun


if __name__ == "__main__":
    unittest.main(argv=[sys.argv[0], "-q", *sys.argv[1:]])
