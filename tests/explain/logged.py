#!/usr/bin/env python3
"""Makes the original log why each output line ends.

Usage: logged.py SOURCE TARGET [FAULT]    SOURCE being a build folder of tests/oracle/replace.py; with FAULT, a log that has that fault
       logged.py                          how many faults there are

A break of Knuth-Plass carries what made it; the log is written where a line feed is. Every replacement states how often its old text
occurs, and any other count stops the build. No decision of the original is changed.
"""
import pathlib
import sys

LOG = """
thread_local!(pub static LOG: ::std::cell::RefCell<Vec<[u64; 6]>> = ::std::cell::RefCell::new(Vec::new()));

/// Why a line of the output ends: the kind and its numbers.
pub fn log(why: [u64; 6]) {
    LOG.with(|log| log.borrow_mut().push(why));
}
"""

# (file, times the old text occurs, old text, new text)
CHANGES = [
    # plain and blank lines
    ("fmt.rs", 1, "silent_unwrap!(ostream.write_all(s.as_bytes()));\n",
     "silent_unwrap!(ostream.write_all(s.as_bytes()));\n                    linebreak::log([if s.is_empty() { 2 } else { 1 }, 0, 0, 0, 0, 0]);\n"),
    # a paragraph ends, under either breaker
    ("linebreak.rs", 2, "    silent_unwrap!(args.ostream.write_all(b\"\\n\"));\n}",
     "    silent_unwrap!(args.ostream.write_all(b\"\\n\"));\n    log([0; 6]);\n}"),
    # quick: the numbers of the test that failed
    ("linebreak.rs", 1, "    if l + wlen + slen > args.opts.width {\n",
     "    if l + wlen + slen > args.opts.width {\n"
     "        log([3, l as u64, args.compute_width(winfo, l, false) as u64, slen as u64, winfo.word_nchars as u64, 0]);\n"),
    # Knuth-Plass: the terms with the demerits
    ("linebreak.rs", 1, "prev_rat: f32) -> (i64, f32) {", "prev_rat: f32) -> (i64, f32, [i64; 3]) {"),
    ("linebreak.rs", 1, "    (demerits, ratio)\n", "    (demerits, ratio, [bad_linelen, bad_wordlen, bad_delta_r])\n"),
    ("linebreak.rs", 1, "let (new_demerits, new_ratio) =", "let (new_demerits, new_ratio, terms) ="),
    ("linebreak.rs", 1, "(0, 0.0)\n", "(0, 0.0, [0; 3])\n"),
    # a break with what made it
    ("linebreak.rs", 1, "    length: usize,\n    fresh: bool,\n}", "    length: usize,\n    fresh: bool,\n    why: [u64; 6],\n}"),
    ("linebreak.rs", 1, "length: args.init_len,\n", "length: args.init_len,\n            why: [9; 6],\n"),
    ("linebreak.rs", 1, "demerits: total_demerits,\n",
     "demerits: total_demerits,\n"
     "                            why: [4, tlen as u64, terms[0] as u64, terms[1] as u64, terms[2] as u64, new_demerits as u64],\n"),
    ("linebreak.rs", 1, "        linebreak: Some(w),\n        break_before,\n",
     "        linebreak: Some(w),\n        break_before,\n        why: [if break_before { 5 } else { 6 }, 0, 0, 0, 0, 0],\n"),
    # the path with it
    ("linebreak.rs", 2, "-> Vec<(&'a WordInfo<'a>, bool)>", "-> Vec<(&'a WordInfo<'a>, bool, [u64; 6])>"),
    ("linebreak.rs", 1, "breakwords.push((prev, next_best.break_before));", "breakwords.push((prev, next_best.break_before, next_best.why));"),
    # and where the line feeds are written
    ("linebreak.rs", 1, "let (mut prev_punct, mut fresh) = breakpoints", "let (mut prev_punct, mut fresh, last) = breakpoints"),
    ("linebreak.rs", 1, "        (false, false),\n        |(mut prev_punct, mut fresh), &(next_break, break_before)| {\n"
                        "            if fresh {\n",
     "        (false, false, [9; 6]),\n        |(mut prev_punct, mut fresh, last), &(next_break, break_before, why)| {\n"
     "            if fresh {\n                log(last);\n"),
    ("linebreak.rs", 1, "                    if break_before {\n", "                    if break_before {\n                        log(why);\n"),
    ("linebreak.rs", 1, "            (prev_punct, fresh)\n        },", "            (prev_punct, fresh, why)\n        },"),
    ("linebreak.rs", 1, "    for winfo in iter {\n        if fresh {\n", "    for winfo in iter {\n        if fresh {\n            log(last);\n"),
]

# Logs that are wrong in one thing, each as the changed text, in the order of the document's numbers: t of the line as it is emitted; the
# terms of the round's first offer; the total for the cost; a last line that gives the break behind its last word; before and after exchanged.
FAULTS = [
    [("let tlen = w.word_nchars", "let was_fresh = active.fresh;\n            let tlen = w.word_nchars"),
     ("why: [4, tlen as u64,", "why: [4, (if was_fresh { tlen - slen } else { tlen }) as u64,")],
    [("            Some(lb) => {\n", "            Some(mut lb) => {\n                if let Some(first) = new_linebreaks.first() { lb.why = first.why; }\n")],
    [("terms[2] as u64, new_demerits as u64],", "terms[2] as u64, total_demerits as u64],")],
    [("        fresh = false;\n        write_with_spaces(word, slen, args.ostream);\n    }\n    silent_unwrap!(args.ostream.write_all(b\"\\n\"));\n    log([0; 6]);",
      "        fresh = false;\n        write_with_spaces(word, slen, args.ostream);\n    }\n    silent_unwrap!(args.ostream.write_all(b\"\\n\"));\n"
      "    log(if fresh { last } else { [0; 6] });")],
    [("why: [if break_before { 5 } else { 6 }", "why: [if break_before { 6 } else { 5 }")],
]


def main():
    if len(sys.argv) == 1:
        print(len(FAULTS))
        return
    source, target = pathlib.Path(sys.argv[1]), pathlib.Path(sys.argv[2])
    target.mkdir(parents=True, exist_ok=True)
    fault = FAULTS[int(sys.argv[3]) - 1] if len(sys.argv) > 3 else []
    for name in ("fmt.rs", "linebreak.rs", "parasplit.rs"):
        text = (source / name).read_text(encoding="utf-8")
        for file, times, old, new in CHANGES:
            if file != name:
                continue
            found = text.count(old)
            if found != times:
                sys.exit(f"explain: {name}: found {found} times, not {times}: {old!r}")
            text = text.replace(old, new)
        if name == "linebreak.rs":
            text += LOG
            for old, new in fault:
                if text.count(old) != 1:
                    sys.exit(f"explain: a fault in the log: found {text.count(old)} times: {old!r}")
                text = text.replace(old, new)
        (target / name).write_text(text, encoding="utf-8")


main()
