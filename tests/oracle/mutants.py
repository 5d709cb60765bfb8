#!/usr/bin/env python3
"""The original, or the model of refusals, with one rule changed, to see that the comparison at scale finds it.

Usage: mutants.py              how many there are
       mutants.py N FOLDER     changes the sources in FOLDER by mutant N (from 1) and prints what it changes

Rules that no output shows are not among them: the reduction of demerits, the offer behind the last word, the sign in the
restart test, and that a width alone is at least 6 (the narrower ones fail the rule of width and goal anyway).
"""
import pathlib
import sys

LINES, BREAKS, OPTIONS, MODEL, GLUE = "cube/parasplit.rs", "cube/linebreak.rs", "cube/fmt.rs", "model.rs", "glue.rs"

# (file, old text, new text); the first place where the old text stands is changed
MUTANTS = [
    # lines
    (LINES, "return Some(Line::NoFormatLine(\"\".to_owned(), true));", "return Some(Line::NoFormatLine(\"\".to_owned(), false));"),
    (LINES, "if n.chars().all(|c| c.is_whitespace()) {", "if n.chars().all(|c| c == ' ' || c == '\\t') {"),
    (LINES, "if line.starts_with(pfx) {", "if !exact && line.starts_with(pfx) {"),
    (LINES, "} else if !char.is_whitespace() {", "} else if char != ' ' {"),
    (LINES, "if !exact {", "if exact {"),
    (LINES, "prefix_len = indent_len;", "prefix_len = 0;"),
    (LINES, "if !self.match_anti_prefix(&n[..]) {", "if false && !self.match_anti_prefix(&n[..]) {"),
    # paragraphs
    (LINES, "if line.indent_end > 0 {", "if line.indent_end > 1 {"),
    (LINES, "if colon_posn == 0 {", "if false {"),
    (LINES, "y if y < 33 || y > 126 => false,", "y if y < 33 || y > 127 => false,"),
    (LINES, "y if y < 33 || y > 126 => false,", "y if y < 32 || y > 126 => false,"),
    (LINES, "l_slice.starts_with(\"From \")", "l_slice.starts_with(\"From\")"),
    (LINES, "if fl.indent_end == 0 || (self.opts.use_prefix && fl.pfxind_end == 0) {", "if fl.indent_end == 0 {"),
    (LINES, "indent_len = 2;", "indent_len = 1;"),
    (LINES, "indent_str.push_str(\"    \");", "indent_str.push_str(\"   \");"),
    (LINES, "indent_len += 4;", "indent_len += 4 + (self.opts.width == 9) as usize;"),
    (LINES, "if prefix_len != fl.prefix_len || pfxind_end != fl.pfxind_end {", "if prefix_len != fl.prefix_len {"),
    (LINES, "if prefix_len != fl.prefix_len || pfxind_end != fl.pfxind_end {", "if pfxind_end != fl.pfxind_end {"),
    (LINES, "&& indent_end == fl.indent_end\n", "\n"),
    (LINES, "if indent_end != fl.indent_end || pfxind_end != fl.pfxind_end\n", "if pfxind_end != fl.pfxind_end\n"),
    (LINES, "|| indent_len != fl.indent_len\n", "\n"),
    (LINES, "self.next_mail = in_mail;", "self.next_mail = false;"),
    (LINES, "if self.opts.split_only {", "if self.opts.split_only && !in_mail {"),
    # words
    (LINES, "'!' | '.' | '?' => true,", "'!' | '.' => true,"),
    (LINES, "'!' | '.' | '?' => true,", "'!' | '.' | '?' | ':' => true,"),
    (LINES, "word_start_relative > 1);", "word_start_relative > 2);"),
    (LINES, "before_tab.is_some() || word_start_relative > 1", "word_start_relative > 1"),
    (LINES, "aftertab = (aftertab / self.opts.tabwidth + 1) * self.opts.tabwidth;", "aftertab += self.opts.tabwidth;"),
    (LINES, "word_nchars: x.len(),", "word_nchars: x.chars().count(),"),
    (LINES, "let new_line = old_position == 0;", "let new_line = old_position == 0 && !self.opts.mail;"),
    # spacing and quick
    (BREAKS, "post + ((pre + posn) / self.opts.tabwidth + 1)", "post + (posn / self.opts.tabwidth + 1)"),
    (BREAKS, "if l + wlen + slen > args.opts.width {", "if l + wlen + slen >= args.opts.width {"),
    (BREAKS, "(args.indent_len + winfo.word_nchars, winfo.ends_punct)", "(args.indent_len + winfo.word_nchars, false)"),
    (BREAKS, "iter.fold((args.init_len, false)", "iter.fold((args.init_len, true)"),
    (BREAKS, "if start || (newline && punct) {", "if start || punct {"),
    (BREAKS, "if opts.quick || para.mail_header {", "if opts.quick {"),
    (BREAKS, "let uniform = para.mail_header || opts.uniform;", "let uniform = opts.uniform;"),
    # Knuth-Plass
    (BREAKS, "(false, st || (nl && w.ends_punct))", "(false, st)"),
    (BREAKS, "let slen = compute_slen(args.uniform, w.new_line, is_sentence_start, false);", "let slen = 1;"),
    (BREAKS, "if active.demerits < ld_next {", "if active.demerits <= ld_next {"),
    (BREAKS, "if tlen <= args.opts.width {", "if tlen < args.opts.width {"),
    (BREAKS, "if tlen >= minlength {", "if tlen > minlength {"),
    (BREAKS, "total_demerits < ld_new", "total_demerits <= ld_new"),
    (BREAKS, "prev_rat: new_ratio,", "prev_rat: 0.0,"),
    (BREAKS, "const BAD_MULT: f32 = 100.0;", "const BAD_MULT: f32 = 101.0;"),
    (BREAKS, "const DR_MULT: f32 = 600.0;", "const DR_MULT: f32 = 601.0;"),
    (BREAKS, "const DL_MULT: f32 = 300.0;", "const DL_MULT: f32 = 299.0;"),
    (BREAKS, "let bad_wordlen = if wlen >= stretch ||", "let bad_wordlen = if wlen + 1 >= stretch ||"),
    (BREAKS, "/ (stretch - 1) as f32)", "/ stretch as f32)"),
    (BREAKS, "i64::pow(1 + bad_linelen", "i64::pow(bad_linelen"),
    (BREAKS, "let (break_before, line_length) = if active.fresh {", "let (break_before, line_length) = if false {"),
    (BREAKS, "if overlen > underlen {", "if overlen >= underlen {"),
    (BREAKS, "prev_rat: if break_before { 1.0 } else { -1.0 },", "prev_rat: 0.0,"),
    (BREAKS, "(true, args.indent_len + w.word_nchars)", "(true, args.indent_len)"),
    # options
    (OPTIONS, "fmt_opts.tabwidth = 1;", "fmt_opts.tabwidth = 2;"),
    (OPTIONS, "fmt_opts.goal * 100 / 94, fmt_opts.goal + 3", "fmt_opts.goal * 100 / 94, fmt_opts.goal + 2"),
    (OPTIONS, "fmt_opts.width * 94 / 100", "fmt_opts.width * 93 / 100"),
    # refusals
    (MODEL, ".map(|e| e.valid_up_to())", ".map(|e| e.valid_up_to() + 1)"),
    (MODEL, "(None, None) => (79, 74)", "(None, None) => (79, 80)"),
    (MODEL, "goal <= width &&", "goal < width &&"),
    (MODEL, "width <= 2 * goal", "width < 2 * goal"),
    (MODEL, "&& width <= 1000", ""),
    (MODEL, "Err(block.len())", "Err(0)"),
    (MODEL, "|| tag <= *last", "|| tag < *last"),
    (MODEL, "!(1..=6).contains(&tag)", "!(1..=5).contains(&tag)"),
    (MODEL, "[0..=2047, 1..=1000, 1..=1000, 0..=100]", "[0..=4095, 1..=1000, 1..=1000, 0..=100]"),
    (MODEL, "[0..=2047, 1..=1000, 1..=1000, 0..=100]", "[0..=2047, 0..=1000, 1..=1000, 0..=100]"),
    (MODEL, "[0..=2047, 1..=1000, 1..=1000, 0..=100]", "[0..=2047, 1..=1000, 1..=999, 0..=100]"),
    (MODEL, "[0..=2047, 1..=1000, 1..=1000, 0..=100]", "[0..=2047, 1..=1000, 1..=1000, 1..=100]"),
    (MODEL, "size == 2 &&", "size >= 2 &&"),
    (MODEL, "size <= 255 &&", "size <= 254 &&"),
    (MODEL, "&& damage(v).is_none())", "&& v.is_ascii())"),
    (MODEL, "if notes.len() > most {", "if notes.len() >= most {"),
    (MODEL, "if words > 1024 {", "if words > 1023 {"),
    (MODEL, "if !fields.has(KEEP) {", "if true {"),
    (MODEL, "if fields.has(GLUE) {", "if false {"),
    (MODEL, "if fields.has(CHARACTERS) && fields.has(UNIFORM) {", "if false {"),
    (MODEL, "if fields.has(CHARACTERS) && fields.has(UNIFORM) {", "if fields.has(UNIFORM) {"),
    (MODEL, ".take(line)", ".take(line + 1)"),
    # glue: the edge taken for ordinary; one neighbour asked; U+00A0 taken for a neighbour; the class by what is behind a prefix
    (GLUE, "nearest.map_or(false,", "nearest.map_or(true,"),
    (GLUE, "is_ink(line[..at].iter().rev().find(|c| **c != NO_BREAK)) && ", ""),
    (GLUE, " && is_ink(line[at..].iter().find(|c| **c != NO_BREAK))", ""),
    (GLUE, "line[..at].iter().rev().find(|c| **c != NO_BREAK)", "line[..at].iter().rev().next()"),
    (GLUE, "line[at..].iter().find(|c| **c != NO_BREAK)", "line[at + 1..].iter().next()"),
    (GLUE, "is_ordinary(&chars, n)", "matched.end <= at && is_ordinary(&chars[text[..matched.end].chars().count()..], n - text[..matched.end].chars().count())"),
]


def main():
    if len(sys.argv) == 1:
        print(len(MUTANTS))
        return
    file, old, new = MUTANTS[int(sys.argv[1]) - 1]
    path = pathlib.Path(sys.argv[2]) / file
    text = path.read_text(encoding="utf-8")
    if old not in text:
        sys.exit(f"mutants: {file} has no {old!r}")
    path.write_text(text.replace(old, new, 1), encoding="utf-8")
    print(f"{file}: {' '.join(old.split())}  ->  {' '.join(new.split())}")


main()
