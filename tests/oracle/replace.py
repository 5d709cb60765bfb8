#!/usr/bin/env python3
"""Copy the Rust original into a build folder, changed by the replacements below.

Usage: replace.py SOURCE TARGET powf|cube|amended

Every replacement states how often its old text occurs. Any other count stops
the build, so the original cannot drift away from what is listed here.
"""
import pathlib
import sys

# The call per file is cut out of the loop over files, so that the option
# arithmetic above it and the loop over paragraphs below it stay the original's.
FILES_LOOP = """    // immutable now
    let fmt_opts = fmt_opts;

    let mut files = matches.free;
    if files.is_empty() {
        files.push("-".to_owned());
    }

    let mut ostream = BufWriter::new(stdout());

    for i in files.iter().map(|x| &x[..]) {
        let mut fp = match i {
            "-" => BufReader::new(Box::new(stdin()) as Box<Read + 'static>),
            _ => match File::open(i) {
                Ok(f) => BufReader::new(Box::new(f) as Box<Read + 'static>),
                Err(e) => {
                    show_warning!("{}: {}", i, e);
                    continue;
                }
            },
        };
"""
ONE_CALL = """    fmt_opts
}

pub fn format(fmt_opts: &FmtOptions, notes: &[u8]) -> Vec<u8> {
    let mut ostream = Vec::new();
    {
        let mut fp = ::std::io::Cursor::new(notes.to_vec());
"""

# (file, times the old text occurs, old text, new text)
BOTH = [
    ("fmt.rs", 1, '#![crate_name = "uu_fmt"]\n', ""),
    ("fmt.rs", 1, "mod linebreak;", "pub mod linebreak;"),
    ("fmt.rs", 1, "BufReader<Box<Read + 'static>>;", "::std::io::Cursor<Vec<u8>>;"),
    ("fmt.rs", 1, "    width: usize,\n    goal: usize,\n",
                  "    pub width: usize,\n    pub goal: usize,\n"),
    ("fmt.rs", 1, "pub fn uumain(args: Vec<String>) -> i32 {",
                  "pub fn options(args: Vec<String>) -> FmtOptions {"),
    ("fmt.rs", 1, FILES_LOOP, ONE_CALL),
    ("fmt.rs", 1, "\n    0\n}\n", "\n    ostream\n}\n"),
    ("linebreak.rs", 4, "BufWriter<Stdout>", "Vec<u8>"),
    ("linebreak.rs", 1, "fn compute_demerits(", "pub fn compute_demerits("),
]
CUBE = [
    ("linebreak.rs", 3, ".powf(3f32)", ".cube()"),
    ("linebreak.rs", 1, "use std::mem;\n", "use std::mem;\nuse uucore::Cube;\n"),
]
# RULES 8.4: at stretch 1 the W of a word of width 0 is 0. The original divides 1 by 0 there.
AMENDED = [
    ("linebreak.rs", 1, "if wlen >= stretch {", "if wlen >= stretch || stretch == 1 {"),
]


def main():
    source, target, build = pathlib.Path(sys.argv[1]), pathlib.Path(sys.argv[2]), sys.argv[3]
    changes = {"powf": BOTH, "cube": BOTH + CUBE, "amended": BOTH + CUBE + AMENDED}[build]
    target.mkdir(parents=True, exist_ok=True)
    for name in ("fmt.rs", "linebreak.rs", "parasplit.rs"):
        text = (source / name).read_text(encoding="utf-8")
        for file, times, old, new in changes:
            if file != name:
                continue
            found = text.count(old)
            if found != times:
                sys.exit(f"oracle: {name}: found {found} times, not {times}: {old!r}")
            text = text.replace(old, new)
        (target / name).write_text(text, encoding="utf-8")


main()
