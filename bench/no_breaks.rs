//! U+00A0 with glue on beside glue off (RULES 4.4): the same 64 KiB, so that a class that is worked out again and again shows.

use crate::options::{Opts, GLUE, QUICK, STAND_INS};
use crate::{call, least, Side};

const ALL: usize = 65536;
const NO_BREAK: &str = "\u{a0}";

/// Pieces until 64 KiB are full, the last left out; each is told its number.
fn filled(piece: impl Fn(usize) -> String) -> String {
    let mut notes = String::new();
    for n in 1.. {
        let more = piece(n);
        if notes.len() + more.len() > ALL {
            break;
        }
        notes += &more;
    }
    notes
}

/// With glue off each `a` is a word, so that lines of 500 are paragraphs of their own.
fn texts() -> Vec<(&'static str, String)> {
    let run = |n: usize| NO_BREAK.repeat(n);
    vec![
        ("U+00A0 alone", filled(|_| run(1))),
        ("a and U+00A0 in turn", filled(|_| ("a".to_string() + &run(1)).repeat(500) + "a\n\n")),
        ("runs of every length", filled(|n| "a".to_string() + &run(n))),
        ("runs, each with a space behind it", filled(|n| "a".to_string() + &run(n) + " ")),
        ("runs, each between spaces", filled(|n| "a ".to_string() + &run(n) + " ")),
        ("a prefix, runs behind it", filled(|n| ">".to_string() + &run(1 + n % 100) + "a\n\n")),
    ]
}

/// The output, compared byte for byte with the Rust's.
fn checked(opts: &Opts, notes: &str) -> usize {
    let shown = opts.shown(notes);
    let digest = String::from_utf8(fmt_cube::format(&fmt_cube::options(opts.args()), shown.as_bytes())).unwrap();
    let expected = if opts.has(GLUE) { STAND_INS.back(&digest) } else { digest };
    let mut output = vec![0; expected.len()];
    assert_eq!(call(&opts.block(), notes.as_bytes(), &mut output), (0, expected.len()));
    assert!(output == expected.as_bytes(), "the outputs differ");
    expected.len()
}

fn side<'a>(opts: &Opts, notes: &'a str) -> Side<'a> {
    let block = opts.block();
    let mut output = vec![0; checked(opts, notes)];
    Box::new(move || assert_eq!(call(&block, notes.as_bytes(), &mut output).0, 0))
}

pub fn print(milliseconds: usize) {
    println!("\nU+00A0 in 64 KiB, ns a byte of the notes: glue on, glue off, and the ratio");
    for (name, notes) in texts() {
        for (breaker, flags) in [("quick", QUICK), ("best", 0)] {
            let prefix = notes.starts_with('>').then(|| ">".to_string());
            let with = |glue| Opts { flags: Some(flags | glue), prefix: prefix.clone(), ..Opts::default() };
            let found = least(&mut [side(&with(GLUE), &notes), side(&with(0), &notes)], milliseconds);
            let [on, off] = [found[0] / notes.len() as f64, found[1] / notes.len() as f64];
            println!("{:<44} | {on:>8.3} | {off:>8.3} | {:>5.2}", format!("{name}, {breaker}"), on / off);
        }
    }
}
