//! Why an output line ends: the library against the original that logs each break it takes (logged.py), line by line, all six numbers.
//!
//!     explain hand                       worked examples, written by hand
//!     explain run SEED LINES [TAMPER]    generated notes under every option, until so many lines are explained; TAMPER puts a fault in
//!     explain files FILE ..              texts, under several options, every line
//!     explain replay BLOCK NOTES         one text, in hexadecimal, as a difference was printed: every line
//!
//! What the original is shown for keep, glue and blanks counted by characters, and the refusals, are those of tests/oracle/model.rs.
//! Exit: 0 no difference, 1 a difference.

#[path = "../oracle/glue.rs"]
mod glue;
#[path = "../oracle/model.rs"]
#[allow(dead_code)]
mod model;
#[path = "../oracle/width.rs"]
#[allow(dead_code)]
mod width;

use model::Original;
use parts::asked;
use parts::calls::{rudignals_explain, rudignals_explain_large};
use parts::guard::Answer;
use parts::texts::Rng;
use std::process::exit;

type Reason = [u64; 6];

const KINDS: [&str; 7] = ["end of paragraph", "plain", "blank", "would not fit", "chosen", "forced before", "forced after"];

/// What the slots hold before the call: on a refusal they are to stay so.
const BEFORE: Reason = [101, 102, 103, 104, 105, 106];

/// The run stops at so many differences.
const ENOUGH: u64 = 20;

fn explain(block: &[u8], notes: &[u8], line: u64, tamper: &str) -> (u64, u64, Reason) {
    let mut reason = BEFORE;
    let answer = unsafe { rudignals_explain(block.as_ptr(), block.len(), notes.as_ptr(), notes.len(), line, reason.as_mut_ptr()) };
    let (mut code, mut number) = (answer >> 32, answer & 0xffff_ffff);
    match tamper {
        "kind" if reason[0] == 4 => reason[0] = 5,
        "exchanged" if reason[0] == 6 => reason[0] = 5,
        "term" if reason[0] == 4 => reason[3] += 1,
        "cost" if reason[0] == 4 => reason[5] += 1,
        "column" if reason[0] == 3 => reason[1] += 1,
        "rest" if code == 0 && reason[0] != 4 => reason[5] = 1,
        "kept" if code == 8 => reason[0] = 0,
        "lines" if code == 8 => number += 1,
        "done" if code == 0 => number = 1,
        "eight" if code == 4 => code = 8,
        _ => {}
    }
    (code, number, reason)
}

/// The large call with so much room; what stands behind it must stay.
fn explain_large(block: &[u8], notes: &[u8], line: u64, numbers: usize, tamper: &str) -> (u64, u64, Reason) {
    let mut reason = BEFORE;
    let mut work = vec![0xb7b7_b7b7u32; numbers + 8];
    let answer = unsafe { rudignals_explain_large(block.as_ptr(), block.len(), notes.as_ptr(), notes.len(), line, reason.as_mut_ptr(), work.as_mut_ptr(), numbers) };
    assert!(work[numbers..].iter().all(|n| *n == 0xb7b7_b7b7), "a number behind the lent room has changed");
    let (mut code, mut number) = (answer >> 32, answer & 0xffff_ffff);
    match tamper {
        "room" if code == 12 => number += 1,
        "twelve" if code == 12 => code = 8,
        _ => {}
    }
    (code, number, reason)
}

const TAMPERS: [&str; 12] = ["kind", "exchanged", "term", "cost", "column", "rest", "kept", "lines", "done", "eight", "room", "twelve"];

fn hex(bytes: &[u8]) -> String {
    if bytes.is_empty() { "-".to_string() } else { bytes.iter().map(|b| format!("{b:02x}")).collect() }
}

fn unhex(text: &str) -> Vec<u8> {
    let digits = if text == "-" { "" } else { text };
    (0..digits.len() / 2).map(|i| u8::from_str_radix(&digits[2 * i..2 * i + 2], 16).expect("two hexadecimal digits")).collect()
}

struct Run {
    original: Original,
    r: Rng,
    tamper: String,
    texts: u64,
    lines: u64,
    kinds: [u64; 7],
    refused: u64,
    differ: u64,
}

impl Run {
    fn new(seed: u64, tamper: &str) -> Run {
        Run { original: Original::new(), r: Rng(seed), tamper: tamper.to_string(), texts: 0, lines: 0, kinds: [0; 7], refused: 0, differ: 0 }
    }

    fn check(&mut self, block: &[u8], notes: &[u8], line: u64, expected: (u64, u64, Reason)) {
        let told = explain(block, notes, line, &self.tamper);
        if told != expected {
            self.differ += 1;
            if self.differ <= 3 {
                println!("differ: line {line}: {told:?}, expected {expected:?}\nreplay: {} {}", hex(block), hex(notes));
            }
        }
        if expected.0 != 2 && expected.0 != 4 {
            self.check_large(block, notes, line, expected);
        }
    }

    /// The same of the large call: with no room 12 tells what is needed, seven or fifteen numbers for each word of the longest paragraph; with one
    /// number less it is still refused, and with so many it answers as the small one.
    fn check_large(&mut self, block: &[u8], notes: &[u8], line: u64, expected: (u64, u64, Reason)) {
        let none = explain_large(block, notes, line, 0, &self.tamper);
        let needed = if none.0 == 12 { none.1 as usize } else { 0 };
        let told = explain_large(block, notes, line, needed, &self.tamper);
        let short = if needed == 0 { expected } else { (12, needed as u64, BEFORE) };
        let less = if needed == 0 { expected } else { explain_large(block, notes, line, needed - 1, &self.tamper) };
        if told != expected || none != short || less != short || (needed % 7 != 0 && needed % 15 != 0) {
            self.differ += 1;
            if self.differ <= 3 {
                println!("differ: line {line} in {needed} numbers: {told:?}, expected {expected:?}; with less {less:?}, with none {none:?}\nreplay: {} {}", hex(block), hex(notes));
            }
        }
    }

    /// Every line of the digest, the line behind the last and one far beyond; of a long text some of the lines.
    fn ask(&mut self, block: &[u8], notes: &[u8]) {
        self.texts += 1;
        fmt_cube::linebreak::LOG.with(|log| log.borrow_mut().clear());
        let digest = match self.original.answer(block, notes) {
            Answer::Done(digest) => digest,
            refusal => {
                let (code, number) = refusal.measured();
                self.refused += 1;
                for line in [0, self.r.below(50) as u64, u64::MAX] {
                    self.check(block, notes, line, (code as u64, number as u64, BEFORE));
                }
                return;
            }
        };
        let log: Vec<Reason> = fmt_cube::linebreak::LOG.with(|log| log.borrow().clone());
        let feeds = digest.iter().filter(|b| **b == b'\n').count();
        if feeds != log.len() {
            println!("the original logged {} reasons for {feeds} lines\nreplay: {} {}", log.len(), hex(block), hex(notes));
            self.differ += 1;
            return;
        }
        let some = 16_000_000 / (notes.len() + 1);
        let step = log.len() / (some + 1) + 1;
        let first = self.r.below(step);
        for line in (first..log.len()).step_by(step) {
            self.kinds[log[line][0] as usize] += 1;
            self.lines += 1;
            self.check(block, notes, line as u64, (0, 0, log[line]));
        }
        for line in [log.len() as u64, log.len() as u64 + 1 + self.r.below(9) as u64, 1 << 32, u64::MAX] {
            self.check(block, notes, line, (8, log.len() as u64, BEFORE));
        }
    }

    fn told(&self, what: &str) -> i32 {
        let kinds: Vec<String> = KINDS.iter().zip(self.kinds).map(|(kind, n)| format!("{kind} {n}")).collect();
        println!("lines that end by: {}", kinds.join(", "));
        println!("explain: {what}, {} texts, {} of them refused, {} lines explained, {} differ", self.texts, self.refused, self.lines, self.differ);
        (self.differ > 0) as i32
    }
}

/// An option block of flags, width and goal; 0 is not given.
fn block(flags: u16, width: u16, goal: u16) -> Vec<u8> {
    let numbers = [(1, flags), (2, width), (3, goal)];
    numbers.iter().filter(|(_, n)| *n > 0).flat_map(|(tag, n)| [*tag, 0, 2, (n >> 8) as u8, *n as u8]).collect()
}

const CROWN: u16 = 1;
const TAGGED: u16 = 2;
const MAIL: u16 = 4;
const SPLIT: u16 = 8;
const UNIFORM: u16 = 16;
const QUICK: u16 = 32;
const KEEP: u16 = 256;
const CHARACTERS: u16 = 1024;

/// Worked out by hand from RULES.
fn hand() -> i32 {
    let mut run = Run::new(1, "none");
    let end = [0; 6];
    let cases: Vec<(Vec<u8>, &[u8], Vec<Reason>)> = vec![
        // empty notes have no line
        (block(0, 0, 0), b"", vec![]),
        (block(0, 0, 0), b" \t\n", vec![[2, 0, 0, 0, 0, 0]]),
        (block(KEEP, 0, 0), b"a\n\xb0 b\n\nc\n", vec![end, [1, 0, 0, 0, 0, 0], [2, 0, 0, 0, 0, 0], end]),
        // 4 + 1 + 0 + 6 is 11, over 10; the gap is a blank of the notes and nothing is added
        (block(QUICK, 10, 0), b"aaaa bbbbbb c\n", vec![[3, 4, 1, 0, 6, 0], end]),
        // uniform: no gap, one space added
        (block(QUICK | UNIFORM, 10, 0), b"aaaa bbbbbb c\n", vec![[3, 4, 0, 1, 6, 0], end]),
        // a sentence that ends with the line before: two spaces, though none is written
        (block(QUICK | UNIFORM, 6, 0), b"a b.\nccc\n", vec![[3, 4, 0, 2, 3, 0], end]),
        // mail counts as uniform and quick; a word's width is its bytes
        (block(MAIL, 10, 0), "To: aaa \u{e9}\u{e9}\u{e9}\n c\n".as_bytes(), vec![[3, 7, 0, 1, 6, 0], end]),
        // the example of RULES 13: width 8 has the goal 5, stretch 3. Line 1 is `ccc`, three columns: t counts the added space of a fresh line
        (block(UNIFORM, 8, 0), b"aaa bbb ccc ddd eee fff ggg\n", vec![]),
        // one word to a line, each too wide: nothing stays, and the break is forced after it
        (block(0, 2, 2), b"aaaa bbbb c\n", vec![]),
    ];
    for (block, notes, reasons) in &cases {
        for (line, reason) in reasons.iter().enumerate() {
            run.lines += 1;
            run.check(block, notes, line as u64, (0, 0, *reason));
        }
        if !reasons.is_empty() || notes.is_empty() {
            run.check(block, notes, reasons.len() as u64, (8, reasons.len() as u64, BEFORE));
        }
        run.ask(block, notes);
    }
    // RULES 13: line 1 of the example has t 4
    let (code, _, reason) = explain(&block(UNIFORM, 8, 0), b"aaa bbb ccc ddd eee fff ggg\n", 1, "none");
    if (code, reason[0], reason[1]) != (0, 4, 4) {
        println!("differ: the example of RULES 13: {code} {reason:?}");
        run.differ += 1;
    }
    // codes 1 to 4 come before 8
    run.check(&[9], b"a", 7, (1, 0, BEFORE));
    run.check(&[], &[b'a'; 65537], 7, (2, 0, BEFORE));
    run.check(&[], b"ab\xb0", 7, (3, 2, BEFORE));
    let words = "\n".to_string() + &"a ".repeat(1025);
    run.check(&[], words.as_bytes(), 0, (4, 1, BEFORE));
    run.check(&[], words.as_bytes(), u64::MAX, (4, 1, BEFORE));
    // the large call takes them: 1,025 words of fifteen numbers, or seven; notes of 1,048,576 bytes and not of one more
    run.check_large(&[], words.as_bytes(), 0, (0, 0, [2, 0, 0, 0, 0, 0]));
    for (block, needed) in [(block(0, 0, 0), 1025 * 15), (block(QUICK, 0, 0), 1025 * 7)] {
        for (numbers, code) in [(needed, 0), (needed - 1, 12)] {
            let told = explain_large(&block, words.as_bytes(), 0, numbers, "none");
            if (told.0, told.1) != (code, if code == 12 { needed as u64 } else { 0 }) {
                println!("differ: 1,025 words in {numbers} numbers: {told:?}");
                run.differ += 1;
            }
        }
    }
    run.check_large(&[], &[b'\n'; 1048576], 1048575, (0, 0, [2, 0, 0, 0, 0, 0]));
    run.check_large(&[], &[b'\n'; 1048576], 1048576, (8, 1048576, BEFORE));
    run.check_large(&[], &[b'\n'; 1048577], 0, (2, 0, BEFORE));
    run.told("by hand")
}

fn random(seed: u64, lines: u64, tamper: &str) -> i32 {
    let mut run = Run::new(seed, tamper);
    for (_, (block, notes)) in asked::random(seed) {
        if run.lines >= lines || run.differ >= ENOUGH {
            break;
        }
        run.ask(&block, &notes);
    }
    run.told(&format!("seed {seed}"))
}

/// Parts of files, of whole lines.
fn files(names: &[String]) -> i32 {
    let mut run = Run::new(1, "none");
    let sets = [
        block(0, 0, 0), block(0, 40, 0), block(0, 60, 50), block(UNIFORM, 0, 0), block(UNIFORM | CHARACTERS, 30, 0), block(QUICK, 0, 0),
        block(QUICK | UNIFORM, 50, 0), block(CROWN, 0, 0), block(TAGGED, 70, 0), block(SPLIT, 45, 0), block(MAIL, 0, 0), block(UNIFORM, 20, 12),
    ];
    for name in names {
        let text = std::fs::read(name).unwrap_or_default();
        let mut part: Vec<u8> = Vec::new();
        for line in text.split_inclusive(|b| *b == b'\n') {
            if part.len() + line.len() > 6000 {
                for set in &sets {
                    run.ask(set, &part);
                }
                part.clear();
            }
            part.extend(line);
        }
        for set in &sets {
            run.ask(set, &part);
        }
        if run.differ >= ENOUGH {
            break;
        }
    }
    run.told(&format!("{} files", names.len()))
}

fn replay(block: &[u8], notes: &[u8]) -> i32 {
    println!("block: {:?}\nnotes: {:?}", block.escape_ascii().to_string(), notes.escape_ascii().to_string());
    let mut run = Run::new(1, "none");
    run.ask(block, notes);
    for line in 0..run.lines + 1 {
        println!("{line}: {:?}", explain(block, notes, line, "none"));
    }
    run.told("replayed")
}

fn main() {
    let args: Vec<String> = std::env::args().skip(1).collect();
    exit(match args.iter().map(|arg| &arg[..]).collect::<Vec<_>>()[..] {
        ["hand"] => hand(),
        ["tampers"] => {
            println!("{}", TAMPERS.join(" "));
            0
        }
        ["run", seed, lines, ref more @ ..] => random(seed.parse().unwrap(), lines.parse().unwrap(), more.first().unwrap_or(&"none")),
        ["files", ..] => files(&args[1..]),
        ["replay", block, notes] => replay(&unhex(block), &unhex(notes)),
        _ => {
            eprintln!("usage: see the head of explain.rs");
            2
        }
    })
}
