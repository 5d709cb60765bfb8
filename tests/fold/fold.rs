//! The library's folding against the cases by hand, against the model, and against coreutils' fold.
//!
//! fold WIDTHS run SEED COUNT      the cases, that a changed rule is seen, every character, coreutils, then so many random texts
//! fold WIDTHS scale SEED COUNT    so many random texts alone
//! fold WIDTHS time                what folding 64 KiB costs
//! WIDTHS lists the widths that are not 1, as tests/widths/listed.py prints them.

#[path = "../oracle/calls.rs"]
#[allow(dead_code)]
mod calls;
mod cases;
mod model;

use calls::rudignals_fold;
use model::{Fault, Rules, FAULTS};
use std::io::Write;
use std::process::{Command, Stdio};
use std::time::Instant;

/// The library's answer: code, N and the output afterwards.
fn called(text: &[u8], tab: u64, columns: u64, before: &[u8]) -> (u64, u64, Vec<u8>) {
    let mut output = before.to_vec();
    let (at, to) = (if text.is_empty() { std::ptr::null() } else { text.as_ptr() }, if output.is_empty() { std::ptr::null_mut() } else { output.as_mut_ptr() });
    let answer = unsafe { rudignals_fold(at, text.len(), tab, columns, to, output.len()) };
    (answer >> 32, answer & 0xFFFF_FFFF, output)
}

/// A xorshift generator.
struct Random(u64);

impl Random {
    fn below(&mut self, n: usize) -> usize {
        self.0 ^= self.0 << 13;
        self.0 ^= self.0 >> 7;
        self.0 ^= self.0 << 17;
        (self.0 >> 11) as usize % n
    }

    fn pick<'a, T>(&mut self, of: &'a [T]) -> &'a T {
        &of[self.below(of.len())]
    }
}

const SYMBOLS: [&[u8]; 44] = [
    b"a", b"b", b"xyz", b"~", b" ", b"\t", b"\t", b"\r", b"\r\r", b"\0", b"\x0B", b"\x0C", b"\x1B", b"\x1F", b"\x7F", "é".as_bytes(), "\u{85}".as_bytes(),
    "\u{9F}".as_bytes(), "\u{A0}".as_bytes(), "\u{AD}".as_bytes(), "中".as_bytes(), "中".as_bytes(), "\u{3000}".as_bytes(), "\u{1100}".as_bytes(),
    "\u{1F600}".as_bytes(), "\u{20000}".as_bytes(), "\u{301}".as_bytes(), "\u{301}".as_bytes(), "\u{200B}".as_bytes(), "\u{FEFF}".as_bytes(),
    "\u{1160}".as_bytes(), "\u{E0001}".as_bytes(), "\u{2028}".as_bytes(), "\u{10FFFF}".as_bytes(), "д".as_bytes(), b"\x80", b"\xB0", b"\xC0", b"\xC2",
    b"\xE4\xB8", b"\xED\xA0\x80", b"\xF0\x9F\x98", b"\xF4\x90\x80\x80", b"\xFF",
];
const ENDS: [&[u8]; 8] = [b"\n", b"\n", b"\n", b"\r\n", b"\r\r\n", b"\n\n", b"\n\r", b"\r\n\r\n"];
const TABS: [u64; 14] = [0, 1, 2, 3, 4, 7, 8, 8, 8, 99, 100, 101, 1 << 32, u64::MAX];
const COLUMNS: [u64; 22] = [0, 1, 1, 2, 2, 3, 3, 4, 5, 7, 8, 9, 16, 17, 79, 80, 81, 999, 1000, 1001, (1 << 32) + 5, u64::MAX];

fn line(random: &mut Random, out: &mut Vec<u8>) {
    match random.below(5) {
        // letters in eights and about them
        0 => {
            let n = random.below(40);
            out.resize(out.len() + n, b'x');
        }
        1 => {
            for _ in 0..random.below(30) {
                if let Some(c) = char::from_u32(random.below(0x110000) as u32) {
                    out.extend(c.to_string().as_bytes());
                }
            }
        }
        kind => {
            let symbols = if kind == 2 { &SYMBOLS[..7] } else { &SYMBOLS[..] };
            for _ in 0..random.below(24) {
                out.extend(*random.pick(symbols));
            }
        }
    }
}

fn text(random: &mut Random) -> Vec<u8> {
    let mut out = Vec::new();
    for _ in 0..random.below(4) {
        line(random, &mut out);
        out.extend(*random.pick(&ENDS));
    }
    if random.below(3) != 0 {
        line(random, &mut out);
    }
    if random.below(300) == 0 {
        let n = 900 + random.below(300);
        out.resize(out.len() + n, b'x');
    }
    out
}

/// One text with every room at its edge: none, one less than is needed, what is needed, one and three more.
fn differs(what: &str, text: &[u8], tab: u64, columns: u64, rules: &Rules, calls: &mut u64) -> bool {
    let needed = rules.fold(text, tab, columns, &[]).1 as usize;
    let mut rooms = vec![0, needed.saturating_sub(1), needed, needed + 1, needed + 3];
    rooms.dedup();
    for room in rooms {
        let before: Vec<u8> = (0..room).map(|i| 0xA5 ^ (i as u8 & 7)).collect();
        let (got, right) = (called(text, tab, columns, &before), rules.fold(text, tab, columns, &before));
        *calls += 1;
        if got != right {
            if rules.fault == Fault::None {
                println!("{}: tab {}, columns {}, room {}, text {:02X?}\n  got   {:02X?}\n  right {:02X?}", what, tab, columns, room, &text[..text.len().min(300)], got, right);
            }
            return true;
        }
    }
    false
}

/// How many of so many random texts are folded otherwise than the model says, up to ten; and how many calls were made.
fn compare(seed: u64, count: usize, rules: &Rules) -> (usize, u64) {
    let mut random = Random(seed.wrapping_mul(0x9E3779B97F4A7C15) | 1);
    let (mut differ, mut calls) = (0, 0);
    for n in 0..count {
        let text = text(&mut random);
        let tab = if random.below(2) == 0 { random.below(103) as u64 } else { *random.pick(&TABS) };
        let columns = if random.below(4) == 0 { random.below(1003) as u64 } else { *random.pick(&COLUMNS) };
        if differs(&format!("text {} of seed {}", n, seed), &text, tab, columns, rules, &mut calls) {
            differ += 1;
            if differ == 10 || rules.fault != Fault::None {
                break;
            }
        }
    }
    (differ, calls)
}

/// How many of all characters are folded otherwise than the model says, each between letters.
fn every(rules: &Rules) -> usize {
    let mut calls = 0;
    ('\0'..=char::MAX).filter(|c| differs("a character", format!("x{}y{}", c, c).as_bytes(), 8, 2, rules, &mut calls)).count()
}

/// Printable ASCII, tabs and line feeds through coreutils' fold: how many texts differ.
fn coreutils(seed: u64, count: usize) -> Option<usize> {
    let mut random = Random(seed.wrapping_mul(0x9E3779B97F4A7C15) | 1);
    let mut differ = 0;
    for _ in 0..count {
        let most = *random.pick(&[3, 12, 90, 1000]);
        let columns = 1 + random.below(most) as u64;
        let often = 2 + random.below(60);
        let text: Vec<u8> = (0..random.below(3000))
            .map(|_| match random.below(often) {
                0 => b'\t',
                1 if random.below(4) == 0 => b'\n',
                _ => 0x20 + random.below(0x5F) as u8,
            })
            .collect();
        let mut fold = Command::new("fold").arg("-w").arg(columns.to_string()).stdin(Stdio::piped()).stdout(Stdio::piped()).spawn().ok()?;
        let mut input = fold.stdin.take().unwrap();
        let copy = text.clone();
        let feed = std::thread::spawn(move || input.write_all(&copy));
        let right = fold.wait_with_output().unwrap().stdout;
        feed.join().unwrap().unwrap();
        let got = called(&text, 8, columns, &vec![1; right.len()]);
        if got != (0, right.len() as u64, right.clone()) {
            println!("coreutils: -w {} of {:?}\n  got   {:?}\n  right {:?}", columns, String::from_utf8_lossy(&text), String::from_utf8_lossy(&got.2), String::from_utf8_lossy(&right));
            differ += 1;
        }
    }
    Some(differ)
}

/// A text that is too long by a byte, refused with 2 and before that with 1; and one of just the limit, refused for room.
fn long_texts() -> usize {
    let most = 1_073_741_824usize;
    let text = vec![b'x'; most + 1];
    let mut output = [7u8; 5];
    let mut differ = 0;
    for (size, tab, columns, right, after) in [(most + 1, 8, 80, 2u64 << 32, [7; 5]), (most + 1, 101, 80, 1 << 32, [7; 5]), (most, 8, 1000, (5 << 32) + most as u64 + (most as u64 - 1) / 1000, [0; 5])] {
        let answer = unsafe { rudignals_fold(text.as_ptr(), size, tab, columns, output.as_mut_ptr(), 5) };
        if answer != right || output != after {
            println!("a text of {} bytes: {:#x}, right {:#x}, output {:?}", size, answer, right, output);
            differ += 1;
        }
    }
    differ
}

fn run(seed: u64, count: usize, widths: &[u8]) -> bool {
    let rules = Rules { widths, fault: Fault::None };
    let mut differ = 0;
    for (what, text, tab, columns, folded) in cases::CASES {
        let right = (0, folded.len() as u64, folded.to_vec());
        let (got, by_model) = (called(text, tab, columns, &vec![1; folded.len()]), rules.fold(text, tab, columns, &vec![1; folded.len()]));
        for (who, answer) in [("the library", got), ("the model", by_model)] {
            if answer != right {
                println!("{}, by {}: {:02X?}, right {:02X?}", what, who, answer, right);
                differ += 1;
            }
        }
    }
    for (tab, columns, code) in cases::LIMITS {
        let right = if code == 0 { (0, 2, vec![b'h', b'\n', 9]) } else { (code, 0, vec![9; 3]) };
        if called(b"h\n", tab, columns, &[9; 3]) != right || rules.fold(b"h\n", tab, columns, &[9; 3]) != right {
            println!("tab {}, columns {}: not {}", tab, columns, code);
            differ += 1;
        }
    }
    differ += long_texts();
    println!("fold: {} cases by hand, {} limits, 3 long texts, {} differ", cases::CASES.len(), cases::LIMITS.len(), differ);
    let seen: Vec<_> = FAULTS.iter().filter(|&&fault| compare(1, 20000, &Rules { widths, fault }).0 == 0).collect();
    println!("fold: rules changed on purpose: {} of {} seen {:?}", FAULTS.len() - seen.len(), FAULTS.len(), seen);
    let characters = every(&rules);
    println!("fold: all 1,112,064 characters, {} differ", characters);
    let other = coreutils(seed, 400);
    match other {
        Some(n) => println!("fold: 400 texts of ASCII and tabs through coreutils' fold, {} differ", n),
        None => println!("fold: coreutils' fold is not at hand"),
    }
    differ == 0 && seen.is_empty() && characters == 0 && other == Some(0) && scale(seed, count, &rules)
}

fn scale(seed: u64, count: usize, rules: &Rules) -> bool {
    let began = Instant::now();
    let (differ, calls) = compare(seed, count, rules);
    println!("fold: {} random texts, seed {}, {} calls, against the model: {} differ ({:.0} s)", count, seed, calls, differ, began.elapsed().as_secs_f64());
    differ == 0
}

/// The least time of many calls, in nanoseconds for a byte.
fn least(text: &[u8], columns: u64, output: &mut [u8]) -> f64 {
    let one = || {
        let began = Instant::now();
        let answer = unsafe { rudignals_fold(text.as_ptr(), text.len(), 8, columns, output.as_mut_ptr(), output.len()) };
        assert_eq!(answer >> 32, 0);
        began.elapsed().as_secs_f64() * 1e9 / text.len() as f64
    };
    std::iter::repeat_with(one).take(400).fold(f64::MAX, f64::min)
}

fn time() {
    let words = ["pump", "three", "was", "stopped", "at", "four", "and", "started", "again", "pressure", "4.2", "bar,", "valve", "closed."];
    let mut random = Random(7);
    let mut prose = Vec::new();
    let mut since = 0;
    while prose.len() < 65536 {
        prose.extend(random.pick(&words).as_bytes());
        since += 1;
        prose.extend(if since % 60 == 0 { &b"\n\n"[..] } else if since % 13 == 0 { b"\n" } else { b" " });
    }
    prose.truncate(65536);
    let joined: Vec<u8> = prose.iter().map(|&b| if b == b'\n' { b' ' } else { b }).collect();
    let mut output = vec![0; 131072];
    for (what, text) in [("prose, lines of some 70", prose), ("prose in one line", joined), ("Chinese", "中".repeat(21845).into_bytes()), ("Latin of two bytes", "é".repeat(32768).into_bytes()), ("tabs", vec![9; 65536]), ("damage", vec![0xB0; 65536]), ("line feeds", vec![10; 65536])] {
        println!("fold: {} ({} bytes): {:.2} ns a byte at 79 columns, {:.2} at 40, {:.2} at 1", what, text.len(), least(&text, 79, &mut output), least(&text, 40, &mut output), least(&text, 1, &mut output));
    }
}

fn main() {
    let words: Vec<String> = std::env::args().collect();
    let mut widths = vec![1u8; 0x110000];
    for line in std::fs::read_to_string(&words[1]).unwrap().lines() {
        let fields: Vec<&str> = line.split(' ').collect();
        if let ["width", first, last, width] = fields[..] {
            let (first, last): (usize, usize) = (first.parse().unwrap(), last.parse().unwrap());
            widths[first..=last].fill(width.parse().unwrap());
        }
    }
    let number = |n: usize| words[n].parse::<u64>().unwrap();
    let held = match words[2].as_str() {
        "time" => {
            time();
            true
        }
        "scale" => scale(number(3), number(4) as usize, &Rules { widths: &widths, fault: Fault::None }),
        _ => run(number(3), number(4) as usize, &widths),
    };
    std::process::exit(!held as i32);
}
