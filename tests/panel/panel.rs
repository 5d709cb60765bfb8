//! The library's panel against the cases by hand and against the model.
//!
//! panel WIDTHS run SEED COUNT     the cases, then that a changed rule is seen, then every character, then so many random digests
//! panel WIDTHS time               what a panel of a 64 KiB digest costs beside formatting it
//! WIDTHS lists the widths that are not 1, as tests/widths/listed.py prints them.

#[path = "../oracle/calls.rs"]
#[allow(dead_code)]
mod calls;
mod cases;
mod model;

use calls::{rudignals_format, rudignals_panel};
use model::{panel, Fault, CELLS, COLUMNS, FAULTS};
use std::time::Instant;

const MARGIN: usize = 16;
const OUTSIDE: u32 = 0xD0D0D0D0;

/// The library's answer. What the cells held before is gone; what stands beside them stays.
fn called(digest: &[u8], tab: u64, before: u32) -> (u64, Vec<u32>) {
    let mut memory = vec![OUTSIDE; CELLS + 2 * MARGIN];
    memory[MARGIN..MARGIN + CELLS].fill(before);
    // A copy that ends where its memory ends, so that a tool that watches memory sees a byte read behind it.
    let digest = digest.to_vec().into_boxed_slice();
    let answer = unsafe { rudignals_panel(digest.as_ptr(), digest.len(), tab, memory.as_mut_ptr().add(MARGIN)) };
    let outside = memory[..MARGIN].iter().chain(&memory[MARGIN + CELLS..]);
    assert!(outside.copied().all(|c| c == OUTSIDE), "written outside the cells");
    (answer, memory[MARGIN..MARGIN + CELLS].to_vec())
}

fn shown(cells: &[u32]) -> String {
    cells.iter().map(|&c| if c == 0 { '␀' } else { char::from_u32(c).unwrap_or('?') }).collect()
}

/// Prints where two panels differ. The answer's number is the code in the upper half, and N is 0.
fn same(what: &str, digest: &[u8], tab: u64, got: &(u64, Vec<u32>), right: &(u64, Vec<u32>)) -> bool {
    let equal = got.0 == right.0 << 32 && got.1 == right.1;
    if !equal {
        println!("{}: tab {}, digest {:02X?}", what, tab, &digest[digest.len().saturating_sub(400)..]);
        println!("  answer {:#x}, right code {}", got.0, right.0);
        for (r, (a, b)) in got.1.chunks(COLUMNS).zip(right.1.chunks(COLUMNS)).enumerate() {
            if a != b {
                println!("  row {}: {:?}\n   right: {:?}", r, shown(a), shown(b));
            }
        }
    }
    equal
}

/// A xorshift generator.
struct Random(u64);

impl Random {
    fn below(&mut self, n: usize) -> usize {
        self.0 ^= self.0 << 13;
        self.0 ^= self.0 >> 7;
        self.0 ^= self.0 << 17;
        (self.0 >> 11) as usize % n
    }

    fn pick<'a, T>(&mut self, of: &'a [T]) -> &'a T {
        &of[self.below(of.len())]
    }
}

const SYMBOLS: [&[u8]; 40] = [
    b"a", b"b", b"xyz", b"+", b" ", b"\t", b"\t", b"\r", b"\0", b"\x1B", b"\x7F", "é".as_bytes(), "\u{85}".as_bytes(), "\u{9F}".as_bytes(), "\u{A0}".as_bytes(),
    "\u{AD}".as_bytes(), "中".as_bytes(), "中".as_bytes(), "\u{3000}".as_bytes(), "\u{1100}".as_bytes(), "\u{1F600}".as_bytes(), "\u{20000}".as_bytes(),
    "\u{301}".as_bytes(), "\u{200B}".as_bytes(), "\u{FEFF}".as_bytes(), "\u{1160}".as_bytes(), "\u{E0001}".as_bytes(), "\u{2028}".as_bytes(), "\u{FFFD}".as_bytes(),
    "\u{10FFFF}".as_bytes(), "д".as_bytes(), b"\x80", b"\xB0", b"\xC0", b"\xC2", b"\xE4\xB8", b"\xED\xA0\x80", b"\xF0\x9F\x98", b"\xF4\x90\x80\x80", b"\xFF",
];

const TABS: [u64; 18] = [0, 1, 2, 3, 4, 5, 7, 8, 16, 39, 40, 79, 80, 81, 100, 101, 1 << 32, u64::MAX];

/// A line: plain up to a column near the end, then symbols; or symbols all along; or any characters.
fn line(random: &mut Random, out: &mut Vec<u8>) {
    let mut many = 0;
    match random.below(4) {
        0 => {
            let column = 70 + random.below(14);
            out.resize(out.len() + column, b'x');
            many = random.below(8);
        }
        1 => many = random.below(90),
        2 => many = random.below(6),
        _ => {
            for _ in 0..random.below(100) {
                if let Some(c) = char::from_u32(random.below(0x110000) as u32) {
                    out.extend(c.to_string().as_bytes());
                }
            }
        }
    }
    let plain = random.below(3) == 0;
    for _ in 0..many {
        let symbol = if plain { *random.pick(&SYMBOLS[..7]) } else { *random.pick(&SYMBOLS) };
        out.extend(symbol);
    }
}

fn digest(random: &mut Random) -> Vec<u8> {
    let mut out = Vec::new();
    for _ in 0..*random.pick(&[0, 1, 1, 2, 3, 23, 24, 25, 26, 60]) {
        line(random, &mut out);
        out.extend(*random.pick(&[&b"\n"[..], b"\n", b"\n", b"\r\n", b"\n\n", b"\n\r"]));
    }
    if random.below(3) == 0 {
        line(random, &mut out);
    }
    out
}

/// How many of so many random digests are shown otherwise than the model says, the rule changed by a fault; all, or up to the first.
fn compare(seed: u64, count: usize, widths: &[u8], fault: Fault) -> usize {
    let mut random = Random(seed.wrapping_mul(0x9E3779B97F4A7C15) | 1);
    let mut differ = 0;
    for n in 0..count {
        let text = digest(&mut random);
        let tab = *random.pick(&TABS);
        let before = random.below(1 << 32) as u32;
        let (got, right) = (called(&text, tab, before), panel(&text, tab, widths, fault));
        if fault != Fault::None {
            if (got.0, &got.1) != (right.0 << 32, &right.1) {
                return 1;
            }
        } else if !same(&format!("digest {} of seed {}", n, seed), &text, tab, &got, &right) {
            differ += 1;
            if differ == 10 {
                break;
            }
        }
    }
    differ
}

/// How many of all characters are shown otherwise than the model says, each between two letters.
fn every(widths: &[u8]) -> usize {
    let mut differ = 0;
    for c in '\0'..=char::MAX {
        let text = format!("x{}y", c).into_bytes();
        differ += !same("a character", &text, 8, &called(&text, 8, 0), &panel(&text, 8, widths, Fault::None)) as usize;
    }
    differ
}

fn run(seed: u64, count: usize, widths: &[u8]) -> bool {
    let cases = cases::cases();
    let mut differ = 0;
    for (what, digest, tab, code, rows) in &cases {
        let mut cells = vec![0x20; CELLS];
        for (r, row) in rows {
            for (k, c) in row.chars().enumerate() {
                cells[r * COLUMNS + k] = c as u32;
            }
        }
        let right = (*code, cells);
        differ += !same(what, digest, *tab, &called(digest, *tab, 0x2588), &right) as usize;
        // The model is held to the same cases.
        let by_model = panel(digest, *tab, widths, Fault::None);
        differ += !same("the model", digest, *tab, &(by_model.0 << 32, by_model.1), &right) as usize;
    }
    println!("panel: {} cases by hand, {} differ", cases.len(), differ);
    let seen = FAULTS.iter().filter(|&&f| compare(1, 3000, widths, f) != 0).count();
    println!("panel: rules changed on purpose: {} of {} seen", seen, FAULTS.len());
    let characters = every(widths);
    println!("panel: all 1,112,064 characters, {} differ", characters);
    let random = compare(seed, count, widths, Fault::None);
    println!("panel: {} random digests, seed {}, against the model: {} differ", count, seed, random);
    differ == 0 && seen == FAULTS.len() && characters == 0 && random == 0
}

/// The least time of many calls, in microseconds.
fn least(mut call: impl FnMut()) -> f64 {
    (0..200)
        .map(|_| {
            let began = Instant::now();
            call();
            began.elapsed().as_secs_f64() * 1e6
        })
        .fold(f64::MAX, f64::min)
}

fn time() {
    let words = ["pump", "three", "was", "stopped", "at", "four", "and", "started", "again", "pressure", "4.2", "bar,", "valve", "é", "closed."];
    let mut random = Random(7);
    let mut notes = Vec::new();
    let mut since = 0;
    while notes.len() < 65000 {
        notes.extend(random.pick(&words).as_bytes());
        since += 1;
        notes.extend(if since % 60 == 0 { &b"\n\n"[..] } else if since % 11 == 0 { b"\n" } else { b" " });
    }
    let mut output = vec![0; 131072];
    let mut cells = vec![0u32; CELLS];
    for (mode, block) in [("quick", &[1u8, 0, 2, 0, 32][..]), ("Knuth-Plass", &[])] {
        let mut answer = 0;
        let format = least(|| answer = unsafe { rudignals_format(block.as_ptr(), block.len(), notes.as_ptr(), notes.len(), output.as_mut_ptr(), output.len()) });
        let digest = &output[..answer as usize];
        let draw = least(|| assert_eq!(unsafe { rudignals_panel(digest.as_ptr(), digest.len(), 8, cells.as_mut_ptr()) }, 0));
        println!("{}: formatting {} bytes {:.1} µs, a panel of the {} bytes {:.2} µs, {:.4} of it", mode, notes.len(), format, digest.len(), draw, draw / format);
    }
    for (what, symbol) in [("of Latin", "é"), ("of Chinese", "中"), ("of combining marks", "\u{301}"), ("of emoji", "\u{1F600}"), ("beyond U+1FFFF", "\u{20000}"), ("of variation selectors", "\u{E0100}"), ("where nothing is assigned", "\u{50000}"), ("of damage", "")] {
        let digest = match symbol {
            "" => vec![0xB0; 65536],
            _ => (0..24).flat_map(|_| [symbol.repeat(70).as_bytes(), b"\n"].concat()).collect::<Vec<u8>>(),
        };
        let draw = least(|| assert_eq!(unsafe { rudignals_panel(digest.as_ptr(), digest.len(), 8, cells.as_mut_ptr()) }, 0));
        println!("a panel {}, {} bytes: {:.2} µs", what, digest.len(), draw);
    }
    let digest = vec![b'x'; 65536];
    let draw = least(|| assert_eq!(unsafe { rudignals_panel(digest.as_ptr(), digest.len(), 8, cells.as_mut_ptr()) }, 0));
    println!("a panel of one line of 65,536 letters: {:.2} µs", draw);
}

fn main() {
    let words: Vec<String> = std::env::args().collect();
    let mut widths = vec![1u8; 0x110000];
    for line in std::fs::read_to_string(&words[1]).unwrap().lines() {
        let fields: Vec<&str> = line.split(' ').collect();
        if let ["width", first, last, width] = fields[..] {
            let (first, last): (usize, usize) = (first.parse().unwrap(), last.parse().unwrap());
            widths[first..=last].fill(width.parse().unwrap());
        }
    }
    match words[2].as_str() {
        "time" => time(),
        _ => std::process::exit(!run(words[3].parse().unwrap(), words[4].parse().unwrap(), &widths) as i32),
    }
}
