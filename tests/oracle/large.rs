//! The calls with lent room against the original: measuring and writing, between guard pages, the room too. Every limit at its edge and one
//! beside it: the room that code 12 asks for and a number less; 1,048,576 bytes and one more; the digest's length and a byte less.

use crate::model::Original;
use parts::asked::{random, Asked};
use parts::calls::{rudignals_measure_large, rudignals_write_large};
use parts::guard::{fill, hex, is_filled, is_zero, Answer, Area, GUARD};
use parts::options::{Opts, KEEP, QUICK};
use parts::texts::{prose, random_options, random_text, Rng};

/// A fault put in on purpose, to see that it is found.
pub const TAMPERS: [&str; 8] = ["none", "need", "less", "byte", "kept", "zeroed", "beside", "above"];

const MOST: usize = 1_048_576;

/// Always enough, as the header has it.
fn always(notes: usize) -> usize {
    8 * (notes + 1)
}

struct Large {
    block: Area,
    notes: Area,
    output: Area,
    work: Area,
    tamper: &'static str,
}

fn round(size: usize) -> usize {
    (size + GUARD - 1) / GUARD * GUARD
}

impl Large {
    fn new(tamper: &'static str) -> Large {
        let work = round(4 * always(MOST + 1) + GUARD);
        let [block, notes, output, work] = [2 * GUARD, round(MOST + GUARD), 160 << 20, work].map(|size| Area::new(size, None));
        Large { block, notes, output, work, tamper }
    }

    /// Measures or writes with so much output and so many numbers; what is wrong with the answer or with any byte, if anything is.
    fn fault(&mut self, writes: bool, (block, notes): &Asked, expected: &Answer, need: usize, room: usize, numbers: usize, places: usize) -> Option<String> {
        let high = |bit: usize| places >> bit & 1 == 1;
        let b = self.block.slice(block.len(), high(0));
        let n = self.notes.slice(notes.len(), high(1));
        let output = self.output.slice(room, high(2));
        let beside = self.output.margin(room, high(2));
        let work = self.work.slice(4 * numbers, high(3));
        let margin = self.work.margin(4 * numbers, high(3));
        b.copy_from_slice(block);
        n.copy_from_slice(notes);
        fill(output);
        fill(beside);
        fill(margin);
        fill(&mut work[..(4 * numbers).min(4096)]);
        let w = work.as_mut_ptr() as *mut u32;
        let mut found = unsafe {
            if writes {
                rudignals_write_large(b.as_ptr(), b.len(), n.as_ptr(), n.len(), output.as_mut_ptr(), room, w, numbers)
            } else {
                rudignals_measure_large(b.as_ptr(), b.len(), n.as_ptr(), n.len(), w, numbers)
            }
        };
        match (self.tamper, found >> 32) {
            ("need", 12) => found += 1,
            ("less", 0) if found > 0 => found -= 1,
            ("byte", 0) if writes && found > 0 => output[found as usize / 2] ^= 1,
            ("kept", 12) if room > 0 => output[0] ^= 2,
            ("zeroed", 5) if room > 0 => output[room - 1] = 1,
            ("beside", _) if !margin.is_empty() => margin[0] ^= 2,
            ("above", _) => unsafe { *work.as_mut_ptr().add(work.len()) ^= 2 },
            _ => {}
        }
        let (code, number) = match expected {
            Answer::Done(_) if numbers < need => (12, need),
            Answer::Done(digest) if writes && room < digest.len() => (5, digest.len()),
            Answer::Done(digest) => (0, digest.len()),
            _ => expected.numbers(0),
        };
        if found != (code as u64) << 32 | number as u64 {
            return Some(format!("answer {} {}, expected {code} {number}", found >> 32, found as u32));
        }
        let right = match (code, expected) {
            (0, Answer::Done(digest)) if writes => output[..number] == digest[..] && is_filled(&output[number..], number),
            (5, _) => is_zero(output),
            _ => is_filled(output, 0),
        };
        let kept = is_filled(beside, 0) && is_filled(margin, 0) && b[..] == block[..] && n[..] == notes[..];
        (!right || !kept).then(|| format!("code {code}: {}", if right { "a byte outside" } else { "the output's bytes" }))
    }
}

/// A paragraph of so many words, in lines or in one, or notes of such paragraphs, up to 1 MiB.
fn big(r: &mut Rng) -> Asked {
    let most = [12, 40, 90, 1000][r.below(4)];
    let mut opts = random_options(r, most);
    let flags = opts.flags.unwrap_or(0) & !(KEEP | QUICK);
    opts.flags = Some(flags | if r.chance(40) { KEEP } else { 0 } | if r.chance(50) { QUICK } else { 0 });
    let size = [66_000, 100_000, 262_144, 600_000, MOST][r.below(5)];
    let prefix = opts.prefix.clone().unwrap_or_default();
    let mut text = match r.below(4) {
        0 => prose(r, &opts, size),
        1 => random_text(r, &opts, size.min(200_000)),
        2 => {
            let mut text = prefix.clone();
            for _ in 0..1 + r.below(100_000) {
                text += ["a ", "bb ", "ccc. ", "dddd  ", "e\t", "long-words-of-a-line "][r.below(6)];
                if r.chance(8) {
                    text += "\n";
                    text += &prefix;
                }
            }
            text
        }
        _ => "a ".repeat(size / 2 - r.below(2)) + ["", "a", "\n", "a\n"][r.below(4)],
    };
    while text.len() > MOST + r.below(2) {
        text.pop();
    }
    let mut notes = text.into_bytes();
    match r.below(12) {
        0 => notes = notes.iter().copied().cycle().take(MOST + r.below(3) - 1).collect(),
        1 => {
            let at = r.below(notes.len().max(1)).min(notes.len());
            notes.insert(at, 0xB0);
        }
        _ => {}
    }
    (opts.block(), notes)
}

/// Every so many cases a big one; the others are as for the small calls.
pub fn run(seed: u64, count: usize, tamper: &'static str, every: usize) -> i32 {
    let (mut large, mut original, mut r) = (Large::new(tamper), Original::new(), Rng(seed));
    let (mut calls, mut codes, mut differ, mut words, mut bytes) = (0u64, [0u64; 13], 0, 0, 0);
    let mut small = random(seed);
    for case in 0..count {
        let asked = if case % every == 0 { big(&mut r) } else { small.next().unwrap().1 };
        let (expected, need) = original.large(&asked.0, &asked.1);
        words = words.max(need / 7);
        bytes = bytes.max(asked.1.len());
        let length = if let Answer::Done(digest) = &expected { digest.len() } else { r.below(300) };
        if always(asked.1.len()) < need {
            println!("differ: {need} numbers are needed for {} bytes\nblock {}", asked.1.len(), hex(&asked.0));
            return 1;
        }
        let numbers = [need, need.saturating_sub(1), [0, r.below(need + 1), always(asked.1.len())][r.below(3)]];
        for numbers in numbers {
            for (writes, room) in [(false, r.below(40)), (true, length), (true, length.saturating_sub(1))] {
                calls += 1;
                let places = r.below(16);
                let code = match &expected {
                    Answer::Done(_) if numbers < need => 12,
                    Answer::Done(digest) if writes && room < digest.len() => 5,
                    _ => expected.measured().0,
                };
                codes[code as usize] += 1;
                if let Some(what) = large.fault(writes, &asked, &expected, need, room, numbers, places) {
                    let shown = &asked.1[..asked.1.len().min(2000)];
                    println!("differ: {what}; writes {writes}, output {room}, room {numbers}, places {places}, block {}, notes of {} bytes: {}", hex(&asked.0), asked.1.len(), hex(shown));
                    differ += 1;
                    if differ >= 5 {
                        return 1;
                    }
                }
            }
        }
    }
    let codes: Vec<String> = codes.iter().enumerate().filter(|(_, n)| **n > 0).map(|(code, n)| format!("code {code} {n}")).collect();
    println!("answers: {}", codes.join(", "));
    println!("the longest paragraph: at least {} words; the longest notes: {bytes} bytes", words / 3);
    println!("large: seed {seed}, {count} cases, {calls} times measured or written in lent room, {differ} differ");
    (differ > 0) as i32
}

extern "C" {
    /// The processor's time that this process has taken, in microseconds.
    fn clock() -> i64;
}

/// The least time of several turns, in nanoseconds a byte: the processor's, so that what else runs on the machine counts little.
fn least(bytes: usize, mut turn: impl FnMut()) -> f64 {
    let rate = |_| {
        let start = unsafe { clock() };
        turn();
        (unsafe { clock() } - start) as f64 * 1000.0 / bytes as f64
    };
    (0..15).map(rate).fold(f64::MAX, f64::min)
}

/// One paragraph of 64 KiB, 256 KiB and 1 MiB: the time a byte is level.
pub fn linear(tells: bool) -> i32 {
    let mut original = Original::new();
    let mut worst: f64 = 0.0;
    for (name, flags) in [("quick", QUICK), ("Knuth-Plass", 0)] {
        let block = Opts { flags: Some(flags), ..Opts::default() }.block();
        let mut row = Vec::new();
        for size in [65_536, 262_144, MOST] {
            // The same 64 KiB again and again, so that the sizes differ in nothing else.
            let mut r = Rng(7);
            let mut text = prose(&mut r, &Opts::default(), 65_536).replace("\n\n", "\n").replace("\r", "");
            text = text.split('\n').map(|line| line.trim_start_matches([' ', '\t', '>', '-'])).collect::<Vec<_>>().join("\n");
            while text.len() < 65_536 {
                text += " word";
            }
            while text.len() > 65_535 || !text.is_char_boundary(text.len()) {
                text.pop();
            }
            text = (text + "\n").repeat(size / 65_536);
            let notes = text.into_bytes();
            let mut work = vec![0u32; always(notes.len())];
            let mut output = vec![0u8; 4 * notes.len()];
            let mut answer = 0;
            let ours = least(notes.len(), || {
                answer = unsafe {
                    rudignals_write_large(block.as_ptr(), block.len(), notes.as_ptr(), notes.len(), output.as_mut_ptr(), output.len(), work.as_mut_ptr(), work.len())
                };
            });
            let mut digest = Vec::new();
            let theirs = least(notes.len(), || digest = original.format(&block, &notes));
            if answer >> 32 != 0 || output[..answer as usize] != digest[..] {
                println!("differ: {name}, {size} bytes");
                return 1;
            }
            row.push((notes.len(), ours, theirs));
        }
        for (size, ours, theirs) in &row {
            println!("{name}, one paragraph of {size} bytes: {ours:.2} ns a byte, the original {theirs:.2}");
        }
        let rates: Vec<f64> = row.iter().map(|(_, ours, _)| *ours).collect();
        worst = worst.max(rates.iter().fold(0.0, |a, b| f64::max(a, *b)) / rates.iter().fold(f64::MAX, |a, b| f64::min(a, *b)));
    }
    println!("large: the slowest rate is {worst:.2} times the fastest");
    (!tells && worst > 1.3) as i32
}
