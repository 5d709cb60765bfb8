//! The library against the original at scale, in one process: every answer and every byte of the output.
//!
//!     scale run SEED COUNT TABLES [TAMPER]   TABLES is quick, long or none (random cases alone); TAMPER puts a fault in on purpose
//!     scale tables K N                       of the whole tables each N-th case from the K-th on, counted from 0
//!     scale apart FILE SEED COUNT TABLES PROGRAM ...  the calls made by another program (shipped.c), that shares memory as FILE
//!     scale width SEED LINES                 quick's lines held to the width (width.rs), so many of them
//!     scale index SEED COUNT [TAMPER]        writing with an index, and lookups (indexed.rs)
//!     scale large SEED COUNT [TAMPER]        measuring and writing in lent room (large.rs)
//!     scale linear [tells]                   the time a byte of one long paragraph; fails if it is not level, or only tells it
//!     scale octets                           every sequence of up to four octets of a set that has every class
//!     scale replay BLOCK NOTES ROOM PLACES   one call, in hexadecimal, as a difference was printed
//!
//! Exit: 0 no difference, 1 a difference or a byte read or written outside.

mod glue;
mod indexed;
mod large;
mod model;
mod width;

use model::Original;
use parts::asked;
use parts::guard::{outside, Answer, Call, Harness, TAMPERS};
use parts::texts::Rng;
use std::collections::BTreeMap;
use std::process::exit;

/// The run stops at so many differences.
const ENOUGH: u64 = 100;

/// A call that takes longer does not end; making a difference smaller takes so many trials at most.
const SECONDS: u32 = 60;
const TRIALS: u64 = 20_000;

extern "C" {
    fn signal(number: i32, handler: extern "C" fn(i32)) -> usize;
    fn alarm(seconds: u32) -> u32;
}

const ALARM: i32 = 14;
const SEGMENTATION: i32 = 11;
const BUS: i32 = 7;

/// The call under way, for a run that ends inside it.
static mut UNDER_WAY: *const Call = std::ptr::null();

extern "C" fn stopped(number: i32) {
    // The library has no heap, so that a stop inside it leaves ours in order.
    match unsafe { UNDER_WAY.as_ref() } {
        Some(call) if number != ALARM => outside(call),
        Some(call) => println!("differ: no answer within {SECONDS} seconds\nreplay: {}", call.replay()),
        None => {}
    }
    exit(1)
}

struct Run {
    harness: Harness,
    original: Original,
    r: Rng,
    calls: u64,
    /// Digests of notes with a character beyond U+02FF, all of whose first bytes are from CC on.
    beyond: u64,
    codes: [u64; 6],
    differ: u64,
    trials: u64,
    least: Option<(Call, String)>,
}

impl Run {
    fn new(seed: u64, harness: Harness) -> Run {
        for number in [SEGMENTATION, BUS, ALARM] {
            unsafe { signal(number, stopped) };
        }
        let original = Original::new();
        Run { harness, original, r: Rng(seed ^ 0x5ca1e), calls: 0, beyond: 0, codes: [0; 6], differ: 0, trials: 0, least: None }
    }

    fn fault(&mut self, call: &Call, expected: &Answer) -> Option<String> {
        unsafe {
            UNDER_WAY = call;
            alarm(SECONDS);
        }
        let fault = self.harness.fault(call, expected);
        unsafe { alarm(0) };
        fault
    }

    /// The lengths of output that a question is asked with: where a digest is due, just enough, and one byte less, none at all, more, or any.
    fn rooms(&mut self, expected: &Answer) -> Vec<usize> {
        let r = &mut self.r;
        match expected {
            Answer::Done(digest) => {
                let n = digest.len();
                let other = match r.below(8) {
                    0..=2 => n.saturating_sub(1),
                    3 => 0,
                    4 => n + 1,
                    5 if n < 1 << 20 => n + r.below(70_000),
                    6 => r.below(if n < 1 << 20 { 2 * n + 1 } else { n + 1 }),
                    _ => n + r.below(200),
                };
                vec![n, other]
            }
            _ => vec![[0, 1, r.below(300), r.below(70_000)][if r.chance(3) { 3 } else { r.below(3) }]],
        }
    }

    fn ask(&mut self, (block, notes): asked::Asked) {
        let expected = self.original.answer(&block, &notes);
        self.beyond += (matches!(expected, Answer::Done(_)) && notes.iter().any(|b| *b >= 0xcc)) as u64;
        let mut call = Call { block, notes, room: 0, places: 0 };
        for room in self.rooms(&expected) {
            call.room = room;
            call.places = self.r.below(8);
            self.calls += 1;
            self.codes[expected.numbers(room).0 as usize] += 1;
            if let Some(what) = self.fault(&call, &expected) {
                self.differ += 1;
                let size = |call: &Call| call.notes.len() + call.block.len();
                if self.least.as_ref().map_or(true, |(least, _)| size(&call) < size(least)) {
                    self.least = Some((call.clone(), what));
                }
            }
        }
    }

    /// A smaller call that differs, found by leaving bytes out, first many, then few.
    fn shrink(&mut self, mut call: Call, mut what: String) -> (Call, String) {
        let mut part = call.notes.len().max(call.block.len());
        while part > 0 {
            let mut smaller = false;
            for which in [0, 1] {
                let mut at = 0;
                while at < [&call.notes, &call.block][which].len() {
                    let mut less = call.clone();
                    let bytes = if which == 0 { &mut less.notes } else { &mut less.block };
                    bytes.drain(at..(at + part).min(bytes.len()));
                    match self.differs(&less) {
                        Some(found) => {
                            (call, what) = found;
                            smaller = true;
                        }
                        None => at += part,
                    }
                }
            }
            if !smaller || part > 1 {
                part /= 2;
            }
        }
        (call, what)
    }

    /// The call, with as much room as it had, just enough or one byte less, if it differs.
    fn differs(&mut self, call: &Call) -> Option<(Call, String)> {
        self.trials += 1;
        if self.trials > TRIALS {
            return None;
        }
        let expected = self.original.answer(&call.block, &call.notes);
        let needed = if let Answer::Done(digest) = &expected { digest.len() } else { 0 };
        for room in [call.room, needed, needed + 1, needed.saturating_sub(1)] {
            let call = Call { room, ..call.clone() };
            if let Some(what) = self.fault(&call, &expected) {
                return Some((call, what));
            }
        }
        None
    }
}

/// A question and the name of its kind.
type Named = (&'static str, asked::Asked);

fn tables(seed: u64, step: usize, symbols: u32) -> impl Iterator<Item = Named> {
    asked::tables(seed, step, symbols).into_iter().flat_map(|(name, kind)| kind.map(move |asked| (name, asked)))
}

/// So many cases: tables, whole or in part, and then random ones.
fn cases(seed: u64, count: usize, which: &str) -> Box<dyn Iterator<Item = Named>> {
    let random = asked::random(seed);
    match which {
        "none" => Box::new(random.take(count)),
        "long" => Box::new(tables(seed, 1, 5).chain(random).take(count)),
        _ => Box::new(tables(seed, 61, 3).chain(random).take(count)),
    }
}

fn run(seed: u64, cases: &mut dyn Iterator<Item = Named>, harness: Harness) -> i32 {
    let mut run = Run::new(seed, harness);
    let mut kinds: BTreeMap<&str, u64> = BTreeMap::new();
    for (name, asked) in cases {
        *kinds.entry(name).or_default() += 1;
        run.ask(asked);
        if run.differ >= ENOUGH {
            break;
        }
    }
    let cases: u64 = kinds.values().sum();
    for (name, cases) in &kinds {
        println!("{name}: {cases} cases");
    }
    let codes: Vec<String> = run.codes.iter().enumerate().map(|(code, n)| format!("code {code} {n}")).collect();
    println!("answers: {}", codes.join(", "));
    println!("{}", run.original.width.told());
    println!("notes with a character beyond U+02FF, formatted: {}", run.beyond);
    println!("scale: seed {seed}, {cases} cases, {} times measured, written and formatted, {} differ", run.calls, run.differ);
    if run.original.width.over > 0 {
        return 1;
    }
    if let Some((call, what)) = run.least.take() {
        let (call, what) = run.shrink(call, what);
        println!("differ: {what}\nreplay: {}", call.replay());
        return 1;
    }
    0
}

/// Notes for quick, until so many of the lines that come of them have been counted afresh.
fn width(seed: u64, lines: u64) -> i32 {
    let mut run = Run::new(seed, Harness::new("none"));
    let mut r = Rng(seed);
    while run.original.width.lines < lines && run.differ < ENOUGH {
        run.ask(asked::quick_notes(&mut r));
    }
    println!("{}", run.original.width.told());
    println!("scale: seed {seed}, {} times measured, written and formatted, {} differ", run.calls, run.differ);
    (run.differ + run.original.width.over > 0) as i32
}

/// Every sequence of octets.
fn octets() -> i32 {
    let mut run = Run::new(0, Harness::new("none"));
    for asked in asked::octets(1) {
        if run.differ < ENOUGH {
            run.ask(asked);
        }
    }
    println!("scale: sequences of octets, {} times measured, written and formatted, code 3 {}, {} differ", run.calls, run.codes[3], run.differ);
    (run.differ > 0) as i32
}

fn replay(args: &[String]) -> i32 {
    let call = match Call::parse(args) {
        Some(call) => call,
        None => return usage(),
    };
    let mut run = Run::new(0, Harness::new("none"));
    let expected = run.original.answer(&call.block, &call.notes);
    let (code, number) = expected.numbers(call.room);
    println!("block:    {:?}\nnotes:    {:?}", call.block.escape_ascii().to_string(), call.notes.escape_ascii().to_string());
    println!("expected: code {code}, {number}");
    if let Answer::Done(digest) = &expected {
        println!("digest:   {:?}", digest.escape_ascii().to_string());
    }
    match run.fault(&call, &expected) {
        Some(what) => println!("differ:   {what}"),
        None => println!("no difference"),
    }
    0
}

fn usage() -> i32 {
    eprintln!("usage: see the head of scale.rs");
    2
}

fn main() {
    let args: Vec<String> = std::env::args().skip(1).collect();
    exit(match args.iter().map(|arg| &arg[..]).collect::<Vec<_>>()[..] {
        ["run", seed, count, tables, ref more @ ..] => {
            let tamper = TAMPERS.iter().find(|t| **t == *more.first().unwrap_or(&"none"));
            match (seed.parse(), count.parse(), tamper) {
                (Ok(seed), Ok(count), Some(tamper)) => run(seed, &mut cases(seed, count, tables), Harness::new(tamper)),
                _ => usage(),
            }
        }
        ["apart", file, seed, count, tables, ref program @ ..] if !program.is_empty() => match (seed.parse(), count.parse()) {
            (Ok(seed), Ok(count)) => run(seed, &mut cases(seed, count, tables), Harness::apart(file, program)),
            _ => usage(),
        },
        ["tables", k, n] => match (k.parse(), n.parse()) {
            (Ok(k), Ok(n)) if n > 0 => run(k as u64, &mut tables(2026, 1, 5).skip(k).step_by(n), Harness::new("none")),
            _ => usage(),
        },
        ["width", seed, lines] => match (seed.parse(), lines.parse()) {
            (Ok(seed), Ok(lines)) => width(seed, lines),
            _ => usage(),
        },
        ["index", seed, count, ref more @ ..] => {
            let tamper = indexed::TAMPERS.iter().find(|t| **t == *more.first().unwrap_or(&"none"));
            match (seed.parse(), count.parse(), tamper) {
                (Ok(seed), Ok(count), Some(tamper)) => indexed::run(seed, count, tamper),
                _ => usage(),
            }
        }
        ["large", seed, count, ref more @ ..] => {
            let tamper = large::TAMPERS.iter().find(|t| **t == *more.first().unwrap_or(&"none"));
            let every = more.get(1).unwrap_or(&"50").parse();
            match (seed.parse(), count.parse(), tamper, every) {
                (Ok(seed), Ok(count), Some(tamper), Ok(every)) if every > 0 => large::run(seed, count, tamper, every),
                _ => usage(),
            }
        }
        ["linear"] => large::linear(false),
        ["linear", "tells"] => large::linear(true),
        ["octets"] => octets(),
        ["replay", ..] => replay(&args[1..]),
        _ => usage(),
    })
}
