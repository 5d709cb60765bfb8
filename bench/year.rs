//! Regenerates an archive year (RULES 23): by measuring and writing, by writing alone and by the original, in one process.
//!
//!     year [ROUNDS [SEED]]                 by default 40 rounds of seed 2026
//!     year --files COMMAND [SEED]          the same year as files: by the command, beside other programs
//!     year --once BREAKER SIDE ROUNDS      one side alone, for a profiler: quick or best; both, write, cube or powf

mod archive;
mod clock;
mod files;
#[allow(dead_code)]
#[path = "../tests/oracle/glue.rs"]
mod glue;
#[allow(dead_code)]
mod library;
mod opaque;
#[allow(dead_code)]
#[path = "../tests/oracle/options.rs"]
mod options;
#[allow(dead_code)]
mod texts;

use archive::{shown, year, Day, DAYS, STAND_IN};
use library::{call, measured};
use opaque::black_box;
use options::{Opts, KEEP, MAIL, QUICK};

const SEED: u64 = 2026;
const KIB: usize = 1024;

const SIDES: [&str; 4] = ["both", "write", "cube", "powf"];
const BOTH: usize = 0;
const WRITE: usize = 1;
const CUBE: usize = 2;

/// Keep, for the damaged lines; mail, for the headers. The skip prefix is that of the stand-in, and both sides look for it.
fn opts(quick: bool) -> Opts {
    let skip = Some(char::from(STAND_IN).to_string());
    Opts { flags: Some(KEEP | MAIL | if quick { QUICK } else { 0 }), skip, ..Opts::default() }
}

/// One day on one side.
type Side<'a> = Box<dyn Fn(usize) + 'a>;

fn sides<'a>(quick: bool, days: &'a [Day], seen: &'a [Vec<u8>]) -> [Side<'a>; 4] {
    let block = opts(quick).block();
    let (cube, powf) = (fmt_cube::options(opts(quick).args()), fmt_powf::options(opts(quick).args()));
    let room = days.iter().map(|d| measured(&block, &d.notes).1).max().unwrap();
    let (block2, output) = (block.clone(), std::cell::RefCell::new(vec![0; room]));
    [
        // As a host does it: it learns the length, takes memory of that size, and writes.
        Box::new(move |n| {
            let mut digest = Vec::with_capacity(measured(&block, &days[n].notes).1);
            unsafe { digest.set_len(digest.capacity()) };
            assert_eq!(call(&block, &days[n].notes, &mut digest), (0, digest.len()));
            drop(black_box(digest));
        }),
        Box::new(move |n| assert_eq!(call(&block2, &days[n].notes, &mut output.borrow_mut()).0, 0)),
        Box::new(move |n| drop(black_box(fmt_cube::format(&cube, &seen[n])))),
        Box::new(move |n| drop(black_box(fmt_powf::format(&powf, &seen[n])))),
    ]
}

/// Each digest is compared byte for byte with both builds of the original: else no figure is worth anything.
fn compare(quick: bool, days: &[Day], seen: &[Vec<u8>]) {
    let (cube, powf) = (fmt_cube::options(opts(quick).args()), fmt_powf::options(opts(quick).args()));
    for (day, seen) in days.iter().zip(seen) {
        let expected = fmt_cube::format(&cube, seen);
        assert!(fmt_powf::format(&powf, seen) == expected, "the outputs of powf differ");
        let mut digest = vec![0; expected.len()];
        assert_eq!(measured(&opts(quick).block(), &day.notes), (0, expected.len()));
        assert_eq!(call(&opts(quick).block(), &day.notes, &mut digest), (0, expected.len()));
        assert!(shown(&digest) == expected, "the outputs differ");
    }
}

/// What reading the clock takes, at the least: it is in the time of each digest, and taken off.
fn reading() -> f64 {
    (0..10000).map(|_| { let began = clock::own(); clock::own() - began }).fold(f64::MAX, f64::min)
}

/// The least processor time of each digest by side, in seconds. A round is the year from its first day to its last on one side and then on
/// the next, so that no digest is in the cache for having been written just before.
fn least(sides: &[Side], rounds: usize) -> Vec<[f64; 4]> {
    let (mut least, reading) = (vec![[f64::MAX; 4]; DAYS], reading());
    for _ in 0..rounds {
        for (s, side) in sides.iter().enumerate() {
            for day in 0..DAYS {
                let began = clock::own();
                side(day);
                least[day][s] = least[day][s].min(clock::own() - began - reading);
            }
        }
    }
    least
}

fn row(name: &str, times: &[[f64; 4]], of: &dyn Fn(usize) -> bool) {
    let days: Vec<usize> = (0..DAYS).filter(|d| of(*d)).collect();
    let sum = |side: usize| days.iter().map(|d| times[*d][side] * 1e3).sum::<f64>();
    let worst = |side: usize| days.iter().map(|d| times[*d][side] / times[*d][CUBE]).fold(0.0, f64::max);
    let [both, write, cube, powf] = [0, 1, 2, 3].map(sum);
    println!(
        "{name:<14} {:>3} | {both:>11.2} {write:>8.2} | {cube:>8.2} {powf:>8.2} | {:>5.2} {:>5.2} | {:>5.2} {:>5.2} | {:>5.2} {:>5.2}",
        days.len(), both / cube, write / cube, both / powf, write / powf, worst(BOTH), worst(WRITE)
    );
}

fn print(breaker: &str, days: &[Day], times: &[[f64; 4]]) {
    println!("\n{breaker:<18} | measuring            |                   | over the    | over powf   | worst digest");
    println!("{:<14}days | and writing  writing | the Rust   (powf) | Rust        |             | over the Rust", "");
    row("the year", times, &|_| true);
    for kib in [1, 2, 4, 8, 16, 32] {
        let most = if kib == 32 { usize::MAX } else { 2 * kib * KIB };
        row(&format!("{kib} to {} KiB", 2 * kib), times, &|d| (kib * KIB..most).contains(&days[d].notes.len()));
    }
    let mut sites: Vec<&str> = days.iter().map(|d| d.site).collect();
    sites.sort_unstable();
    sites.dedup();
    for site in sites {
        row(site, times, &|d| days[d].site == site);
    }
    for (side, name) in [(BOTH, "measuring and writing"), (WRITE, "writing alone")] {
        let ratio = |d: &usize| times[*d][side] / times[*d][CUBE];
        let worst = (0..DAYS).max_by(|a, b| ratio(a).total_cmp(&ratio(b))).unwrap();
        let above = (0..DAYS).filter(|d| ratio(d) > 1.0).count();
        println!(
            "{name}: worst digest day {}, {} bytes, {}, {:.2}; above 1.00: {above} of {DAYS}",
            worst + 1, days[worst].notes.len(), days[worst].site, ratio(&worst)
        );
    }
}

fn all(rounds: usize, seed: u64) {
    let days = year(seed);
    let seen: Vec<Vec<u8>> = days.iter().map(|d| shown(&d.notes)).collect();
    let bytes: usize = days.iter().map(|d| d.notes.len()).sum();
    let damaged = seen.iter().flat_map(|s| s.iter()).filter(|b| **b == STAND_IN).count();
    println!("seed {seed}: {DAYS} digests of {bytes} bytes of notes, {damaged} damaged lines; ms of processor time, each digest's least of {rounds} rounds");
    println!("of two ratios in a column the first is measuring and writing, the second writing alone");
    for (breaker, quick) in [("quick", true), ("Knuth-Plass", false)] {
        compare(quick, &days, &seen);
        print(breaker, &days, &least(&sides(quick, &days, &seen), rounds));
    }
}

fn once(breaker: &str, side: &str, rounds: usize) {
    let side = SIDES.iter().position(|s| *s == side).expect("both, write, cube or powf");
    let days = year(SEED);
    let seen: Vec<Vec<u8>> = days.iter().map(|d| shown(&d.notes)).collect();
    let sides = sides(breaker == "quick", &days, &seen);
    (0..rounds).for_each(|_| (0..DAYS).for_each(|day| sides[side](day)));
}

fn main() {
    let args: Vec<String> = std::env::args().skip(1).collect();
    let number = |n: usize, by_default: u64| args.get(n).map_or(by_default, |arg| arg.parse().expect("a number"));
    match args.get(0).map(|arg| &arg[..]) {
        Some("--once") => once(&args[1], &args[2], number(3, 1) as usize),
        Some("--files") => files::print(&args[1], &year(number(2, SEED))),
        _ => all(number(0, 40) as usize, number(1, SEED)),
    }
}
