//! The oracle: the Rust original, built three times, behind one command.
//!
//!     oracle fmt [--build powf|cube|amended] [OPTIONS]
//!                                               format standard input
//!     oracle vectors                            print the committed list anew
//!     oracle cases exhaustive SYMBOLS           print more of the same form
//!     oracle cases random|prose SEED COUNT
//!     oracle check                              the fast checks of the self-test
//!     oracle compare [SEED]                     powf against the cube, by texts
//!     oracle terms                              powf against the cube, by terms

mod cases;
mod glue;
mod options;
mod texts;

use cases::Case;
use options::*;
use std::io::{self, BufWriter, Read, Write};
use std::process::exit;

/// The seed of everything random here.
const SEED: u64 = 2026;

/// One build of the original under some options, ready for many texts.
type Build = Box<dyn Fn(&[u8]) -> Vec<u8>>;

fn powf(args: Vec<String>) -> Build {
    let options = fmt_powf::options(args);
    Box::new(move |notes| fmt_powf::format(&options, notes))
}

fn cube(args: Vec<String>) -> Build {
    let options = fmt_cube::options(args);
    Box::new(move |notes| fmt_cube::format(&options, notes))
}

fn amended(args: Vec<String>) -> Build {
    let options = fmt_amended::options(args);
    Box::new(move |notes| fmt_amended::format(&options, notes))
}

fn format(mut args: Vec<String>) {
    let build = match args.first().map(|arg| &arg[..]) {
        Some("--build") if args.len() > 1 => args.drain(..2).nth(1).unwrap(),
        _ => "cube".to_string(),
    };
    let format = match &build[..] {
        "powf" => powf(args),
        "cube" => cube(args),
        "amended" => amended(args),
        _ => fail(&format!("no build {build}")),
    };
    let mut notes = Vec::new();
    io::stdin().read_to_end(&mut notes).unwrap();
    io::stdout().write_all(&format(&notes)).unwrap();
}

fn fail(message: &str) -> ! {
    eprintln!("oracle: {message}");
    exit(1)
}

// ---------------------------------------------------------------- vectors

/// The original's answer to a case in the accepted domain.
fn answer(case: &Case) -> Vec<u8> {
    assert_accepted(case);
    let shown = case.opts.shown(&case.notes);
    let output = String::from_utf8(cube(case.opts.args())(shown.as_bytes())).unwrap();
    if case.opts.has(GLUE) {
        STAND_INS.back(&output).into_bytes()
    } else {
        output.into_bytes()
    }
}

/// The conditions of RULES 2.2 for code 0, apart from room. The words of a
/// paragraph are counted generously, from blank line to blank line.
fn assert_accepted(case: &Case) {
    let opts = &case.opts;
    let fmt_cube::FmtOptions { width, goal, .. } = fmt_cube::options(opts.args());
    assert!(goal <= width && width <= 2 * goal && width <= 1000);
    assert!(opts.goal.is_some() || opts.width.map_or(true, |width| width >= 6));
    assert!(opts.flags.map_or(true, |flags| flags < 1 << 10));
    assert!(opts.tab.map_or(true, |tab| tab <= 100));
    assert!(opts.prefix.iter().chain(&opts.skip).all(|prefix| prefix.len() <= 255));
    for text in [&case.notes].into_iter().chain(&opts.prefix).chain(&opts.skip) {
        assert!(STAND_INS.back(text) == *text);
    }
    assert!(case.notes.len() <= 65536);
    let mut words = 0;
    for line in case.notes.split('\n') {
        let more = line.split_whitespace().count();
        words = if more == 0 { 0 } else { words + more };
        assert!(words <= 1024);
    }
}

fn hex(bytes: &[u8]) -> String {
    match bytes {
        [] => "-".to_string(),
        _ => bytes.iter().map(|byte| format!("{byte:02x}")).collect(),
    }
}

/// Prints one line for each case: option block, notes, output.
fn print_answers(cases: impl Iterator<Item = Case>) {
    let mut out = BufWriter::new(io::stdout());
    for case in cases {
        let (block, output) = (case.opts.block(), answer(&case));
        writeln!(out, "{} {} {}", hex(&block), hex(case.notes.as_bytes()), hex(&output)).unwrap();
    }
}

fn print_cases(kind: &str, args: &[String]) {
    let number = |n: usize| match args.get(n).map(|arg| arg.parse::<u64>()) {
        Some(Ok(number)) => number,
        _ => fail("usage: oracle cases exhaustive SYMBOLS | random SEED COUNT | prose SEED COUNT"),
    };
    match kind {
        "exhaustive" => print_answers(cases::exhaustive(number(0) as u32)),
        "random" => print_answers(cases::random(number(0)).take(number(1) as usize)),
        "prose" => print_answers(cases::proses(number(0)).take(number(1) as usize)),
        _ => fail(&format!("no cases of kind {kind}")),
    }
}

// ---------------------------------------------------------------- powf against the cube

/// Runs the cases under both builds; prints and answers how many differ.
fn compare(name: &str, cases: impl Iterator<Item = Case>) -> u64 {
    let (mut all, mut differ) = (0, 0);
    let mut block = Opts::default().block();
    let mut builds = both(&Opts::default());
    for case in cases {
        let opts = &case.opts;
        // Cases in a row often share their options.
        if block != opts.block() {
            block = opts.block();
            builds = both(opts);
        }
        let shown = opts.shown(&case.notes);
        let (one, other) = (builds.0(shown.as_bytes()), builds.1(shown.as_bytes()));
        all += 1;
        if one != other {
            differ += 1;
            let [block, notes] = [&block, shown.as_bytes()].map(hex);
            println!("differ: {block} {notes} powf {} cube {}", hex(&one), hex(&other));
        }
    }
    println!("{name}: {all} cases, {differ} differ");
    differ
}

fn both(opts: &Opts) -> (Build, Build) {
    (powf(opts.args()), cube(opts.args()))
}

/// All kinds of cases: every text of up to so many symbols, so many random
/// ones, so much prose, and the committed list.
fn compare_all(seed: u64, symbols: u32, random: usize, prose: usize) -> u64 {
    compare("exhaustive", cases::exhaustive(symbols))
        + compare("random", cases::random(seed).take(random))
        + compare("prose", cases::proses(seed).take(prose))
        + compare("vectors", cases::vectors(SEED).into_iter())
}

/// The terms under a cost: cost = (1 + L + W + D)^2.
fn terms_sum(cost: i64) -> i64 {
    (cost as f64).sqrt() as i64 - 1
}

/// Every value that L, W and D can take, worked out by the original's own
/// function in both builds. The terms are told apart by what makes the others
/// 0: for W a word as long as the stretch, for D an old ratio equal to the new.
fn terms() -> u64 {
    use fmt_cube::linebreak::compute_demerits as cube;
    use fmt_powf::linebreak::compute_demerits as powf;
    let mut counts = [[0u64; 3]; 3];
    let mut count = |term: usize, of: [isize; 3], x: f32, one: i64, other: i64| {
        let [all, before, after] = &mut counts[term];
        *all += 1;
        *before += (x.powf(3f32).to_bits() != ((x * x) * x).to_bits()) as u64;
        if one != other {
            *after += 1;
            println!("differ: {} at {of:?}: powf {one} cube {other}", ["L", "W", "D"][term]);
        }
    };
    for stretch in 1..=500 {
        let ratio = |delta: isize| if delta == 0 { 0f32 } else { delta as f32 / stretch as f32 };
        for delta in -stretch..=stretch {
            let new = ratio(delta);
            let one = powf(delta, stretch, stretch, new);
            let other = cube(delta, stretch, stretch, new);
            assert!(one.1 == new && other.1 == new);
            let (one, other) = (terms_sum(one.0), terms_sum(other.0));
            count(0, [stretch, delta, 0], new, one, other);
            for old in -stretch..=stretch {
                let rat = ratio(old);
                let d_one = terms_sum(powf(delta, stretch, stretch, rat).0) - one;
                let d_other = terms_sum(cube(delta, stretch, stretch, rat).0) - other;
                count(2, [stretch, delta, old], (new - rat) / 2.0, d_one, d_other);
            }
        }
        for word in 1..stretch {
            let x = (stretch - word) as f32 / (stretch - 1) as f32;
            let (one, other) = (powf(0, stretch, word, 0.0).0, cube(0, stretch, word, 0.0).0);
            count(1, [stretch, word, 0], x, terms_sum(one), terms_sum(other));
        }
    }
    for (name, [all, before, after]) in ["L", "W", "D"].iter().zip(counts) {
        println!("{name}: {all} terms, {before} differ before truncation, {after} after");
    }
    counts.iter().map(|[_, _, after]| after).sum()
}

// ---------------------------------------------------------------- self-test

/// Counts the checks and stops at the first that fails.
struct Checks(u64);

impl Checks {
    fn that(&mut self, holds: bool, what: &str) {
        if !holds {
            fail(&format!("check failed: {what}"));
        }
        self.0 += 1;
    }
}

fn check() {
    let mut checks = Checks(0);
    for (opts, notes, output) in cases::trials() {
        let (one, other) = both(&opts);
        let what = format!("{:?} under {:?}", notes, opts.args());
        checks.that(one(notes.as_bytes()) == output.as_bytes(), &what);
        checks.that(other(notes.as_bytes()) == output.as_bytes(), &what);
    }
    for demerits in [fmt_powf::linebreak::compute_demerits, fmt_cube::linebreak::compute_demerits] {
        let terms = |delta, stretch, word, old| terms_sum(demerits(delta, stretch, word, old).0);
        checks.that(terms(4, 5, 5, 0.8) == 51, "L of the worked example");
        checks.that(terms(0, 5, 3, 0.0) == 37, "W of the worked example");
        checks.that(terms(4, 5, 5, 0.0) == 51 + 38, "D of the worked example");
        checks.that(demerits(4, 5, 3, 0.0).0 == 16_129, "cost of the worked example");
        checks.that(demerits(-500, 500, 1, 1.0).0 == 1_002_001, "the greatest cost");
        checks.that(demerits(0, 0, 1, 1.0).0 == 76 * 76, "cost without stretch");
    }
    widths(&mut checks);
    differences(&mut checks);
    widthless(&mut checks);
    checks.that(compare_all(SEED, 4, 20_000, 200) == 0, "powf against the cube");
    println!("checks: {}", checks.0);
}

/// Every character before U+0300 that is no blank has width 1: three of them, a
/// blank and two letters make 6 columns. (tests/widths has them all.)
fn widths(checks: &mut Checks) {
    let format = cube(vec!["-q".to_string(), "-w".to_string(), "6".to_string()]);
    for c in ('\0'..='\u{2ff}').filter(|c| !c.is_whitespace()) {
        let fits = format!("{c}{c}{c} aa\n");
        let over = format!("{c}{c}{c} aaa\n");
        checks.that(format(fits.as_bytes()) == fits.as_bytes(), &format!("{c:?} is too wide"));
        checks.that(format(over.as_bytes()) != over.as_bytes(), &format!("{c:?} is too narrow"));
    }
}

/// Words of width 0 (RULES 8.4). The amended build differs from the cube in their W at stretch 1 and nowhere else; their terms are
/// near the exact ones; and the smallest text on which it shows.
fn widthless(checks: &mut Checks) {
    use fmt_amended::linebreak::compute_demerits as amended;
    use fmt_cube::linebreak::compute_demerits as cube;
    for stretch in 0..=500 {
        for word in 0..=stretch + 1 {
            let same = amended(0, stretch, word, 0.0).0 == cube(0, stretch, word, 0.0).0;
            checks.that(same != (stretch == 1 && word == 0), &format!("W amended at stretch {stretch} for a word of {word}"));
        }
    }
    for (delta, old) in [(-1, -1.0), (0, 0.0), (1, 1.0), (1, -1.0), (-1, 0.0)] {
        let (word, wide) = (amended(delta, 1, 0, old), amended(delta, 1, 1, old));
        checks.that(word.0 == wide.0, "at stretch 1 a word of width 0 costs what one of width 1 does");
    }
    for stretch in 2i64..=500 {
        // In f32 the term may be the whole number beside the one that 300 s³ / (s − 1)³ has.
        let exact = 300 * stretch.pow(3) / (stretch - 1).pow(3);
        let term = terms_sum(amended(0, stretch as isize, 0, 0.0).0);
        checks.that((term - exact).abs() <= 1, &format!("W of width 0 at stretch {stretch}"));
    }
    checks.that(terms_sum(amended(0, 2, 0, 0.0).0) == 2400, "the greatest W");
    checks.that(amended(-2, 2, 0, 1.0).0 == 9_616_201, "the greatest cost with words of width 0");
    let run = |build: fn(Vec<String>) -> Build, notes: &str| {
        build(["-g", "2", "-w", "3"].iter().map(|arg| arg.to_string()).collect())(notes.as_bytes())
    };
    let notes = "\u{301} a a \u{301} a\n";
    checks.that(run(crate::amended, notes) == "\u{301} a\na \u{301}\na\n".as_bytes(), "the smallest text, amended");
    checks.that(run(crate::cube, notes) == "\u{301} a\na\n\u{301} a\n".as_bytes(), "the smallest text, as the Rust has it");
}

/// What docs/DIFFERENCES.md says of the original outside the accepted domain.
fn differences(checks: &mut Checks) {
    let run = |args: &str, notes: &[u8]| {
        cube(args.split_whitespace().map(|arg| arg.to_string()).collect())(notes)
    };
    checks.that(run("", b"a\n\xb0 b\nc\n") == b"a\n", "the original stops at a damaged line");
    for (width, goal) in [("1", 0), ("2", 1), ("3", 0), ("4", 1), ("5", 2)] {
        let options = fmt_cube::options(vec!["-w".to_string(), width.to_string()]);
        checks.that(options.goal == goal, &format!("the goal of width {width} alone"));
    }
    let words = b"aa b cc d ee f\n";
    checks.that(run("-w 2", words) == b"aa\nb\ncc\nd\nee\nf\n", "width 2 alone");
    checks.that(run("-w 5", words) == b"aa b\ncc d\nee f\n", "width 5 alone");
    checks.that(run("-g 2", words) == b"aa b\ncc d\nee f\n", "goal 2 alone");
    checks.that(run("-w 10 -g 4", words) == b"aa b cc d\nee f\n", "width over twice the goal");
    checks.that(run("-w 2000 -T 101", words) == words, "width over 1,000, tab over 100");
    let long = vec![b'a'; 65_537];
    checks.that(run("", &long).len() == 65_538, "notes over 65,536 bytes");
    let many = b"a ".repeat(1025);
    checks.that(run("-w 1 -g 1", &many) == b"a\n".repeat(1025), "1,025 words");
}

fn main() {
    let args: Vec<String> = std::env::args().skip(1).collect();
    let seed = |arg: Option<&String>| arg.map_or(Some(SEED), |seed| seed.parse().ok());
    match args.iter().map(|arg| &arg[..]).collect::<Vec<_>>()[..] {
        ["fmt", ..] => format(args[1..].to_vec()),
        ["vectors"] => print_answers(cases::vectors(SEED).into_iter()),
        ["cases", kind, ..] => print_cases(kind, &args[2..]),
        ["check"] => check(),
        ["compare", ..] => {
            let seed = seed(args.get(1)).unwrap_or_else(|| fail("the seed is a number"));
            exit((compare_all(seed, 6, 2_000_000, 40_000) != 0) as i32)
        }
        ["terms"] => exit((terms() != 0) as i32),
        _ => fail("usage: see the head of driver.rs"),
    }
}
