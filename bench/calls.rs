//! Times whole calls against the original, in one process, on the same texts.
//!
//!     calls [MILLISECONDS]              how long each text is timed on each side, by default 100
//!     calls --glue [MILLISECONDS]       only the part with glue on and off
//!     calls --once TEXT KIB WHO CALLS   one text, so often, for a profiler; WHO is here (writing), cube, powf, measure or both

#[allow(dead_code)]
#[path = "../tests/oracle/glue.rs"]
mod glue;
#[allow(dead_code)]
#[path = "../tests/oracle/options.rs"]
mod options;
mod clock;
mod library;
mod no_breaks;
mod notes;
mod opaque;
mod programs;
#[allow(dead_code)]
mod texts;

use library::{call, formatted, measured};
use notes::{Sort, KIB, SIZES};
use opaque::black_box;
use options::{Opts, QUICK};

/// A text of one size under some options, on one side: formats all its parts. Both sides get the same parts, 64 KiB in all
/// whatever the size of one, so that small texts are not learnt by heart.
type Side<'a> = Box<dyn FnMut() + 'a>;
const SIDES: [&str; 5] = ["here", "cube", "powf", "measure", "both"];

fn sides<'a>(opts: &Opts, parts: &'a [Vec<u8>]) -> [Side<'a>; 5] {
    let block = opts.block();
    let (block2, block3) = (block.clone(), block.clone());
    let (cube, powf) = (fmt_cube::options(opts.args()), fmt_powf::options(opts.args()));
    let mut output = vec![0; longest(opts, parts)];
    let mut output2 = output.clone();
    [
        Box::new(move || parts.iter().for_each(|p| assert_eq!(black_box(call(&block, p, &mut output)).0, 0))),
        Box::new(move || parts.iter().for_each(|p| drop(black_box(fmt_cube::format(&cube, p))))),
        Box::new(move || parts.iter().for_each(|p| drop(black_box(fmt_powf::format(&powf, p))))),
        Box::new(move || parts.iter().for_each(|p| assert_eq!(black_box(measured(&block2, p)).0, 0))),
        Box::new(move || parts.iter().for_each(|p| assert_eq!(black_box(formatted(&block3, p, &mut output2)).0, 0))),
    ]
}

/// The longest output of the parts, after both sides' outputs were compared byte for byte: else no figure is worth anything.
fn longest(opts: &Opts, parts: &[Vec<u8>]) -> usize {
    let (cube, powf) = (fmt_cube::options(opts.args()), fmt_powf::options(opts.args()));
    let mut longest = 0;
    for part in parts {
        let expected = fmt_cube::format(&cube, part);
        let mut output = vec![0; expected.len()];
        assert_eq!(measured(&opts.block(), part), (0, expected.len()));
        assert_eq!(call(&opts.block(), part, &mut output), (0, expected.len()));
        assert!(output == expected, "the outputs differ");
        assert!(fmt_powf::format(&powf, part) == expected, "the outputs of powf differ");
        longest = longest.max(expected.len());
    }
    longest
}

/// The least processor time of each side over all parts, in ns. The sides take turns, so that none has the machine's quiet moments
/// alone, until each has had its time, and five rounds at least.
fn least(sides: &mut [Side], milliseconds: usize) -> Vec<f64> {
    let (mut rounds, enough) = (0, milliseconds as f64 * 1e6);
    let mut state = vec![(0.0, f64::MAX); sides.len()];
    sides.iter_mut().for_each(|side| side());
    while rounds < 5 || state.iter().any(|s| s.0 < enough) {
        for (side, (spent, least)) in sides.iter_mut().zip(&mut state) {
            if rounds >= 5 && *spent >= enough {
                continue;
            }
            let began = clock::own();
            side();
            let t = (clock::own() - began) * 1e9;
            *spent += t;
            *least = least.min(t);
        }
        rounds += 1;
    }
    state.into_iter().map(|s| s.1).collect()
}

/// A sort's figures under one breaker: ns a byte of the notes, by size and side.
struct Row {
    name: String,
    sizes: Vec<(usize, Vec<f64>)>,
}

impl Row {
    fn worst(&self) -> f64 {
        self.sizes.iter().map(|(_, t)| t[0] / t[1]).fold(0.0, f64::max)
    }

    /// How far the time of a byte here is from flat: the most over the least of all sizes.
    fn spread(&self, side: usize) -> f64 {
        let of = |f: fn(f64, f64) -> f64, start| self.sizes.iter().map(|s| s.1[side]).fold(start, f);
        of(f64::max, 0.0) / of(f64::min, f64::MAX)
    }
}

fn title(sort: &Sort, quick: bool) -> String {
    format!("{}, {}", sort.name, if quick { "quick" } else { "best" })
}

fn with_breaker(opts: &Opts, quick: bool) -> Opts {
    Opts { flags: Some(opts.flags.unwrap_or(0) | if quick { QUICK } else { 0 }), ..opts.clone() }
}

fn measure(sort: &Sort, quick: bool, milliseconds: usize) -> Row {
    let opts = with_breaker(&sort.opts, quick);
    let mut sizes = Vec::new();
    for size in SIZES {
        if let Some(parts) = sort.parts(size) {
            let bytes: usize = parts.iter().map(|p| p.len()).sum();
            let found = least(&mut sides(&opts, &parts), milliseconds);
            sizes.push((size, found.into_iter().map(|t| t / bytes as f64).collect()));
        }
    }
    Row { name: title(sort, quick), sizes }
}

fn print(rows: &[Row]) {
    println!("ns a byte of the notes; best is Knuth-Plass; a ratio below 1 says that it is quicker here");
    println!("\n{:<40} KiB |     here |     Rust  ratio | with powf  ratio", "text");
    for row in rows {
        for (size, t) in &row.sizes {
            println!(
                "{:<40}{:>4} | {:>8.3} | {:>8.3} {:>6.2} | {:>9.3} {:>6.2}",
                row.name, size / KIB, t[0], t[1], t[0] / t[1], t[2], t[0] / t[2]
            );
        }
    }
    println!("\nFlat: ns a byte here at 1, 4, 16 and 64 KiB, the most over the least, and the same of the Rust");
    for row in rows {
        let cells: String = row.sizes.iter().map(|(_, t)| format!(" {:>8.3}", t[0])).collect();
        println!("{:<40} |{cells} | {:>5.2} | {:>5.2}", row.name, row.spread(0), row.spread(1));
    }
    println!("\nMeasuring, writing (the column here, above) and both in sequence: ns a byte of the notes, and measuring's part of writing's time");
    for row in rows {
        for (size, t) in &row.sizes {
            println!("{:<40}{:>4} | {:>8.3} | {:>8.3} | {:>8.3} | {:>5.2}", row.name, size / KIB, t[3], t[0], t[4], t[3] / t[0]);
        }
    }
    println!("\nThe worst");
    let worst = |rows: &mut dyn Iterator<Item = &Row>, of: &dyn Fn(&Row) -> f64| {
        rows.max_by(|a, b| of(a).total_cmp(&of(b))).map(|r| (r.name.clone(), of(r)))
    };
    for breaker in ["quick", "best"] {
        let those = || rows.iter().filter(|r| r.name.ends_with(breaker));
        let most = |r: &Row| r.sizes.iter().map(|s| s.1[0]).fold(0.0, f64::max);
        for (what, found) in [
            ("ratio to the Rust", worst(&mut those(), &|r| r.worst())),
            ("ns a byte", worst(&mut those(), &most)),
            ("most over least", worst(&mut those(), &|r| r.spread(0))),
        ] {
            let (name, value) = found.expect("rows");
            println!("{breaker:<6} {what:<18} {value:>9.2}  {name}");
        }
    }
}

/// One text on one side, many times: for a profiler.
fn once(name: &str, kib: usize, side: usize, calls: usize) {
    for sort in notes::sorts() {
        for quick in [true, false] {
            if title(&sort, quick) != name {
                continue;
            }
            let parts = sort.parts(kib * KIB).expect("a text of that size");
            let mut sides = sides(&with_breaker(&sort.opts, quick), &parts);
            for _ in 0..calls {
                sides[side]();
            }
        }
    }
}

fn all(milliseconds: usize) {
    let mut rows = Vec::new();
    for sort in notes::sorts() {
        for quick in [true, false] {
            let row = measure(&sort, quick, milliseconds);
            if row.sizes.is_empty() {
                println!("{}: left out: the files are not on this machine", row.name);
            } else {
                rows.push(row);
            }
        }
    }
    print(&rows);
    no_breaks::print(milliseconds);
    programs::print();
}

fn main() {
    let args: Vec<String> = std::env::args().skip(1).collect();
    let number = |i: usize| args[i].parse().expect("a number");
    match args.len() {
        0 => all(100),
        1 if args[0] == "--glue" => no_breaks::print(100),
        2 if args[0] == "--glue" => no_breaks::print(number(1)),
        1 => all(number(0)),
        5 if args[0] == "--once" => {
            let side = SIDES.iter().position(|s| *s == args[3]).expect("here, cube, powf, measure or both");
            once(&args[1], number(2), side, number(4))
        }
        _ => eprintln!("usage: [MILLISECONDS] | --glue [MILLISECONDS] | --once TEXT KIB WHO CALLS"),
    }
}
