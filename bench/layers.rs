//! Times the layers under the call against the original's own breakers, in one process, on the same paragraphs.
//!
//!     layers [MILLISECONDS]            how long each span is timed, by default 150
//!     layers --once TEXT SPAN CALLS    one span, so often, over the text of that number in TEXTS, for a profiler

mod opaque;
mod spans;
mod texts;

use spans::*;
use std::ops::Range;
use std::time::Instant;
use texts::{GROUPS, TEXTS};

/// The least time of each span over the whole text, in ns. A run is the text so often as takes about 100 µs, or, where it
/// alone takes longer, a group by itself, and then the least times of the groups are added. The spans take turns, so that
/// none has the machine's quiet moments alone, until each has had its time, and 20 rounds at least.
fn least(spans: &mut [Span], milliseconds: usize) -> Vec<(&'static str, f64)> {
    let time = |span: &mut Span, groups: Range<usize>, calls: u32| {
        let began = Instant::now();
        for _ in 0..calls {
            (span.1)(groups.clone());
        }
        began.elapsed().as_nanos() as f64
    };
    let mut state: Vec<(u32, f64, Vec<f64>)> = Vec::new();
    for span in spans.iter_mut() {
        time(span, 0..GROUPS, 1);
        let once = time(span, 0..GROUPS, 1);
        state.push((((1e5 / once) as u32).max(1), 0.0, vec![f64::MAX; if once < 2e5 { 1 } else { GROUPS }]));
    }
    let (mut rounds, enough) = (0, milliseconds as f64 * 1e6);
    while rounds < 20 || state.iter().any(|s| s.1 < enough) {
        for (span, (calls, spent, found)) in spans.iter_mut().zip(&mut state) {
            if rounds >= 20 && *spent >= enough {
                continue;
            }
            let size = GROUPS / found.len();
            for (i, least) in found.iter_mut().enumerate() {
                let t = time(span, i * size..(i + 1) * size, *calls);
                *spent += t;
                *least = least.min(t / *calls as f64);
            }
        }
        rounds += 1;
    }
    spans.iter().zip(state).map(|(span, (_, _, found))| (span.0, found.iter().sum())).collect()
}

/// A text's figures: what it is, words and bytes of all its paragraphs, and the least time of each span.
struct Row {
    head: String,
    words: f64,
    bytes: f64,
    found: Vec<(&'static str, f64)>,
}

impl Row {
    fn of(&self, span: &str) -> f64 {
        self.found.iter().find(|(name, _)| *name == span).expect(span).1
    }

    /// Nanoseconds a word, and a byte.
    fn cell(&self, span: &str) -> String {
        format!("{:>9.2} {:>8.3}", self.of(span) / self.words, self.of(span) / self.bytes)
    }
}

/// The goal that the original takes for a width.
fn setting(width: usize, uniform: bool) -> Setting {
    let goal = fmt_cube::options(vec!["-w".to_string(), width.to_string()]).goal;
    Setting { width, goal, uniform }
}

/// Both sides write the same bytes, or nothing that follows is worth anything. Answers whether the original with powf
/// does so too.
fn compare(text: &Text, g: Setting) -> bool {
    let (mut room, mut same) = (Room::new(), true);
    for p in &text.paragraphs {
        for is_quick in [true, false] {
            let size = format(&p.notes, g, is_quick, &mut room);
            assert_eq!(
                String::from_utf8_lossy(&room.out[..size]),
                String::from_utf8_lossy(&cube::answer(&p.notes, g, is_quick))
            );
            same &= room.out[..size] == powf::answer(&p.notes, g, is_quick)[..];
        }
    }
    same
}

fn all<'a>(text: &'a Text, g: Setting) -> Vec<Span<'a>> {
    let mut spans = layers(text, g);
    spans.extend(cube::spans(text, g));
    // Where nothing is computed in floats the two builds are one.
    spans.extend(
        powf::spans(text, g)
            .into_iter()
            .filter(|(name, _)| ["powf find", "powf knuth_plass", "powf lines"].contains(name)),
    );
    spans
}

fn measure(milliseconds: usize) -> Vec<Row> {
    let mut rows = Vec::new();
    for (name, kind, words, width, uniform) in TEXTS {
        let g = setting(width, uniform);
        let text = Text::new(kind, words, g);
        if !compare(&text, g) {
            println!("{name} {words} {width}: the original with powf breaks a paragraph elsewhere");
        }
        let mut spans = all(&text, g);
        let (bytes, count) = (text.bytes(), text.paragraphs.len());
        rows.push(Row {
            head: format!("{name:<8}{:>9}{words:>6}{:>6}", format!("{width}/{}", g.goal), bytes / count),
            words: (words * count) as f64,
            bytes: bytes as f64,
            found: least(&mut spans, milliseconds),
        });
    }
    rows
}

/// What is compared: what it is, the span here, the original's, and the original's with powf where that differs.
const COMPARED: [(&str, &str, &str, Option<&str>); 6] = [
    ("Words: split_words | ParaWords::new", "split", "cube split", None),
    ("Quick, from words to output: quick_breaks + emit | first word + break_simple", "quick+emit", "cube simple", None),
    ("Knuth-Plass, from words to breaks: best_breaks | find_kp_breakpoints", "best", "cube find", Some("powf find")),
    (
        "Knuth-Plass, from words to output: best_breaks + emit | first word + break_knuth_plass",
        "best+emit",
        "cube knuth_plass",
        Some("powf knuth_plass"),
    ),
    (
        "A paragraph, quick: split_words + quick_breaks + emit | break_lines",
        "split+quick+emit",
        "cube lines quick",
        None,
    ),
    (
        "A paragraph, Knuth-Plass: split_words + best_breaks + emit | break_lines",
        "split+best+emit",
        "cube lines",
        Some("powf lines"),
    ),
];

const HEAD: &str = "text    wide/goal words bytes";

fn print(rows: &[Row]) {
    println!("ns a word and ns a byte; a ratio below 1 says that it is quicker here");
    println!("\nThe layers alone");
    println!("{HEAD} |       split_words |      quick_breaks |       best_breaks |              emit");
    for r in rows {
        println!("{} | {}", r.head, ["split", "quick", "best", "emit"].map(|s| r.cell(s)).join(" | "));
    }
    for (title, ours, theirs, powf) in COMPARED {
        println!("\n{title}");
        let more = if powf.is_some() { " |    Rust with powf  ratio" } else { "" };
        println!("{HEAD} |              here |              Rust  ratio{more}");
        for r in rows {
            let against = |span: &str| format!(" | {} {:>6.2}", r.cell(span), r.of(ours) / r.of(span));
            println!("{} | {}{}{}", r.head, r.cell(ours), against(theirs), powf.map_or(String::new(), against));
        }
    }
}

/// One span over one text, many times: for a profiler.
fn once(text: usize, span: &str, calls: usize) {
    let (_, kind, words, width, uniform) = TEXTS[text];
    let g = setting(width, uniform);
    let text = Text::new(kind, words, g);
    let mut spans = all(&text, g);
    let (_, f) = spans.iter_mut().find(|(name, _)| *name == span).expect("no such span");
    for _ in 0..calls {
        f(0..GROUPS);
    }
}

fn main() {
    let args: Vec<String> = std::env::args().skip(1).collect();
    let number = |i: usize| args[i].parse().expect("a number");
    match args.len() {
        0 => print(&measure(150)),
        1 => print(&measure(number(0))),
        4 if args[0] == "--once" => once(number(1), &args[2], number(3)),
        _ => eprintln!("usage: [MILLISECONDS] | --once TEXT SPAN CALLS"),
    }
}
