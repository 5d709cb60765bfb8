//! An archive year: the notes of 365 digests of 1 to 64 KiB, made by rule, so that every machine regenerates the same.

use crate::texts::*;

pub const DAYS: usize = 365;
const LEAST: f64 = 1024.0;
const MOST: f64 = 65536.0;

/// Begins a line that is shown to the original in the place of a damaged one: a skip prefix, which both sides are given.
pub const STAND_IN: u8 = 1;

/// The notes of one day, and who wrote them.
pub struct Day {
    pub notes: Vec<u8>,
    pub site: &'static str,
}

/// The sites whose operators write another script.
const PARTNERS: [(&str, Script); 6] =
    [("Cyrillic", CYRILLIC), ("Greek", GREEK), ("Chinese", CHINESE), ("Japanese", JAPANESE), ("Hindi", HINDI), ("Thai", THAI)];

/// An hour, and the first line of what was typed then.
fn time(draw: &mut Draw) -> String {
    format!("{:02}:{:02} ", draw.below(24), draw.below(60))
}

/// Lines of prose, each begun by a lead; the first has its own.
fn led(draw: &mut Draw, words: usize, first: &str, lead: &str) -> Vec<u8> {
    let mut lines = first.as_bytes().to_vec();
    for (n, line) in prose(draw, words).split_inclusive(|b| *b == b'\n').enumerate() {
        if n > 0 {
            lines.extend_from_slice(lead.as_bytes());
        }
        lines.extend_from_slice(line);
    }
    lines
}

fn entry(draw: &mut Draw) -> Vec<u8> {
    let (words, time) = (10 + draw.below(111), time(draw));
    led(draw, words, &time, "")
}

fn list(draw: &mut Draw) -> Vec<u8> {
    let items = 2 + draw.below(5);
    (0..items).flat_map(|_| { let words = 4 + draw.below(24); led(draw, words, "  - ", "    ") }).collect()
}

/// Readings in columns, parted by tabs or by blanks.
fn table(draw: &mut Draw) -> Vec<u8> {
    let (tabs, rows) = (draw.below(2) == 0, 3 + draw.below(10));
    let mut lines = Vec::new();
    for _ in 0..rows {
        let name = ["pump", "valve", "filter", "compressor"][draw.below(4)];
        let (bar, state) = (format!("{}.{} bar", draw.below(9), draw.below(10)), ["ok", "low", "tripped"][draw.below(3)]);
        lines.extend(match tabs {
            true => format!("{name} {}\t{bar}\t\t{state}\n", draw.below(9)),
            false => format!("  {name:<12} {:>2}  {bar:>9}   {state}\n", draw.below(9)),
        }.into_bytes());
    }
    lines
}

/// A message put into the notes: its header, with lines that go on, and what it quotes.
fn mail(draw: &mut Draw) -> Vec<u8> {
    let mut lines = b"From: control@site.example\nTo: night shift <shift@site.example>\nSubject: ".to_vec();
    let (subject, quoted, said) = (6 + draw.below(20), 10 + draw.below(40), 10 + draw.below(60));
    lines.extend(led(draw, subject, "", "  "));
    lines.push(b'\n');
    lines.extend(led(draw, quoted, "> ", "> "));
    lines.push(b'\n');
    lines.extend(led(draw, said, "", ""));
    lines
}

/// An entry of a controller that writes ISO 8859-1: one of its lines is damaged.
fn damaged(draw: &mut Draw) -> Vec<u8> {
    let (words, time) = (10 + draw.below(61), time(draw));
    let mut lines = led(draw, words, &time, "");
    lines.extend(format!("  valve at {}", 10 + draw.below(80)).into_bytes());
    lines.extend_from_slice(b"\xb0, d\xe9bit before ");
    let (more, said) = (3 + draw.below(5), 10 + draw.below(40));
    lines.extend(led(draw, more, "", ""));
    lines.extend(led(draw, said, "", ""));
    lines
}

fn script(draw: &mut Draw, partner: usize) -> Vec<u8> {
    let words = 10 + draw.below(111);
    let lines = spelled(prose(draw, words), PARTNERS[partner].1);
    [time(draw).into_bytes(), lines].concat()
}

/// Seven digests of eight are of the own site, which quotes a partner now and then. The others are a partner's, with three entries
/// of four in the script of that site.
fn day(draw: &mut Draw, size: usize) -> Day {
    let partner = Some(draw.below(PARTNERS.len())).filter(|_| draw.below(8) == 0);
    let mut notes = Vec::new();
    while notes.len() < size {
        let scripts = if partner.is_some() { 75 } else { 4 };
        let piece = match draw.below(100) {
            n if n < scripts => { let of = partner.unwrap_or_else(|| draw.below(PARTNERS.len())); script(draw, of) }
            _ => match draw.below(10) {
                0..=4 => entry(draw),
                5 => list(draw),
                6 | 7 => table(draw),
                8 => mail(draw),
                _ => damaged(draw),
            },
        };
        notes.extend(piece);
        notes.push(b'\n');
    }
    notes.truncate(size);
    Day { notes, site: partner.map_or("the own site", |p| PARTNERS[p].0) }
}

/// The year from a seed: sizes spread evenly in the logarithm, in an order that is drawn.
pub fn year(seed: u64) -> Vec<Day> {
    let mut draw = Draw(seed);
    let mut days: Vec<Day> = (0..DAYS)
        .map(|n| day(&mut draw, (LEAST * (MOST / LEAST).powf(n as f64 / (DAYS - 1) as f64)).round() as usize))
        .collect();
    for n in (1..DAYS).rev() {
        days.swap(n, draw.below(n + 1));
    }
    days
}

/// Notes, or a digest, as the original is shown them: it would end at a damaged line without a word, so that such a line has the stand-in
/// for its first byte and `?` for each byte beyond ASCII. Its length stays.
pub fn shown(text: &[u8]) -> Vec<u8> {
    let mut shown = text.to_vec();
    for line in shown.split_mut(|b| *b == b'\n') {
        if std::str::from_utf8(line).is_err() {
            line.iter_mut().filter(|b| !b.is_ascii()).for_each(|b| *b = b'?');
            line[0] = STAND_IN;
        }
    }
    shown
}
