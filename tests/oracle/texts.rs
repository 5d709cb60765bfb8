//! Random options and random texts in the domain that RULES accepts, made
//! from a seed by a generator of our own: the same on every machine.

use crate::options::*;

/// SplitMix64: short, and the same everywhere.
pub struct Rng(pub u64);

impl Rng {
    fn next(&mut self) -> u64 {
        self.0 = self.0.wrapping_add(0x9e37_79b9_7f4a_7c15);
        let z = (self.0 ^ (self.0 >> 30)).wrapping_mul(0xbf58_476d_1ce4_e5b9);
        let z = (z ^ (z >> 27)).wrapping_mul(0x94d0_49bb_1331_11eb);
        z ^ (z >> 31)
    }

    pub fn below(&mut self, n: usize) -> usize {
        (self.next() % n as u64) as usize
    }

    pub fn chance(&mut self, percent: usize) -> bool {
        self.below(100) < percent
    }

    fn pick<'a>(&mut self, from: &[&'a str]) -> &'a str {
        from[self.below(from.len())]
    }
}

// ---------------------------------------------------------------- options

const PREFIXES: &[&str] = &[
    "", " ", "\t", ">", "> ", " >", ">>", "a", "a.", "To:", "é", "éa", "\u{a0}", "\u{85}",
    "\u{a0}>", "\0", "\n", "\r",
];

/// Width and goal by every way of giving them, goals up to about `most`.
pub fn measure(r: &mut Rng, opts: &mut Opts, most: usize) {
    let goal = 1 + r.below(most);
    let (width, goal) = match r.below(12) {
        0 => (None, None),
        1 => (Some(6 + r.below(most)), None),
        2 => (None, Some(3 + r.below(most))),
        3 => (Some(goal + r.below(2)), Some(goal)),
        4 => (Some(2 * goal), Some(goal)),
        5 => [
            (Some(6), None),
            (Some(1000), None),
            (None, Some(3)),
            (None, Some(940)),
            (Some(1), Some(1)),
            (Some(2), Some(1)),
            (Some(1000), Some(500)),
            (Some(1000), Some(1000)),
        ][r.below(8)],
        _ => (Some(goal + r.below(goal + 1)), Some(goal)),
    };
    opts.width = width.map(|n| n as u16);
    opts.goal = goal.map(|n| n as u16);
}

pub fn random_options(r: &mut Rng, most: usize) -> Opts {
    let mut opts = Opts::default();
    measure(r, &mut opts, most);
    if r.chance(40) {
        opts.tab = Some([0, 1, 2, 3, 4, 5, 8, 100, r.below(101) as u16][r.below(9)]);
    }
    if r.chance(25) {
        opts.prefix = Some(r.pick(PREFIXES).to_string());
    }
    if r.chance(15) {
        opts.skip = Some(r.pick(PREFIXES).to_string());
    }
    let mut flags = 0;
    for (flag, percent) in [
        (CROWN, 15),
        (TAGGED, 15),
        (MAIL, 15),
        (SPLIT, 8),
        (UNIFORM, 35),
        (QUICK, 33),
        (EXACT, 15),
        (EXACT_SKIP, 15),
        (KEEP, 10),
        (GLUE, 10),
    ] {
        if r.chance(percent) {
            flags |= flag;
        }
    }
    if flags != 0 || r.chance(10) {
        opts.flags = Some(flags);
    }
    opts
}

// ---------------------------------------------------------------- texts

/// Few symbols that meet every rule: letter, punctuation, blanks of one and two
/// bytes, tab, line ends, prefix and colon, a character of two bytes.
const HOSTILE: &[&str] = &[
    "a", "b", ".", " ", " ", "\t", "\n", "\n", "\r", "\u{a0}", "\u{85}", ">", ":", "é",
];
const BLANKS: &[&str] = &[
    " ", " ", " ", "\t", "\t", "\u{b}", "\u{c}", "\r", "\u{85}", "\u{a0}", "\u{a0}",
];
const ODD: &[&str] = &[
    "\0", "\u{8}", "\u{e}", "\u{1c}", "\u{1f}", "\u{7f}", "\u{80}", "\u{84}", "\u{86}", "\u{9f}",
    "\u{a1}", "\u{ac}", "\u{ae}", "é", "ÿ", "\u{100}", "\u{2ff}", "'", "\"", ")", ".", "!", "?",
    ":", ">",
];
const PUNCT: &[&str] = &[".", ".", ".", "?", "!", ",", ":", ".)", "..."];
const HEADERS: &[&str] = &[
    "To: ", "From ", "From: ", "Subject:", "X-A: ", ":", "a b: ", "é: ", "From", "!~: ",
];

/// A text of so many symbols, each as likely as the next.
pub fn hostile(r: &mut Rng, symbols: usize) -> String {
    (0..symbols).map(|_| r.pick(HOSTILE)).collect()
}

fn blanks(r: &mut Rng, most: usize) -> String {
    (0..r.below(most + 1)).map(|_| r.pick(BLANKS)).collect()
}

fn gap(r: &mut Rng) -> String {
    match r.below(10) {
        0 => r.pick(BLANKS).to_string() + &blanks(r, 3),
        1 => "  ".to_string(),
        2 => "\t".to_string(),
        _ => " ".to_string(),
    }
}

fn word(r: &mut Rng) -> String {
    let letters = if r.chance(15) { 1 + r.below(14) } else { 1 + r.below(6) };
    let mut word = String::new();
    for _ in 0..letters {
        if r.chance(4) {
            word += r.pick(ODD);
        } else {
            word.push((b'a' + r.below(26) as u8) as char);
        }
    }
    if r.chance(20) {
        word += r.pick(PUNCT);
    }
    word
}

/// How a line begins: indent, prefix and what follows it, skip prefix.
fn lead(r: &mut Rng, opts: &Opts) -> String {
    let mut lead = match r.below(6) {
        0 => blanks(r, 3),
        1 => "  ".to_string(),
        2 => "\t".to_string(),
        _ => String::new(),
    };
    if let (Some(prefix), true) = (&opts.prefix, r.chance(85)) {
        lead += prefix;
        lead += &blanks(r, 2);
    }
    if let (Some(skip), true) = (&opts.skip, r.chance(25)) {
        lead += skip;
    }
    lead
}

/// Lines of random words, of at least so many bytes, that fit the options:
/// lines that join, that begin with the prefix, that look like mail.
pub fn random_text(r: &mut Rng, opts: &Opts, bytes: usize) -> String {
    let mut text = String::new();
    let mut start = lead(r, opts);
    let mut header_due = true;
    while text.len() < bytes {
        if r.chance(8) {
            text += &blanks(r, 2);
            header_due = true;
        } else {
            if r.chance(35) {
                start = lead(r, opts);
            }
            if opts.has(MAIL) && header_due && r.chance(70) {
                text += r.pick(HEADERS);
                start = " ".to_string();
            } else {
                text += &start;
                header_due = false;
            }
            for n in 0..1 + r.below(2 + bytes.min(120) / 15) {
                if n > 0 {
                    text += &gap(r);
                }
                text += &word(r);
            }
            if r.chance(10) {
                text += &blanks(r, 2);
            }
        }
        text += ["\n", "\n", "\n", "\n", "\n", "\n", "\n", "\r\n", "\r\n", "\r\r\n"][r.below(10)];
    }
    if r.chance(20) {
        text.pop();
    }
    text
}

/// A paragraph of plain words, where the breaker has most to choose from.
pub fn plain_words(r: &mut Rng) -> String {
    let mut text = String::new();
    for n in 0..3 + r.below(9) {
        if n > 0 {
            text += if r.chance(15) { "\n" } else { " " };
        }
        text += &"abcdefghijkl"[n..=n].repeat(1 + r.below(9));
        if r.chance(10) {
            text += ".";
        }
    }
    text
}

const WORDS: &[&str] = &[
    "a", "I", "an", "at", "be", "by", "in", "is", "it", "no", "of", "on", "or", "to", "up", "we",
    "all", "and", "are", "but", "did", "for", "had", "has", "her", "how", "its", "log", "new",
    "not", "now", "off", "one", "out", "run", "set", "she", "the", "too", "two", "was", "who",
    "back", "been", "both", "cold", "down", "each", "from", "gate", "hour", "into", "left", "line",
    "loss", "made", "more", "next", "note", "only", "pump", "read", "room", "same", "seen", "site",
    "some", "than", "that", "then", "they", "this", "time", "unit", "very", "when", "will", "with",
    "work", "after", "again", "alarm", "begun", "below", "check", "clear", "drift", "early",
    "every", "fault", "found", "green", "limit", "meter", "night", "panel", "point", "power",
    "probe", "reset", "right", "shift", "since", "stage", "third", "under", "until", "value",
    "valve", "water", "which", "change", "column", "cooler", "during", "higher", "normal", "notice",
    "number", "output", "record", "sensor", "signal", "stable", "supply", "switch", "system",
    "archive", "between", "cabinet", "channel", "evening", "failure", "machine", "morning",
    "network", "nothing", "reading", "regular", "station", "through", "voltage", "building",
    "computer", "constant", "operator", "pressure", "recorded", "returned", "threshold",
    "afterwards", "calibrated", "controller", "inspection", "temperature", "replacement",
    "acknowledged", "twenty-three", "high-pressure", "uninterruptible", "résumé", "Zürich", "naïve",
    "4.2\u{a0}K", "12\u{a0}bar", "e.g.", "approx.",
];

/// So many letters: ASCII, or with some of two bytes among them, and seldom one that is neither.
fn letters(r: &mut Rng, count: usize, two_bytes: bool) -> String {
    let odd = r.chance(2);
    (0..count)
        .map(|_| match two_bytes {
            true if odd => r.pick(&["a", "é", "\u{301}", "中", "\u{480}", "\u{a1}"]),
            true => r.pick(&["a", "b", "é", "ÿ", "\u{2ff}", "ω", "\u{380}", "ж", "\u{47f}"]),
            false => r.pick(&["a", "b", "c", "d"]),
        })
        .collect()
}

/// Texts on the edges of the quick ways: lines whose words end at the width, one before it or one after it, in letters of one byte and of two;
/// two and three spaces at the cut, after a sentence and elsewhere; a last word alone, a tab as any byte; paragraphs of 1,023 and 1,024 words of a
/// letter (more are in asked.rs) and of 2,047 to 2,049 bytes.
pub fn edges(r: &mut Rng, opts: &Opts) -> String {
    if r.chance(1) {
        return "a ".repeat(1022 + r.below(2)) + "a\n";
    }
    if r.chance(1) {
        let words = letters(r, 5, false) + " ";
        return words.repeat(400)[..2046 + r.below(3)].to_string() + "\n";
    }
    let width = usize::from(opts.width.unwrap_or(79)).min(200);
    let two_bytes = r.chance(60);
    let mut text = String::new();
    for _ in 0..1 + r.below(4) {
        let to = width + r.below(3) - 1;
        let mut column = 0;
        while column < to {
            let left = to - column;
            let size = if left <= 12 && r.chance(70) { left } else { 1 + r.below(9) };
            let word = letters(r, size, two_bytes);
            let mark = if r.chance(20) { r.pick(&[".", "!", "?", ","]) } else { "" };
            let gap = r.pick(&[" ", " ", " ", " ", " ", "  ", "  ", "   ", "\t"]);
            column += size + mark.len() + gap.len();
            text += &(word + mark + gap);
        }
        text += r.pick(&["\n", "\n", "a\n", "é\n", " \n", "a. b\n", "\n\n"]);
    }
    text
}

/// Sentences in lines of about `columns`, each line begun by `first` or `next`.
fn paragraph(r: &mut Rng, columns: usize, first: &str, next: &str) -> String {
    let mut text = String::new();
    let mut line = first.to_string();
    for _ in 0..1 + r.below(6) {
        let words = 3 + r.below(14);
        for n in 1..=words {
            let mut word = r.pick(WORDS).to_string();
            if n == words {
                word += r.pick(&[".", ".", ".", ".", "?", "!", "...", ".\""]);
                if r.chance(40) {
                    word += " ";
                }
            } else if r.chance(8) {
                word += ",";
            }
            if line.chars().count() + word.len() > columns {
                text += line.trim_end_matches(' ');
                text += "\n";
                line = next.to_string();
            }
            line += &word;
            line += if r.chance(2) { "\t" } else { " " };
        }
    }
    text + line.trim_end_matches(' ') + "\n"
}

/// Notes as people write them, of at least so many bytes: paragraphs, lists,
/// quotations, mail headers.
pub fn prose(r: &mut Rng, opts: &Opts, bytes: usize) -> String {
    let prefix = opts.prefix.clone().unwrap_or_default();
    let mut text = String::new();
    if opts.has(MAIL) {
        text += "From the station\nTo: the operator of the night shift and all who\n\tread this\n";
        text += "Subject: alarms\n\n";
    }
    while text.len() < bytes {
        let columns = 20 + r.below(70);
        let (first, next) = match r.below(8) {
            0 => ("- ", "  "),
            1 => ("\t", ""),
            2 => ("    ", "  "),
            3 => ("> ", "> "),
            4 => ("  ", "  "),
            _ => ("", ""),
        };
        let next = prefix.clone() + next;
        text += &paragraph(r, columns, &(prefix.clone() + first), &next);
        text += if r.chance(85) { "\n" } else { "" };
    }
    if r.chance(10) {
        text = text.replace('\n', "\r\n");
    }
    text
}
