//! The right answer to any call. Refusals are worked out here, from the words of RULES alone; digests, paragraphs and their words are
//! the original's.
//!
//! The original has neither keep nor glue, so it is shown notes that RULES treats alike:
//! - Glue: the head of `glue.rs` says what is shown for U+00A0; the digest is turned back.
//! - Keep: a damaged line is a plain line, as is a line with the skip prefix. In its place the original is shown a line that begins with
//!   the skip prefix (or, where none is given or it has a line feed and so is never found, with a character that occurs nowhere else),
//!   and in the digest that line is turned back into the damaged one.
//! - Blanks counted by characters where sentences part (RULES 6.2), which shows under uniform alone: there a blank of two bytes
//!   or three that stands alone between two words is shown as a form feed, a blank of one byte. Uniform drops both, so nothing is turned back. Two blanks
//!   or more are over one by either rule, and a tab parts sentences by either.

use crate::glue::{found, is_blank, text_of, StandIns};
use crate::width::Width;
use parts::guard::Answer;

// ---------------------------------------------------------------- characters

/// The place of the first damaged character: the standard library's decoder says where one is not well formed.
fn damage(bytes: &[u8]) -> Option<usize> {
    std::str::from_utf8(bytes).err().map(|e| e.valid_up_to())
}

// ---------------------------------------------------------------- option block

#[derive(Default)]
struct Fields {
    numbers: [Option<usize>; 4], // flags, width, goal, tab
    prefixes: [Option<String>; 2],
}

const KEEP: usize = 1 << 8;
const GLUE: usize = 1 << 9;
const CHARACTERS: usize = 1 << 10;
const UNIFORM: usize = 1 << 4;
const QUICK: usize = 1 << 5;
const EXACT: usize = 1 << 6;
const EXACT_SKIP: usize = 1 << 7;

impl Fields {
    fn has(&self, flag: usize) -> bool {
        self.numbers[0].unwrap_or(0) & flag != 0
    }

    /// Whether the width and goal rule holds.
    fn fit(&self) -> bool {
        let (width, goal) = match (self.numbers[1], self.numbers[2]) {
            (None, None) => (79, 74),
            (Some(width), None) if width < 6 => return false,
            (Some(width), None) => (width, (width * 94 / 100).min(width - 3)),
            (None, Some(goal)) => ((goal * 100 / 94).max(goal + 3), goal),
            (Some(width), Some(goal)) => (width, goal),
        };
        goal <= width && width <= 2 * goal && width <= 1000
    }
}

/// The fields of a block, or the place of its fault.
fn read(block: &[u8]) -> Result<Fields, usize> {
    let mut fields = Fields::default();
    let (mut at, mut last) = (0, 0);
    while at < block.len() {
        at += field(&block[at..], &mut last, &mut fields).ok_or(at)?;
    }
    if fields.fit() { Ok(fields) } else { Err(block.len()) }
}

/// Reads the field that the block begins with; its size, if it has no fault.
fn field(block: &[u8], last: &mut u8, fields: &mut Fields) -> Option<usize> {
    let tag = *block.first()?;
    let size = number(block.get(1..3)?);
    let value = block.get(3..3 + size)?;
    if !(1..=6).contains(&tag) || tag <= *last {
        return None;
    }
    *last = tag;
    let index = tag as usize - 1;
    if tag <= 4 {
        let range = [0..=2047, 1..=1000, 1..=1000, 0..=100][index].clone();
        fields.numbers[index] = Some(number(value)).filter(|n| size == 2 && range.contains(n));
        fields.numbers[index]?;
    } else {
        let text = Some(value).filter(|v| size <= 255 && damage(v).is_none())?;
        fields.prefixes[index - 4] = Some(String::from_utf8(text.to_vec()).unwrap());
    }
    Some(3 + size)
}

fn number(bytes: &[u8]) -> usize {
    bytes.iter().fold(0, |n, b| n << 8 | *b as usize)
}

// ---------------------------------------------------------------- the original

/// The original under the last arguments it was given: calls in a row often share them.
pub struct Original {
    args: Vec<String>,
    options: fmt_cube::FmtOptions,
    /// Of the right digests: whether quick keeps to the width.
    pub width: Width,
}

impl Original {
    pub fn new() -> Original {
        Original { args: Vec::new(), options: fmt_cube::options(Vec::new()), width: Width::default() }
    }

    fn set(&mut self, fields: &Fields) {
        let mut args = Vec::new();
        for (bit, flag) in ["-c", "-t", "-m", "-s", "-u", "-q", "-x", "-X"].iter().enumerate() {
            if fields.has(1 << bit) {
                args.push(flag.to_string());
            }
        }
        for (flag, number) in ["-w", "-g", "-T"].iter().zip(&fields.numbers[1..]) {
            args.extend(number.iter().flat_map(|n| [flag.to_string(), n.to_string()]));
        }
        for (flag, text) in ["-p", "-P"].iter().zip(&fields.prefixes) {
            args.extend(text.iter().flat_map(|text| [flag.to_string(), text.clone()]));
        }
        if args != self.args {
            self.options = fmt_cube::options(args.clone());
            self.args = args;
        }
    }

    /// Codes 1 to 3 for notes of up to so many bytes, or the notes as the original is shown them, which has the options.
    fn shown(&mut self, block: &[u8], notes: &[u8], most: usize) -> Result<(Fields, Shown), Answer> {
        let mut fields = read(block).map_err(Answer::Options)?;
        if notes.len() > most {
            return Err(Answer::Long);
        }
        if !fields.has(KEEP) {
            if let Some(place) = damage(notes) {
                return Err(Answer::Text(place));
            }
        }
        let shown = Shown::new(&mut fields, notes);
        self.set(&fields);
        Ok((fields, shown))
    }

    /// The right answer of a call with lent room, where there is enough of it, and how many numbers it needs: 7 for each word of the longest
    /// paragraph, without quick 15.
    pub fn large(&mut self, block: &[u8], notes: &[u8]) -> (Answer, usize) {
        let (fields, shown) = match self.shown(block, notes, 1_048_576) {
            Ok(found) => found,
            Err(refusal) => return (refusal, 0),
        };
        let pieces = fmt_cube::parasplit::counts(&self.options, shown.text.as_bytes());
        let longest = pieces.iter().map(|(_, words)| *words).max().unwrap_or(0);
        let digest = fmt_cube::format(&self.options, shown.text.as_bytes());
        (Answer::Done(shown.back(digest)), longest * if fields.has(QUICK) { 7 } else { 15 })
    }

    /// The original by itself, for its time: notes of plain words.
    pub fn format(&mut self, block: &[u8], notes: &[u8]) -> Vec<u8> {
        self.set(&read(block).ok().expect("a block that is accepted"));
        fmt_cube::format(&self.options, notes)
    }

    /// The right answer.
    pub fn answer(&mut self, block: &[u8], notes: &[u8]) -> Answer {
        let (fields, shown) = match self.shown(block, notes, 65536) {
            Ok(found) => found,
            Err(refusal) => return refusal,
        };
        match self.long_paragraph(shown.text.as_bytes()) {
            Some(line) => Answer::Words(notes.split_inclusive(|b| *b == b'\n').take(line).map(|l| l.len()).sum()),
            None => {
                let digest = fmt_cube::format(&self.options, shown.text.as_bytes());
                if fields.has(QUICK) {
                    let laid = fmt_cube::parasplit::laid(&self.options, shown.text.as_bytes());
                    let tab = fields.numbers[3].map_or(8, |tab| tab.max(1));
                    self.width.count(&laid, std::str::from_utf8(&digest).unwrap(), self.options.width, tab);
                }
                Answer::Done(shown.back(digest))
            }
        }
    }

    /// The right index of a call that is done: each piece's place and length in the notes, its first output line and its count of them.
    pub fn index(&mut self, block: &[u8], notes: &[u8]) -> Vec<[u64; 4]> {
        let mut fields = read(block).ok().expect("a block that is accepted");
        let shown = Shown::new(&mut fields, notes);
        self.set(&fields);
        let mut lines = notes.split_inclusive(|b| *b == b'\n').map(|l| l.len() as u64);
        let (mut place, mut first) = (0, 0);
        fmt_cube::parasplit::pieces(&self.options, shown.text.as_bytes())
            .into_iter()
            .map(|(taken, count)| {
                let length = lines.by_ref().take(taken).sum::<u64>();
                let record = [place, length, first, count as u64];
                place += length;
                first += count as u64;
                record
            })
            .collect()
    }

    /// The first line of the first paragraph of over 1,024 words. A paragraph has no more words than the notes.
    fn long_paragraph(&self, notes: &[u8]) -> Option<usize> {
        if std::str::from_utf8(notes).unwrap().split_whitespace().nth(1024).is_none() {
            return None;
        }
        let mut line = 0;
        for (lines, words) in fmt_cube::parasplit::counts(&self.options, notes) {
            if words > 1024 {
                return Some(line);
            }
            line += lines;
        }
        None
    }
}

/// Notes as the original is shown them, and what turns its digest back.
struct Shown {
    text: String,
    glue: Option<StandIns>,
    lines: Vec<(String, Vec<u8>)>, // each damaged line's stand-in, and the line
}

impl Shown {
    fn new(fields: &mut Fields, notes: &[u8]) -> Shown {
        let spare = |fields: &Fields, n: usize| {
            let used = |c: char| {
                let mut of = [0; 2];
                let bytes = c.encode_utf8(&mut of).as_bytes();
                notes.windows(2).any(|w| w == bytes) || fields.prefixes.iter().flatten().any(|p| p.contains(c))
            };
            ('\u{100}'..='\u{2ff}').rev().filter(|c| !used(*c)).nth(n).expect("a character that is not used")
        };
        let mut lines = Vec::new();
        let mut text = match std::str::from_utf8(notes) {
            Ok(text) if damage(notes).is_none() => text.to_string(),
            _ => {
                let mark = spare(fields, 0);
                let skip = &mut fields.prefixes[1];
                *skip = Some(skip.take().filter(|s| !s.contains('\n')).unwrap_or(mark.to_string()));
                without_damage(notes, &format!("{}{mark}", skip.as_ref().unwrap()), &mut lines)
            }
        };
        let mut glue = None;
        if fields.has(GLUE) {
            let stand_ins = StandIns { ordinary: spare(fields, 1), matched: spare(fields, 2) };
            let [prefix, skip] = &fields.prefixes;
            text = stand_ins.notes(&text, (prefix.as_ref(), fields.has(EXACT)), (skip.as_ref(), fields.has(EXACT_SKIP)));
            fields.prefixes.iter_mut().flatten().for_each(|p| *p = stand_ins.prefix(p));
            glue = Some(stand_ins);
        }
        if fields.has(CHARACTERS) && fields.has(UNIFORM) {
            text = text.split_inclusive('\n').map(|line| one_byte_blanks(fields, line)).collect();
        }
        Shown { text, glue, lines }
    }

    fn back(&self, digest: Vec<u8>) -> Vec<u8> {
        if self.glue.is_none() && self.lines.is_empty() {
            return digest;
        }
        let mut text = String::from_utf8(digest).unwrap();
        if let Some(stand_ins) = &self.glue {
            text = stand_ins.back(&text);
        }
        let mut damaged = self.lines.iter().peekable();
        let mut back = Vec::new();
        for line in text.split_terminator('\n') {
            match damaged.next_if(|(stand_in, _)| line == stand_in) {
                Some((_, bytes)) => back.extend(bytes),
                None => back.extend(line.as_bytes()),
            }
            back.push(b'\n');
        }
        assert!(damaged.next().is_none(), "a damaged line is not in the digest");
        back
    }
}

/// The notes with each damaged line replaced by the stand-in and its number; the damaged lines, as they are to be emitted, in order.
fn without_damage(notes: &[u8], stand_in: &str, lines: &mut Vec<(String, Vec<u8>)>) -> String {
    let mut text = String::new();
    for line in notes.split_inclusive(|b| *b == b'\n') {
        if damage(line).is_none() {
            text += std::str::from_utf8(line).unwrap();
            continue;
        }
        let (body, end) = match line.strip_suffix(b"\n") {
            Some(body) => (body.strip_suffix(b"\r").unwrap_or(body), "\n"),
            None => (line, ""),
        };
        let instead = format!("{stand_in}{}", lines.len());
        text += &instead;
        text += end;
        lines.push((instead, body.to_vec()));
    }
    text
}

// ---------------------------------------------------------------- blanks by characters

/// Where the indent of a formatted line ends. Other lines have none.
fn indent_end(fields: &Fields, line: &str) -> Option<usize> {
    if let Some(skip) = &fields.prefixes[1] {
        if found(line, skip, fields.has(EXACT_SKIP)).is_some() {
            return None;
        }
    }
    let behind = match &fields.prefixes[0] {
        None => 0,
        Some(prefix) => found(line, prefix, fields.has(EXACT))? + prefix.len(),
    };
    let words = line[behind..].trim_start_matches(is_blank);
    Some(line.len() - words.len()).filter(|_| !words.is_empty())
}

/// A line in which each blank of more than one byte that stands alone between two words is a blank of one byte.
fn one_byte_blanks(fields: &Fields, line: &str) -> String {
    let body = text_of(line);
    let from = match indent_end(fields, body) {
        Some(from) => from,
        None => return line.to_string(),
    };
    let chars: Vec<char> = body[from..].chars().collect();
    let is_ink = |at: Option<usize>| at.and_then(|at| chars.get(at)).map_or(false, |c| !is_blank(*c));
    let shown = chars.iter().enumerate().map(|(at, c)| {
        let alone = is_ink(at.checked_sub(1)) && is_ink(Some(at + 1));
        if alone && is_blank(*c) && c.len_utf8() > 1 { '\u{c}' } else { *c }
    });
    format!("{}{}{}", &body[..from], shown.collect::<String>(), &line[body.len()..])
}
