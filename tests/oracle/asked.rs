//! What is asked at scale: option blocks and notes as bytes, right and broken. Tables of short ones first, then random ones without end.

use crate::cases::{self, Case};
use crate::options::*;
use crate::texts::*;

/// An option block and notes.
pub type Asked = (Vec<u8>, Vec<u8>);
/// A kind of question, by name.
pub type Kind = (&'static str, Box<dyn Iterator<Item = Asked>>);

fn of(case: Case) -> Asked {
    (case.opts.block(), case.notes.into_bytes())
}

fn field(tag: u8, value: &[u8]) -> Vec<u8> {
    let mut field = vec![tag];
    field.extend((value.len() as u16).to_be_bytes());
    field.extend(value);
    field
}

fn number(tag: u8, n: usize) -> Vec<u8> {
    field(tag, &(n as u16).to_be_bytes())
}

// ---------------------------------------------------------------- tables

/// Symbols that meet every rule, two of them damaged.
const RAW: [&[u8]; 11] = [b"a", b".", b" ", b"\n", b"\t", b"\r", "\u{a0}".as_bytes(), "\u{85}".as_bytes(), b":", b"\xb0", b"\xc3"];

/// Every text of up to so many of these symbols, under keep, glue and neither.
fn raw(symbols: u32) -> impl Iterator<Item = Asked> {
    let mut sets = Vec::new();
    for flags in [0, KEEP, GLUE, KEEP | GLUE] {
        for more in [0, UNIFORM, UNIFORM | CHARACTERS, QUICK, CROWN, TAGGED, MAIL, SPLIT | EXACT] {
            let (width, goal) = [(2, 1), (4, 3), (6, 5)][sets.len() % 3];
            let mut opts = Opts { flags: Some(flags | more), width: Some(width), goal: Some(goal), ..Opts::default() };
            sets.push(opts.clone());
            opts.prefix = Some(["", "a", " ", ":", "\u{a0}"][sets.len() % 5].to_string());
            sets.push(opts.clone());
            opts.skip = Some(["a", "\u{a0}", "\n", " ", ""][sets.len() / 2 % 5].to_string());
            sets.push(opts);
        }
    }
    let base = RAW.len();
    sets.into_iter().flat_map(move |opts| {
        let block = opts.block();
        (0..=symbols).flat_map(move |length| {
            let block = block.clone();
            (0..base.pow(length)).map(move |n| {
                (block.clone(), (0..length).flat_map(|place| RAW[n / base.pow(place) % base].iter().copied()).collect())
            })
        })
    })
}

/// Symbols beside which U+00A0 has every class, and prefixes with and without it.
const NEAR: [&str; 6] = ["\u{a0}", "a", " ", ">", "\n", "."];
const BEHIND: [&str; 6] = ["", ">", "> ", "\u{a0}", ">\u{a0}", "\u{a0}>"];

/// Every text of up to so many symbols, with glue.
fn no_breaks(symbols: u32) -> impl Iterator<Item = Asked> {
    let mut sets = Vec::new();
    for more in [0, UNIFORM, MAIL, CROWN | EXACT, TAGGED | KEEP, QUICK | EXACT_SKIP] {
        let opts = Opts { flags: Some(GLUE | more), width: Some(6), goal: Some(4), ..Opts::default() };
        let prefix = Some(BEHIND[sets.len() % 6].to_string());
        sets.push(opts.clone());
        sets.push(Opts { prefix: Some(">".to_string()), ..opts.clone() });
        sets.push(Opts { prefix: prefix.clone(), ..opts.clone() });
        sets.push(Opts { skip: prefix, prefix: Some(BEHIND[sets.len() % 5].to_string()), ..opts });
    }
    let base = NEAR.len();
    sets.into_iter().flat_map(move |opts| {
        (1..=symbols).flat_map(move |length| {
            let block = opts.block();
            (0..base.pow(length)).map(move |n| (block.clone(), (0..length).map(|place| NEAR[n / base.pow(place) % base]).collect::<String>().into_bytes()))
        })
    })
}

/// Characters of every width and blanks of every width, and what makes them words and lines.
const WIDE: [&str; 8] = ["a", " ", "\u{301}", "中", "\u{3000}", "\u{2003}", "\n", "."];

/// Every text of up to so many symbols, with stretch 1 to 3: the widths at every edge.
fn wide(symbols: u32) -> impl Iterator<Item = Asked> {
    let mut sets = Vec::new();
    for (width, goal) in [(2, 1), (3, 2), (4, 2), (5, 3), (6, 3), (7, 4)] {
        for flags in [0, QUICK, UNIFORM, CROWN | GLUE, TAGGED | QUICK, UNIFORM | CHARACTERS] {
            let opts = Opts { flags: Some(flags), width: Some(width), goal: Some(goal), ..Opts::default() };
            sets.push(opts.clone());
            sets.push(Opts { prefix: Some(["中", "\u{301}", "\u{3000}", "a\u{301}"][sets.len() / 2 % 4].to_string()), ..opts });
        }
    }
    let base = WIDE.len();
    sets.into_iter().flat_map(move |opts| {
        (1..=symbols).flat_map(move |length| {
            let block = opts.block();
            (0..base.pow(length)).map(move |n| (block.clone(), (0..length).map(|place| WIDE[n / base.pow(place) % base]).collect::<String>().into_bytes()))
        })
    })
}

/// Octets of every class that RFC 3629's section 4 tells apart, each at its bounds.
const OCTETS: [u8; 25] = [
    0x00, 0x41, 0x7f, 0x80, 0x8f, 0x90, 0x9f, 0xa0, 0xbf, 0xc0, 0xc1, 0xc2, 0xdf, 0xe0, 0xe1, 0xec, 0xed, 0xee, 0xef, 0xf0, 0xf1, 0xf3, 0xf4, 0xf5, 0xff,
];

/// Every sequence of up to four of them, under the empty block: damaged where the standard library's decoder says so.
pub fn octets(step: usize) -> impl Iterator<Item = Asked> {
    let base = OCTETS.len();
    (1..=4).flat_map(move |length| {
        (0..base.pow(length)).step_by(step).map(move |n| (Vec::new(), (0..length).map(|place| OCTETS[n / base.pow(place) % base]).collect()))
    })
}

/// Every number that a field of two bytes can have, where it has a bound, and every width with every goal about the bounds.
fn numbers(step: usize) -> impl Iterator<Item = Asked> {
    let notes = b"a b.  c\n\tdd e\n";
    let flags = (0..65536).step_by(step).map(|n| number(1, n));
    let tabs = (0..65536).step_by(step).chain(0..110).map(|n| number(4, n));
    let alone = (0..1100).flat_map(|n| [number(2, n), number(3, n)]);
    let pairs = (0..1004usize * 1004).step_by(step).map(|n| [number(2, n / 1004), number(3, n % 1004)].concat());
    let near = (0..1004usize).flat_map(|goal| {
        [goal.saturating_sub(1), goal, goal + 1, 2 * goal, 2 * goal + 1].map(|width| [number(2, width), number(3, goal)].concat())
    });
    flags.chain(tabs).chain(alone).chain(pairs).chain(near).map(|block| (block, notes.to_vec()))
}

/// A block with every field, cut at every place, with every byte changed to every other, with two fields swapped, one twice, one left out.
fn blocks(step: usize) -> impl Iterator<Item = Asked> {
    let fields = [number(1, 0x30), number(2, 20), number(3, 17), number(4, 4), field(5, "é>".as_bytes()), field(6, b"")];
    let whole = fields.concat();
    let mut blocks: Vec<Vec<u8>> = (0..=whole.len()).map(|n| whole[..n].to_vec()).collect();
    for at in (0..whole.len() * 256).step_by(step) {
        let mut block = whole.clone();
        block[at / 256] = at as u8;
        blocks.push(block);
    }
    for i in 0..6 {
        for j in 0..6 {
            let mut order: Vec<usize> = (0..6).collect();
            order.swap(i, j);
            blocks.push(order.iter().flat_map(|n| fields[*n].clone()).collect());
            blocks.push([&whole, &fields[i][..], &fields[j][..]].concat());
            blocks.push([&fields[i][..], &fields[j][..]].concat());
        }
    }
    for (tag, size) in (0..=8).flat_map(|tag| [0, 1, 2, 3, 254, 255, 256, 257, 65535].map(|size| (tag, size))) {
        blocks.push(field(tag, &vec![b'a'; size]));
        blocks.push(field(tag, &vec![0; size]));
        blocks.push([tag].iter().chain(&(size as u16).to_be_bytes()).chain(&[b'a'; 255]).copied().collect());
    }
    let notes = "é> a\n  é> b c\n".as_bytes();
    blocks.into_iter().flat_map(move |block| [(block.clone(), notes.to_vec()), (block, b"a\xb0".to_vec())])
}

/// Notes of every two bytes, alone and between letters.
fn pairs(step: usize) -> impl Iterator<Item = Asked> {
    (0..65536 * 4usize).step_by(step).map(|n| {
        let flags = [0, KEEP, GLUE, KEEP | GLUE][n % 4];
        let two = ((n / 4) as u16).to_be_bytes();
        let notes = if n % 8 < 4 { two.to_vec() } else { [b"a ".as_slice(), &two, b" b\nc\n"].concat() };
        (number(1, flags as usize), notes)
    })
}

/// The limits of words and bytes, under each way in which a paragraph is made.
fn limits() -> impl Iterator<Item = Asked> {
    let mut all = Vec::new();
    let sets: [Opts; 9] = [0, QUICK, MAIL, CROWN, TAGGED, SPLIT, UNIFORM, KEEP, GLUE].map(|flags| Opts { flags: Some(flags), ..Opts::default() });
    for opts in &sets {
        let block = opts.block();
        for words in [1023, 1024, 1025, 1026, 2048, 2049] {
            for notes in [
                "a ".repeat(words),
                "a\n".repeat(words),
                format!("x\n\n  b\n{}", "a b\n".repeat(words / 2) + "a\n"),
                format!("A: {}\n", "a\n ".repeat(words - 1)),
                format!("A:\n {}\n\nb\n", "a ".repeat(words - 1)),
                format!("  b\n{}", "a ".repeat(words - 1)),
                format!("  b\n{}", "a\n".repeat(words - 1)),
                format!("{}\n\n{}", "a ".repeat(1024), "a ".repeat(words)),
                format!("{}\u{a0}a b\n", "a ".repeat(words - 2)),
                format!("{}a\u{a0}b\n", "a ".repeat(words - 2)),
            ] {
                all.push((block.clone(), notes.clone().into_bytes()));
                all.push((block.clone(), [b"\xb0\n", notes.as_bytes()].concat()));
            }
        }
        for size in [65534, 65535, 65536, 65537, 65538, 131_072] {
            for piece in [&b"a"[..], b"\n", b"\t", b" ", b"ab c\n\n", "é\n".as_bytes(), b"\xb0", b"a\n\xb0\n", "\u{a0}".as_bytes(), b"\r\n"] {
                all.push((block.clone(), piece.iter().copied().cycle().take(size).collect()));
            }
        }
    }
    // The longest digests: a prefix of 255 bytes, or an indent of nearly all the notes, before each of the most words.
    let prefix = "x".repeat(255);
    let prefixed = format!("{prefix}{}\n\n", "a ".repeat(1024)).repeat(28);
    let indented = " ".repeat(65_536 - 2048) + &"a ".repeat(1024);
    for flags in [0, QUICK] {
        let opts = Opts { flags: Some(flags), width: Some(1), goal: Some(1), ..Opts::default() };
        all.push((opts.block(), indented.clone().into_bytes()));
        all.push((Opts { prefix: Some(prefix.clone()), ..opts }.block(), prefixed.clone().into_bytes()));
    }
    all.into_iter()
}

/// The tables. Each number table is gone through in steps of `step`; texts have up to `symbols` symbols.
pub fn tables(seed: u64, step: usize, symbols: u32) -> Vec<Kind> {
    vec![
        ("committed list", Box::new(cases::vectors(seed).into_iter().map(of))),
        ("limits", Box::new(limits())),
        ("broken blocks", Box::new(blocks(step))),
        ("numbers", Box::new(numbers(step))),
        ("pairs of bytes", Box::new(pairs(step))),
        ("short texts", Box::new(cases::exhaustive(symbols).map(of))),
        ("short texts, damaged", Box::new(raw(symbols - 1))),
        ("short texts, no-break spaces", Box::new(no_breaks(symbols + 1))),
        ("short texts, every width", Box::new(wide(symbols))),
        ("sequences of octets", Box::new(octets(step))),
    ]
}

// ---------------------------------------------------------------- random

fn flagged(r: &mut Rng, opts: &mut Opts, flag: u16, percent: usize) {
    let flags = opts.flags.unwrap_or(0);
    opts.flags = Some(if r.chance(percent) { flags | flag } else { flags & !flag });
}

/// Prefixes of any length up to the longest.
fn long_prefix(r: &mut Rng) -> String {
    let most = [4, 20, 255][r.below(3)];
    let mut prefix = String::new();
    for c in hostile(r, most).chars().filter(|c| *c != '\n') {
        if prefix.len() + c.len_utf8() <= most {
            prefix.push(c);
        }
    }
    prefix
}

/// Characters of other scripts, of every width and from every plane, noncharacters among them; and the blanks of three bytes.
const SCRIPTS: &str = "ЖяΩλשبकि\u{94d}ไ\u{e31}ท\u{301}\u{308}\u{483}\u{200b}\u{200d}\u{feff}\u{ad}\u{1160}\u{11ff}\u{1100}한中日本語。あア\u{ff76}Ａ\u{fffd}\u{ffff}\u{1f600}\u{1f468}\u{20000}\u{2ffff}\u{e0001}\u{e0100}\u{10ffff}\u{2500}\u{303f}\u{a66f}\u{fe0f}";
const THREE_BYTES: &str = "\u{1680}\u{2000}\u{2003}\u{200a}\u{2028}\u{2029}\u{202f}\u{205f}\u{3000}\u{3000}";

fn any(r: &mut Rng, of: &str) -> char {
    of.chars().nth(r.below(of.chars().count())).unwrap()
}

/// The same text with letters and blanks of other scripts put in their places.
fn other_scripts(r: &mut Rng, text: &str) -> String {
    let (letters, blanks) = (10 + r.below(80), r.below(30));
    let other = |c: char| match c {
        '\n' | '\r' | '\t' => c,
        c if c.is_whitespace() => if r.chance(blanks) { any(r, THREE_BYTES) } else { c },
        c if c.is_alphanumeric() => if r.chance(letters) { any(r, SCRIPTS) } else { c },
        c => c,
    };
    text.chars().map(other).collect()
}

fn case(r: &mut Rng) -> Case {
    let short = r.chance(80);
    let most = r.below(if short { 2 } else { 5 });
    let mut opts = random_options(r, [6, 12, 40, 90, 940][most]);
    flagged(r, &mut opts, CHARACTERS, 25);
    if r.chance(5) {
        opts.prefix = Some(long_prefix(r));
    }
    if r.chance(3) {
        opts.skip = Some(long_prefix(r));
    }
    let size = 1 + r.below(if short { 60 } else { 400 });
    let notes = match r.below(4) {
        0 => hostile(r, size),
        1 => plain_words(r),
        _ => random_text(r, &opts, size),
    };
    if r.chance(60) {
        return Case { opts, notes };
    }
    if r.chance(20) {
        opts.prefix = opts.prefix.map(|p| other_scripts(r, &p));
    }
    let notes = other_scripts(r, &notes);
    Case { opts, notes }
}

/// Bytes put in, taken out or changed.
fn damaged(r: &mut Rng, bytes: &mut Vec<u8>) {
    const BYTES: [u8; 20] = [
        0, 0x0a, 0x0d, 0x20, 0x7f, 0x80, 0x85, 0xa0, 0xad, 0xbf, 0xc0, 0xc1, 0xc2, 0xc3, 0xcb, 0xcc, 0xe2, 0xed, 0xf0, 0xff,
    ];
    for _ in 0..1 + r.below(3) {
        let at = r.below(bytes.len() + 1);
        let byte = if r.chance(80) { BYTES[r.below(BYTES.len())] } else { r.below(256) as u8 };
        match r.below(3) {
            0 if at < bytes.len() => bytes[at] = byte,
            1 if at < bytes.len() => drop(bytes.remove(at)),
            _ => bytes.insert(at, byte),
        }
    }
}

fn keep_or_glue(r: &mut Rng) -> Asked {
    let Case { mut opts, notes } = case(r);
    flagged(r, &mut opts, KEEP, 65);
    flagged(r, &mut opts, GLUE, 50);
    let mut notes = notes.into_bytes();
    if r.chance(75) {
        damaged(r, &mut notes);
    }
    (opts.block(), notes)
}

/// A block with a fault more or less, and notes that are themselves right, damaged or too long.
fn broken(r: &mut Rng) -> Asked {
    let Case { opts, notes } = case(r);
    let mut block = opts.block();
    let mut notes = notes.into_bytes();
    match r.below(8) {
        0 => block.truncate(r.below(block.len() + 1)),
        1 => damaged(r, &mut block),
        2 => block.extend(number(1 + r.below(7) as u8, r.below(1100))),
        3 => block.splice(0..0, number(r.below(8) as u8, r.below(1100))).for_each(drop),
        4 => block = (0..r.below(12)).map(|_| [0, 0, 0, 1, 2, 2, 3, 4, 5, 6, 7, r.below(256) as u8][r.below(12)]).collect(),
        5 => {
            let edges = [0, 1, 2, 3, 5, 6, 7, 74, 79, 99, 100, 101, 499, 500, 501, 940, 941, 999, 1000, 1001, 1023, 1024, 65535];
            block = (1..=4).filter(|_| r.chance(60)).collect::<Vec<u8>>().into_iter().flat_map(|tag| number(tag, edges[r.below(23)])).collect();
        }
        6 => {
            let mut prefix = vec![b'>'; [0, 1, 254, 255, 256][r.below(5)]];
            if r.chance(60) {
                damaged(r, &mut prefix);
            }
            block = field(5 + r.below(2) as u8, &prefix);
        }
        _ => {}
    }
    if r.chance(30) {
        damaged(r, &mut notes);
    }
    if r.chance(1) && r.chance(50) {
        notes = notes.iter().copied().cycle().take(65530 + r.below(14)).collect();
    }
    (block, notes)
}

/// Long notes for quick, without mail, at widths of every kind, a third of them in other scripts.
pub fn quick_notes(r: &mut Rng) -> Asked {
    let most = [12, 40, 90][r.below(3)];
    let mut opts = random_options(r, most);
    flagged(r, &mut opts, QUICK, 100);
    flagged(r, &mut opts, MAIL | SPLIT, 0);
    let mut notes = random_text(r, &opts, 20_000);
    if r.chance(33) {
        notes = other_scripts(r, &notes);
    }
    (opts.block(), notes.into_bytes())
}

/// A word of so many letters, with a mark at its end now and then.
fn letters(r: &mut Rng, count: usize) -> String {
    let mut word: String = (0..count).map(|_| (b'a' + r.below(26) as u8) as char).collect();
    if count > 1 && r.chance(25) {
        word.pop();
        word += [".", "?", "!", ","][r.below(4)];
    }
    word
}

/// A line that goes word by word, of about as many words as a window has, or twice as many: one to three letters each, with single and
/// double spaces and a tab here and there.
fn windowed(r: &mut Rng) -> String {
    let count = [1, 15, 16, 17, 31, 32, 33, 48][r.below(8)];
    let odd = r.below(count);
    let mut line = String::new();
    for n in 0..count {
        let size = 1 + r.below(3);
        line += &letters(r, size);
        line += if n == odd { ["é", "中", "\u{a0}", ".\t", ""][r.below(5)] } else { ["", "", "", "."][r.below(4)] };
        if n + 1 < count {
            line += [" ", " ", " ", "  ", "\t"][r.below(5)];
        }
    }
    line
}

/// Lines of ASCII at the edges of quick's walk: words that end at the width, or one before or behind it, with one to three spaces at the
/// cut; a last word alone; a tab or a letter of two bytes about the eighth byte of a line; spaces at a line's end; between them lines that
/// go word by word.
fn edges(r: &mut Rng, width: usize) -> String {
    let mut text = String::new();
    for _ in 0..1 + r.below(6) {
        let mut line = String::new();
        let end = (width + r.below(3)).saturating_sub(1).max(1) * (1 + r.below(3));
        while line.len() < end {
            let room = end - line.len();
            let most = if r.chance(30) { room } else { room.min(9) };
            let count = 1 + r.below(most);
            line += &letters(r, count);
            if line.len() < end {
                line += ["", " ", " ", " ", "  ", "   "][r.below(6)];
            }
        }
        match r.below(10) {
            0 => line.insert(line.len().min(5 + r.below(5)), '\t'),
            1 => line.insert(line.len().min(5 + r.below(5)), 'é'),
            2 => {
                let count = 1 + r.below(width + 2);
                line = letters(r, count);
            }
            3 => line += &" ".repeat(1 + r.below(3)),
            4 => line = windowed(r),
            _ => {}
        }
        text += &line;
        text += if r.chance(8) { "\r\n" } else { "\n" };
        if r.chance(10) {
            text += "\n";
        }
    }
    text
}

/// A paragraph of just so many words of one letter, or of just so many bytes: about the most words, and the bytes that show that they are no
/// more.
fn many(r: &mut Rng) -> String {
    if r.chance(50) {
        let count = 1022 + r.below(4);
        return (0..count).map(|n| if n % 31 == 30 { "a\n" } else { "a " }).collect();
    }
    let bytes = [95, 96, 97, 1023, 1024, 1025, 2047, 2048, 2049][r.below(9)];
    let mut text = String::new();
    while text.len() < bytes {
        let count = 1 + r.below(8);
        text += &letters(r, count);
        text += if r.chance(12) { "\n" } else { " " };
    }
    text.truncate(bytes);
    text
}

/// Quick at the edges of its lines, and paragraphs about the most words.
fn at_the_edges(r: &mut Rng) -> Asked {
    let most = r.below(3);
    let mut opts = random_options(r, [6, 12, 40][most]);
    flagged(r, &mut opts, QUICK, 90);
    flagged(r, &mut opts, UNIFORM, 25);
    flagged(r, &mut opts, MAIL, 15);
    let width = opts.width.unwrap_or(75) as usize;
    let head = if opts.has(MAIL) && r.chance(70) { "To: " } else { "" };
    let notes = if r.chance(10) { many(r) } else { edges(r, width) };
    (opts.block(), (head.to_string() + &notes).into_bytes())
}

fn long(r: &mut Rng) -> Asked {
    let mut opts = random_options(r, 90);
    flagged(r, &mut opts, KEEP, 20);
    let size = if r.chance(4) { 60_000 + r.below(5536) } else { 100 + r.below(6000) };
    let mut notes = match r.below(4) {
        0 => (0..900 + r.below(300)).map(|_| ["a ", "a ", "b. ", "a\n", "c  "][r.below(5)]).collect(),
        1 => random_text(r, &opts, size),
        _ => prose(r, &opts, size),
    };
    while notes.len() > 65_536 {
        notes.pop();
    }
    let mut notes = notes.into_bytes();
    if r.chance(10) {
        damaged(r, &mut notes);
    }
    (opts.block(), notes)
}

/// Random questions without end, of so many in a hundred each.
pub fn random(seed: u64) -> impl Iterator<Item = (&'static str, Asked)> {
    let mut r = Rng(seed);
    std::iter::from_fn(move || {
        Some(match r.below(1000) {
            0..=549 => ("random", of(case(&mut r))),
            550..=779 => ("random, keep or glue", keep_or_glue(&mut r)),
            780..=949 => ("random, broken blocks", broken(&mut r)),
            950..=989 => ("random, edges of lines", at_the_edges(&mut r)),
            _ => ("random, long", long(&mut r)),
        })
    })
}
