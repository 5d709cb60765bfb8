//! The texts of whole calls: notes of 1 to 64 KiB, generated, real and hostile.

use crate::options::*;
use crate::texts::*;

pub const KIB: usize = 1024;
pub const SIZES: [usize; 4] = [KIB, 4 * KIB, 16 * KIB, 64 * KIB];
/// All parts of a text together, whatever the size of one part.
const ALL: usize = 64 * KIB;

/// A sort of text: how notes of so many bytes are made, and the options. No notes where a file is missing.
pub struct Sort {
    pub name: &'static str,
    pub opts: Opts,
    make: Box<dyn Fn(&mut Draw, usize) -> Option<Vec<u8>>>,
}

impl Sort {
    /// Texts of that size, all different, 64 KiB together.
    pub fn parts(&self, size: usize) -> Option<Vec<Vec<u8>>> {
        let mut draw = Draw(2026);
        (0..ALL / size).map(|_| (self.make)(&mut draw, size)).collect()
    }
}

/// Pieces until the size is reached; the last is cut there.
fn filled(draw: &mut Draw, size: usize, piece: &dyn Fn(&mut Draw) -> Vec<u8>) -> Vec<u8> {
    let mut notes = Vec::new();
    while notes.len() < size {
        notes.extend(piece(draw));
    }
    notes.truncate(size);
    notes
}

/// A paragraph and an empty line, each line begun by a lead.
fn paragraph(lines: Vec<u8>, lead: &[u8]) -> Vec<u8> {
    let mut notes = Vec::new();
    for line in lines.split_inclusive(|b| *b == b'\n') {
        notes.extend_from_slice(lead);
        notes.extend_from_slice(line);
    }
    notes.push(b'\n');
    notes
}

/// Paragraphs as people write them, of 10 to 150 words.
fn usual(draw: &mut Draw) -> Vec<u8> {
    let words = 10 + draw.below(141);
    paragraph(prose(draw, words), b"")
}

/// Real text: files that every Debian machine has, from a place that is drawn to the size.
fn licences(draw: &mut Draw, size: usize) -> Option<Vec<u8>> {
    let mut all = Vec::new();
    for name in ["GPL-3", "GFDL-1.3", "GPL-2", "LGPL-2.1"] {
        all.extend(std::fs::read(format!("/usr/share/common-licenses/{name}")).ok()?);
    }
    let from = draw.below(all.len().checked_sub(size)?);
    Some(all[from..from + size].to_vec())
}

/// A paragraph of one line.
fn joined(lines: Vec<u8>) -> Vec<u8> {
    lines.into_iter().map(|b| if b == b'\n' { b' ' } else { b }).chain([b'\n']).collect()
}

/// A paragraph in another script.
fn script(draw: &mut Draw, script: Script) -> Vec<u8> {
    let words = 10 + draw.below(141);
    paragraph(spelled(prose(draw, words), script), b"")
}

pub fn sorts() -> Vec<Sort> {
    let mut sorts = Vec::new();
    let mut add = |name: &'static str, opts: Opts, piece: fn(&mut Draw) -> Vec<u8>| {
        sorts.push(Sort { name, opts, make: Box::new(move |draw, size| Some(filled(draw, size, &piece))) });
    };
    let flags = |flags: u16| Opts { flags: Some(flags), ..Opts::default() };
    let sized = |width: u16, goal: u16| Opts { width: Some(width), goal: Some(goal), ..Opts::default() };
    let prefixed = |prefix: &str| Opts { prefix: Some(prefix.to_string()), ..Opts::default() };

    add("prose", Opts::default(), usual);
    add("prose -w 20", Opts { width: Some(20), ..Opts::default() }, usual);
    add("prose -w 1000", Opts { width: Some(1000), ..Opts::default() }, usual);
    add("prose -u", flags(UNIFORM), usual);
    add("prose -s", flags(SPLIT), usual);
    add("prose of 1,024 words", Opts::default(), |d| paragraph(prose(d, 1024), b""));
    add("1,024 words -w 1000 -g 500", sized(1000, 500), |d| paragraph(prose(d, 1024), b""));
    add("1,024 words on one line", Opts::default(), |d| paragraph(joined(prose(d, 1024)), b""));
    add("mail -m", flags(MAIL), |d| {
        let mut header = b"Subject: ".to_vec();
        header.extend(prose(d, 12));
        for _ in 0..4 {
            header.extend(paragraph(prose(d, 12), b"  "));
            header.pop();
        }
        header
    });
    add("crown -c", flags(CROWN), |d| [b"    ".to_vec(), paragraph(prose(d, 60), b"  ")].concat());
    add("tagged -t", flags(TAGGED), |d| [b"    ".to_vec(), paragraph(prose(d, 60), b"  ")].concat());
    add("prefix '> '", prefixed("> "), |d| paragraph(prose(d, 60), b"> "));
    add("letters", Opts::default(), |d| paragraph(letters(d, 1024), b""));
    add("letters -w 1000 -g 500", sized(1000, 500), |d| paragraph(letters(d, 1024), b""));
    add("letters -w 1 -g 1", sized(1, 1), |d| paragraph(letters(d, 1024), b""));
    add("a letter a line", Opts::default(), |_| paragraph(b"a\n".repeat(1024), b""));
    add("a letter a paragraph", Opts::default(), |_| b"a\n\n".to_vec());
    add("tabs alone", Opts::default(), |_| b"\t".to_vec());
    add("tabs in gaps", Opts::default(), |d| {
        letters(d, 1000).into_iter().flat_map(|b| if b == b' ' { vec![b'\t'; 3] } else { vec![b] }).chain([b'\n']).collect()
    });
    add("an indent of tabs", Opts::default(), |_| [b"\t".repeat(250), b"a\n".to_vec()].concat());
    add("empty lines", Opts::default(), |_| b"\n".to_vec());
    add("one word", Opts::default(), |_| b"a".to_vec());
    add("two-byte blanks", Opts::default(), |d| {
        letters(d, 1000).into_iter().flat_map(|b| if b == b' ' { vec![0xc2, 0xa0] } else { vec![b] }).chain([b'\n']).collect()
    });
    add("two-byte letters", Opts::default(), |d| {
        let notes = prose(d, 100).into_iter().flat_map(|b| if b.is_ascii_lowercase() { vec![0xc3, b + 0x40] } else { vec![b] });
        notes.chain([b'\n']).collect()
    });
    add("Cyrillic", Opts::default(), |d| script(d, CYRILLIC));
    add("Greek", Opts::default(), |d| script(d, GREEK));
    add("Chinese", Opts::default(), |d| script(d, CHINESE));
    add("Japanese", Opts::default(), |d| script(d, JAPANESE));
    add("Hindi", Opts::default(), |d| script(d, HINDI));
    add("Thai", Opts::default(), |d| script(d, THAI));
    add("emoji", Opts::default(), |d| script(d, ("\u{1f600}\u{1f680}\u{2764}\u{fe0f}\u{1f44d}\u{1f3fd}\u{200d}\u{1f525}", " ")));
    add("another script at every character", Opts::default(), |d| script(d, ("aЖ中क\u{301}ω\u{1f600}ก한\u{200d}ñ\u{20000}\u{ff21}", "\u{2003}")));
    add("prefix of 255 bytes", prefixed(&"x".repeat(255)), |d| paragraph(prose(d, 300), &[b'x'; 255]));
    add("the same, -w 6, letters", Opts { width: Some(6), ..prefixed(&"x".repeat(255)) }, |d| paragraph(joined(letters(d, 1000)), &[b'x'; 255]));
    add("prefix of 254 blanks, not found", prefixed(&(" ".repeat(254) + "x")), |_| [b" ".repeat(1000), b"a\n".to_vec()].concat());
    let found = Opts { skip: Some(" ".repeat(254) + "y"), ..prefixed(&(" ".repeat(254) + "x")) };
    add("the same, found late", found, |_| [b" ".repeat(1000), b"x a\n".to_vec()].concat());
    sorts.insert(1, Sort { name: "licences", opts: Opts::default(), make: Box::new(licences) });
    // A cut may fall inside a character: then the last byte goes, on both sides.
    for sort in &mut sorts {
        let make = std::mem::replace(&mut sort.make, Box::new(|_, _| None));
        sort.make = Box::new(move |draw, size| {
            let mut notes = make(draw, size)?;
            while std::str::from_utf8(&notes).is_err() {
                notes.pop();
            }
            Some(notes)
        });
    }
    sorts
}
