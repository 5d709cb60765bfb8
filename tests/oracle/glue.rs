//! Glue, by the words of RULES 4.4. The original has none, so it is shown notes that RULES treats alike.
//!
//! U+00A0 is ordinary only if the nearest characters on its line, left and right, skipping further U+00A0, are both there and not blanks.
//! An ordinary one is shown as a letter of as many bytes that occurs nowhere else; any other is left, since the original has it as a blank.
//!
//! Prefix text is matched by its bytes, whatever class they have. Where a prefix with U+00A0 is found, the original is shown another such
//! letter for it, in the line and in the prefix: of what stands inside a prefix it asks the bytes and the columns alone.

use std::ops::Range;

pub const NO_BREAK: char = '\u{a0}';

pub fn is_blank(c: char) -> bool {
    c.is_whitespace()
}

/// Whether the U+00A0 at a place of a line is ordinary.
fn is_ordinary(line: &[char], at: usize) -> bool {
    let is_ink = |nearest: Option<&char>| nearest.map_or(false, |c| !is_blank(*c));
    is_ink(line[..at].iter().rev().find(|c| **c != NO_BREAK)) && is_ink(line[at..].iter().find(|c| **c != NO_BREAK))
}

/// A prefix and whether it is exact.
pub type Prefix<'a> = (Option<&'a String>, bool);

/// Where a prefix is found: at the line's start or, unless exact, at the first place with only blanks before it. A U+00A0 with only blanks
/// before it is a blank, whatever glue says.
pub fn found(line: &str, prefix: &str, exact: bool) -> Option<usize> {
    if exact {
        return Some(0).filter(|_| line.starts_with(prefix));
    }
    let blanks = line.len() - line.trim_start_matches(is_blank).len();
    line.char_indices().map(|(at, _)| at).chain([line.len()]).filter(|at| *at <= blanks).find(|at| line[*at..].starts_with(prefix))
}

/// A line's text without its line end.
pub fn text_of(line: &str) -> &str {
    line.strip_suffix('\n').map_or(line, |body| body.strip_suffix('\r').unwrap_or(body))
}

/// What is shown for an ordinary U+00A0, and for one of a prefix that is found.
pub struct StandIns {
    pub ordinary: char,
    pub matched: char,
}

impl StandIns {
    pub fn prefix(&self, prefix: &str) -> String {
        prefix.replace(NO_BREAK, &self.matched.to_string())
    }

    pub fn notes(&self, notes: &str, prefix: Prefix, skip: Prefix) -> String {
        notes.split_inclusive('\n').map(|line| self.line(line, &[skip, prefix])).collect()
    }

    pub fn back(&self, digest: &str) -> String {
        digest.replace(|c| c == self.ordinary || c == self.matched, &NO_BREAK.to_string())
    }

    /// A line. One with the skip prefix is plain, so that its prefix is not asked for; a blank line has neither.
    fn line(&self, line: &str, prefixes: &[Prefix]) -> String {
        let text = text_of(line);
        if text.chars().all(is_blank) {
            return line.to_string();
        }
        let place = |&(prefix, exact): &Prefix| prefix.and_then(|p| found(text, p, exact).map(|at| at..at + p.len()));
        let matched: Range<usize> = prefixes.iter().find_map(place).unwrap_or(0..0);
        let chars: Vec<char> = text.chars().collect();
        let shown = text.char_indices().enumerate().map(|(n, (at, c))| match c {
            NO_BREAK if matched.contains(&at) => self.matched,
            NO_BREAK if is_ordinary(&chars, n) => self.ordinary,
            _ => c,
        });
        shown.collect::<String>() + &line[text.len()..]
    }
}
