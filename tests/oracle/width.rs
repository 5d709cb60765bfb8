//! Quick keeps to the width (RULES 21.7), tried by runs: the columns of every output line of a paragraph that is not mail, counted afresh
//! from the line's bytes, exceed the width only if the line holds a single word, or a blank between two of its words, no tab, that takes
//! another number of columns than one.
//!
//! The digest is cut into lines at its line feeds; which of them are a paragraph's follows from the original's own paragraphs: a line that is
//! none has one output line, and a paragraph has as many as hold its words.

use fmt_cube::parasplit::{width_of, Laid};

#[derive(Default)]
pub struct Width {
    pub lines: u64,
    /// Lines that end in the last column.
    pub full: u64,
    /// Lines over the width, each of a single word.
    pub single: u64,
    /// Lines over the width that have more words, and a wide blank between two of them.
    pub wide: u64,
    /// Lines over the width with more words: none is due.
    pub over: u64,
}

/// The columns of a line from column 0 on: a tab goes to the next stop, any other character takes its width.
fn columns(line: &str, tab: usize) -> usize {
    line.chars().fold(0, |column, c| if c == '\t' { (column / tab + 1) * tab } else { column + width_of(c) })
}

fn has_wide_blank(words: &str) -> bool {
    words.chars().any(|c| c.is_whitespace() && c != '\t' && width_of(c) != 1)
}

impl Width {
    pub fn told(&self) -> String {
        format!(
            "quick: {} lines counted afresh, {} of them just full, {} over the width with a single word, {} with a wide blank, {} otherwise",
            self.lines, self.full, self.single, self.wide, self.over
        )
    }

    pub fn count(&mut self, laid: &[Laid], digest: &str, width: usize, tab: usize) {
        let mut lines = digest.split_terminator('\n');
        for piece in laid {
            let mut left = piece.words;
            let mut indent = &piece.init;
            loop {
                let line = lines.next().expect("a line for each piece");
                if piece.words == 0 {
                    break;
                }
                let text = line.strip_prefix(&indent[..]).expect("the indent");
                let words = text.split_whitespace().count();
                if !piece.mail {
                    self.line(columns(line, tab), width, words, text);
                }
                left -= words;
                indent = &piece.indent;
                if left == 0 {
                    break;
                }
            }
        }
        assert!(lines.next().is_none(), "a line that belongs to no piece");
    }

    fn line(&mut self, columns: usize, width: usize, words: usize, text: &str) {
        self.lines += 1;
        self.full += (columns == width) as u64;
        if columns > width {
            *match words {
                1 => &mut self.single,
                _ if has_wide_blank(text) => &mut self.wide,
                _ => &mut self.over,
            } += 1;
        }
    }
}
