// ---- From here on appended by tests/oracle/scale. All above is the original's.

/// Each piece of the notes: its lines and its words. A line that is not formatted has no words.
pub fn counts(opts: &FmtOptions, notes: &[u8]) -> Vec<(usize, usize)> {
    let mut fp = ::std::io::Cursor::new(notes.to_vec());
    ParagraphStream::new(opts, &mut fp)
        .map(|piece| match piece {
            Ok(para) => (para.lines.len(), ParaWords::new(opts, &para).words().len()),
            Err(_) => (1, 0),
        })
        .collect()
}

/// Each piece of the notes: its lines, and the line feeds of its output.
pub fn pieces(opts: &FmtOptions, notes: &[u8]) -> Vec<(usize, usize)> {
    let mut fp = ::std::io::Cursor::new(notes.to_vec());
    ParagraphStream::new(opts, &mut fp)
        .map(|piece| match piece {
            Ok(para) => {
                let mut output = Vec::new();
                ::linebreak::break_lines(&para, opts, &mut output);
                (para.lines.len(), output.iter().filter(|b| **b == b'\n').count())
            }
            Err(_) => (1, 1),
        })
        .collect()
}

/// A piece as it is laid out: its words (of a line that is not formatted none), its indents, and whether it is mail.
pub struct Laid {
    pub words: usize,
    pub init: String,
    pub indent: String,
    pub mail: bool,
}

pub fn laid(opts: &FmtOptions, notes: &[u8]) -> Vec<Laid> {
    let mut fp = ::std::io::Cursor::new(notes.to_vec());
    ParagraphStream::new(opts, &mut fp)
        .map(|piece| match piece {
            Ok(para) => {
                let words = ParaWords::new(opts, &para).words().len();
                // As linebreak.rs has it: crown and tagged alone write the first indent from its own text; mail has none.
                let init = if opts.crown || opts.tagged {
                    para.init_str
                } else if para.mail_header {
                    String::new()
                } else {
                    para.indent_str.clone()
                };
                Laid { words: words, init: init, indent: para.indent_str, mail: para.mail_header }
            }
            Err(_) => Laid { words: 0, init: String::new(), indent: String::new(), mail: false },
        })
        .collect()
}

/// The columns that a character takes.
pub fn width_of(c: char) -> usize {
    char_width(c)
}
