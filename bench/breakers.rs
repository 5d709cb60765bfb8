// ---- From here on appended by bench/layers. All above is the original's, with the replacements of tests/oracle.

/// The original's own functions behind names that a driver can call, each on words that are already split.
pub mod breakers {
    use super::{break_knuth_plass, break_simple, find_kp_breakpoints, BreakArgs};
    use parasplit::{ParaWords, Paragraph, ParagraphStream};
    use std::io::{Cursor, Write};
    use FmtOptions;

    /// The one paragraph that a text is, as `break_lines` takes it: its lines read, its indent measured.
    pub fn paragraph(opts: &FmtOptions, notes: &[u8]) -> Paragraph {
        let mut fp = Cursor::new(notes.to_vec());
        let mut pieces = ParagraphStream::new(opts, &mut fp);
        let para = pieces.next().unwrap().unwrap();
        assert!(pieces.next().is_none());
        para
    }

    /// The words of a paragraph.
    pub fn split<'a>(opts: &'a FmtOptions, para: &'a Paragraph) -> ParaWords<'a> {
        ParaWords::new(opts, para)
    }

    /// `find_kp_breakpoints` alone: how many breaks it finds.
    pub fn find<'a>(
        opts: &'a FmtOptions,
        para: &'a Paragraph,
        words: &'a ParaWords<'a>,
        out: &'a mut Vec<u8>,
    ) -> usize {
        let mut iter = words.words();
        let columns = para.indent_len + iter.next().unwrap().word_nchars;
        find_kp_breakpoints(iter, &arguments(opts, para, columns, out)).len()
    }

    /// The indent and the first word, and `break_simple`: finds breaks and writes in one pass.
    pub fn simple<'a>(opts: &'a FmtOptions, para: &'a Paragraph, words: &'a ParaWords<'a>, out: &'a mut Vec<u8>) {
        let mut iter = words.words();
        let first = iter.next().unwrap();
        out.write_all(para.indent_str.as_bytes()).unwrap();
        out.write_all(first.word.as_bytes()).unwrap();
        break_simple(iter, &mut arguments(opts, para, para.indent_len + first.word_nchars, out))
    }

    /// The indent and the first word, and `break_knuth_plass`: `find_kp_breakpoints`, then writes.
    pub fn knuth_plass<'a>(opts: &'a FmtOptions, para: &'a Paragraph, words: &'a ParaWords<'a>, out: &'a mut Vec<u8>) {
        let mut iter = words.words();
        let first = iter.next().unwrap();
        out.write_all(para.indent_str.as_bytes()).unwrap();
        out.write_all(first.word.as_bytes()).unwrap();
        break_knuth_plass(iter, &mut arguments(opts, para, para.indent_len + first.word_nchars, out))
    }

    fn arguments<'a>(opts: &'a FmtOptions, para: &'a Paragraph, columns: usize, out: &'a mut Vec<u8>) -> BreakArgs<'a> {
        BreakArgs {
            opts,
            init_len: columns,
            indent_str: &para.indent_str[..],
            indent_len: para.indent_len,
            uniform: opts.uniform,
            ostream: out,
        }
    }
}
