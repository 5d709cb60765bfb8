//! What is timed: this repository's layers and the original's functions, each over the paragraphs of a text.

use crate::opaque::black_box;
use crate::texts::{group, Draw, Kind, GROUPS};
use std::ops::Range;

/// The most words of a paragraph, and how many numbers a word and a break take.
const MOST: usize = 1024;
const WORD: usize = 7;
const BREAK: usize = 6;

#[link(name = "layers", kind = "static")]
extern "C" {
    fn layers_split(
        notes: *const u8,
        size: usize,
        start: usize,
        later: usize,
        tab: usize,
        uniform: bool,
        most: usize,
        table: *mut u32,
        table_size: usize,
    ) -> usize;
    fn layers_quick(
        table: *const u32,
        table_size: usize,
        n: usize,
        width: usize,
        goal: usize,
        tab: usize,
        uniform: bool,
        first: usize,
        indent: usize,
        marks: *mut bool,
        marks_size: usize,
    );
    fn layers_best(
        table: *const u32,
        table_size: usize,
        n: usize,
        width: usize,
        goal: usize,
        tab: usize,
        uniform: bool,
        first: usize,
        indent: usize,
        breaks: *mut u32,
        breaks_size: usize,
        ratios: *mut f32,
        ratios_size: usize,
        active: *mut u32,
        active_size: usize,
        marks: *mut bool,
        marks_size: usize,
    );
    fn layers_emit(
        notes: *const u8,
        size: usize,
        table: *const u32,
        table_size: usize,
        n: usize,
        marks: *const bool,
        marks_size: usize,
        uniform: bool,
        first: usize,
        indent: usize,
        out: *mut u8,
        room: usize,
    ) -> usize;
}

const TAB: usize = 8;

/// What a paragraph is broken with.
#[derive(Clone, Copy)]
pub struct Setting {
    pub width: usize,
    pub goal: usize,
    pub uniform: bool,
}

/// The paragraphs of a text, with their words split and their breaks found, so that each layer can be timed alone. The
/// tables stand close together, each as long as it has words.
pub struct Text {
    pub paragraphs: Vec<Paragraph>,
    tables: Vec<u32>,
    marks: Vec<bool>,
    group: usize,
}

pub struct Paragraph {
    pub notes: Vec<u8>,
    /// The number of its first word in the text.
    at: usize,
    n: usize,
}

impl Text {
    pub fn new(kind: Kind, words: usize, g: Setting) -> Text {
        let (mut draw, mut room, group) = (Draw(2026), Room::new(), group(words));
        let mut text = Text { paragraphs: Vec::new(), tables: Vec::new(), marks: Vec::new(), group };
        for i in 0..GROUPS * group {
            let notes = kind(&mut draw, words);
            assert_eq!(split(&notes, g, &mut room.table), words, "the words of a paragraph");
            best(&room.table, words, g, &mut room.work, &mut room.marks);
            text.tables.extend(&room.table[..words * WORD]);
            text.marks.extend(&room.marks[..words]);
            text.paragraphs.push(Paragraph { notes, at: i * words, n: words });
        }
        text
    }

    pub fn bytes(&self) -> usize {
        self.paragraphs.iter().map(|p| p.notes.len()).sum()
    }

    fn table(&self, p: &Paragraph) -> &[u32] {
        &self.tables[p.at * WORD..][..p.n * WORD]
    }

    fn marks(&self, p: &Paragraph) -> &[bool] {
        &self.marks[p.at..][..p.n]
    }

    /// The numbers of the paragraphs of some groups.
    fn numbers(&self, groups: Range<usize>) -> Range<usize> {
        groups.start * self.group..groups.end * self.group
    }
}

/// What Knuth-Plass is lent to work in.
struct Work {
    breaks: [u32; MOST * BREAK],
    ratios: [f32; MOST],
    active: [u32; MOST],
}

/// What a caller lends to all layers.
pub struct Room {
    table: Vec<u32>,
    work: Box<Work>,
    marks: Vec<bool>,
    pub out: Vec<u8>,
}

impl Room {
    pub fn new() -> Room {
        Room {
            table: vec![0; MOST * WORD],
            work: Box::new(Work { breaks: [0; MOST * BREAK], ratios: [0.0; MOST], active: [0; MOST] }),
            marks: vec![false; MOST],
            out: vec![0; 1 << 17],
        }
    }
}

// Each wrapper asks what its layer asks: at most 65,536 bytes of notes and 1,024 words, and the option block's limits of
// width, goal and tab. The texts keep to that; their indents are empty.

fn split(notes: &[u8], g: Setting, table: &mut [u32]) -> usize {
    let most = table.len() / WORD;
    unsafe { layers_split(notes.as_ptr(), notes.len(), 0, 0, TAB, g.uniform, most, table.as_mut_ptr(), table.len()) }
}

fn quick(table: &[u32], n: usize, g: Setting, marks: &mut [bool]) {
    let (words, size) = (table.as_ptr(), table.len());
    unsafe { layers_quick(words, size, n, g.width, g.goal, TAB, g.uniform, 0, 0, marks.as_mut_ptr(), marks.len()) }
}

fn best(table: &[u32], n: usize, g: Setting, work: &mut Work, marks: &mut [bool]) {
    let Work { breaks, ratios, active } = work;
    let (words, size) = (table.as_ptr(), table.len());
    unsafe {
        layers_best(
            words,
            size,
            n,
            g.width,
            g.goal,
            TAB,
            g.uniform,
            0,
            0,
            breaks.as_mut_ptr(),
            breaks.len(),
            ratios.as_mut_ptr(),
            ratios.len(),
            active.as_mut_ptr(),
            active.len(),
            marks.as_mut_ptr(),
            marks.len(),
        )
    }
}

fn emit(notes: &[u8], table: &[u32], n: usize, g: Setting, marks: &[bool], out: &mut [u8]) -> usize {
    let (words, size) = (table.as_ptr(), table.len());
    let (breaks, count) = (marks.as_ptr(), marks.len());
    unsafe {
        layers_emit(notes.as_ptr(), notes.len(), words, size, n, breaks, count, g.uniform, 0, 0, out.as_mut_ptr(), out.len())
    }
}

/// A paragraph's output by all layers in turn.
pub fn format(notes: &[u8], g: Setting, is_quick: bool, room: &mut Room) -> usize {
    let n = split(notes, g, &mut room.table);
    if is_quick {
        quick(&room.table, n, g, &mut room.marks);
    } else {
        best(&room.table, n, g, &mut room.work, &mut room.marks);
    }
    emit(notes, &room.table, n, g, &room.marks, &mut room.out)
}

/// A name, and a call that goes once over some groups of a text.
pub type Span<'a> = (&'static str, Box<dyn FnMut(Range<usize>) + 'a>);

pub fn layers<'a>(text: &'a Text, g: Setting) -> Vec<Span<'a>> {
    let mut spans: Vec<Span<'a>> = Vec::new();
    let mut add = |name, work: fn(&Text, &Paragraph, Setting, &mut Room)| {
        let mut room = Room::new();
        let span = move |groups| {
            for p in &text.paragraphs[text.numbers(groups)] {
                work(text, black_box(p), black_box(g), &mut room);
            }
        };
        spans.push((name, Box::new(span)));
    };
    add("split", |_, p, g, r| {
        black_box(split(&p.notes, g, &mut r.table));
    });
    add("quick", |t, p, g, r| quick(t.table(p), p.n, g, &mut r.marks));
    add("best", |t, p, g, r| best(t.table(p), p.n, g, &mut r.work, &mut r.marks));
    add("emit", |t, p, g, r| {
        black_box(emit(&p.notes, t.table(p), p.n, g, t.marks(p), &mut r.out));
    });
    add("quick+emit", |t, p, g, r| {
        quick(t.table(p), p.n, g, &mut r.marks);
        black_box(emit(&p.notes, t.table(p), p.n, g, &r.marks, &mut r.out));
    });
    add("best+emit", |t, p, g, r| {
        best(t.table(p), p.n, g, &mut r.work, &mut r.marks);
        black_box(emit(&p.notes, t.table(p), p.n, g, &r.marks, &mut r.out));
    });
    add("split+quick+emit", |_, p, g, r| {
        black_box(format(&p.notes, g, true, r));
    });
    add("split+best+emit", |_, p, g, r| {
        black_box(format(&p.notes, g, false, r));
    });
    spans
}

/// One build of the original: its answer to a text, and its spans. Its types are the build's own, hence a macro.
macro_rules! original {
    ($module:ident, $build:ident) => {
        pub mod $module {
            use super::{black_box, Range, Setting, Span, Text};
            use $build::linebreak::{break_lines, breakers};

            fn options(g: Setting, is_quick: bool) -> $build::FmtOptions {
                let mut args = vec!["-w".to_string(), g.width.to_string(), "-g".to_string(), g.goal.to_string()];
                if is_quick {
                    args.push("-q".to_string());
                }
                if g.uniform {
                    args.push("-u".to_string());
                }
                $build::options(args)
            }

            pub fn answer(notes: &[u8], g: Setting, is_quick: bool) -> Vec<u8> {
                $build::format(&options(g, is_quick), notes)
            }

            /// Splitting, breaks alone, the two breakers with output, and `break_lines` with either.
            pub fn spans(text: &Text, g: Setting) -> Vec<Span<'static>> {
                // For the whole run: words refer to their paragraph, and that to its options.
                let o = &*Box::leak(Box::new(options(g, false)));
                let o_quick = &*Box::leak(Box::new(options(g, true)));
                let paragraphs: Vec<_> = text.paragraphs.iter().map(|p| breakers::paragraph(o, &p.notes)).collect();
                let paragraphs = &*Box::leak(paragraphs.into_boxed_slice());
                let words: Vec<_> = paragraphs.iter().map(|p| breakers::split(o, p)).collect();
                let words = &*Box::leak(words.into_boxed_slice());
                let group = text.group;
                let mut spans: Vec<Span<'static>> = Vec::new();
                macro_rules! add {
                    ($name:expr, |$p:ident, $w:ident, $out:ident| $work:expr) => {
                        let mut out = Vec::<u8>::with_capacity(1 << 17);
                        let span = move |groups: Range<usize>| {
                            for i in groups.start * group..groups.end * group {
                                let ($p, $w, $out) = (black_box(&paragraphs[i]), black_box(&words[i]), &mut out);
                                $out.clear();
                                black_box($work);
                                black_box(&out);
                            }
                        };
                        spans.push((concat!(stringify!($module), " ", $name), Box::new(span)));
                    };
                }
                add!("split", |p, _w, out| breakers::split(o, p));
                add!("find", |p, w, out| breakers::find(o, p, w, out));
                add!("simple", |p, w, out| breakers::simple(o, p, w, out));
                add!("knuth_plass", |p, w, out| breakers::knuth_plass(o, p, w, out));
                add!("lines quick", |p, _w, out| break_lines(p, o_quick, out));
                add!("lines", |p, _w, out| break_lines(p, o, out));
                spans
            }
        }
    };
}

original!(cube, fmt_cube);
original!(powf, fmt_powf);
