//! The texts that are timed: made by rule, so that every machine times the same.

/// A linear congruential generator (Knuth's MMIX constants), so that every machine times the same texts.
pub struct Draw(pub u64);

impl Draw {
    pub fn below(&mut self, n: usize) -> usize {
        self.0 = self.0.wrapping_mul(6364136223846793005).wrapping_add(1442695040888963407);
        (self.0 >> 33) as usize % n
    }
}

const VOCABULARY: &str = "the of and a to in is it at on was for pump valve night shift alarm pressure line again reset by \
operator before after no change temperature still high checked twice left running two compressor stopped restarted without \
fault see log water level steady as expected maintenance";

/// Words of ordinary English lengths in sentences of 6 to 15 words, one blank between words and one or two between
/// sentences, on lines of 60 to 72 columns.
pub fn prose(draw: &mut Draw, words: usize) -> Vec<u8> {
    let vocabulary: Vec<&str> = VOCABULARY.split(' ').collect();
    let (mut text, mut column, mut left) = (String::new(), 0, 6 + draw.below(10));
    for i in 0..words {
        let word = vocabulary[draw.below(vocabulary.len())];
        text.push_str(word);
        column += word.len() + 1;
        left -= 1;
        let ends = left == 0 || i + 1 == words;
        if ends {
            text.push(['.', '.', '.', '?', '!'][draw.below(5)]);
            left = 6 + draw.below(10);
        }
        if column > 60 || i + 1 == words {
            text.push('\n');
            column = 0;
        } else {
            text.push_str(if ends && draw.below(2) == 0 { "  " } else { " " });
        }
    }
    text.into_bytes()
}

/// Words of one letter, one blank between them, 36 to a line.
pub fn letters(draw: &mut Draw, words: usize) -> Vec<u8> {
    let mut text = Vec::new();
    for i in 1..=words {
        text.push(b'a' + draw.below(26) as u8);
        text.push(if i % 36 == 0 || i == words { b'\n' } else { b' ' });
    }
    text
}

/// Another script: a letter for each of ours, and what stands between two words.
pub type Script = (&'static str, &'static str);
pub const CYRILLIC: Script = ("абвгдежзийклмнопрстуфхцчшщ", " ");
pub const GREEK: Script = ("αβγδεζηθικλμνξοπρστυφχψως", " ");
pub const CHINESE: Script = ("天地玄黄宇宙洪荒日月盈昃辰宿列张", " ");
pub const JAPANESE: Script = ("いろはにほへとちりぬるをワカヨタレソ", "\u{3000}");
pub const HINDI: Script = ("कखगि\u{940}घ\u{94d}चछज\u{947}टठ\u{902}डढ", " ");
pub const THAI: Script = ("กข\u{e31}คง\u{e34}จฉ\u{e48}ชซ\u{e39}ญฐ", " ");

/// Prose in another script.
pub fn spelled(prose: Vec<u8>, (letters, gap): Script) -> Vec<u8> {
    let letters: Vec<char> = letters.chars().collect();
    let spell = |b: u8| match b {
        b'a'..=b'z' => letters[(b - b'a') as usize % letters.len()].to_string(),
        b' ' => gap.to_string(),
        b => (b as char).to_string(),
    };
    prose.into_iter().map(spell).collect::<String>().into_bytes()
}

pub type Kind = fn(&mut Draw, usize) -> Vec<u8>;

/// The texts: name, generator, words a paragraph, width, uniform spacing. The goal is what the original takes for the width.
pub const TEXTS: [(&str, Kind, usize, usize, bool); 12] = [
    ("prose", prose, 10, 79, false),
    ("prose", prose, 100, 79, false),
    ("prose", prose, 1000, 79, false),
    ("prose", prose, 1024, 79, false),
    ("prose", prose, 1000, 1000, false),
    ("prose", prose, 1000, 20, false),
    ("letters", letters, 10, 79, false),
    ("letters", letters, 1024, 79, false),
    ("letters", letters, 1024, 1000, false),
    ("letters", letters, 1024, 20, false),
    ("prose -u", prose, 1000, 79, true),
    ("lett. -u", letters, 1024, 79, true),
];

/// Each text has eight groups of paragraphs, all different, of about 1,000 words a group: too many for the processor to
/// learn by heart, as it does with one paragraph that comes again and again.
pub const GROUPS: usize = 8;

/// How many paragraphs of so many words a group has.
pub fn group(words: usize) -> usize {
    (1000 / words).max(1)
}
