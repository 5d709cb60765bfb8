//! The options of one case, as the option block of RULES 3 and as the original's
//! arguments.

use crate::glue::StandIns;

pub const CROWN: u16 = 1 << 0;
pub const TAGGED: u16 = 1 << 1;
pub const MAIL: u16 = 1 << 2;
pub const SPLIT: u16 = 1 << 3;
pub const UNIFORM: u16 = 1 << 4;
pub const QUICK: u16 = 1 << 5;
pub const EXACT: u16 = 1 << 6;
pub const EXACT_SKIP: u16 = 1 << 7;
pub const KEEP: u16 = 1 << 8;
pub const GLUE: u16 = 1 << 9;
pub const CHARACTERS: u16 = 1 << 10;

/// What the original is shown for U+00A0 when glue is on. No case has them otherwise.
pub const STAND_INS: StandIns = StandIns { ordinary: '\u{2fe}', matched: '\u{2fd}' };

#[derive(Clone, Default)]
pub struct Opts {
    pub flags: Option<u16>,
    pub width: Option<u16>,
    pub goal: Option<u16>,
    pub tab: Option<u16>,
    pub prefix: Option<String>,
    pub skip: Option<String>,
}

impl Opts {
    pub fn has(&self, flag: u16) -> bool {
        self.flags.unwrap_or(0) & flag != 0
    }

    /// The option block: one-byte tag, two-byte length, value.
    pub fn block(&self) -> Vec<u8> {
        let number = |n: Option<u16>| n.map(|n| n.to_be_bytes().to_vec());
        let text = |t: &Option<String>| t.as_ref().map(|t| t.as_bytes().to_vec());
        let fields = [
            number(self.flags),
            number(self.width),
            number(self.goal),
            number(self.tab),
            text(&self.prefix),
            text(&self.skip),
        ];
        let mut block = Vec::new();
        for (tag, value) in (1..).zip(fields) {
            if let Some(value) = value {
                block.push(tag);
                block.extend((value.len() as u16).to_be_bytes());
                block.extend(value);
            }
        }
        block
    }

    /// The same options as arguments of the original. It has no keep and no
    /// glue: keep changes nothing in undamaged notes, and glue is acted out
    /// with the stand-ins.
    pub fn args(&self) -> Vec<String> {
        let mut args = Vec::new();
        for (bit, flag) in ["-c", "-t", "-m", "-s", "-u", "-q", "-x", "-X"].iter().enumerate() {
            if self.has(1 << bit) {
                args.push(flag.to_string());
            }
        }
        for (flag, number) in [("-w", self.width), ("-g", self.goal), ("-T", self.tab)] {
            if let Some(number) = number {
                args.extend([flag.to_string(), number.to_string()]);
            }
        }
        for (flag, text) in [("-p", &self.prefix), ("-P", &self.skip)] {
            if let Some(text) = text {
                let shown = if self.has(GLUE) { STAND_INS.prefix(text) } else { text.clone() };
                args.extend([flag.to_string(), shown]);
            }
        }
        args
    }

    /// Notes as the original is shown them.
    pub fn shown(&self, notes: &str) -> String {
        if self.has(GLUE) {
            STAND_INS.notes(notes, (self.prefix.as_ref(), self.has(EXACT)), (self.skip.as_ref(), self.has(EXACT_SKIP)))
        } else {
            notes.to_string()
        }
    }
}
