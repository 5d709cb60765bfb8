//! Folding by the words of docs/RULES.md, written for this test alone: code, N and the output afterwards.

/// A rule changed on purpose, to see that the comparison sees it.
#[derive(Clone, Copy, PartialEq, Debug)]
pub enum Fault {
    None,
    TabZeroIsEight,
    TabFromTheLine,
    TabTakesOne,
    ReturnTakesAColumn,
    LastReturnEnds,
    TwoReturnsEnd,
    WideTakesOne,
    ZeroWidthTakesOne,
    ZeroWidthBreaks,
    ZeroWidthIsNone,
    ControlTakesNone,
    DamageAsOne,
    FormFeedEnds,
    OneColumnLess,
    FirstBreaks,
    LastFeedAdded,
    RoomKept,
    RoomOneLess,
    RestCleared,
    TabLimit,
    ColumnLimit,
    NoColumns,
}

pub const FAULTS: [Fault; 22] = [
    Fault::TabZeroIsEight,
    Fault::TabFromTheLine,
    Fault::TabTakesOne,
    Fault::ReturnTakesAColumn,
    Fault::LastReturnEnds,
    Fault::TwoReturnsEnd,
    Fault::WideTakesOne,
    Fault::ZeroWidthTakesOne,
    Fault::ZeroWidthBreaks,
    Fault::ZeroWidthIsNone,
    Fault::ControlTakesNone,
    Fault::DamageAsOne,
    Fault::FormFeedEnds,
    Fault::OneColumnLess,
    Fault::FirstBreaks,
    Fault::LastFeedAdded,
    Fault::RoomKept,
    Fault::RoomOneLess,
    Fault::RestCleared,
    Fault::TabLimit,
    Fault::ColumnLimit,
    Fault::NoColumns,
];

pub struct Rules<'a> {
    pub widths: &'a [u8],
    pub fault: Fault,
}

impl Rules<'_> {
    fn has(&self, fault: Fault) -> bool {
        self.fault == fault
    }

    /// What stands at the front: its bytes, and its number if it is a character; the standard library decides.
    fn front(&self, text: &[u8]) -> (usize, Option<u32>) {
        for n in 1..=text.len().min(4) {
            if let Ok(s) = std::str::from_utf8(&text[..n]) {
                return (n, s.chars().next().map(|c| c as u32));
            }
        }
        let bad = match std::str::from_utf8(&text[..text.len().min(4)]) {
            Err(e) if self.has(Fault::DamageAsOne) => e.error_len().unwrap_or(text.len().min(4)),
            _ => 1,
        };
        (bad, None)
    }

    /// The column behind a character that begins at a column; `from` is the column of its row's start in its line.
    fn behind(&self, tab: u64, column: u64, from: u64, code: Option<u32>) -> u64 {
        match code {
            Some(9) if self.has(Fault::TabTakesOne) => column + 1,
            Some(9) if self.has(Fault::TabFromTheLine) => ((from + column) / tab + 1) * tab - from,
            Some(9) => (column / tab + 1) * tab,
            Some(c) if self.has(Fault::ControlTakesNone) && (c < 0x20 || (0x7F..0xA0).contains(&c)) => column,
            Some(c) => match self.widths[c as usize] {
                2 if self.has(Fault::WideTakesOne) => column + 1,
                0 if self.has(Fault::ZeroWidthTakesOne) => column + 1,
                w => column + w as u64,
            },
            None => column + 1,
        }
    }

    /// A line without its line end, in rows.
    fn rows(&self, line: &[u8], tab: u64, columns: u64, out: &mut Vec<u8>) {
        let columns = if self.has(Fault::OneColumnLess) { columns - 1 } else { columns };
        let (mut column, mut from, mut characters, mut at) = (0, 0, 0, 0);
        while at < line.len() {
            let (bytes, code) = self.front(&line[at..]);
            let none = code.map_or(false, |c| self.widths[c as usize] == 0) && !self.has(Fault::ZeroWidthBreaks);
            let end = self.behind(tab, column, from, code);
            if end > columns && !none && (characters > 0 || self.has(Fault::FirstBreaks)) {
                out.push(b'\n');
                from += column;
                column = self.behind(tab, 0, from, code);
                characters = 0;
            } else {
                column = end;
            }
            if !(none && self.has(Fault::ZeroWidthIsNone)) {
                characters += 1;
            }
            out.extend(&line[at..at + bytes]);
            at += bytes;
        }
    }

    pub fn folded(&self, text: &[u8], tab: u64, columns: u64) -> Vec<u8> {
        let tab = match tab {
            0 if self.has(Fault::TabZeroIsEight) => 8,
            0 => 1,
            t => t,
        };
        let mut out = Vec::new();
        let mut rest = text;
        while !rest.is_empty() {
            let feed = rest.iter().position(|&b| b == b'\n' || self.has(Fault::FormFeedEnds) && b == 0x0C);
            let (mut line, behind) = rest.split_at(feed.unwrap_or(rest.len()));
            let mut end = Vec::new();
            if feed.is_some() || self.has(Fault::LastReturnEnds) {
                while line.last() == Some(&b'\r') && !self.has(Fault::ReturnTakesAColumn) {
                    end.push(b'\r');
                    line = &line[..line.len() - 1];
                    if !self.has(Fault::TwoReturnsEnd) {
                        break;
                    }
                }
            }
            self.rows(line, tab, columns, &mut out);
            out.extend(end);
            rest = behind;
            if let Some((&last, behind)) = rest.split_first() {
                out.push(last);
                rest = behind;
            } else if self.has(Fault::LastFeedAdded) {
                out.push(b'\n');
            }
        }
        out
    }

    /// Code, N and what the output holds afterwards.
    pub fn fold(&self, text: &[u8], tab: u64, columns: u64, output: &[u8]) -> (u64, u64, Vec<u8>) {
        let most_tab = if self.has(Fault::TabLimit) { 101 } else { 100 };
        let most_columns = if self.has(Fault::ColumnLimit) { 1001 } else { 1000 };
        if tab > most_tab || columns == 0 && !self.has(Fault::NoColumns) || columns > most_columns {
            return (1, 0, output.to_vec());
        }
        if text.len() > 1_073_741_824 {
            return (2, 0, output.to_vec());
        }
        let mut all = self.folded(text, tab, columns);
        let needed = all.len() as u64;
        let room = if self.has(Fault::RoomOneLess) { output.len().saturating_sub(1) } else { output.len() };
        if all.len() > room {
            let zero = if self.has(Fault::RoomKept) { output.to_vec() } else { vec![0; output.len()] };
            return (5, needed, zero);
        }
        let rest = &output[all.len()..];
        if self.has(Fault::RestCleared) {
            all.extend(vec![0; rest.len()]);
        } else {
            all.extend(rest);
        }
        (0, needed, all)
    }
}
