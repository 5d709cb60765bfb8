//! The wall panel by the words of RULES 15, written for this test alone: the cells that a digest shows, and the code.

pub const ROWS: usize = 24;
pub const COLUMNS: usize = 80;
pub const CELLS: usize = ROWS * COLUMNS;
const BLANK: u32 = 0x20;

/// A rule changed on purpose, to see that the comparison sees it.
#[derive(Clone, Copy, PartialEq, Debug)]
pub enum Fault {
    None,
    TabMarks,
    PlusEarly,
    FillerKept,
    FirstLines,
    WideCut,
    ReturnKept,
    TabRunsOver,
    ControlShown,
    DamageSkipped,
    ZeroWidthTakesCell,
}

pub const FAULTS: [Fault; 10] = [
    Fault::TabMarks,
    Fault::PlusEarly,
    Fault::FillerKept,
    Fault::FirstLines,
    Fault::WideCut,
    Fault::ReturnKept,
    Fault::TabRunsOver,
    Fault::ControlShown,
    Fault::DamageSkipped,
    Fault::ZeroWidthTakesCell,
];

/// Lines end at a line feed; a carriage return just before it goes too. A last line without a line feed counts and keeps its carriage return.
fn lines(digest: &[u8], fault: Fault) -> Vec<&[u8]> {
    let mut found: Vec<&[u8]> = Vec::new();
    let mut rest = digest;
    while !rest.is_empty() {
        match rest.iter().position(|&b| b == b'\n') {
            None => {
                found.push(rest);
                rest = &[];
            }
            Some(n) => {
                let (line, behind) = rest.split_at(n);
                found.push(match line.split_last() {
                    Some((b'\r', front)) if fault != Fault::ReturnKept => front,
                    _ => line,
                });
                rest = &behind[1..];
            }
        }
    }
    found
}

/// The character that a text begins with, by the standard library.
fn first(text: &[u8]) -> Option<char> {
    (1..=4.min(text.len())).find_map(|n| std::str::from_utf8(&text[..n]).ok()?.chars().next())
}

/// A row of cells for a line.
fn row(line: &[u8], tab: usize, widths: &[u8], fault: Fault) -> Vec<u32> {
    let mut cells = vec![BLANK; COLUMNS];
    let (mut column, mut over, mut at) = (0, false, 0);
    while at < line.len() {
        let (mut code, mut width) = (0xFFFD, 1);
        match first(&line[at..]) {
            None => {
                at += 1;
                if fault == Fault::DamageSkipped {
                    continue;
                }
            }
            Some('\t') => {
                at += 1;
                if fault == Fault::TabMarks && column < COLUMNS {
                    cells[column] = 0x09;
                }
                column = (column / tab + 1) * tab;
                over |= fault == Fault::TabRunsOver && column > COLUMNS;
                continue;
            }
            Some(c) => {
                at += c.len_utf8();
                code = c as u32;
                width = widths[code as usize] as usize;
                if c.is_control() && fault != Fault::ControlShown {
                    code = BLANK;
                }
                if width == 0 && fault == Fault::ZeroWidthTakesCell {
                    width = 1;
                }
            }
        }
        if width == 0 {
            continue;
        }
        if column + width <= COLUMNS {
            cells[column] = code;
            if width == 2 {
                cells[column + 1] = 0;
            }
        } else {
            over = true;
            if fault == Fault::WideCut && column < COLUMNS {
                return [&cells[..column], &[code]].concat();
            }
        }
        column += width;
    }
    if over {
        let last = COLUMNS - 1 - (fault == Fault::PlusEarly) as usize;
        if cells[last] == 0 && fault != Fault::FillerKept {
            cells[last - 1] = BLANK;
        }
        cells[last] = '+' as u32;
    }
    cells
}

/// The code and the cells.
pub fn panel(digest: &[u8], tab: u64, widths: &[u8], fault: Fault) -> (u64, Vec<u32>) {
    if tab > 100 {
        return (1, vec![BLANK; CELLS]);
    }
    let tab = if tab == 0 { 1 } else { tab as usize };
    let all = lines(digest, fault);
    let shown = if fault == Fault::FirstLines { &all[..all.len().min(ROWS)] } else { &all[all.len().saturating_sub(ROWS)..] };
    let mut cells = vec![BLANK; (ROWS - shown.len()) * COLUMNS];
    for line in shown {
        cells.extend(row(line, tab, widths, fault));
    }
    (0, cells)
}
