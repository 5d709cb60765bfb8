//! Writing with an index against the original (RULES 12): the pieces are the original's own paragraphs and lines, their output lines
//! the line feeds that it writes for each. Every answer, every byte of the output, every record and the count filled; and lookups.

use crate::model::Original;
use parts::asked::{self, Asked};
use parts::calls::{rudignals_lookup, rudignals_write_indexed, Record};
use parts::guard::Answer;
use parts::texts::Rng;

/// Faults put in on purpose, each of which must be seen.
pub const TAMPERS: [&str; 8] = ["none", "first", "length", "count", "order", "filled", "record", "line"];

const SPARE: usize = 3;
const UNTOUCHED: u64 = 0x2e2e_2e2e_2e2e_2e2e;

pub struct Indexed {
    original: Original,
    r: Rng,
    tamper: &'static str,
    calls: u64,
    pieces: u64,
    codes: [u64; 7],
    output: Vec<u8>,
    index: Vec<Record>,
}

impl Indexed {
    pub fn new(seed: u64, tamper: &'static str) -> Indexed {
        Indexed { original: Original::new(), r: Rng(seed ^ 0x1d3), tamper, calls: 0, pieces: 0, codes: [0; 7], output: Vec::new(), index: Vec::new() }
    }

    /// A call with so much room and so many records; what differs from the right answer, digest and index.
    fn fault(&mut self, (block, notes): &Asked, right: &Answer, want: &[Record], room: usize, records: usize) -> Option<&'static str> {
        let (mut code, mut number) = right.numbers(room);
        if let Answer::Done(_) = right {
            if want.len() > records && !(self.tamper == "order" && code == 5) {
                (code, number) = (6, want.len());
            }
        }
        self.output.clear();
        self.output.resize(room + SPARE, 0x2e);
        self.index.clear();
        self.index.resize(records + SPARE, [UNTOUCHED; 4]);
        let mut filled = 77;
        let answer = unsafe {
            rudignals_write_indexed(
                block.as_ptr(),
                block.len(),
                notes.as_ptr(),
                notes.len(),
                self.output.as_mut_ptr(),
                room,
                self.index.as_mut_ptr(),
                records,
                &mut filled,
            )
        };
        self.calls += 1;
        self.codes[code as usize] += 1;
        if answer != (code as u64) << 32 | number as u64 {
            return Some("another answer");
        }
        let done = if code == 0 { want.len() } else { 0 };
        if filled != (done + (self.tamper == "filled") as usize) as u64 {
            return Some("another count of filled records");
        }
        if self.index[..done] != want[..done] || self.index[done..].iter().any(|r| *r != [UNTOUCHED; 4]) {
            return Some("another record");
        }
        let left = match code {
            0 => 0x2e,
            4..=6 => 0,
            _ => 0x2e,
        };
        let digest = match right {
            Answer::Done(digest) if code == 0 => &digest[..],
            _ => &[],
        };
        if self.output[..digest.len()] != *digest
            || self.output[digest.len()..room].iter().any(|b| *b != left)
            || self.output[room..].iter().any(|b| *b != 0x2e)
        {
            return Some("another output");
        }
        self.looked(notes, want, done, records)
    }

    /// Each output line leads to its piece, and the line behind the last nowhere.
    fn looked(&mut self, notes: &[u8], want: &[Record], done: usize, records: usize) -> Option<&'static str> {
        let lines = want[..done].last().map_or(0, |r| r[2] + r[3]);
        let line = self.r.below(lines as usize + 2) as u64;
        let mut part = [46, 47];
        let told = unsafe { rudignals_lookup(self.index.as_ptr(), records, done as u64, notes.as_ptr(), notes.len(), line, part.as_mut_ptr()) };
        let holds = |r: &&Record| r[2] <= line && line < r[2] + r[3] + (self.tamper == "line") as u64;
        let right = want[..done].iter().find(holds).map(|r| [r[0], r[1]]);
        if told != right.is_some() as u64 || part != right.unwrap_or([46, 47]) {
            return Some("a line leads elsewhere");
        }
        None
    }

    fn ask(&mut self, asked: &Asked) -> Option<&'static str> {
        let right = self.original.answer(&asked.0, &asked.1);
        let (mut want, needed) = match &right {
            Answer::Done(digest) => (self.original.index(&asked.0, &asked.1), digest.len()),
            _ => (Vec::new(), 0),
        };
        self.pieces += want.len() as u64;
        if let Some(record) = want.last_mut() {
            match self.tamper {
                "first" => record[2] += 1,
                "length" => record[1] -= 1,
                "count" => record[3] += 1,
                "record" => record[0] += 1,
                _ => {}
            }
        }
        let more = self.r.below(4);
        let mut calls = vec![(needed + more, want.len() + more)];
        if let Answer::Done(_) = right {
            calls.push((needed, want.len()));
            if needed > 0 {
                calls.extend([(needed - 1, want.len()), (needed, want.len() - 1), (needed - 1, want.len() - 1)]);
            }
        }
        calls.into_iter().find_map(|(room, records)| self.fault(asked, &right, &want, room, records))
    }
}

fn hex(bytes: &[u8]) -> String {
    bytes.iter().map(|byte| format!("{byte:02x}")).collect()
}

/// Notes of so many pieces that the tables of the call do not hold them: lines of a letter, blank lines and plain ones.
fn many_pieces(r: &mut Rng) -> Asked {
    let split = if r.chance(50) { 8 } else { 0 };
    let block = vec![1, 0, 2, 1, split | if r.chance(50) { 32 } else { 0 } | if r.chance(30) { 4 } else { 0 }];
    let n = 8000 + r.below(57_000);
    let mut notes = Vec::with_capacity(n + 8);
    while notes.len() + 4 < n {
        notes.extend_from_slice([&b"\n"[..], b"a\n", b" b\n", b"c d\n", b"\r\n", b"\xB0\n", b"\t\n"][r.below(7)]);
    }
    (block, notes)
}

pub fn run(seed: u64, count: u64, tamper: &'static str) -> i32 {
    let mut indexed = Indexed::new(seed, tamper);
    let mut r = Rng(seed);
    let tables = asked::tables(seed, 61, 3).into_iter().flat_map(|(_, kind)| kind).step_by(3).take(count as usize / 4);
    let random = asked::random(seed).map(|(_, asked)| asked);
    for (n, asked) in tables.chain(random).take(count as usize).enumerate() {
        let mut asked = asked;
        if n % 2000 == 1999 {
            asked = many_pieces(&mut r);
        }
        if let Some(what) = indexed.ask(&asked) {
            println!("differ: {what}: block {} notes {}", hex(&asked.0), hex(&asked.1[..asked.1.len().min(2000)]));
            return 1;
        }
    }
    let codes: Vec<String> = indexed.codes.iter().enumerate().map(|(code, n)| format!("code {code} {n}")).collect();
    println!("answers: {}", codes.join(", "));
    println!("scale: index: seed {seed}, {count} cases, {} pieces, {} calls, no difference", indexed.pieces, indexed.calls);
    0
}
