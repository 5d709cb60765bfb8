//! Measuring, writing and the call, with their slices between guard pages: a byte read or written outside ends the run, and every byte of the
//! output is accounted for.

use crate::calls::{rudignals_format, rudignals_measure, rudignals_write};
use std::fs::File;
use std::io::{Read, Write};
use std::os::unix::io::AsRawFd;
use std::process::{Child, Command, Stdio};

/// The right answer to a call, but for its room.
pub enum Answer {
    Done(Vec<u8>),
    Options(usize),
    Long,
    Text(usize),
    Words(usize),
}

impl Answer {
    /// Code and N of measuring: never 5, and of a digest its length.
    pub fn measured(&self) -> (u32, usize) {
        match self {
            Answer::Done(digest) => (0, digest.len()),
            _ => self.numbers(0),
        }
    }

    /// Code and N, for an output of so many bytes.
    pub fn numbers(&self, room: usize) -> (u32, usize) {
        match self {
            Answer::Done(digest) if digest.len() <= room => (0, digest.len()),
            Answer::Done(digest) => (5, digest.len()),
            Answer::Options(place) => (1, *place),
            Answer::Long => (2, 0),
            Answer::Text(place) => (3, *place),
            Answer::Words(place) => (4, *place),
        }
    }
}

/// The calls, in the order in which they are made, and their numbers for a program that makes them (shipped.c).
#[derive(Clone, Copy, PartialEq)]
enum Which {
    Measure,
    Write,
    Format,
}

const ALL: [(Which, &str); 3] = [(Which::Measure, "measure"), (Which::Write, "write"), (Which::Format, "format")];

extern "C" {
    fn mmap(at: *mut u8, size: usize, prot: i32, flags: i32, fd: i32, from: i64) -> *mut u8;
    fn mprotect(at: *mut u8, size: usize, prot: i32) -> i32;
}

/// A guard is as large as the largest page of the machines that this runs on.
pub const GUARD: usize = 65536;
/// So many bytes beside a slice, on the side without a guard, are watched too.
const MARGIN: usize = 64;

/// Memory that can be read and written, with memory that cannot on both sides.
pub struct Area {
    start: *mut u8,
    size: usize,
}

impl Area {
    /// Memory of this process alone, or from that place of a file that is shared.
    pub fn new(size: usize, shared: Option<(&File, usize)>) -> Area {
        const NONE: i32 = 0;
        const READ_WRITE: i32 = 3;
        const PRIVATE_ANONYMOUS_UNRESERVED: i32 = 0x4022;
        const SHARED_FIXED: i32 = 0x11;
        assert_eq!(size % GUARD, 0);
        unsafe {
            let all = mmap(std::ptr::null_mut(), size + 2 * GUARD, NONE, PRIVATE_ANONYMOUS_UNRESERVED, -1, 0);
            assert!(all as isize != -1, "no memory");
            let start = all.add(GUARD);
            match shared {
                None => assert_eq!(mprotect(start, size, READ_WRITE), 0),
                Some((file, from)) => {
                    assert_eq!(mmap(start, size, READ_WRITE, SHARED_FIXED, file.as_raw_fd(), from as i64), start)
                }
            }
            Area { start, size }
        }
    }

    fn offset(&self, slice: &[u8]) -> u64 {
        slice.as_ptr() as u64 - self.start as u64
    }

    /// A slice against the upper guard or the lower.
    pub fn slice(&mut self, size: usize, high: bool) -> &'static mut [u8] {
        assert!(size <= self.size, "a slice of {size} bytes");
        unsafe { std::slice::from_raw_parts_mut(self.start.add(if high { self.size - size } else { 0 }), size) }
    }

    /// The bytes beside such a slice, on its other side.
    pub fn margin(&mut self, size: usize, high: bool) -> &'static mut [u8] {
        let margin = MARGIN.min(self.size - size);
        let at = if high { self.size - size - margin } else { size };
        unsafe { std::slice::from_raw_parts_mut(self.start.add(at), margin) }
    }
}

/// A call: what is asked, the output's length, and which slices stand against the upper guard (bit 0 block, 1 notes, 2 output).
#[derive(Clone)]
pub struct Call {
    pub block: Vec<u8>,
    pub notes: Vec<u8>,
    pub room: usize,
    pub places: usize,
}

pub fn hex(bytes: &[u8]) -> String {
    match bytes {
        [] => "-".to_string(),
        _ => bytes.iter().map(|byte| format!("{byte:02x}")).collect(),
    }
}

impl Call {
    /// As arguments of `--replay`.
    pub fn replay(&self) -> String {
        format!("{} {} {} {}", hex(&self.block), hex(&self.notes), self.room, self.places)
    }

    pub fn parse(args: &[String]) -> Option<Call> {
        let bytes = |text: &str| -> Option<Vec<u8>> {
            let digits = if text == "-" { "" } else { text };
            (0..digits.len()).step_by(2).map(|i| u8::from_str_radix(digits.get(i..i + 2)?, 16).ok()).collect()
        };
        let (block, notes, room, places) = match args {
            [block, notes, room, places] => (block, notes, room, places),
            _ => return None,
        };
        Some(Call { block: bytes(block)?, notes: bytes(notes)?, room: room.parse().ok()?, places: places.parse().ok()? })
    }
}

/// Ends the run at a call that did not come back.
pub fn outside(call: &Call) -> ! {
    println!("differ: a byte outside was read or written\nreplay: {}", call.replay());
    std::process::exit(1)
}

/// What is in the output before the call, again and again: never 0, and not the same at neighbouring places. Twice, so that a part of that
/// length begins anywhere in the first half.
const PERIOD: usize = 256;
static PATTERN: [u8; 2 * PERIOD] = {
    let (mut all, mut at) = ([0; 2 * PERIOD], 0);
    while at < all.len() {
        all[at] = (at as u8).wrapping_mul(37) | 1;
        at += 1;
    }
    all
};
static ZEROS: [u8; PERIOD] = [0; PERIOD];

pub fn fill(slice: &mut [u8]) {
    slice.chunks_mut(PERIOD).for_each(|part| part.copy_from_slice(&PATTERN[..part.len()]));
}

pub fn is_filled(slice: &[u8], from: usize) -> bool {
    slice.chunks(PERIOD).all(|part| *part == PATTERN[from % PERIOD..][..part.len()])
}

pub fn is_zero(slice: &[u8]) -> bool {
    slice.chunks(PERIOD).all(|part| *part == ZEROS[..part.len()])
}

/// A fault put in on purpose, to see that it is found.
pub const TAMPERS: [&str; 16] = [
    "none", "behind", "digest", "zeroed", "kept", "number", "code", "notes", "above", "below", "read-above", "read-below", "less", "five",
    "refused", "measured",
];

/// Where the call is made: in this process, or in a program of its own (shipped.c).
enum Library {
    Linked,
    Apart(Child),
}

pub struct Harness {
    block: Area,
    notes: Area,
    output: Area,
    library: Library,
    tamper: &'static str,
}

/// The sizes of the areas: more than the longest block asked, the longest notes, the longest digest.
const SIZES: [usize; 3] = [2 * GUARD, 4 * GUARD, 80 << 20];

impl Harness {
    /// With a fault behind each call, or with "none".
    pub fn new(tamper: &'static str) -> Harness {
        let [block, notes, output] = SIZES.map(|size| Area::new(size, None));
        Harness { block, notes, output, library: Library::Linked, tamper }
    }

    /// With the calls made by a program that shares its areas as that file.
    pub fn apart(path: &str, command: &[&str]) -> Harness {
        let file = File::options().read(true).write(true).create(true).open(path).expect("the shared file");
        file.set_len(SIZES.iter().sum::<usize>() as u64).expect("room for the shared file");
        let mut from = 0;
        let [block, notes, output] = SIZES.map(|size| {
            from += size;
            Area::new(size, Some((&file, from - size)))
        });
        let child = Command::new(command[0])
            .args(&command[1..])
            .arg(path)
            .args(SIZES.map(|size| size.to_string()))
            .stdin(Stdio::piped())
            .stdout(Stdio::piped())
            .spawn()
            .expect("the program");
        Harness { block, notes, output, library: Library::Apart(child), tamper: "none" }
    }

    /// A call's answer; none if the program that makes the calls has ended. Measuring is not told of the output.
    fn answer(&mut self, which: Which, block: &[u8], notes: &[u8], output: &mut [u8]) -> Option<u64> {
        let (b, n, o) = (block, notes, &mut *output);
        match &mut self.library {
            Library::Linked => Some(unsafe {
                match which {
                    Which::Measure => rudignals_measure(b.as_ptr(), b.len(), n.as_ptr(), n.len()),
                    Which::Write => rudignals_write(b.as_ptr(), b.len(), n.as_ptr(), n.len(), o.as_mut_ptr(), o.len()),
                    Which::Format => rudignals_format(b.as_ptr(), b.len(), n.as_ptr(), n.len(), o.as_mut_ptr(), o.len()),
                }
            }),
            Library::Apart(child) => {
                let offsets = [self.block.offset(block), self.notes.offset(notes), self.output.offset(output)];
                let lengths = [block.len(), notes.len(), output.len()];
                let places = offsets.iter().zip(lengths).flat_map(|(at, n)| [*at, n as u64]);
                let asked: Vec<u8> = std::iter::once(which as u64).chain(places).flat_map(|n| n.to_le_bytes()).collect();
                let mut answer = [0; 8];
                child.stdin.as_mut()?.write_all(&asked).ok()?;
                child.stdout.as_mut()?.read_exact(&mut answer).ok()?;
                Some(u64::from_le_bytes(answer))
            }
        }
    }

    /// Makes the three calls; what is wrong with an answer or with any byte, if anything is. Ends the run if the program that makes the
    /// calls did.
    pub fn fault(&mut self, call: &Call, expected: &Answer) -> Option<String> {
        ALL.iter().find_map(|(which, name)| Some(format!("{name}: {}", self.fault_of(*which, call, expected)?)))
    }

    fn fault_of(&mut self, which: Which, call: &Call, expected: &Answer) -> Option<String> {
        let high = |bit: usize| call.places >> bit & 1 == 1;
        let block = self.block.slice(call.block.len(), high(0));
        let notes = self.notes.slice(call.notes.len(), high(1));
        let output = self.output.slice(call.room, high(2));
        let margin = self.output.margin(call.room, high(2));
        block.copy_from_slice(&call.block);
        notes.copy_from_slice(&call.notes);
        fill(output);
        fill(margin);
        let answer = self.answer(which, block, notes, output).unwrap_or_else(|| outside(call));
        let found = unsafe { self.tampered(which, answer, notes, output) };

        let measured = which == Which::Measure;
        let (code, number) = if measured { expected.measured() } else { expected.numbers(call.room) };
        if found != (code as u64) << 32 | number as u64 {
            return Some(format!("answer {} {}, expected {code} {number}", found >> 32, found as u32));
        }
        let right = match (code, expected) {
            _ if measured => is_filled(output, 0),
            (0, Answer::Done(digest)) => output[..number] == digest[..] && is_filled(&output[number..], number),
            (1..=3, _) => is_filled(output, 0),
            _ => is_zero(output),
        };
        let beside = is_filled(margin, 0) && block[..] == call.block && notes[..] == call.notes;
        (!right || !beside).then(|| format!("code {code}: {}", if right { "a byte outside the output" } else { "the output's bytes" }))
    }

    unsafe fn tampered(&self, which: Which, answer: u64, notes: &mut [u8], output: &mut [u8]) -> u64 {
        let (code, number, size) = (answer >> 32, answer as u32 as usize, output.len());
        match self.tamper {
            "less" if which == Which::Measure && code == 0 && number > 0 => return answer - 1,
            "five" if which == Which::Measure && code == 0 && number > 0 => return answer | 5 << 32,
            "refused" if which == Which::Measure && code == 4 => return 0,
            "measured" if which == Which::Measure && size > 0 => output[size - 1] ^= 2,
            _ if which == Which::Measure => {}
            "behind" if code == 0 && number < size => output[number] ^= 2,
            "digest" if code == 0 && number > 0 => output[number / 2] ^= 1,
            "zeroed" if code >= 4 && size > 0 => output[size - 1] = 1,
            "kept" if (1..=3).contains(&code) && size > 0 => output[0] = 0,
            "number" if code == 5 => return answer + 1,
            "code" if code == 3 => return answer ^ 1 << 32,
            "notes" if !notes.is_empty() => notes[0] ^= 1,
            "above" => *output.as_mut_ptr().add(size) = 0,
            "below" => *output.as_mut_ptr().sub(1) = 0,
            "read-above" => drop(std::ptr::read_volatile(notes.as_ptr().add(notes.len()))),
            "read-below" => drop(std::ptr::read_volatile(notes.as_ptr().sub(1))),
            _ => {}
        }
        answer
    }
}
