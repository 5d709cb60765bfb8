//! The library's calls, made.

#[path = "../tests/oracle/calls.rs"]
#[allow(dead_code)]
mod calls;

use calls::{rudignals_format, rudignals_measure, rudignals_write};

/// An answer's code and number.
fn read(answer: u64) -> (u32, usize) {
    ((answer >> 32) as u32, answer as u32 as usize)
}

/// Writing, which does what the call did before it was split.
pub fn call(block: &[u8], notes: &[u8], output: &mut [u8]) -> (u32, usize) {
    let (b, n, o) = (block, notes, output);
    read(unsafe { rudignals_write(b.as_ptr(), b.len(), n.as_ptr(), n.len(), o.as_mut_ptr(), o.len()) })
}

/// Measuring: the length needed.
pub fn measured(block: &[u8], notes: &[u8]) -> (u32, usize) {
    let (b, n) = (block, notes);
    read(unsafe { rudignals_measure(b.as_ptr(), b.len(), n.as_ptr(), n.len()) })
}

/// Both in sequence.
pub fn formatted(block: &[u8], notes: &[u8], output: &mut [u8]) -> (u32, usize) {
    let (b, n, o) = (block, notes, output);
    read(unsafe { rudignals_format(b.as_ptr(), b.len(), n.as_ptr(), n.len(), o.as_mut_ptr(), o.len()) })
}
