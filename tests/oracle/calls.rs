//! The library's calls, as include/rudignals.h declares them, for every program that links it.

/// A record of the index: place, length, first line, count of lines.
pub type Record = [u64; 4];

#[link(name = "rudignals", kind = "static", modifiers = "-bundle")]
extern "C" {
    pub fn rudignals_measure(options: *const u8, options_len: usize, notes: *const u8, notes_len: usize) -> u64;
    pub fn rudignals_write(
        options: *const u8,
        options_len: usize,
        notes: *const u8,
        notes_len: usize,
        output: *mut u8,
        output_len: usize,
    ) -> u64;
    pub fn rudignals_format(
        options: *const u8,
        options_len: usize,
        notes: *const u8,
        notes_len: usize,
        output: *mut u8,
        output_len: usize,
    ) -> u64;
    pub fn rudignals_write_indexed(
        options: *const u8,
        options_len: usize,
        notes: *const u8,
        notes_len: usize,
        output: *mut u8,
        output_len: usize,
        index: *mut Record,
        records: usize,
        filled: *mut u64,
    ) -> u64;
    pub fn rudignals_measure_large(
        options: *const u8,
        options_len: usize,
        notes: *const u8,
        notes_len: usize,
        work: *mut u32,
        work_len: usize,
    ) -> u64;
    pub fn rudignals_write_large(
        options: *const u8,
        options_len: usize,
        notes: *const u8,
        notes_len: usize,
        output: *mut u8,
        output_len: usize,
        work: *mut u32,
        work_len: usize,
    ) -> u64;
    pub fn rudignals_lookup(index: *const Record, records: usize, filled: u64, notes: *const u8, notes_len: usize, line: u64, part: *mut u64) -> u64;
    pub fn rudignals_explain(options: *const u8, options_len: usize, notes: *const u8, notes_len: usize, line: u64, reason: *mut u64) -> u64;
    pub fn rudignals_explain_large(
        options: *const u8,
        options_len: usize,
        notes: *const u8,
        notes_len: usize,
        line: u64,
        reason: *mut u64,
        work: *mut u32,
        work_len: usize,
    ) -> u64;
    pub fn rudignals_panel(digest: *const u8, digest_len: usize, tab: u64, cells: *mut u32) -> u64;
    pub fn rudignals_fold(text: *const u8, text_len: usize, tab: u64, columns: u64, output: *mut u8, output_len: usize) -> u64;
}
