//! Formats standard input at 60 columns.
//!
//!     rustc --edition 2021 -o notes notes.rs $(pkg-config --libs-only-L rudignals)
use std::io::{Read, Write};

/// The library: what is unsafe is in here, and cannot be called wrongly from outside.
mod rudignals {
    use std::{ffi::CStr, fmt, os::raw::c_char};

    #[link(name = "rudignals")]
    extern "C" {
        fn rudignals_measure(options: *const u8, options_len: usize, notes: *const u8, notes_len: usize) -> u64;
        fn rudignals_write(options: *const u8, options_len: usize, notes: *const u8, notes_len: usize, output: *mut u8, output_len: usize) -> u64;
        fn rudignals_code_words(code: u32) -> *const c_char;
    }

    #[derive(Debug)]
    pub struct Refused {
        pub code: u32,
        pub number: u32,
    }

    impl fmt::Display for Refused {
        fn fmt(&self, out: &mut fmt::Formatter) -> fmt::Result {
            let words = unsafe { CStr::from_ptr(rudignals_code_words(self.code)) };
            write!(out, "{} (N {})", words.to_string_lossy(), self.number)
        }
    }

    fn done(answer: u64) -> Result<usize, Refused> {
        let (code, number) = ((answer >> 32) as u32, answer as u32);
        if code == 0 { Ok(number as usize) } else { Err(Refused { code, number }) }
    }

    /// The field of an option block that holds a number. Tag 2 is the width.
    pub fn number(tag: u8, value: u16) -> [u8; 5] {
        [tag, 0, 2, (value >> 8) as u8, value as u8]
    }

    pub fn format(options: &[u8], notes: &[u8]) -> Result<Vec<u8>, Refused> {
        let mut digest = vec![0; done(unsafe { rudignals_measure(options.as_ptr(), options.len(), notes.as_ptr(), notes.len()) })?];
        done(unsafe { rudignals_write(options.as_ptr(), options.len(), notes.as_ptr(), notes.len(), digest.as_mut_ptr(), digest.len()) })?;
        Ok(digest)
    }
}

fn main() -> std::io::Result<()> {
    let mut notes = Vec::new();
    std::io::stdin().read_to_end(&mut notes)?;
    match rudignals::format(&rudignals::number(2, 60), &notes) {
        Ok(digest) => std::io::stdout().write_all(&digest),
        Err(refused) => {
            eprintln!("refused: {refused}");
            std::process::exit(1)
        }
    }
}
