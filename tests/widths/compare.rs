// Holds the listed widths and white space against the Rust's, at every character.
use std::io::{self, BufRead};
#[cfg(width_crate)]
use unicode_width::UnicodeWidthChar;

fn main() {
    let mut width = vec![1u8; 0x110000];
    let mut white = vec![false; 0x110000];
    for line in io::stdin().lock().lines().map(|l| l.unwrap()) {
        let mut words = line.split(' ');
        let kind = words.next().unwrap().to_string();
        let n: Vec<usize> = words.map(|w| w.parse().unwrap()).collect();
        for c in n[0]..=n[1] {
            match kind.as_str() {
                "width" => width[c] = n[2] as u8,
                "white" => white[c] = true,
                _ => panic!("{}", line),
            }
        }
    }
    let (mut count, mut blanks, mut differ) = (0, 0, 0);
    for c in '\0'..=char::MAX {
        let here = c as usize;
        count += 1;
        blanks += white[here] as usize;
        let mut same = white[here] == c.is_whitespace();
        // As the Rust's fmt asks: 1 below U+00A0, where the width crate has none for controls.
        #[cfg(width_crate)]
        {
            same &= width[here] as usize == if here < 0xA0 { 1 } else { c.width().unwrap_or(1) };
        }
        if !same {
            differ += 1;
            println!("U+{:04X}: width {}, white space {}", here, width[here], white[here]);
        }
    }
    let with = if cfg!(width_crate) { "white space and the width crate" } else { "white space" };
    println!("widths: {} characters, {} of them white space, against the Rust's {}: {} differ", count, blanks, with, differ);
    std::process::exit((differ != 0) as i32);
}
