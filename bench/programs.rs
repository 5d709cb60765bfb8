//! Other programs beside whole calls, by throughput on one large file.

use crate::{call, clock};
use crate::texts::{prose, Draw};
use std::fs::File;
use std::process::{Command, Stdio};

const MIB: usize = 16;
const PART: usize = 65536;

/// Prose of about so many MiB, in parts of at most 64 KiB that end with a paragraph.
fn parts() -> Vec<Vec<u8>> {
    let (mut draw, mut parts, mut all) = (Draw(2026), vec![Vec::new()], 0);
    while all < MIB << 20 {
        let words = 10 + draw.below(141);
        let mut paragraph = prose(&mut draw, words);
        paragraph.push(b'\n');
        all += paragraph.len();
        if parts[parts.len() - 1].len() + paragraph.len() > PART {
            parts.push(Vec::new());
        }
        parts.last_mut().unwrap().extend(paragraph);
    }
    parts
}

fn least(clock: fn() -> f64, mut f: impl FnMut() -> Option<()>) -> Option<f64> {
    let mut least = f64::MAX;
    for _ in 0..5 {
        let began = clock();
        f()?;
        least = least.min(clock() - began);
    }
    Some(least)
}

/// One run of a program from the file to nowhere; none where it is not installed.
fn run(path: &str, program: &str, args: &[&str]) -> Option<()> {
    let status = Command::new(program).args(args).stdin(File::open(path).ok()?).stdout(Stdio::null()).status().ok()?;
    status.success().then_some(())
}

pub fn print() {
    let parts = parts();
    let bytes: usize = parts.iter().map(|p| p.len()).sum();
    let path = std::env::temp_dir().join(format!("rudignals-{}.txt", std::process::id()));
    let path = path.to_str().expect("a path");
    std::fs::write(path, parts.concat()).expect("the large file");
    println!("\nProse of {} bytes at width 79, MB/s of processor time; programs from a file to /dev/null with their start, calls in memory, 64 KiB each", bytes);
    let row = |name: &str, found: Option<f64>| match found {
        Some(seconds) => println!("{name:<44} {:>8.1}", bytes as f64 / seconds / 1e6),
        None => println!("{name:<44} left out: not installed"),
    };
    let mut output = vec![0; 2 * PART];
    let none: &[u8] = &[];
    for (name, block) in [("here, quick", &[1, 0, 2, 0, 32][..]), ("here, Knuth-Plass", none)] {
        row(name, least(clock::own, || Some(parts.iter().for_each(|p| assert_eq!(call(block, p, &mut output).0, 0)))));
    }
    for (name, args) in [("the Rust, quick", vec!["-q".to_string()]), ("the Rust, Knuth-Plass", vec![])] {
        let options = fmt_cube::options(args);
        row(name, least(clock::own, || Some(parts.iter().for_each(|p| drop(fmt_cube::format(&options, p))))));
    }
    row("GNU fmt -w 79 -g 74", least(clock::children, || run(path, "fmt", &["-w", "79", "-g", "74"])));
    row("par 79", least(clock::children, || run(path, "par", &["79"])));
    std::fs::remove_file(path).ok();
}
