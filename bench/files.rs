//! The archive year as files: the command, file by file and several at once, beside other programs.

use crate::archive::{shown, Day, DAYS};
use crate::clock;
use std::path::{Path, PathBuf};
use std::process::{Command, Stdio};
use std::time::Instant;

/// The year in a folder of its own: the notes as they are, and as the original is shown them.
fn put(days: &[Day]) -> PathBuf {
    let folder = std::env::temp_dir().join(format!("rudignals-year-{}", std::process::id()));
    for (name, of) in [("notes", false), ("shown", true)] {
        std::fs::create_dir_all(folder.join(name)).expect("a folder");
        for (n, day) in days.iter().enumerate() {
            let text = if of { shown(&day.notes) } else { day.notes.clone() };
            std::fs::write(folder.join(name).join(format!("{n:03}")), text).expect("a file");
        }
    }
    folder
}

/// Wall clock and processor time of a line of shell, the least of each of five runs.
fn timed(folder: &Path, line: &str) -> Option<(f64, f64)> {
    let (mut wall, mut processor) = (f64::MAX, f64::MAX);
    for _ in 0..5 {
        let (began, used) = (Instant::now(), clock::children());
        let ran = Command::new("sh").args(["-c", line]).current_dir(folder).stdout(Stdio::null()).output().ok()?;
        wall = wall.min(began.elapsed().as_secs_f64());
        processor = processor.min(clock::children() - used);
        if !ran.status.success() {
            eprintln!("{}", String::from_utf8_lossy(&ran.stderr).lines().last()?);
            return None;
        }
    }
    Some((wall, processor))
}

fn row(folder: &Path, name: &str, line: &str) {
    match timed(folder, line) {
        Some((wall, processor)) => println!("{name:<46} {:>8.1} {:>8.1}", wall * 1e3, processor * 1e3),
        None => println!("{name:<46} failed"),
    }
}

/// How many digests of two programs are equal byte for byte.
fn equal(folder: &Path, one: &str, other: &str) -> usize {
    let run = |line: &str, n: usize| {
        let line = format!("{line} shown/{n:03}");
        Command::new("sh").args(["-c", &line]).current_dir(folder).output().expect("a shell").stdout
    };
    (0..DAYS).filter(|n| run(one, *n) == run(other, *n)).count()
}

fn at_hand(path: &str) -> bool {
    Command::new(path).arg("--version").stdout(Stdio::null()).stderr(Stdio::null()).status().map_or(false, |s| s.success())
}

/// Debian's rust-coreutils puts its programs here.
const UUTILS: &str = "/usr/lib/cargo/bin/coreutils/fmt";

pub fn print(command: &str, days: &[Day]) {
    let folder = put(days);
    let cores = std::thread::available_parallelism().map_or(1, |n| n.get());
    println!("\nThe year as {DAYS} files to /dev/null: ms by the clock on the wall, and of processor time; least of 5 runs");
    for (breaker, quick) in [("quick", " -q"), ("Knuth-Plass", "")] {
        let ours = format!("{command} format --keep -m{quick}");
        let mut programs = vec![("the command", ours.clone(), "notes")];
        if quick.is_empty() && at_hand("fmt") {
            programs.push(("GNU fmt", "fmt -w 79 -g 74".to_string(), "notes"));
        }
        let uutils = format!("{UUTILS} -m -P $(printf '\\001'){quick}");
        if at_hand(UUTILS) {
            programs.push(("uutils (Debian)", uutils.clone(), "shown"));
        }
        for (name, line, from) in &programs {
            let name = format!("{name}, {}", if *name == "GNU fmt" { "its own rule" } else { breaker });
            row(&folder, &format!("{name}, file by file"), &format!("set -e; for f in {from}/*; do {line} $f; done"));
            row(&folder, &format!("{name}, xargs -n 8 -P {cores}"), &format!("ls {from}/* | xargs -n 8 -P {cores} {line}"));
            row(&folder, &format!("{name}, all files in one run"), &format!("{line} {from}/*"));
        }
        if at_hand(UUTILS) {
            let ours = format!("{ours} -P $(printf '\\001')");
            println!("of {DAYS} digests {} are the same by the command and by uutils, {breaker}", equal(&folder, &ours, &uutils));
        }
    }
    std::fs::remove_dir_all(folder).ok();
}
