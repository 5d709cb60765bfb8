//! The cases: options and notes. Fixed lists of telling ones, streams of random
//! ones, and the list whose answers are committed.

use crate::options::*;
use crate::texts::*;
use std::collections::HashSet;

pub struct Case {
    pub opts: Opts,
    pub notes: String,
}

fn opts(flags: u16, width: u16, goal: u16) -> Opts {
    let some = |n| if n == 0 { None } else { Some(n) };
    Opts { flags: some(flags), width: some(width), goal: some(goal), ..Opts::default() }
}

fn with_prefix(flags: u16, prefix: &str) -> Opts {
    Opts { prefix: Some(prefix.to_string()), ..opts(flags, 0, 0) }
}

/// The examples of RULES 10 that the original can do (keep is ours), and
/// the smallest texts that tell apart readings of its rules.
pub fn trials() -> Vec<(Opts, &'static str, &'static str)> {
    vec![
        (opts(0, 0, 0), "", ""),
        (opts(0, 0, 0), " \t\n", "\n"),
        (opts(0, 0, 0), "abc\r\n", "abc\n"),
        (opts(0, 0, 0), "a.\nb\n", "a. b\n"),
        (opts(0, 0, 0), "x a.\nb\n", "x a.  b\n"),
        (opts(UNIFORM, 0, 0), "a  b\n", "a b\n"),
        (opts(UNIFORM, 0, 0), "a.\u{a0}b\n", "a.  b\n"),
        (opts(QUICK, 10, 0), "aaaa bbbbb c\n", "aaaa bbbbb\nc\n"),
        (opts(QUICK, 10, 0), "aaaa bbbbbb c\n", "aaaa\nbbbbbb c\n"),
        (opts(0, 10, 0), "aa bbbbbbbb c\n", "aa bbbbbbbb\nc\n"),
        (opts(0, 10, 0), "aaaa bbbbbbb c\n", "aaaa\nbbbbbbb c\n"),
        (opts(TAGGED, 0, 0), "a\nb\n", "a\nb\n"),
        (opts(CROWN, 0, 0), "  a\nb\nc\n", "  a b c\n"),
        (with_prefix(0, ">"), "> a\n> b\nc\n", "> a b\nc\n"),
        (opts(MAIL, 0, 0), "To: a\n c\n", "To: a c\n"),
        // An empty prefix differs from none for mail alone.
        (opts(MAIL, 0, 0), "A:\n b\n", "A: b\n"),
        (with_prefix(MAIL, ""), "A:\n b\n", "A:\n b\n"),
        // The fit test and emission space a paragraph's second word differently.
        (opts(UNIFORM, 2, 2), ".  a", ".  a\n"),
        (opts(0, 2, 2), ".\na", ". a\n"),
        // No break before a word on a fresh line.
        (opts(UNIFORM, 2, 2), "a .\naaa a a", "a .\naaa\na\na\n"),
    ]
}

/// Short texts on which a near miss of the Knuth-Plass rules shows: flags,
/// width, goal, notes. They were found by changing one rule of the original at
/// a time and searching for the shortest text that came out differently.
const TELLING: &[(u16, u16, u16, &str)] = &[
    // Among equal offers the first stands.
    (0, 7, 6, "aa\nb. c d\neee ff"),
    (0, 8, 4, "a b c ddd eeeeeeee"),
    (0, 7, 4, "a b c ddd eeeee fff"),
    // A restart is from the first least break.
    (0, 7, 4, "a b c dd eeeeeeee"),
    (0, 6, 4, "a b c dd\neeeeee fff"),
    (0, 10, 9, "a bbbbbb c ddddd eeeee"),
    // The end takes the first least break.
    (0, 6, 4, "a b\nc d"),
    (0, 7, 6, "aa bb c dd"),
    (0, 10, 8, "aaaaa b c d"),
    // A restart never breaks before a fresh line's word; its ratio is 1 or -1.
    (0, 2, 2, "a b ccccc"),
    (0, 7, 4, "aaaaaa bb c dd ee"),
    (0, 8, 4, "aaaaaaa bb c ddd e"),
    (0, 5, 4, "aa\nbbb ccc d e"),
    (UNIFORM, 9, 7, "aaa bbbbbbb ccc.\nd e"),
    (UNIFORM, 8, 6, "aaa bbbb. cccc dd eee"),
    // The sentence mark in the fit test.
    (0, 6, 3, "a b.\nc"),
    (0, 4, 3, "aa\nb.\nc"),
    (0, 9, 8, "aa bbb.\nc"),
    (UNIFORM, 8, 6, "aaa b.  cc d"),
    // The factors 100, 300 and 600, their truncation, the 1 and the cubes.
    (0, 10, 5, "aa bb\ncc. d"),
    (0, 11, 6, "aaa bb\nccc dd"),
    (0, 16, 8, "a bbb c ddddddd eee"),
    (0, 17, 9, "aa bbb ccccccccc ddd"),
    (0, 14, 7, "aa bb c dddddd eeee"),
    (0, 14, 8, "aa bb ccccccc.\ndddd."),
    (UNIFORM, 15, 9, "a b cc dddddddd ee ffff"),
    (0, 17, 11, "aa bbbb\nc ddd eeeee."),
    (0, 22, 12, "aaaaaaaa\nb c ddddddddd."),
    (0, 6, 3, "a b ccc d eee"),
    (0, 8, 4, "a bb cccc d ee"),
    (0, 10, 6, "aa bb ccc d"),
];

/// Where a term in f32 differs from the exact one, and the break with it:
/// width, goal, lengths of the words. W at stretch 450 and 468; D at stretch
/// 210, 420 and 467.
const F32: &[(u16, u16, &[usize])] = &[
    (900, 450, &[3, 2, 1, 892]),
    (936, 468, &[1, 211, 170, 552]),
    (420, 210, &[99, 331, 1, 27, 59]),
    (840, 420, &[150, 700, 1, 19, 118]),
    (934, 467, &[435, 509, 1, 2, 420]),
];

fn telling() -> Vec<Case> {
    let short = TELLING.iter().map(|&(flags, width, goal, notes)| {
        (opts(flags, width, goal), notes.to_string())
    });
    let long = F32.iter().map(|&(width, goal, lengths)| {
        let words: Vec<String> = lengths.iter().map(|&length| "a".repeat(length)).collect();
        (opts(0, width, goal), words.join(" "))
    });
    short.chain(long).map(|(opts, notes)| Case { opts, notes }).collect()
}

/// Every boundary of RULES, each under a few texts that reach it.
fn boundaries() -> Vec<Case> {
    let mut cases = Vec::new();
    let mut add = |opts: &Opts, texts: &[&str]| {
        for text in texts {
            cases.push(Case { opts: opts.clone(), notes: text.to_string() });
        }
    };

    let texts = &[
        "a", "aaaaaaa bb\n", "a b c d e f g\n", "aa. bbb\ncc  d. e\n", "a\tb\t\tc\n",
        "\ta\n\tb c\n", "  a bb ccc\n  d\n", "a\r\nb\r\nc\r", "a\u{85}b \u{85}c\n",
        "a.\u{a0}b.\u{a0}\u{a0}c\n", "ab abc ab abc abcd a ab\n", "éé é ÿÿÿ ē ˿ ēē\n",
    ];
    for (width, goal) in [
        (6, 0), (7, 0), (1000, 0), (0, 3), (0, 4), (0, 940), (1, 1), (2, 1), (2, 2), (4, 2), (5, 3),
        (5, 5), (6, 3), (6, 5), (6, 6), (941, 941), (1000, 500), (1000, 941), (1000, 1000),
    ] {
        add(&opts(0, width, goal), texts);
        add(&opts(QUICK, width, goal), texts);
        add(&opts(UNIFORM, width, goal), &texts[3..7]);
    }

    let texts = &[
        "a\tb", "a \t b\t \tcc\n", "\ta \tb\n\tc\n", " \ta\n\tb\n", "ab.\tc\td e\tf\tg\n",
        "\t\ta\tb c\td e\n",
    ];
    for tab in [0, 1, 2, 7, 8, 100] {
        for flags in [0, QUICK, UNIFORM, CROWN] {
            add(&Opts { tab: Some(tab), ..opts(flags, 12, 9) }, texts);
        }
    }

    let long = "é".repeat(127) + ">";
    for prefix in ["", " ", "\t", ">", "> ", "é", "\u{a0}", "\u{85}a", "a", "\n", &long] {
        let line = prefix.to_string() + "a bb";
        let lines = &[
            line.clone() + "\n" + &line + "\n",
            format!(" {line}\n {line}\n{line}\n"),
            format!("{prefix}\n {prefix} \n\t{line}\n"),
            format!("{prefix}  a\n{prefix} b\nc {prefix}\n"),
            format!("\u{a0}{line}\n\t{line}\n \u{85}{line}"),
            "a\n\nb".to_string(),
        ];
        let texts: Vec<&str> = lines.iter().map(|line| &line[..]).collect();
        for (flags, width, goal) in
            [(0, 0, 0), (EXACT | EXACT_SKIP, 0, 0), (QUICK, 6, 0), (CROWN, 8, 5), (MAIL, 0, 0)]
        {
            let none = opts(flags, width, goal);
            add(&Opts { prefix: Some(prefix.to_string()), ..none.clone() }, &texts);
            add(&Opts { skip: Some(prefix.to_string()), ..none }, &texts[..4]);
        }
    }

    // Lines that agree in all but the prefix place, or all but the prefix length
    // or the indent length.
    let texts = &[
        "\u{a0}\u{a0}>  a\n  >\u{a0}\u{a0}b\n  >\u{a0}\u{a0}c\n", " >\ta\n\t>\tb\n\t>\tc\n",
        "\t>\ta\n\t>\tb\n >\tc\n", "> \ta\n>\t b\n>\t c\n", ">\t a\n>\t b\n> \tc\n",
        ">\u{a0} a\n>   b\n>   c\n", ">\ta\n> b\n> c\n",
    ];
    for flags in [0, CROWN, TAGGED] {
        add(&Opts { tab: Some(2), ..with_prefix(flags, ">") }, texts);
    }

    let texts = &[
        "To: a b c\n d e\n\tf\n", "From a\nb: c\n\nd\n", "a b: c\nd\n", "A:\n\nB: c\n d\n",
        ":a\n b\n", "é: a\n b\n", "A: \u{a0}é  b.  c\n x.\n y\n", "x\nA: b\n c\n",
        "A: b\nx\nB: c\n d\n", "~!: a\nFrom\n From b\n", "\u{7f}: a\n b\n", "> x\nA: b\n c\n",
        " A: b\n c\n", "A: bb.  c ddd. e\n",
    ];
    for flags in [0, UNIFORM, CROWN, TAGGED, SPLIT, GLUE] {
        add(&opts(MAIL | flags, 7, 4), texts);
    }
    add(&with_prefix(MAIL, ""), texts);
    add(&with_prefix(MAIL, "A"), texts);
    add(&Opts { skip: Some(">".to_string()), ..opts(MAIL, 0, 0) }, texts);

    let texts = &[
        "  a\n    b\n    c\n  d\n", "a\n  b\nc\n", "- a b\n  c d\n- e f\n", "\ta b\n        c\n",
        "a\n\u{a0}b\n c\n", "  a bb c dd\n", "    a\n a\n a\n", "\ta\n\tb\n",
    ];
    for flags in [0, CROWN, SPLIT, QUICK, UNIFORM] {
        add(&opts(TAGGED | flags, 9, 6), texts);
    }
    add(&opts(CROWN, 9, 6), texts);
    add(&opts(CROWN | SPLIT, 9, 6), texts);
    cases
}

/// The limits: 1,024 words in a paragraph, each a break place; a prefix of 255
/// bytes before every word; notes of 65,536 bytes.
fn limits() -> Vec<Case> {
    let case = |opts, notes: String| Case { opts, notes };
    let long = "é".repeat(127) + ">";
    let blank_lines = (" ".repeat(1023) + "\n").repeat(64);
    vec![
        case(opts(0, 1, 1), "a\n".repeat(1024)),
        case(opts(0, 1, 1), "a ".repeat(1024)),
        case(opts(UNIFORM, 6, 3), "ab. c\n".repeat(512)),
        case(opts(QUICK, 1000, 0), "abcd ef\n".repeat(512)),
        case(opts(QUICK, 0, 940), "a ".repeat(1002)),
        case(opts(0, 0, 940), "abc ".repeat(600)),
        case(opts(QUICK, 0, 62), "a ".repeat(72)),
        case(opts(QUICK, 0, 63), "a ".repeat(72)),
        case(opts(0, 72, 0), "ab ".repeat(60)),
        case(opts(0, 100, 0), "ab ".repeat(80)),
        case(opts(QUICK, 0, 0), "a ".repeat(82)),
        case(opts(0, 0, 0), "a ".repeat(82)),
        case(Opts { width: Some(6), ..with_prefix(0, &long) }, long.clone() + &" ab".repeat(40)),
        case(opts(0, 0, 0), blank_lines),
    ]
}

/// The symbols of the exhaustive texts.
const SYMBOLS: [&str; 8] = ["a", ".", " ", "\n", "\t", "\r", "\u{a0}", ":"];

/// Every text of up to so many symbols, under each of some narrow option sets.
pub fn exhaustive(symbols: u32) -> impl Iterator<Item = Case> {
    let mut sets = Vec::new();
    for flags in [0, UNIFORM, QUICK, CROWN, TAGGED, MAIL] {
        for (width, goal) in [(1, 1), (2, 1), (3, 2), (4, 2), (6, 4)] {
            sets.push(opts(flags, width, goal));
        }
    }
    for prefix in ["", "a", " ", ":"] {
        sets.push(Opts { prefix: Some(prefix.to_string()), ..opts(MAIL, 4, 3) });
        sets.push(Opts { skip: Some(prefix.to_string()), ..opts(SPLIT, 4, 3) });
    }
    let base = SYMBOLS.len();
    sets.into_iter().flat_map(move |opts| {
        (0..=symbols).flat_map(move |length| {
            let opts = opts.clone();
            // The symbols of a text are the digits of its number.
            (0..base.pow(length)).map(move |number| Case {
                opts: opts.clone(),
                notes: (0..length).map(|place| SYMBOLS[number / base.pow(place) % base]).collect(),
            })
        })
    })
}

/// Random cases without end: short and middling, narrow and wide.
pub fn random(seed: u64) -> impl Iterator<Item = Case> {
    let mut r = Rng(seed);
    std::iter::from_fn(move || {
        let short = r.chance(75);
        let opts = random_options(&mut r, if short { 12 } else { 40 });
        let size = 1 + r.below(if short { 60 } else { 400 });
        let notes = match r.below(4) {
            0 => hostile(&mut r, size),
            1 => plain_words(&mut r),
            2 => edges(&mut r, &opts),
            _ => random_text(&mut r, &opts, size),
        };
        Some(Case { opts, notes })
    })
}

/// Prose without end.
pub fn proses(seed: u64) -> impl Iterator<Item = Case> {
    let mut r = Rng(seed);
    std::iter::from_fn(move || {
        let opts = random_options(&mut r, 90);
        let size = 100 + r.below(4000);
        let notes = prose(&mut r, &opts, size);
        Some(Case { opts, notes })
    })
}

/// The committed list: the smallest first.
pub fn vectors(seed: u64) -> Vec<Case> {
    let mut r = Rng(seed);
    let trial = |(opts, notes, _): (_, &str, _)| Case { opts, notes: notes.to_string() };
    let mut cases: Vec<Case> = trials().into_iter().map(trial).collect();
    cases.extend(telling());
    cases.extend(boundaries());
    cases.extend(limits());
    for _ in 0..800 {
        let opts = random_options(&mut r, 8);
        let symbols = 3 + r.below(14);
        let notes = hostile(&mut r, symbols);
        cases.push(Case { opts, notes });
    }
    for _ in 0..300 {
        let mut opts = Opts::default();
        measure(&mut r, &mut opts, 20);
        opts.flags = if r.chance(25) { Some(UNIFORM) } else { None };
        let notes = plain_words(&mut r);
        cases.push(Case { opts, notes });
    }
    for (count, most, least, spread) in
        [(1000, 12, 8, 32), (330, 30, 80, 200), (40, 60, 300, 300)]
    {
        for _ in 0..count {
            let opts = random_options(&mut r, most);
            let bytes = least + r.below(spread);
            let notes = random_text(&mut r, &opts, bytes);
            cases.push(Case { opts, notes });
        }
    }
    for (count, least, spread) in [(40, 100, 300), (14, 1000, 3000), (1, 7700, 1)] {
        for _ in 0..count {
            let opts = random_options(&mut r, 80);
            let bytes = least + r.below(spread);
            let notes = prose(&mut r, &opts, bytes);
            cases.push(Case { opts, notes });
        }
    }
    let mut seen = HashSet::new();
    cases.retain(|case| seen.insert((case.opts.block(), case.notes.clone())));
    cases.sort_by_key(|case| case.notes.len());
    cases
}
