//! By hand from the words of RULES: digest, tab width, code, and the rows that are not blank, from the left. U+0000 is a filler.

pub type Case = (&'static str, Vec<u8>, u64, u64, Vec<(usize, String)>);

fn x(n: usize) -> String {
    "x".repeat(n)
}

fn text(s: &str) -> Vec<u8> {
    s.as_bytes().to_vec()
}

/// One line at the bottom.
fn bottom(what: &'static str, digest: Vec<u8>, tab: u64, row: String) -> Case {
    (what, digest, tab, 0, vec![(23, row)])
}

pub fn cases() -> Vec<Case> {
    let numbered: Vec<String> = (0..10000).map(|n| format!("line {}", n)).collect();
    vec![
        ("an empty digest", vec![], 8, 0, vec![]),
        ("one empty line", text("\n"), 8, 0, vec![]),
        bottom("one line", text("abc\n"), 8, "abc".into()),
        bottom("an unended line", text("abc"), 8, "abc".into()),
        ("two rows of different lengths", text("a\nbbb\n"), 8, 0, vec![(22, "a".into()), (23, "bbb".into())]),
        ("an empty line between", text("a\n\nb\n"), 8, 0, vec![(21, "a".into()), (23, "b".into())]),
        ("25 lines", text(&(numbered[..25].join("\n") + "\n")), 8, 0, (0..24).map(|r| (r, numbered[r + 1].clone())).collect()),
        ("10,000 lines", text(&numbered.join("\n")), 8, 0, (0..24).map(|r| (r, numbered[r + 9976].clone())).collect()),
        // tabs
        bottom("a tab marks nothing", text("a\tb\n"), 8, "a       b".into()),
        bottom("a tab at a stop goes to the next", text("aaaa\tb\n"), 4, "aaaa    b".into()),
        bottom("tab width 0 acts as 1", text("\ta\t\tb\n"), 0, " a  b".into()),
        bottom("tab width 100", text("a\t\n"), 100, "a".into()),
        bottom("a tab alone is no more than a move", text(&(x(80) + "\t\t\n")), 8, x(80)),
        bottom("beyond a tab a character runs over", text("\tb\n"), 100, " ".repeat(79) + "+"),
        bottom("and so behind a full row", text(&(x(80) + "\ty\n")), 8, x(79) + "+"),
        // wide characters
        bottom("a wide character and its filler", text("中a\n"), 8, "中\0a".into()),
        bottom("a wide character in the last two cells", text(&(x(78) + "中\n")), 8, x(78) + "中\0"),
        bottom("a wide character with one cell left", text(&(x(79) + "中\n")), 8, x(79) + "+"),
        bottom("so also behind two", text(&(x(77) + "中中\n")), 8, x(77) + "中\0+"),
        bottom("a filler under the mark", text(&(x(78) + "中y\n")), 8, x(78) + " +"),
        bottom("an ideographic space is wide", text("a\u{3000}b\n"), 8, "a\u{3000}\0b".into()),
        // characters without width
        bottom("a combining mark is dropped", text("e\u{301}a\n"), 8, "ea".into()),
        bottom("and never runs over", text(&(x(80) + "\u{301}\u{200B}\n")), 8, x(80)),
        bottom("a line of nothing else", text("\u{301}\u{FEFF}\n"), 8, "".into()),
        // controls
        bottom("controls show as blanks", text("a\u{0}b\u{1B}c\u{7F}d\u{85}e\u{9F}f\n"), 8, "a b c d e f".into()),
        bottom("what shows as itself", text("\u{A0}\u{AD}\u{2028}+\n"), 8, "\u{A0}\u{AD}\u{2028}+".into()),
        // carriage returns
        bottom("a carriage return goes with its line feed", text(&(x(80) + "\r\n")), 8, x(80)),
        bottom("a second one takes a cell", text(&(x(80) + "\r\r\n")), 8, x(79) + "+"),
        bottom("in an unended line it takes a cell", text(&(x(80) + "\r")), 8, x(79) + "+"),
        bottom("within a line it takes a cell", text("a\rb\n"), 8, "a b".into()),
        // damage
        bottom("a damaged byte", b"a\xB0b\n".to_vec(), 8, "a\u{FFFD}b".into()),
        bottom("a cut character, byte by byte", b"\xE4\xB8\xF0\x9F\x98\n".to_vec(), 8, "\u{FFFD}".repeat(5)),
        bottom("an overlong form", b"\xC0\x80\xE0\x80\x80\n".to_vec(), 8, "\u{FFFD}".repeat(5)),
        bottom("a surrogate", b"\xED\xA0\x80\n".to_vec(), 8, "\u{FFFD}".repeat(3)),
        bottom("beyond U+10FFFF", b"\xF4\x90\x80\x80\n".to_vec(), 8, "\u{FFFD}".repeat(4)),
        bottom("the last character", b"\xF4\x8F\xBF\xBF\n".to_vec(), 8, "\u{10FFFF}".into()),
        // running over
        bottom("80 characters", text(&(x(80) + "\n")), 8, x(80)),
        bottom("81 characters", text(&(x(81) + "\n")), 8, x(79) + "+"),
        ("one row runs over, its neighbours do not", text(&("a\n".to_string() + &x(200) + "\nb\n")), 8, 0, vec![(21, "a".into()), (22, x(79) + "+"), (23, "b".into())]),
        // refusals
        ("tab width 101", text("abc\n"), 101, 1, vec![]),
        ("the largest tab width", text("abc\n"), u64::MAX, 1, vec![]),
    ]
}
