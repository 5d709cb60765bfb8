"""What the Rust does not have, by hand from the words of RULES: refusals, keep and glue; and the examples of RULES 10.

Each case: option block, notes, length of the output slice (which holds `.` before the call), code, N, output afterwards (bytes, or
SAME: unchanged, or ZERO: all zero).
"""

SAME, ZERO = "same", "zero"


def field(tag, value):
    return bytes([tag, len(value) >> 8, len(value) & 255]) + value


def number(tag, n):
    return field(tag, bytes([n >> 8, n & 255]))


def flags(*bits):
    return number(1, sum(1 << b for b in bits))


CROWN, TAGGED, MAIL, SPLIT, UNIFORM, QUICK, EXACT, EXACT_SKIP, KEEP, GLUE, CHARACTERS = range(11)
keep, glue = flags(KEEP), flags(GLUE)


def faulty(block, place):
    return (block, b"a\n", 4, 1, place, SAME)


def accepted(block):
    return (block, b"a\n", 4, 0, 2, b"a\n..")


def damaged(notes, place):
    return (b"", notes, 3, 3, place, SAME)


def kept(block, notes, out):
    return (block, notes, len(out) + 1, 0, len(out), out + b".")


def glued(bits, fields, notes, out):
    """With glue on. `~` is U+00A0 and `^` is U+0085."""
    spelled = [text.replace(b"~", b"\xc2\xa0").replace(b"^", b"\xc2\x85") for text in (fields, notes, out)]
    return kept(flags(GLUE, *bits) + spelled[0], *spelled[1:])


def prefix(text):
    return b"\x05" + bytes([0, len(text) + text.count(b"~")]) + text


def skip(text):
    return b"\x06" + bytes([0, len(text) + text.count(b"~")]) + text


def prefix_of(text):
    return field(5, text.encode())


w10 = number(2, 10)
quick10 = flags(QUICK) + w10

# the sixteen trial texts, all of them examples of RULES
TRIALS = [
    kept(b"", b"", b""),
    kept(b"", b" \t\n", b"\n"),
    kept(b"", b"abc\r\n", b"abc\n"),
    kept(b"", b"a.\nb\n", b"a. b\n"),
    kept(b"", b"x a.\nb\n", b"x a.  b\n"),
    kept(flags(UNIFORM), b"a  b\n", b"a b\n"),
    kept(flags(UNIFORM), b"a.\xc2\xa0b\n", b"a.  b\n"),
    kept(quick10, b"aaaa bbbbb c\n", b"aaaa bbbbb\nc\n"),
    kept(quick10, b"aaaa bbbbbb c\n", b"aaaa\nbbbbbb c\n"),
    kept(w10, b"aa bbbbbbbb c\n", b"aa bbbbbbbb\nc\n"),
    kept(w10, b"aaaa bbbbbbb c\n", b"aaaa\nbbbbbbb c\n"),
    kept(flags(TAGGED), b"a\nb\n", b"a\nb\n"),
    kept(flags(CROWN), b"  a\nb\nc\n", b"  a b c\n"),
    kept(field(5, b">"), b"> a\n> b\nc\n", b"> a b\nc\n"),
    kept(flags(MAIL), b"To: a\n c\n", b"To: a c\n"),
    kept(keep, b"a\n\xb0 b\nc\n", b"a\n\xb0 b\nc\n"),
]


CASES = TRIALS + [
    # 1: unknown tags
    faulty(b"\0\0\0", 0),
    faulty(field(7, b""), 0),
    faulty(number(2, 20) + field(9, b"x"), 5),
    # 1: wrong order, a repeated tag: the later field is at fault
    faulty(number(2, 20) + flags(), 5),
    faulty(flags() + flags(), 5),
    faulty(field(6, b"x") + field(5, b"x"), 4),
    # 1: cut short, in the tag's, the length's and the value's bytes
    faulty(b"\x02", 0),
    faulty(b"\x02\0", 0),
    faulty(b"\x02\0\x02", 0),
    faulty(b"\x02\0\x02\0", 0),
    faulty(flags() + b"\x02\0\x02\0", 5),
    faulty(flags() + b"\x05\0\x02x", 5),
    # 1: bad length, bad value
    faulty(field(2, b"\x14"), 0),
    faulty(field(2, b"\0\x14\0"), 0),
    accepted(flags(10)),
    faulty(flags(11), 0),
    faulty(flags(15), 0),
    faulty(number(2, 0), 0),
    faulty(number(2, 1001), 0),
    faulty(number(3, 0), 0),
    faulty(number(3, 1001), 0),
    faulty(number(4, 101), 0),
    faulty(field(5, b"\xb0"), 0),
    faulty(field(6, b"a\xed\xa0\x80"), 0),
    accepted(field(6, b"a\xc2\xad")),
    accepted(field(6, "中\u0301\U0001f600".encode())),
    faulty(field(5, b"x" * 256), 0),
    accepted(field(6, b"x" * 255)),
    accepted(number(4, 0)),
    accepted(number(4, 100)),
    accepted(flags(0, 1, 2, 3, 4, 5, 6, 7, 8, 9)),
    # 1: width and goal; the place is the block's length
    faulty(number(2, 5), 5),
    accepted(number(2, 6)),
    accepted(number(2, 1000)),
    faulty(number(3, 2), 5),
    accepted(number(3, 3)),
    accepted(number(3, 940)),
    faulty(number(3, 941), 5),
    faulty(number(2, 10) + number(3, 11), 10),
    faulty(number(2, 10) + number(3, 4), 10),
    accepted(number(2, 10) + number(3, 5)),
    accepted(number(2, 1) + number(3, 1)),
    faulty(flags() + number(2, 5) + number(4, 8), 15),
    # 2: notes over 65,536 bytes; a faulty block comes before
    (b"", b"a" * 65537, 3, 2, 0, SAME),
    (b"\x02", b"a" * 65537, 3, 1, 0, SAME),
    # 3: the first byte at which no character of RFC 3629 begins
    damaged(b"\xb0", 0),
    damaged(b"a\n\xb0", 2),
    damaged(b"ab\xcc", 2),
    damaged(b"\xc0\x80", 0),
    damaged(b"\xe0\x80\x80", 0),
    damaged(b"a\xc3", 1),
    damaged(b"a\xc3\nb", 1),
    damaged(b"\xed\xa0\x80", 0),
    damaged(b"\xed\xbf\xbf", 0),
    damaged(b"\xe2\x82", 0),
    damaged("\u20ac中".encode() + b"\xe4\xb8", 6),
    damaged(b"\xf0\x8f\xbf\xbf", 0),
    damaged(b"\xf4\x90\x80\x80", 0),
    damaged(b"\xf5\x80\x80\x80", 0),
    damaged(b"\x80", 0),
    damaged(b"\xff", 0),
    damaged(b"\xcb\xbf\xcc\x80\xcc", 4),
    # keep: a damaged line is plain, up to its line end
    kept(keep, b"\xb0", b"\xb0\n"),
    kept(keep, b"a\xb0\r\nb", b"a\xb0\nb\n"),
    kept(keep, b"\xb0\r", b"\xb0\r\n"),
    kept(keep, b"a\nb\n\xb0  x \nc\nd\n", b"a b\n\xb0  x \nc d\n"),
    kept(keep, b"a\xc3\nb\n", b"a\xc3\nb\n"),
    kept(keep, b"\xc2\xad\n\xe2\x82\xac\n", b"\xc2\xad \xe2\x82\xac\n"),
    # RULES 4.2: every character of RFC 3629, noncharacters too; two columns, one, none
    *(kept(b"", (c + "\n").encode(), (c + "\n").encode()) for c in "\u00ad\u0300\u07ff\u0800\ud7ff\ue000\ufffd\uffff\U00010000\U0010ffff"),
    kept(quick10, "中中 中中 c\n".encode(), "中中 中中\nc\n".encode()),
    kept(quick10, "中中 中中a c\n".encode(), "中中 中中a\nc\n".encode()),
    kept(quick10, "中中a 中中a c\n".encode(), "中中a\n中中a c\n".encode()),
    kept(quick10, "a\u0301a\u0301a\u0301a\u0301a\u0301 bbbb c\n".encode(), "a\u0301a\u0301a\u0301a\u0301a\u0301 bbbb\nc\n".encode()),
    kept(quick10, "aaaa \u0301 bbbb c\n".encode(), "aaaa \u0301 bbbb\nc\n".encode()),
    kept(quick10, "\U0001f600\U0001f600\U0001f600\U0001f600\U0001f600 c\n".encode(), "\U0001f600\U0001f600\U0001f600\U0001f600\U0001f600\nc\n".encode()),
    # blanks are the White_Space set: one column between words, their own width in an indent
    *(kept(b"", (c + "\n").encode(), b"\n") for c in "\u1680\u2000\u200a\u2028\u2029\u202f\u205f\u3000"),
    *(kept(b"", (c + "\n").encode(), (c + "\n").encode()) for c in "\u180e\u200b\u2060\ufeff"),
    kept(quick10, "aaaa\u3000bbbbb c\n".encode(), "aaaa\u3000bbbbb\nc\n".encode()),
    kept(quick10, "aaaa\u3000bbbbbb c\n".encode(), "aaaa\nbbbbbb c\n".encode()),
    kept(quick10, "\u3000aaa bbbb c\n".encode(), "\u3000aaa bbbb\n\u3000c\n".encode()),
    kept(quick10, "\u3000aaa bbbbb c\n".encode(), "\u3000aaa\n\u3000bbbbb c\n".encode()),
    kept(quick10, "\u2003aaa bbbbb c\n".encode(), "\u2003aaa bbbbb\n\u2003c\n".encode()),
    kept(flags(UNIFORM), "a\u2003b\u3000\u3000c\n".encode(), b"a b c\n"),
    # sentences part by bytes, or by characters with bit 10; mail counts bytes
    kept(flags(UNIFORM), "a.\u3000b\n".encode(), b"a.  b\n"),
    kept(flags(UNIFORM, CHARACTERS), "a.\u3000b\n".encode(), b"a. b\n"),
    kept(flags(UNIFORM, CHARACTERS), "a.\u3000\u3000b\n".encode(), b"a.  b\n"),
    kept(flags(MAIL, QUICK) + w10, "To: 中中 bb\n".encode(), "To: 中中\n  bb\n".encode()),
    # prefixes accept what notes accept
    kept(prefix_of("中"), "中 a\n中 b\nc\n".encode(), "中 a b\nc\n".encode()),
    # glue off: U+00A0 is a blank everywhere
    kept(flags(UNIFORM), b"4.2\xc2\xa0K\n", b"4.2 K\n"),
    kept(b"", b"\xc2\xa0\n", b"\n"),
    kept(quick10, b"aaaa bb\xc2\xa0bbb c\n", b"aaaa bb\nbbb c\n"),
    kept(field(5, b">"), b">\xc2\xa0a\n>\xc2\xa0b\n", b">\xc2\xa0a b\n"),
    # RULES 4.4: ordinary between two characters that are no blanks, in a run as well; a column each, and part of its word
    glued([UNIFORM], b"", b"4.2~K\n", b"4.2~K\n"),
    glued([UNIFORM], b"", b"a~~b ~~~c\n", b"a~~b c\n"),
    glued([QUICK], w10, b"aaaa bb~bbb c\n", b"aaaa\nbb~bbb c\n"),
    glued([QUICK], w10, b"aaaa b~bbb c\n", b"aaaa b~bbb\nc\n"),
    # a line of U+00A0 alone is blank and ends a paragraph
    glued([], b"", b"~\n", b"\n"),
    glued([], b"", b"~~~", b"\n"),
    glued([], b"", b"a\n~~\nb\n", b"a\n\nb\n"),
    glued([], b"", b"a\n~\r\nb\n", b"a\n\nb\n"),
    glued([], b"", b"a\n ~\t^\nb\n", b"a\n\nb\n"),
    # at a line's edges it is blank: part of the indent, or left out
    glued([], b"", b"~a~\n", b"~a\n"),
    glued([], b"", b"~a\n~b\n", b"~a b\n"),
    glued([], b"", b"~~a~~b~~\n~~c~~\n", b"~~a~~b c\n"),
    glued([], b"", b"~a\nb\n", b"~a\nb\n"),
    glued([], b"", b"a~\r\nb\n", b"a b\n"),
    glued([], b"", b"a~\r", b"a\n"),
    glued([], b"", b" ~a\n ~b\n", b" ~a b\n"),
    glued([TAGGED], b"", b"a\n~b\n~c\n", b"a b c\n"),
    glued([CROWN], b"", b"~a\n~~b\n~~c\n", b"~a b c\n"),
    # beside a blank it is blank: a space, a tab, U+0085, a carriage return, on either side, and through further U+00A0
    *(glued([UNIFORM], b"", b"a" + gap + b"b\n", b"a b\n") for gap in (b" ~", b"~ ", b"~ ~", b"\t~", b"~\t", b"^~", b"~^", b"~^~", b"\r~", b"~\r", b" ~~", b"~~\t", b"~~ ~")),
    glued([], b"", b"a ~b\n", b"a ~b\n"),
    glued([UNIFORM], b"", b"a~b ~c~ d~e\n", b"a~b c d~e\n"),
    # beside punctuation, and where sentences part: a word that ends in U+00A0 there is none
    glued([UNIFORM], b"", b"a.~b\n", b"a.~b\n"),
    glued([UNIFORM], b"", b"a.~ b\n", b"a.  b\n"),
    glued([UNIFORM], b"", b"a~.  b\n", b"a~.  b\n"),
    glued([UNIFORM], b"", b"a.~~b. ~c\n", b"a.~~b.  c\n"),
    glued([], b"", b"x a.~\nb\n", b"x a.  b\n"),
    glued([UNIFORM, CHARACTERS], b"", b"a.~ b c. d\n", b"a.  b c. d\n"),
    # behind a prefix the whole line decides
    glued([], prefix(b">"), b">~a\n>~b\n", b">~a ~b\n"),
    glued([], prefix(b">"), b">~~a\n>~~b\n", b">~~a ~~b\n"),
    glued([], prefix(b">"), b"> ~a\n> ~b\n", b"> ~a b\n"),
    glued([], prefix(b">"), b">~ a\n>~ b\n", b">~ a b\n"),
    glued([], prefix(b">"), b">~a\n> b\n", b">~a\n> b\n"),
    glued([UNIFORM], prefix(b">"), b">~a ~b\n", b">~a b\n"),
    glued([], prefix(b"> "), b"> ~a\n> ~b\n", b"> ~a b\n"),
    glued([], prefix(b""), b"~a\n~b\n", b"~a b\n"),
    # only blanks behind the prefix: plain
    glued([], prefix(b">"), b">~\n>~a\n", b">~\n>~a\n"),
    glued([], prefix(b">"), b">a\n>~ ~\n>b\n", b">a\n>~ ~\n>b\n"),
    # behind blanks and a prefix; exact, at the line's start alone
    glued([], prefix(b">"), b"~>a\n~>b\n", b"~>a b\n"),
    glued([], prefix(b">"), b" ~>~a\n ~>~b\n", b" ~>~a ~b\n"),
    glued([], prefix(b">"), b"~ > ~a\n~ > ~b\n", b"~ > ~a b\n"),
    glued([EXACT], prefix(b">"), b"~>a\n~>b\n", b"~>a\n~>b\n"),
    glued([EXACT], prefix(b">"), b">~a\n>~b\n", b">~a ~b\n"),
    glued([], skip(b"#"), b"~#a\n~b\n", b"~#a\n~b\n"),
    glued([EXACT_SKIP], skip(b"#"), b"~#a\n~b\n", b"~#a b\n"),
    # prefix text is matched by its bytes
    glued([], prefix(b"~"), b"~a\n~b\nc~d\n", b"~a b\nc~d\n"),
    glued([], prefix(b"~"), b"~~a\n~~b\n", b"~~a b\n"),
    glued([], prefix(b">~"), b">~a\n>~b\n", b">~a b\n"),
    glued([], prefix(b">~"), b">~~a\n>~~b\n", b">~~a ~b\n"),
    glued([], prefix(b">~"), b">~ a\n>~ b\n", b">~ a b\n"),
    glued([], skip(b"a~"), b"a~b\na~\nc\n", b"a~b\na~\nc\n"),
    # mail headers: their lines are taken whole
    glued([MAIL], b"", b"To:~a\n~b\n", b"To:~a b\n"),
    glued([MAIL], b"", b"To: a~\n ~b~c\n", b"To: a b~c\n"),
    glued([MAIL], b"", b"~To: a\n b\n", b"~To: a\n b\n"),
    glued([MAIL], b"", b"A~: b\n c\n", b"A~: b\n c\n"),
    glued([MAIL], b"", b"From~a\n b\n", b"From~a\n b\n"),
    # damaged bytes: the line is plain, the lines beside it as ever
    glued([KEEP], b"", b"a~\xb0\n~b\n~c\n", b"a~\xb0\n~b c\n"),
    glued([KEEP], b"", b"~\xb0\n\xb0~\n~\n\xc2\n", b"~\xb0\n\xb0~\n\n\xc2\n"),
    glued([KEEP, UNIFORM], b"", b"a~b\n\xc3~\nc ~d\n", b"a~b\n\xc3~\nc d\n"),
    # RULES 6.2: one blank of two bytes is over one by bytes, not by characters; two blanks and a tab part sentences by either
    *(
        kept(flags(UNIFORM, *more), b"a" + end + gap + b"b\n", b"a" + end + (b"  b\n" if wide else b" b\n"))
        for more, lone in (((), True), ((CHARACTERS,), False))
        for gap, many in (
            (b"\xc2\xa0", lone),
            (b"\xc2\x85", lone),
            (b" ", False),
            (b"\xc2\xa0\xc2\xa0", True),
            (b"\xc2\x85\xc2\xa0", True),
            (b"\t", True),
            (b"\xc2\xa0 ", True),
        )
        for end, wide in ((b".", many), (b"?", many), (b"!", many), (b"", False))
    ),
    # it shows under uniform alone; with glue an ordinary U+00A0 is no blank
    kept(flags(CHARACTERS), b"a.\xc2\xa0b\n", b"a.\xc2\xa0b\n"),
    kept(flags(CHARACTERS), b"a.\xc2\x85b c.\nd\n", b"a.\xc2\x85b c.  d\n"),
    kept(flags(UNIFORM, CHARACTERS, GLUE), b"a.\xc2\xa0b\n", b"a.\xc2\xa0b\n"),
    kept(flags(UNIFORM, CHARACTERS, GLUE), b"a.\xc2\x85b\n", b"a. b\n"),
    kept(flags(UNIFORM, GLUE), b"a.\xc2\x85b\n", b"a.  b\n"),
    kept(flags(UNIFORM, CHARACTERS), b"x a.\xc2\xa0b.\n\xc2\xa0c\n", b"x a. b.\n\xc2\xa0c\n"),
    # 4: a paragraph of over 1,024 words, the start of its first line; it comes before 5
    (flags(UNIFORM), b"x\n\n" + b"a " * 1025, 0, 4, 3, ZERO),
    (flags(UNIFORM), b"x\n\n" + b"a " * 1025, 9, 4, 3, ZERO),
    (b"", b"a" * 3000 + b"\xb0", 3, 3, 3000, SAME),
    # 5: the length needed; a slice that is just full
    (b"", b"abc\n", 3, 5, 4, ZERO),
    (b"", b"abc\n", 0, 5, 4, ZERO),
    (b"", b"abc\n", 4, 0, 4, b"abc\n"),
    (b"", b"", 0, 0, 0, b""),
    (b"", b"\xb0", 0, 3, 0, SAME),
]
