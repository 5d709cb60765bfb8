"""unflow: mail read, files of any length in parts that end a paragraph."""
import pathlib
import sys

from .calls import ROOT, RUDIGNALS, expect, expect_same, run

sys.path.insert(0, str(ROOT / "tests/flow"))
import model  # noqa: E402
import texts  # noqa: E402


def run_all(folder):
    short = b"a \r\nb\r\n> c \r\n> d\r\n-- \r\nsig"
    read = b"a b\r\n>c d\r\n-- \r\nsig\r\n"
    expect("unflow: standard input", run(["unflow"], short, RUDIGNALS), (0, read, ""))
    path = pathlib.Path(folder) / "mail"
    path.write_bytes(short)
    expect("unflow: a file", run(["unflow", str(path)], b"", RUDIGNALS), (0, read, ""))
    expect("unflow: nothing", run(["unflow", "-"], b"", RUDIGNALS), (0, b"", ""))
    rng = texts.seeded(2026)
    long = b"".join(texts.mail(rng).rstrip(b"\r\n") + b"\r\nx\r\n" for _ in range(8000))
    status, got, words = run(["unflow"], long, RUDIGNALS)
    expect("unflow: status and words of a long file", (status, words), (0, ""))
    expect_same("unflow: a long file", got, model.unflowed(long))
    # soft lines, each ended by CR LF, up to and over the end of the first part: they go on
    soft = b"x\r\n" + b"a \r\n" * 13106 + b"b\r\nc\r\n"
    expect_same("unflow: no cut behind a soft line", run(["unflow"], soft + soft, RUDIGNALS)[1], (b"x\r\n" + b"a " * 13106 + b"b\r\nc\r\n") * 2)
    # the reading is three times as long as the text, and the header's room is for more
    expect("unflow: one quote mark", run(["unflow"], b">", RUDIGNALS), (0, b">\r\n", ""))
    expect_same("unflow: quote marks and line feeds", run(["unflow"], b"x\n\n" * 40000 + b">", RUDIGNALS)[1], b"x\r\n\r\n" * 40000 + b">\r\n")
    too_long = "rudignals: standard input: a paragraph has more than 65536 bytes\n"
    expect("unflow: a paragraph without an end", run(["unflow"], b"a \n" * 30000, RUDIGNALS), (1, b"", too_long))
    expect("unflow: two files", run(["unflow", "a", "b"], b"", RUDIGNALS)[:2], (2, b""))
    expect("unflow: an option", run(["unflow", "-w"], b"", RUDIGNALS)[:2], (2, b""))
