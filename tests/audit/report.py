#!/usr/bin/env python3
"""The audit's report in a browser: report.py COMMAND. Squares lead to pairs, keys go from pair to pair, missing words are marked, and nothing in notes or
names acts. Exit: 0 as expected, 77 there is no browser, 1 not."""
import pathlib
import subprocess
import sys
import tempfile
import time

HERE = pathlib.Path(__file__).resolve().parent
sys.path.insert(0, str(HERE.parent / "page"))
from browser import Browser, NotStarted, missing  # noqa: E402

EVIL = b"<img src=x onerror=alert(1)> </mark></li><script>alert(2)</script> \"'><svg/onload=alert(3)> {{7*7}}\n\x1b[2J\x00 \xe2\x80\xae\xff\n"
NAMES = {"2025-03-01": (b"a b\nc d\n", b"a b c d\n"), "2025-03-02": (b"one two\nthree\n", b"one two\n"), "2025-03-03": (b"x y\n", b"x y \n"),
         "2025-03-04<img src=x onerror=alert(4)>": (EVIL, b"</ol></div><script>alert(5)</script>\n"), "2025-04-30": (b"gone\n", None)}
LONG = b"".join(b"line %d\n\n" % i for i in range(1, 201))
tried = failed = 0


def expect(what, got, wanted):
    global tried, failed
    tried += 1
    if got != wanted:
        failed += 1
        print(f"report: {what}\n  gave   {got!r}\n  wanted {wanted!r}")


def make(command, folder):
    (folder / "notes").mkdir()
    (folder / "digests").mkdir()
    for name, (notes, digest) in NAMES.items():
        (folder / "notes" / f"{name}.txt").write_bytes(notes)
        if digest is not None:
            (folder / "digests" / f"{name}.dig").write_bytes(digest)
    done = subprocess.run([command, "audit", "--html", folder / "report.html", folder / "notes", folder / "digests"], stdout=subprocess.DEVNULL)
    expect("status", done.returncode, 1)
    return folder / "report.html"


OPEN = "return [...document.querySelectorAll('details')].map(d => d.open)"


def drive(browser, page):
    browser.open(page)
    expect("nothing acts", (browser.alert(), [row for row in browser.log() if row["level"] == "SEVERE"]), (None, []))
    expect("the months between the first and the last", browser.run("return [...document.querySelectorAll('.month h3')].map(h => h.textContent)"), ["March", "April"])
    expect("squares by colour", browser.run("return ['g', 'a', 'r'].map(c => document.querySelectorAll('.days .' + c).length)"), [1, 1, 3])
    expect("a square stands below its weekday", browser.run("const a = document.querySelector('.days a').getBoundingClientRect(), s = [...document.querySelectorAll('.days u')][6].getBoundingClientRect(); return Math.abs(a.left - s.left) < 2"), True)
    expect("pairs that are not carried are there", browser.run("return document.querySelectorAll('details').length"), 4)
    browser.run("document.querySelector('.days a.r').click()")
    expect("a click on a square opens its pair", browser.run(OPEN), [True, False, False, False])
    expect("what is missing is marked", browser.run("return [...document.querySelectorAll('details[open] mark')].map(m => m.textContent)"), ["three"])
    browser.keys("n")
    expect("n goes to the next pair", browser.run(OPEN), [True, True, False, False])
    expect("the line that is not right is marked", browser.run("return document.querySelectorAll('details[open] li.at').length"), 1)
    browser.keys("n")
    expect("hostile notes are shown", ("onerror=alert(1)" in browser.run("return document.querySelectorAll('details')[2].textContent"), browser.alert()), (True, None))
    expect("and have made nothing", browser.run("return document.querySelectorAll('main img, main svg, main script, main a').length"), 0)
    browser.keys("p")
    browser.keys("Escape")
    expect("Escape closes all", browser.run(OPEN), [False] * 4)
    for width, height in (1920, 1080), (1280, 720), (390, 844):
        browser.open(page, "#p2", width, height)
        expect(f"nothing runs out of the window at {width}", browser.run("return document.documentElement.scrollWidth <= innerWidth"), True)


# Is the first mark of the notes in sight, in their box and in the window?
IN_SIGHT = """
const mark = document.querySelector('details[open] mark').getBoundingClientRect(), box = document.querySelector('details[open] .two > div').getBoundingClientRect();
return mark.top >= box.top && mark.bottom <= box.bottom && mark.top >= 0 && mark.bottom <= innerHeight;
"""


def long_pair(browser, command, folder):
    """Of long notes what is missing is seen when the pair is opened."""
    (folder / "notes.txt").write_bytes(LONG + b"the end\n")
    (folder / "digest.txt").write_bytes(LONG)
    subprocess.run([command, "audit", "--html", folder / "long.html", folder / "notes.txt", folder / "digest.txt"], stdout=subprocess.DEVNULL)
    for width, height, phone in (1920, 1080, False), (1280, 720, False), (390, 844, True):
        browser.open(folder / "long.html", "#p1", width, height, phone)
        time.sleep(0.2)
        expect(f"what is missing is in sight at {width}", browser.run(IN_SIGHT), True)


def main():
    if missing():
        print("audit: left out: the report in a browser: install Debian's chromium and chromium-driver")
        sys.exit(77)
    try:
        browser = Browser()
    except NotStarted as fault:
        print(f"audit: left out: the report in a browser, which does not start: {fault}")
        sys.exit(77)
    with tempfile.TemporaryDirectory() as name:
        try:
            drive(browser, make(sys.argv[1], pathlib.Path(name)))
            long_pair(browser, sys.argv[1], pathlib.Path(name))
        finally:
            browser.close()
    print(f"report: {tried - failed} of {tried} as expected")
    sys.exit(1 if failed else 0)


main()
