"""Pages in a browser, pointed at with mouse, finger and keys; what is seen is measured, and pictures of it are left to be looked at."""
import base64
import hashlib
import re
import subprocess
import time

from browser import Browser

LATIN = b"""22:40 Pump 2 tripped on low pressure. Restarted by hand after the valve was
bled.
Keep an eye on it; the filter is due anyway.

03:10  Second trip.
  - 4.1 bar before the filter, 3.8 and falling behind it, and so it was stopped until the morning
"""
HOSTILE = b"""</script><script>alert(1)</script> <img src=x onerror=alert(2)> <svg onload=alert(3)> "quotes" 'and' `ticks` &lt; javascript:alert(4)

<style>*{display:none}</style> </title></pre></a></section></main> <a href=javascript:alert(5)>click</a> <iframe srcdoc="<script>alert(6)</script>">
<plaintext> <base href=http://x.example/> <meta http-equiv=refresh content=0;url=http://x.example> <!-- ]]> --> <input autofocus onfocus=alert(7)>

null \0 escape \x1b[31m \x7f \x0b \x0c cr \r NEL \xc2\x85 CSI \xc2\x9b31m override \xe2\x80\xaeevil exe.txt\xe2\x80\xac isolate \xe2\x81\xa7abc\xe2\x81\xa9
line separator \xe2\x80\xa8 paragraph separator \xe2\x80\xa9 soft a\xc2\xadb zero a\xe2\x80\x8bb

\xb0 \xe2\x82 \xff\xfe \xc0\xbcscript\xc0\xbealert(8)\xc0\xbc/script\xc0\xbe <script>alert(9)</script>
""" + b"<" * 3000 + b"\n"
SCRIPTS = """22:10  三号泵压力偏低,已通知值班工程师。x

22:20  रात की पाली: पंप २ का दबाव कम होने पर बंद हुआ; क्षेत्र x

22:30  🔧 done 👩‍🔧 ok 😀😀 x

22:40  e\u0301 Z\u0351\u036b\u0343 한국어 日本語 Ж насос x

22:50  Gauge\tbefore\tbehind x
""".encode() + b"23:00  41\xb0C \xff\xfe\xfd bar x\n" + "23:10  a\u202eb\u200bc ab\u00adc x\n".encode()
# The column in which the x at the end of each of those lines stands, counted from 0, by hand: 7 columns of time, then the characters.
X_AT = {1: 7 + 2 * 7 + 1 + 2 * 9, 3: 7 + 4 + 3 + 6 + 3 + 2 + 3 + 5 + 3 + 4 + 3 + 3 + 4 + 5, 5: 7 + 2 + 1 + 4 + 1 + 4 + 1 + 2 + 1 + 4 + 1, 7: 7 + 1 + 1 + 1 + 1 + 6 + 1 + 6 + 1 + 1 + 1 + 5 + 1, 9: 31, 10: 7 + 4 + 1 + 3 + 1 + 3 + 1, 11: 7 + 3 + 1 + 4 + 1}
# The middle of wide characters among them, likewise.
MIDDLE = {"\u4e09": 8, "\u504f": 7 + 2 * 5 + 1, "\u77e5": 7 + 2 * 7 + 1 + 2 * 2 + 1, "\u5e08": 7 + 2 * 7 + 1 + 2 * 7 + 1, "\u672c": 7 + 4 + 6 + 1 + 3}
AS_IT_IS = ["--keep", "-P", ""]  # the digest is the notes

# Where the last x of a line begins, in columns from the text's left edge; and the rules' right edges likewise.
MEASURE = """
const walk = a => { const w = document.createTreeWalker(a, NodeFilter.SHOW_TEXT); let n, last = null; while (n = w.nextNode()) if (n.data.includes('x')) last = n; return last; };
const ruler = document.querySelector('.ruler'), left = ruler.getBoundingClientRect().left + parseFloat(getComputedStyle(ruler).paddingLeft);
const probe = document.createElement('span'); probe.textContent = '0'.repeat(100); ruler.append(probe);
const column = probe.getBoundingClientRect().width / 100; probe.remove();
const at = id => { const n = walk(document.getElementById(id)), r = document.createRange(), i = n.data.lastIndexOf('x'); r.setStart(n, i); r.setEnd(n, i + 1);
  return (r.getBoundingClientRect().left - left) / column; };
const middle = letter => { const w = document.createTreeWalker(document.getElementById('digest'), NodeFilter.SHOW_TEXT); let n; while ((n = w.nextNode()) && !n.data.includes(letter)); const r = document.createRange(), i = n.data.indexOf(letter);
  r.setStart(n, i); r.setEnd(n, i + 1); const box = r.getBoundingClientRect(); return ((box.left + Math.min(box.width, column * 2) / 2 - left) / column); };
const rule = name => (document.querySelector('.' + name).getBoundingClientRect().right - 1 - left) / column;
return [arguments[0].map(at), rule('goal'), rule('width'), arguments[1].map(middle)];
"""
# Every element of the page by its name, and what it has loaded.
INSIDE = """
const names = {}; for (const e of document.querySelectorAll('*')) names[e.localName] = (names[e.localName] || 0) + 1;
const handlers = [...document.querySelectorAll('*')].filter(e => [...e.attributes].some(a => a.name.startsWith('on') || /^(src|style|srcdoc|action)$/.test(a.name))).length;
return [names, handlers, performance.getEntriesByType('resource').length, [...document.links].filter(a => a.protocol !== 'file:').length];
"""
OURS = set("html head br meta title style script body header h1 h2 h3 p nav a section ul ol li strong small main div pre span b i u em aside footer kbd mark".split())
# Contrast of text with what is behind it, by WCAG's formula, for elements that hold text themselves and for the signs before them.
CONTRAST = """
const c = document.createElement('canvas').getContext('2d', {willReadFrequently: true});
const rgb = s => { c.clearRect(0, 0, 1, 1); c.fillStyle = s; c.fillRect(0, 0, 1, 1); return [...c.getImageData(0, 0, 1, 1).data]; };
const lum = ([r, g, b]) => [r, g, b].map(v => v / 255).map(v => v <= .04045 ? v / 12.92 : ((v + .055) / 1.055) ** 2.4).reduce((s, v, i) => s + v * [.2126, .7152, .0722][i], 0);
const ground = (e, pseudo) => { let s = getComputedStyle(e, pseudo); for (let n = e; ; n = n.parentElement, s = n && getComputedStyle(n)) { if (!n) return [255, 255, 255, 255]; const g = rgb(s.backgroundColor); if (g[3] === 255) return g; } };
const worst = {};
const note = (name, s, e, pseudo) => { const a = lum(rgb(s.color)), b = lum(ground(e, pseudo)), r = (Math.max(a, b) + .05) / (Math.min(a, b) + .05); if (!(worst[name] <= r)) worst[name] = r; };
for (const e of document.querySelectorAll('body, body *')) {
  if (!e.checkVisibility() || e.closest('script, .t, .goal, .width')) continue;
  const s = getComputedStyle(e), before = getComputedStyle(e, '::before');
  if (before.content !== 'none' && before.content !== 'normal') note(e.localName + '::before ' + e.className, before, e, '::before');
  if ([...e.childNodes].some(n => n.nodeType === 3 && n.data.trim()) && parseFloat(s.fontSize) > 0 && e.localName !== 'u') note(e.localName + ' ' + e.className, s, e, null);
}
return Object.entries(worst).filter(([, r]) => r < 4.5);
"""


class Sight:
    """A browser, and pages made for it."""

    def __init__(self, command, tell, out):
        self.command, self.tell, self.out, self.browser = command, tell, out, Browser()

    def page(self, name, arguments, notes, change=None):
        file = self.out / f"{name}.html"
        data = self.command.run(["page", *arguments], notes).stdout
        file.write_bytes(change(data) if change else data)
        return file

    def state(self):
        """The line that is pointed at, those of its piece, the piece that is shown and the reason."""
        return self.browser.run("const q = s => [...document.querySelectorAll(s)].filter(e => e.checkVisibility()), held = document.documentElement.classList.contains('held');"
                                "return [q('#digest a.on').map(a => +a.id), q('#digest a.p').map(a => +a.id), q('#notes section').map(s => s.id), q('#notes em').map(e => e.textContent), held,"
                                " document.activeElement.id]")

    def shot(self, name):
        self.browser.picture(self.out / f"{name}.png")


def pointing(sight):
    b, tell = sight.browser, sight.tell
    sight.page("latin", [], LATIN)
    b.open(sight.out / "latin.html")
    first = sight.command.page([], LATIN)[1]
    words = {line: said[1] for piece in first.pieces.values() for line, said in piece[1].items()}
    tell("nothing is pointed at", sight.state()[:4], [[], [], [], []])
    b.point('[id="1"]')
    tell("the mouse at line 1", sight.state()[:5], [[1], [1, 2], ["n1"], [words[1]], False])
    tell("its notes", b.run("return [...document.querySelectorAll('#n1 li')].map(l => l.textContent)"), [line.decode() + "[0A]\n" for line in LATIN.split(b"\n")[:3]])
    b.point('[id="2"]')
    tell("the mouse at line 2", sight.state()[:4], [[2], [1, 2], ["n1"], [words[2]]])
    sight.shot("latin")
    b.point('[id="5"]', click=True)
    tell("a click holds line 5", sight.state()[:5], [[5], [5, 6], ["n6"], [words[5]], True])
    b.point('[id="1"]')
    tell("the mouse elsewhere", sight.state()[0], [5])
    b.point('[id="5"]', click=True)
    b.point('[id="4"]')
    tell("a second click lets go", sight.state()[:5], [[4], [4], ["n5"], [words[4]], False])
    keys(sight, words)
    b.open(sight.out / "latin.html", "#5")
    tell("a link to line 5", sight.state()[:3], [[5], [5, 6], ["n6"]])
    b.open(sight.out / "latin.html")
    b.point('[id="3"]', click=True, kind="touch")
    tell("a finger at line 3", sight.state()[:3], [[3], [3], ["n4"]])


def keys(sight, words):
    b, tell = sight.browser, sight.tell
    b.open(sight.out / "latin.html")
    b.keys("ArrowDown")
    tell("the first arrow", sight.state()[:4], [[1], [1, 2], ["n1"], [words[1]]])
    b.keys("ArrowDown", "ArrowDown")
    tell("two more", (sight.state()[0], sight.state()[5]), ([3], "3"))
    b.keys("ArrowUp")
    tell("one up", sight.state()[0], [2])
    b.keys("End", "ArrowDown")
    tell("the end", sight.state()[0], [6])
    b.keys("Home", "ArrowUp")
    tell("the start", sight.state()[0], [1])
    b.keys("Enter")
    tell("Enter leads to the notes", sight.state()[4:], [True, "notes"])
    b.keys("Escape")
    tell("Escape leads back", sight.state()[4:], [False, "1"])
    b.keys("w")
    tell("the wall panel", b.run("const w = document.getElementById('wall'); return [location.hash, w.checkVisibility(), w.querySelectorAll('pre span').length]"), ["#wall", True, 24])
    rows = b.run("return [...document.querySelectorAll('#wall pre span')].map(s => s.textContent)")
    drawn = sight.command.run(["panel"], LATIN).stdout.decode().split("\n")[1:25]
    tell("its rows are the panel's", rows, [row[1:-1] + "\n" for row in drawn])
    b.keys("Escape")
    tell("and away again", b.run("return document.getElementById('wall').checkVisibility()"), False)
    b.run("document.activeElement.blur()")
    b.open(sight.out / "latin.html")
    for _ in range(12):
        b.keys("Tab")
        if b.run("return document.activeElement.matches('#digest a')"):
            break
    tell("Tab reaches the digest, which is one stop", b.run("return [document.activeElement.id, document.querySelectorAll('#digest a[tabindex=\"0\"]').length]"), ["1", 1])


def columns(sight):
    b, tell = sight.browser, sight.tell
    sight.page("scripts", AS_IT_IS, SCRIPTS)
    for width, height in (1280, 800), (1920, 1080), (700, 600):
        b.open(sight.out / "scripts.html", width=width, height=height)
        found, goal, full, middles = b.run(MEASURE, list(X_AT), list(MIDDLE))
        tell(f"columns at {width}", [round(c, 1) for c in found], [float(c) for c in X_AT.values()])
        tell(f"wide characters at {width}", [abs(a - m) < 0.35 for a, m in zip(middles, MIDDLE.values())], [True] * len(MIDDLE))
        tell(f"rules at {width}", (abs(goal - 74) < 0.1, abs(full - 79) < 0.1), (True, True))
    b.open(sight.out / "scripts.html")
    b.point('[id="10"]')
    sight.shot("scripts")
    sight.page("narrow-tabs", [*AS_IT_IS, "-T", "3"], b"a\tb\tx\n\tx\nabc\tx\n")
    b.open(sight.out / "narrow-tabs.html")
    tell("tabs at 3", [round(c, 1) for c in b.run(MEASURE, [1, 2, 3], [])[0]], [6.0, 3.0, 6.0])


def seen_first(sight):
    b, tell = sight.browser, sight.tell
    sight.page("warned", ["--keep"], b"ok\n\n41\xb0C\n\n" + b"x" * 90 + b"\n\n" + b"y\n\n" * 60)
    b.open(sight.out / "warned.html")
    tell("warnings stand above the digest", b.run("const d = document.getElementById('digest').getBoundingClientRect().top; return [...document.querySelectorAll('#seen li')].map(l => [l.className, l.getBoundingClientRect().bottom <= d, l.textContent.trim()])"),
         [["d", True, "1 damaged line, kept as it is: line 3"], ["o", True, "1 line over the width: line 5 (90 columns)"]])
    tell("the damaged byte is red and in one column", b.run("const u = document.querySelector('#digest u.d'), s = getComputedStyle(u, '::before'); return [s.content.slice(0, 5), s.backgroundColor, u.textContent]"), ['"B\\a ', "rgb(163, 20, 20)", "[B0]"])
    b.keys("n")
    tell("n leads to the first", sight.state()[0], [3])
    b.keys("n")
    tell("n leads to the next", sight.state()[0], [5])
    b.point("#seen li.d a", click=True)
    tell("a link in a warning", sight.state()[0], [3])
    sight.shot("warned")


# Of the lines in the window: the number, where its text ends and where it begins, and its box; of the digest its edges, of the notes the upper one.
IN_SIGHT = """
const digest = document.getElementById('digest').getBoundingClientRect(), notes = document.getElementById('notes').getBoundingClientRect();
const ends = a => { const r = document.createRange(); r.selectNodeContents(a); return r.getBoundingClientRect(); };
const lines = [...document.querySelectorAll('#digest a')].map(a => [+a.id, a.getBoundingClientRect(), ends(a)]).filter(([, box]) => box.top > 0 && box.bottom < (notes.left < digest.right ? Math.min(innerHeight, notes.top) : innerHeight));
return [lines.map(([id, box, text]) => [id, text.right, text.left, (box.top + box.bottom) / 2]), digest.left, digest.right];
"""
# Is the line that is pointed at seen whole, above the notes?
SEEN = """
const line = document.querySelector('#digest a.on').getBoundingClientRect(), notes = document.getElementById('notes').getBoundingClientRect();
return [+document.querySelector('#digest a.on').id, line.top >= 0 && line.bottom <= Math.min(notes.top, innerHeight), notes.height > 100 && notes.top < innerHeight];
"""
BLUE = (29, 90, 150)
# A paragraph of many lines of notes, and lines of every length around what a phone shows.
TALL = b"a\n" * 60 + b"\n" + b"".join(b"22:%02d Pump %d tripped on low pressure and was restarted by hand after the valve was bled, and the filter is due.\n\n%s\n\n" % (i, i, b"y" * (40 + i % 4)) for i in range(60))


def marked_lines(sight):
    """Of the lines in sight: those with the mark at the right edge, by the picture, and those whose text goes on beyond it, by its box."""
    found, _, right = sight.browser.run(IN_SIGHT)
    colours = sight.browser.colours([(right - 3, y - 4) for _, _, _, y in found])
    return [line[0] for line, colour in zip(found, colours) if colour == BLUE], [line[0] for line in found if line[1] > right + 1], len(found)


def on_phone(sight, file):
    """What is not as it should be."""
    b, faults = sight.browser, []

    def check(what, holds):
        faults.extend([] if holds else [what])

    b.open(file, width=390, height=844, phone=True)
    check("hints", b.run("return ['footer', '.mouse', '.touch'].map(s => document.querySelector(s).checkVisibility())") == [False, False, True])
    marks, wanted, count = marked_lines(sight)
    check("marks at the edge", marks == wanted and 0 < len(wanted) < count)
    lowest = b.run(IN_SIGHT)[0][-1][0]
    for line in 1, lowest - 3, lowest - 1, lowest:
        b.open(file, width=390, height=844, phone=True)
        b.point(f'[id="{line}"]', click=True, kind="touch")
        time.sleep(0.1)
        check(f"line {line} in sight", b.run(SEEN) == [line, True, True])
    b.size(844, 390, phone=True)
    time.sleep(0.3)
    check("in sight when it is turned", b.run(SEEN) == [lowest, True, True])
    last = b.run("return document.querySelectorAll('#digest a').length")
    b.open(file, f"#{last}", width=390, height=844, phone=True)
    time.sleep(0.1)
    check("the last line in sight", b.run(SEEN) == [last, True, True])
    b.open(file, width=390, height=844, phone=True)
    b.run("document.getElementById('digest').scrollLeft = 10000")
    time.sleep(0.2)
    marks, wanted, _ = marked_lines(sight)
    found, left, _ = b.run(IN_SIGHT)
    check("no marks where all is seen", marks == wanted == [])
    edge = b.run("return parseFloat(getComputedStyle(document.querySelector('#digest a'), '::before').width)")
    check("the mark at the left", set(b.colours([(left + edge - 1.5, y) for _, _, _, y in found])) == {BLUE})
    return faults


def phone(sight):
    b, tell = sight.browser, sight.tell
    file = sight.page("tall", [], TALL)
    tell("on a phone", on_phone(sight, file), [])
    b.open(file, width=390, height=844, phone=True)
    b.point('[id="26"]', click=True, kind="touch")
    sight.shot("phone")
    b.open(file)
    tell("hints where there is a mouse", b.run("return ['footer', '.mouse', '.touch'].map(s => document.querySelector(s).checkVisibility())"), [True, True, False])
    tell("no marks where all is seen", marked_lines(sight)[:2], ([], []))
    b.open(sight.out / "warned.html", width=1000, height=800)
    marks, wanted, _ = marked_lines(sight)
    tell("a line over the width, at 1000", (marks, wanted), ([5], [5]))


# Notes without a blank, and notes that are written from the right.
FRAMED = "二号泵因压力过低跳闸。放出阀门内的空气后手动重新启动。请继续观察；过滤器反正也该更换了。压力在过滤器前为四点一巴，在过滤器后为三点八巴，并且还在下降，必须在早班之前检查。\n\nপাম্পটিকমচাপেরকারণেবন্ধহয়েগেছেওআবারচালুকরাহয়েছে\n\nמשאבה 2 נעצרה בגלל לחץ\n".encode()
# Of the notes in the pane: does a letter stand beyond their frame, and are they read from its right side, word after word? And the line of the digest?
IN_FRAME = """
const li = document.querySelector('#notes section.on ol li'), box = li.parentElement.getBoundingClientRect(), range = document.createRange();
range.selectNodeContents(li);
const out = [...range.getClientRects()].some(r => r.right > box.right || r.left < box.left), letters = document.createTreeWalker(li, NodeFilter.SHOW_TEXT), at = [];
for (let text; (text = letters.nextNode());) for (let i = 0; i < text.data.length; i++) range.setStart(text, i), range.setEnd(text, i + 1), at.push(range.getBoundingClientRect().left);
const words = document.querySelector('#digest a.on').childNodes, first = words[0].firstChild || words[0];
const place = i => (range.setStart(first, i), range.setEnd(first, i + 1), range.getBoundingClientRect().left);
return [out, box.right - at[0] < 40 && at[0] > at[8], first.length > 8 && place(0) > place(8)];
"""


def in_frame(sight, file):
    """Which notes are not shown as they should be: the line, and the width of the window."""
    b, faults = sight.browser, []
    for width, height, small in (1280, 720, False), (1000, 700, False), (390, 844, True):
        b.open(file, width=width, height=height, phone=small)
        for line, from_right in (1, False), (3, False), (5, True):
            b.point(f'[id="{line}"]', click=True, kind="touch" if small else "mouse")
            time.sleep(0.1)
            faults.extend([] if b.run(IN_FRAME) == [False, from_right, from_right] else [(line, width)])
    return faults


def framed(sight):
    sight.tell("notes in their frame, from the side that they are written from", in_frame(sight, sight.page("framed", [], FRAMED)), [])
    sight.shot("framed")


def refusal(sight):
    b, tell = sight.browser, sight.tell
    sight.page("refused", [], LATIN.replace(b"4.1", b"4\xb01"))
    b.open(sight.out / "refused.html")
    tell("a refusal", b.run("const m = document.querySelector('mark'), h = document.querySelector('header'); return [document.title.slice(0, 8), document.querySelector('h1').textContent, h.getAttribute('role'),"
                            " getComputedStyle(h).backgroundColor, m.textContent, m.closest('li').className, m.getBoundingClientRect().bottom < innerHeight, document.getElementById('digest')]"),
         ["REFUSED:", "REFUSED: there are notes, and no digest of them", "alert", "rgb(163, 20, 20)", "[B0]", "at", True, None])
    tell("its words", "line 6, column 6: byte B0 begins no UTF-8 character" in b.text("header p"), True)
    sight.shot("refused")
    b.keys("w")
    tell("on the wall", b.run("return [...document.querySelectorAll('#wall .bar')].map(e => e.textContent.trim().replace(/; drawn [-0-9]+ [0-9:]+: /, ': ')).slice(-2)"),
         ["REFUSED: not formatted; above is the end of the notes as they are", "refused: 6 lines, 1 damaged; none above: standard input"])
    sight.page("cut", [], LATIN, lambda data: data[: data.index(b"</aside>")])
    b.open(sight.out / "cut.html")
    tell("a page that was cut short", b.run("return document.getElementById('cut').checkVisibility()"), True)
    b.open(sight.out / "latin.html")
    tell("a page that was not", b.run("return document.getElementById('cut').checkVisibility()"), False)


def harmless(sight, file):
    """What of a page has acted, or could."""
    b = sight.browser
    b.open(file)
    alerts = []
    while b.alert() is not None:
        alerts.append(f"alert {b.alert()}")
        b.ask("POST", "/alert/accept", {})
        time.sleep(0.2)  # another may follow
    if alerts:
        return alerts
    for name in "ArrowDown", "ArrowDown", "End", "Enter", "Escape", "w", "w":
        b.keys(name)
    b.mouse(300, 300, click=True)
    names, handlers, loaded, links = b.run(INSIDE)
    faults = [f"an alert {b.alert()}"] if b.alert() is not None else []
    faults += [f"an element {name}" for name in set(names) - OURS] + [f"{names['script']} scripts"] * (names["script"] != 1) + [f"{names['style']} styles"] * (names["style"] != 1)
    faults += [f"{handlers} attributes that act"] * (handlers > 0) + [f"{loaded} files loaded"] * (loaded > 0) + [f"{links} links elsewhere"] * (links > 0)
    return faults + b.log()


def hostile(sight):
    b, tell = sight.browser, sight.tell
    file = sight.page("hostile", ["--keep"], HOSTILE)
    tell("hostile notes", harmless(sight, file), [])
    tell("they are text", b.run("return document.querySelector('#n1 li').textContent"), HOSTILE.split(b"\n")[0].decode() + "[0A]\n")
    b.open(file)
    b.point('[id="10"]')
    sight.shot("hostile")
    tell("directions are numbers", b.run("return [...document.querySelectorAll('#digest u.z')].map(u => u.dataset.x)"), ["202E", "202C", "2067", "2069", "200B"])
    name = sight.out / "<img src=x onerror=alert(1)>\u202e'\".txt"
    name.write_bytes(LATIN)
    data = subprocess.run([sight.command.program, "page", name.name], cwd=sight.out, capture_output=True)
    (sight.out / "named.html").write_bytes(data.stdout)
    name.unlink()
    tell("a hostile name", harmless(sight, sight.out / "named.html"), [])
    sight.page("many", ["--keep"], b"<" * 65536)
    tell("65,536 of <", harmless(sight, sight.out / "many.html"), [])
    # What the test can see: an alert without the policy, and that the policy alone stops the same script.
    inject = lambda data: data.replace(b"<header", b"<script>alert(1)</script><img src=x onerror=alert(2)><header", 1)
    without = lambda data: re.sub(b"<meta http-equiv[^>]*>", b"", inject(data))
    tell("an alert is seen", harmless(sight, sight.page("alert", [], LATIN, without)), ["alert 1", "alert 2"])
    found = harmless(sight, sight.page("stopped", [], LATIN, inject))
    tell("the policy stops a script", ([f for f in found if "alert" in f and "Content Security Policy" not in f], any("Content Security Policy" in f for f in found)), ([], True))


def plain(sight):
    """Without script: all of it, by links."""
    b, tell = sight.browser, sight.tell
    b.media(script=False)
    b.open(sight.out / "latin.html")
    sight.shot("noscript")
    b.media()
    found = b.run("const r = document.getElementById('n6').getBoundingClientRect(); return [document.documentElement.className, document.querySelectorAll('#notes section').length,"
                  " [...document.querySelectorAll('#notes section, #notes p[id]')].every(e => e.checkVisibility()), [...document.links].every(a => document.getElementById(a.hash.slice(1)))]")
    tell("without script all notes are seen, and every link leads somewhere", found, ["", 4, True, True])
    b.open(sight.out / "latin.html")
    b.tool("Emulation.setEmulatedMedia", media="print")
    tell("printed: the digest, no keys", b.run("return ['#digest', 'nav', 'footer', '#wall'].map(s => document.querySelector(s).checkVisibility())"), [True, False, False, False])
    b.tool("Emulation.setEmulatedMedia", media="")
    b.printed(sight.out / "print.pdf")
    tell("a printed page", (sight.out / "print.pdf").read_bytes()[:5], b"%PDF-")


def everybody(sight):
    """Light and dark, small and large, and as a screen reader has it."""
    b, tell = sight.browser, sight.tell
    for name in "scripts", "warned", "refused":
        for dark in False, True:
            b.media(dark=dark)
            b.open(sight.out / f"{name}.html")
            if name != "refused":
                b.keys("n")
            tell(f"contrast of {name}, {'dark' if dark else 'light'}", b.run(CONTRAST), [])
    b.open(sight.out / "scripts.html")
    b.keys("n")
    sight.shot("dark")
    b.media()
    for name in "scripts", "warned", "refused", "hostile":
        b.open(sight.out / f"{name}.html", width=320, height=640)
        tell(f"{name} at 320", b.run("return [document.documentElement.scrollWidth, document.querySelector('main').getBoundingClientRect().width <= 320]"), [320, True])
    b.open(sight.out / "scripts.html", width=320, height=640)
    b.point('[id="1"]', click=True)
    sight.shot("small")
    b.open(sight.out / "scripts.html", "#wall", width=1920, height=1080)
    tell("the wall at 1920", b.run("const r = document.querySelector('#wall pre').getBoundingClientRect(); return [r.width > 1600, r.right <= 1920, r.height > 900, r.bottom <= 1080]"), [True] * 4)
    sight.shot("wall")
    b.open(sight.out / "scripts.html", width=1920, height=1080)
    b.keys("n")
    tell("the page at 1920", b.run("return [document.documentElement.scrollHeight, document.documentElement.scrollWidth]"), [1080, 1920])
    sight.shot("large")
    readers(sight)


def readers(sight):
    b, tell = sight.browser, sight.tell
    b.open(sight.out / "latin.html")
    b.keys("ArrowDown")
    nodes = b.tool("Accessibility.getFullAXTree")["nodes"]
    named = [(n["role"]["value"], n.get("name", {}).get("value", ""), n.get("description", {}).get("value", "")) for n in nodes if not n.get("ignored")]
    tell("regions", {name for role, name, _ in named if role in ("region", "complementary", "navigation")} >= {"The digest, line by line", "The notes under the line, and why it ends there", "This page"}, True)
    links = [(name, told) for role, name, told in named if role == "link" and name[:1].isdigit()]
    tell("a line is a link by its number and text", [name for name, _ in links][0].split(), ["1", *LATIN.decode().split("\n")[0].split()[: len(links[0][0].split()) - 1]])
    tell("and is described by its reason", links[0][1].startswith("Line 1 "), True)
    b.open(sight.out / "refused.html")
    nodes = b.tool("Accessibility.getFullAXTree")["nodes"]
    tell("a refusal is an alert", [n["role"]["value"] for n in nodes if n["role"]["value"] == "alert"], ["alert"])


def speed(sight):
    """64 KiB open in under a second: the least of some openings, since others may use the machine."""
    prose = (b"22:40 Pump 2 tripped on low pressure, restarted by hand after the valve was\nbled again; the filter is due anyway.\n\n" * 600)[:65536]
    han = ("三号泵压力偏低，已通知值班工程师，等待备件。阀门已排气，手动重启。" * 6 + "\n\n").encode() * 106
    for name, notes in ("prose", prose), ("Chinese", han[:65500].decode("utf-8", "ignore").encode()), ("damaged", b"\xb0" * 65536), ("markup", b"<" * 65536):
        file = sight.page("speed", ["--keep"], notes)
        times = []
        while len(times) < 3 or (min(times) >= 1000 and len(times) < 10):
            sight.browser.open(file)
            times.append(sight.browser.run("return performance.getEntriesByType('navigation')[0].loadEventEnd"))
        print(f"page: 64 KiB of {name}: a page of {file.stat().st_size:,} bytes, open in {min(times):.0f} ms", flush=True)
        sight.tell(f"64 KiB of {name} open in under a second", min(times) < 1000, True)


def tampered(old, new):
    """The page with another style or script, and the policy for it."""

    def change(data):
        assert old in data, old
        data = data.replace(old, new, 1)
        for name in b"style", b"script":
            text = re.search(b"<%s>(.*?)</%s>" % (name, name), data, re.S)[1]
            data = re.sub(b"%s-src 'sha256-[^']*'" % name, b"%s-src 'sha256-%s'" % (name, base64.b64encode(hashlib.sha256(text).digest())), data, count=1)
        return data

    return change


def faults(sight):
    """Changed style and script must be seen."""
    b, seen = sight.browser, []
    for old, new in (b"b { width: 2ch", b"b { width: 1ch"), (b".w5 { width: 5ch", b".w5 { width: 6ch"), (b"width: 7ch; height", b"width: 8ch; height"):
        b.open(sight.page("spoiled", AS_IT_IS, SCRIPTS, tampered(old, new)))
        seen.append([round(c, 1) for c in b.run(MEASURE, list(X_AT), [])[0]] != [float(c) for c in X_AT.values()])
    for old, new in (b"lines[i].classList.toggle('p', on);", b";"), (b"$(piece.slice(1)).classList.toggle('on', on);", b""), (b"ArrowDown: () => go(", b"ArrowDown: () => point("), (b"'use strict';", b"alert(1);"):
        b.open(sight.page("spoiled", [], LATIN, tampered(old, new)))
        alert = b.alert() is not None and b.ask("POST", "/alert/accept", {}) is None
        b.keys("ArrowDown", "ArrowDown")
        seen.append(alert or [sight.state()[i] for i in (0, 1, 2, 5)] != [[2], [1, 2], ["n1"], "2"])
    for old, new in ((b"if (under > 0) scrollBy(0, Math.ceil(under + line.height / 2));", b""), (b"a.classList.toggle('m', columns(a.id - lines[0].id) > seen + .1);", b";"), (b"columns(a.id - lines[0].id) > seen + .1", b"columns(a.id - lines[0].id) > seen + 1.5"),
                     (b"columns(a.id - lines[0].id) > seen + .1", b"columns(a.id - lines[0].id) > seen - 1.5"), (b"digest.classList.toggle('l', digest.scrollLeft > 0);", b""), (b"footer, .mouse { display: none; }", b""), (b".touch { display: inline; }", b""),
                     (b"position: sticky; right: 0;", b""), (b"digest.addEventListener('scroll', edges);", b""), (b"max-height: 45vh; max-height: 45dvh;", b"")):
        seen.append(bool(on_phone(sight, sight.page("spoiled", [], TALL, tampered(old, new)))))
    for old, new in (b"ol i, ol b[class] { display: inline;", b"ol i, ol b[class] {"), (b"unicode-bidi: plaintext;", b""), (b"white-space: inherit; unicode-bidi: normal;", b"white-space: inherit;"), (b".r { direction: rtl; }", b".r { unicode-bidi: bidi-override; }"):
        seen.append(bool(in_frame(sight, sight.page("spoiled", [], FRAMED, tampered(old, new)))))
    print(f"page: faults put in the style and the script: {sum(seen)} of {len(seen)} seen", flush=True)
    sight.tell("faults in the style and the script", seen, [True] * len(seen))


def run_all(command, tell, out):
    sight = Sight(command, tell, out)
    try:
        for test in pointing, columns, seen_first, phone, framed, refusal, hostile, plain, everybody, faults, speed:
            test(sight)
    finally:
        sight.browser.close()
