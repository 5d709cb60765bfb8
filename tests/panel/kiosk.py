"""The page of `rudignals panel --html`, on a wall: a browser reads it as a file, while the command draws it, is killed, or has no room to."""
import os
import pathlib
import re
import shutil
import signal
import subprocess
import tempfile
import time

import browser

ELEMENT = "element-6066-11e4-a52e-4f735466cecf"


class Wall(browser.Browser):
    """A browser with one page, which is seen from outside, as the screen has it."""

    def shown(self, script, *words):
        """Runs a script in the drawing that is seen: in the frame in front, or in the page itself before there is one."""
        found = self.ask("POST", "/elements", {"using": "css selector", "value": "iframe.shown"})
        try:
            if found:
                self.ask("POST", "/frame", {"id": {ELEMENT: found[0][ELEMENT]}})
            return self.run(script, *words)
        except RuntimeError as fault:  # the frame was changed meanwhile
            return str(fault)
        finally:
            self.ask("POST", "/frame", {"id": None})

    def letters(self):
        """All letters that are seen, without blanks."""
        return self.shown("return [...document.querySelectorAll('svg text')].map(t => t.textContent).join('')")

    def old(self):
        """The words of an old page, or none."""
        return self.run("const e = document.getElementById('old'); return getComputedStyle(e).display === 'none' ? null : e.querySelector('strong').textContent")

    def piece(self, x, y, width, height):
        """A part of the screen, as a picture's bytes."""
        clip = {"x": x, "y": y, "width": width, "height": height, "scale": 1}
        return self.tool("Page.captureScreenshot", format="png", clip=clip)["data"]


def wait_until(condition, seconds=12):
    end = time.monotonic() + seconds
    while not condition() and time.monotonic() < end:
        time.sleep(0.1)
    return bool(condition())


class Night:
    """Notes, a page of them, and the command that draws it."""

    def __init__(self, program, folder, page="wall.html"):
        self.program, self.notes, self.page = program, folder / "night", folder / page
        self.child = None

    def write(self, text):
        self.notes.write_bytes(text if isinstance(text, bytes) else text.encode())

    def follow(self):
        self.child = subprocess.Popen([self.program, "panel", "--keep", "--follow", "--html", self.page, self.notes], stderr=subprocess.DEVNULL)
        wait_until(self.page.exists)

    def end(self, number=signal.SIGTERM):
        if self.child is not None:
            self.child.send_signal(number)
            self.child.wait()
            self.child = None

    def age(self, **numbers):
        """Other numbers in the page, put there whole as the command does; nobody else writes it now."""
        text = self.page.read_text(encoding="utf-8")
        for name, number in numbers.items():
            text = re.sub(rf"data-{name}=\d+", f"data-{name}={number}", text)
        beside = self.page.with_suffix(".new")
        beside.write_text(text, encoding="utf-8")
        beside.rename(self.page)


def follows(wall, night, tell, out):
    """The page shows what the notes have, without a hand on the browser."""
    night.write("first line\n")
    night.follow()
    wall.open(night.page, width=1920, height=1080)
    tell("the page at once", "firstline" in wall.letters(), True)
    night.write("first line\n\nsecond\n")
    tell("the page reads itself anew", wait_until(lambda: "second" in wall.letters()), True)
    night.write(b"\xb0 third\n")
    tell("and again", wait_until(lambda: "\ufffdthird" in wall.letters() and "second" not in wall.letters()), True)
    night.notes.unlink()
    tell("notes that went", wait_until(lambda: "NOTREAD:" in wall.letters()), True)
    wall.picture(out / "not-read.png")
    night.write("first line\n")
    tell("notes that came back", wait_until(lambda: "firstline" in wall.letters() and "NOTREAD" not in wall.letters()), True)
    tell("frames do not gather", wall.run("return document.querySelectorAll('iframe').length") <= 2, True)
    tell("it is not old", wall.old(), None)


def never_flashes(wall, night, tell):
    """Where nothing changes, every picture of the screen is the same one, while the page reads itself anew at least twice. Small ones, of the bottom
    row, can be had often enough to see a flash."""
    in_front = "const f = document.querySelector('iframe.shown'); return f && f.src"
    began, seen, count, frames = time.monotonic(), set(), 0, {wall.run(in_front)}
    while time.monotonic() < began + 10:
        for _ in range(20):
            seen.add(wall.piece(40, 936, 160, 32))
            count += 1
        frames.add(wall.run(in_front))
    tell("other frames came in front", len(frames) >= 3, True)
    tell("and nothing was seen of it", len(seen), 1)
    print(f"wall: {count} pictures of the screen in 10 seconds, {len(frames)} frames", flush=True)


def fits(wall, night, tell):
    for width, height in (1920, 1080), (1280, 720), (1024, 768), (800, 1200):
        wall.open(night.page, width=width, height=height)
        box = wall.run("const r = document.querySelector('svg').getBoundingClientRect(), d = document.documentElement;"
                       "return [r.left, r.top, r.right, r.bottom, d.scrollWidth <= innerWidth && d.scrollHeight <= innerHeight]")
        tell(f"as large as the screen, {width} x {height}", box, [0, 0, width, height, True])
        room = wall.run("const r = document.querySelector('.room').getBoundingClientRect(); return [r.width, r.height]")
        scale = min(width / 1920, height / 1080)
        tell(f"and no larger, {width} x {height}", [round(side) for side in room], [round(1920 * scale), round(1080 * scale)])


def nothing_acts(wall, night, tell):
    night.write("<script>alert(1)</script> </svg><img src=x onerror=alert(2)> ]]> <!-- \n\n\"'&amp;\u202e\u2066\n")
    wait_until(lambda: "alert(2)" in wall.letters())
    letters = wall.letters()
    tell("notes stand as they are", ("<script>alert(1)</script></svg>" in letters, "onerror=alert(2)>]]><!--" in letters, "\"'&amp;" in letters), (True, True, True))
    names = wall.shown("return [...new Set([...document.body.querySelectorAll('*')].map(e => e.localName))].sort().join(' ')")
    tell("and make no element", names, "noscript p rect small span strong svg text time title")
    tell("and nothing else", (wall.alert(), wall.log()), (None, []))
    wall.run("window.noise = setInterval(() => postMessage([0, 1], '*'), 20)")
    tell("words from elsewhere are not heard", wait_until(lambda: wall.old() is not None, 7), False)
    wall.run("clearInterval(window.noise)")


def killed(wall, night, tell, out):
    """Nobody draws any more: the page tells, two minutes behind the last drawing by its own clock, and again when somebody does."""
    night.write("first line\n\nsecond\n")
    wait_until(lambda: "second" in wall.letters())
    night.end(signal.SIGKILL)
    drawn = int(re.search(r"data-drawn=(\d+)", night.page.read_text(encoding="utf-8"))[1])
    tell("killed just now", wall.old(), None)
    long_ago = int(time.time()) - 113
    night.age(drawn=long_ago)
    time.sleep(4)
    tell("almost two minutes old", wall.old(), None)
    since = time.strftime("%H:%M", time.localtime(long_ago))
    tell("two minutes old", (wait_until(lambda: wall.old() is not None, 8), wall.old()), (True, f"NOT DRAWN SINCE {since}"))
    tell("not before", time.time() - long_ago >= 120, True)
    tell("the notes are seen still", "second" in wall.letters(), True)
    covered = wall.run("const b = document.querySelector('#old span').getBoundingClientRect(), s = document.querySelector('iframe.shown').getBoundingClientRect();"
                       "const e = parseFloat(getComputedStyle(document.getElementById('old')).borderLeftWidth);"
                       "return s.top < b.bottom - 1 || s.bottom > innerHeight - e + 1 || s.left < e - 1 || s.right > innerWidth - e + 1")
    tell("and none of them is covered", covered, False)
    for width, height in (1280, 720), (1920, 1080), (800, 1200):
        wall.tool("Emulation.setDeviceMetricsOverride", width=width, height=height, deviceScaleFactor=1, mobile=False)
        room = wall.run("const s = document.querySelector('#old span'), r = s.getBoundingClientRect(), t = s.querySelector('strong').getBoundingClientRect(),"
                        "m = s.querySelector('small').getBoundingClientRect(); return t.top >= r.top && m.bottom <= r.bottom && t.bottom <= m.top + 1")
        tell(f"the words have room, {width} x {height}", room, True)
    wall.tool("Emulation.setDeviceMetricsOverride", width=1280, height=720, deviceScaleFactor=1, mobile=False)
    one_line = wall.run("const s = document.querySelector('#old strong'); return s.getClientRects().length === 1 && s.offsetHeight < 1.5 * parseFloat(getComputedStyle(s).fontSize)")
    tell("and stand in one line", one_line, True)
    for dark in True, False:
        wall.media(dark=dark)
        wall.picture(out / f"old-{'dark' if dark else 'light'}.png")
    night.age(drawn=drawn - 86400 * 3)
    day = time.strftime("%Y-%m-%d %H:%M", time.localtime(drawn - 86400 * 3))
    tell("days old", wait_until(lambda: wall.old() == f"NOT DRAWN SINCE {day}"), True)
    night.page.rename(night.page.with_suffix(".away"))
    time.sleep(7)
    tell("a page that went: the drawing stays, and is old", (wall.old(), "second" in wall.letters()), (f"NOT DRAWN SINCE {day}", True))
    night.follow()
    tell("drawn again", wait_until(lambda: wall.old() is None), True)
    night.end()
    tell("ended well: that is told", wait_until(lambda: "ENDED:" in wall.letters()), True)
    night.age(drawn=int(time.time()) + 86400, old=4)
    wait_until(lambda: wall.old() is None, 1)
    tell("a clock that runs behind", wait_until(lambda: wall.old() is not None, 15), True)


def without_script(wall, night, tell):
    night.follow()
    wall.media(script=False)
    wall.open(night.page)
    seen = wall.tool("Runtime.evaluate", expression="1")  # the browser's own protocol still answers
    tell("without script", bool(seen), True)
    text = night.page.read_text(encoding="utf-8")
    tell("it is read anew all the same", "<noscript><meta http-equiv=refresh content=3></noscript>" in text, True)
    tell("and says what it cannot", "<noscript><p>Script is off: this page cannot tell when it is old.</p></noscript>" in text, True)
    wall.media()
    night.end()


def from_right(wall, night, tell, out):
    """Letters that are written from the right go to the left, within the cells that are theirs."""
    night.write("ab אבג cd\n\nהמשאבה נעצרה, 12 בר.\n\nالمضخة رقم توقفت\n\nकी गया\n")
    night.follow()
    wall.open(night.page, width=1920, height=1080)
    script = ("return [...document.querySelectorAll('text[textLength]')].map(t => { const b = t.getBBox(), n = t.getNumberOfChars(), at = i => t.getStartPositionOfChar(i).x;"
              "return [t.textContent, at(0) > at(n - 1), b.x >= t.x.baseVal[0].value - t.textLength.baseVal.value / 2 - 2,"
              " b.x + b.width <= t.x.baseVal[0].value + t.textLength.baseVal.value / 2 + 2]; })")
    wanted = [["אבג", True], ["המשאבה נעצרה, 12 בר.", True], ["المضخة رقم توقفت", True], ["की", False], ["गया", False]]
    tell("letters from the right", wall.run(script), [[text, right, True, True] for text, right in wanted])
    wall.picture(out / "from-right.png")
    night.end()


def full_disk(program, wall, tell, folder):
    """A page on a disk of 1 MiB that is filled and emptied."""
    small = folder / "small"
    small.mkdir()
    mount = shutil.which("mount")
    if mount is None or subprocess.run([mount, "-t", "tmpfs", "-o", "size=1m", "tmpfs", small], capture_output=True).returncode != 0:
        print("wall: the page on a full disk is left out: no file system can be mounted here")
        return
    try:
        night = Night(program, folder, "small/wall.html")
        night.write("first line\n")
        night.follow()
        wall.open(night.page, width=1280, height=720)
        with open(small / "filler", "wb", buffering=0) as filler:
            try:
                while True:
                    filler.write(bytes(4096))
            except OSError:
                pass
        night.write("first line\n\nsecond\n")
        time.sleep(5)
        tell("a full disk: the page stays", ("firstline" in wall.letters(), "second" in wall.letters()), (True, False))
        (small / "filler").unlink()
        tell("an emptied one: it goes on", wait_until(lambda: "second" in wall.letters()), True)
        tell("and says what was wrong", re.search(r"notwrittenfrom\d\d:\d\d:\d\dto\d\d:\d\d:\d\d:", wall.letters()) is not None, True)
        night.end()
    finally:
        subprocess.run(["umount", "-l", small], capture_output=True)


class TwoMinutes:
    """A wall whose command was killed, in a browser of its own, for as long as it takes to turn red: looked at behind the other tests."""

    def __init__(self, program, folder):
        self.wall = Wall()  # first: where no browser starts, no command is left behind
        self.night = Night(program, folder, "two-minutes.html")
        self.night.notes = folder / "two-minutes"
        self.night.write("quiet\n")
        self.night.follow()
        self.wall.open(self.night.page, width=1280, height=720)
        self.night.end(signal.SIGKILL)
        self.drawn = int(re.search(r"data-drawn=(\d+)", self.night.page.read_text(encoding="utf-8"))[1])

    def look(self, tell):
        try:
            early = time.time() < self.drawn + 115
            if early:
                tell("killed: not yet two minutes old", self.wall.old(), None)
            since = time.strftime("%H:%M", time.localtime(self.drawn))
            tell("killed: two minutes old", wait_until(lambda: self.wall.old() == f"NOT DRAWN SINCE {since}", self.drawn + 126 - time.time()), True)
            tell("killed: not before", time.time() >= self.drawn + 120, True)
        finally:
            self.wall.close()


def run_all(program, tell, out):
    with tempfile.TemporaryDirectory() as name:
        folder = pathlib.Path(name)
        if pathlib.Path("/usr/share/zoneinfo/Asia/Kathmandu").exists():  # the wall's times are those of the place
            os.environ["TZ"] = "Asia/Kathmandu"
            time.tzset()
        killed_before = TwoMinutes(program, folder)
        wall, night = Wall(), Night(program, folder)
        try:
            follows(wall, night, tell, out)
            never_flashes(wall, night, tell)
            nothing_acts(wall, night, tell)
            fits(wall, night, tell)
            killed(wall, night, tell, out)
            without_script(wall, night, tell)
            from_right(wall, night, tell, out)
            full_disk(program, wall, tell, folder)
        finally:
            night.end()
            wall.close()
            killed_before.look(tell)
