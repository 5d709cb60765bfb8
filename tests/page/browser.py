"""A browser without a window, driven as a person would, by WebDriver and Python's own library alone.

Chromium and its driver are Debian's chromium and chromium-driver. No file but the pages is asked for, and no network."""
import base64
import http.client
import json
import os
import pathlib
import re
import shutil
import subprocess
import tempfile
import time
import zlib

ARROWS = {"ArrowUp": "\ue013", "ArrowDown": "\ue015", "Home": "\ue011", "End": "\ue010", "Enter": "\ue007", "Escape": "\ue00c", "Tab": "\ue004"}


class NotStarted(Exception):
    """There is a browser, and it does not start here."""


def missing():
    """The programs that are not at hand."""
    return [name for name in ("chromium", "chromedriver") if not shutil.which(name)]


def unpacked(picture):
    """The rows of a PNG as a browser makes it: 8 bits a colour, not interlaced. Answers its width, the rows and the bytes of a pixel."""
    at, packed, width, size = 8, b"", 0, 0
    while at < len(picture):
        length, kind = int.from_bytes(picture[at : at + 4], "big"), picture[at + 4 : at + 8]
        data = picture[at + 8 : at + 8 + length]
        if kind == b"IHDR":
            width, size = int.from_bytes(data[:4], "big"), {2: 3, 6: 4}[data[9]]
        packed += data if kind == b"IDAT" else b""
        at += 12 + length
    flat, rows, above = zlib.decompress(packed), [], bytes(width * size)
    for start in range(0, len(flat), width * size + 1):
        rows.append(unfiltered(flat[start], bytearray(flat[start + 1 : start + 1 + width * size]), above, size))
        above = rows[-1]
    return width, rows, size


def unfiltered(kind, row, above, size):
    for i in range(len(row)):
        left, up, corner = (row[i - size], above[i], above[i - size]) if i >= size else (0, above[i], 0)
        if kind == 4:
            nearest = min((left, up, corner), key=lambda value: abs(left + up - corner - value))
        row[i] = (row[i] + (0, left, up, (left + up) // 2, nearest if kind == 4 else 0)[kind]) & 255
    return row


class Browser:
    def __init__(self):
        self.home = tempfile.TemporaryDirectory(ignore_cleanup_errors=True)
        log = open(os.path.join(self.home.name, "log"), "wb")
        self.driver = subprocess.Popen(["chromedriver", "--port=0"], stdout=subprocess.PIPE, stderr=log, env={**os.environ, "HOME": self.home.name})
        self.port = self.find_port()
        flags = ["--headless=new", "--disable-gpu", "--hide-scrollbars", "--force-device-scale-factor=1", "--no-first-run", "--disable-background-networking",
                 f"--user-data-dir={self.home.name}/profile", "--disable-dev-shm-usage", "--touch-events=enabled"]
        if os.geteuid() == 0:
            flags.append("--no-sandbox")  # as root there is none to be had
        wanted = {"browserName": "chrome", "goog:chromeOptions": {"args": flags}, "goog:loggingPrefs": {"browser": "ALL"}, "unhandledPromptBehavior": "ignore"}
        try:
            self.session = self.call("POST", "/session", {"capabilities": {"alwaysMatch": wanted}})["sessionId"]
        except RuntimeError as fault:
            self.stop()
            raise NotStarted(str(fault)) from None

    def find_port(self):
        for line in self.driver.stdout:
            found = re.search(rb"successfully on port (\d+)", line)
            if found:
                return int(found[1])
        self.stop()
        raise NotStarted("chromedriver did not start")

    def call(self, method, path, words=None):
        link = http.client.HTTPConnection("127.0.0.1", self.port, timeout=120)
        link.request(method, path, None if words is None else json.dumps(words), {"Content-Type": "application/json"})
        answer = json.loads(link.getresponse().read())["value"]
        link.close()
        if isinstance(answer, dict) and "error" in answer:
            raise RuntimeError(f"{path}: {answer['error']}: {answer.get('message', '')[:300]}")
        return answer

    def ask(self, method, path, words=None):
        return self.call(method, f"/session/{self.session}{path}", words)

    def tool(self, command, **words):
        """A command of the browser's own protocol."""
        return self.ask("POST", "/goog/cdp/execute", {"cmd": command, "params": words})

    def close(self):
        try:
            self.ask("DELETE", "")
        finally:
            self.stop()

    def stop(self):
        self.driver.terminate()
        self.driver.wait()
        self.home.cleanup()

    # ---- what a person does

    def size(self, width, height, phone=False):
        """A phone has a finger, and no mouse that could hover."""
        self.tool("Emulation.setTouchEmulationEnabled", enabled=phone, maxTouchPoints=5)
        self.tool("Emulation.setDeviceMetricsOverride", width=width, height=height, deviceScaleFactor=2 if phone else 1, mobile=phone)

    def open(self, file, anchor="", width=1280, height=800, phone=False):
        self.size(width, height, phone)
        self.ask("POST", "/url", {"url": "about:blank"})
        began = time.time()
        self.ask("POST", "/url", {"url": pathlib.Path(file).resolve().as_uri() + anchor})
        return time.time() - began

    def keys(self, *names):
        presses = [{"type": kind, "value": ARROWS.get(name, name)} for name in names for kind in ("keyDown", "keyUp")]
        self.ask("POST", "/actions", {"actions": [{"type": "key", "id": "keyboard", "actions": presses}]})

    def mouse(self, x, y, click=False, kind="mouse"):
        steps = [{"type": "pointerMove", "x": int(x), "y": int(y), "duration": 0}]
        if click:
            steps += [{"type": "pointerDown", "button": 0}, {"type": "pointerUp", "button": 0}]
        self.ask("POST", "/actions", {"actions": [{"type": "pointer", "id": kind, "parameters": {"pointerType": kind}, "actions": steps}]})

    def point(self, chosen, click=False, kind="mouse"):
        """At the middle of what a selector finds, as far as it is seen."""
        x, y = self.run("const r = document.querySelector(arguments[0]).getBoundingClientRect();"
                        "return [(Math.max(r.left, 0) + Math.min(r.right, innerWidth)) / 2, (r.top + r.bottom) / 2]", chosen)
        self.mouse(x, y, click, kind)

    # ---- what is seen

    def run(self, script, *words):
        return self.ask("POST", "/execute/sync", {"script": script, "args": list(words)})

    def text(self, chosen):
        return self.run("const e = document.querySelector(arguments[0]); return e && e.textContent", chosen)

    def alert(self):
        """The text of a window that a script has opened, if there is one."""
        try:
            return self.ask("GET", "/alert/text")
        except RuntimeError:
            return None

    def log(self):
        return [entry["message"] for entry in self.ask("POST", "/se/log", {"type": "browser"})]

    def picture(self, file):
        pathlib.Path(file).write_bytes(base64.b64decode(self.ask("GET", "/screenshot")))

    def colours(self, places):
        """Those of a picture at places in pixels of the page: red, green and blue."""
        width, rows, size = unpacked(base64.b64decode(self.ask("GET", "/screenshot")))
        scale = width / self.run("return innerWidth")
        return [tuple(rows[int(y * scale)][int(x * scale) * size : int(x * scale) * size + 3]) for x, y in places]

    def printed(self, file):
        words = {"page": {"width": 21.0, "height": 29.7}, "margin": {"top": 1.5, "bottom": 1.5, "left": 1.5, "right": 1.5}, "background": False}
        pathlib.Path(file).write_bytes(base64.b64decode(self.ask("POST", "/print", words)))

    def media(self, **features):
        """dark=True, reduced=True, script=False."""
        wanted = [{"name": "prefers-color-scheme", "value": "dark" if features.get("dark") else "light"},
                  {"name": "prefers-reduced-motion", "value": "reduce" if features.get("reduced") else "no-preference"}]
        self.tool("Emulation.setEmulatedMedia", features=wanted)
        self.tool("Emulation.setScriptExecutionDisabled", value=not features.get("script", True))
