"""A page, read back: what stands in it as bytes, and whether it has markup that no page has."""
import base64
import hashlib
import re
from html.parser import HTMLParser

NUMBER = r"[1-9]\d*"
ATTRIBUTES = {  # of each element that a page may have: the attributes, and what they may be
    "html": {"lang": "en"}, "meta": {"charset": ".*", "http-equiv": ".*", "content": ".*", "name": ".*"}, "title": {}, "style": {}, "script": {}, "body": {},
    "header": {"id": "top", "class": "bar", "role": "alert"}, "h1": {}, "h2": {}, "h3": {}, "strong": {}, "small": {"class": "[xy]"}, "em": {}, "ul": {}, "br": {}, "kbd": {}, "mark": {},
    "nav": {"aria-label": "This page"}, "main": {"id": "failed"}, "footer": {}, "b": {"class": r"w\d+"}, "div": {"id": "digest", "role": "region", "aria-label": "The digest, line by line", "tabindex": "-1"},
    "section": {"id": f"n{NUMBER}|seen|wall", "aria-label": "Not to be missed|The wall panel"}, "aside": {"id": "notes", "aria-label": ".*", "tabindex": "-1"},
    "p": {"id": f"r{NUMBER}|cut|calm", "class": "hint|bar|e", "role": "alert"}, "pre": {"tabindex": "0"}, "ol": {"start": NUMBER}, "li": {"class": "[adonm]|at"},
    "a": {"id": NUMBER, "class": "[do]", "href": f"#(n?{NUMBER}|digest|notes|wall|top)"}, "span": {"class": "name|k|goal|width|ruler|bar|g|mouse|touch"},
    "i": {"class": r"w\d+( r)?|w1 [do]", "id": "end"}, "u": {"class": r"[cd] w\d+|[cdeqzt]", "data-x": r"[0-9A-F \n]+"},
}
VOID = {"meta", "br"}
CLOSED_BY = {"li": {"li"}, "p": {"p", "h3", "div", "section"}}  # elements whose end is left out


class Page(HTMLParser):
    def __init__(self, data):
        super().__init__(convert_charrefs=True)
        self.faults, self.open, self.seen = [], [], set()
        self.texts = {"title": "", "top": "", "calm": ""}  # of these: their text
        self.lines = []  # of the digest: number, class, the piece's anchor, bytes
        self.pieces = {}  # by its anchor: the first note's number, {line: (columns, words, numbers, its link)}, the words for the place, bytes
        self.warned = {}  # by the class: the text, and the lines linked to
        self.rows, self.sides, self.notes, self.rulers, self.heading = [], [], [], [], ""  # rows of the wall, and the mark beside each
        self.piece = self.reason = None
        if not data.startswith(b"\xef\xbb\xbf<!doctype html>\n"):
            self.faults.append("no mark of byte order, or no doctype")
        text = data.decode("utf-8")
        for name in "style", "script":
            found = re.findall(f"<{name}>(.*?)</{name}>", text, re.S)
            digest = base64.b64encode(hashlib.sha256(found[0].encode()).digest()).decode() if len(found) == 1 else ""
            if f"{name}-src 'sha256-{digest}'" not in text.split("<title>")[0]:
                self.faults.append(f"the content policy does not name the {name}")
        if "content=\"default-src 'none'; " not in text.split("<title>")[0]:
            self.faults.append("no content policy")
        if re.search("[\0-\x09\x0b-\x1f\x7f-\x9f\xad\u061c\u180e\u200b\u200e\u200f\u2028-\u202e\u2060-\u206f\ufeff\ufff9-\ufffb\ufffe\uffff]", text[1:]):
            self.faults.append("a character that acts stands in the page as it is")
        self.feed(text)
        self.close()
        if "end" not in self.seen:
            self.faults.append("the page has no end")

    # ---- markup
    def handle_starttag(self, tag, attributes):
        allowed = ATTRIBUTES.get(tag)
        if allowed is None:
            self.faults.append(f"an element {tag}")
            return
        for name, value in attributes:
            if name not in allowed or not re.fullmatch(allowed[name], value or ""):
                self.faults.append(f"{tag} has {name}={value!r}")
        while self.open and tag in CLOSED_BY.get(self.open[-1][0], ()):
            self.handle_endtag(self.open[-1][0])
        words = dict(attributes)
        if "id" in words:
            if words["id"] in self.seen:
                self.faults.append(f"{words['id']} stands twice")
            self.seen.add(words["id"])
        if tag in VOID:
            return
        self.open.append((tag, words))
        self.begin(tag, words)

    def handle_endtag(self, tag):
        while self.open and self.open[-1][0] != tag and self.open[-1][0] in CLOSED_BY:
            self.open.pop()
        if not self.open or self.open[-1][0] != tag:
            self.faults.append(f"</{tag}> where {self.open[-1:]} is open")
            return
        self.open.pop()
        if tag == "section":
            self.piece = None

    def handle_comment(self, data):
        self.faults.append("a comment")

    def handle_pi(self, data):
        self.faults.append("an instruction")

    # ---- what it says
    def within(self, tag, **words):
        return any(t == tag and all(w.get(k) == v for k, v in words.items()) for t, w in self.open)

    def begin(self, tag, words):
        if tag == "a" and self.within("div", id="digest"):
            self.lines.append([int(words["id"]), words.get("class", ""), words["href"][1:], b""])
        elif tag == "section" and words.get("id", "").startswith("n"):
            self.piece = self.pieces[words["id"]] = [0, {}, "", b""]
        elif tag == "p" and self.piece and "id" in words:
            self.reason = self.piece[1][int(words["id"][1:])] = ["", "", "", ""]
        elif tag == "ol" and self.piece:
            self.piece[0] = int(words["start"])
        elif tag == "ol":
            self.notes.append([int(words.get("start", 1)), b"", b""])
        elif tag == "li" and self.within("section", id="seen"):
            self.warned[words["class"]] = ["", []]
        elif tag == "a" and self.within("section", id="seen"):
            list(self.warned.values())[-1][1].append(int(words["href"][1:]))
        elif tag == "span" and self.within("section", id="wall"):
            self.rows.append("")
            self.sides.append({"bar": "!", "g": ">"}.get(words.get("class"), "|"))

    def bytes_in(self, data, digest):
        """A number in brackets is the bytes, or in the digest the code points, that it stands for."""
        tag, words = self.open[-1]
        if tag != "u":
            return data.encode()
        kind = words["class"][0]
        if kind == "t":
            return b"\t" if data.strip(" ") == "" else b"?"
        numbers = re.fullmatch(r"\[([0-9A-F ]+)\]", data)[1].split()
        shown = words.get("data-x", "0A")
        rows = shown.split("\n")
        joined = [a + b for a, b in zip(*rows)] if len(rows) == 2 and kind != "q" else ["".join(rows)] if len(rows) == 2 else shown.split()
        if joined != numbers:
            self.faults.append(f"{shown!r} is shown for {data!r}")
        if digest and kind != "d":
            return "".join(chr(int(n, 16)) for n in numbers).encode()
        return bytes(int(n, 16) for n in numbers)

    def handle_data(self, data):
        for name in self.texts:
            if any(tag == name or words.get("id") == name for tag, words in self.open):
                self.texts[name] += data
        if self.within("h1"):
            self.heading += data
        if self.within("span", **{"class": "ruler"}):
            self.rulers.append(data)
        if self.within("section", id="wall") and self.within("span"):
            self.rows[-1] += data
        elif self.within("div", id="digest") and self.within("a"):
            self.lines[-1][3] += self.bytes_in(data, True)
        elif self.within("li", **{"class": "at"}) or self.within("li"):
            self.note(data)
        elif self.piece and self.within("h3"):
            self.piece[2] += data
        elif self.piece and self.within("p", **{"class": "e"}):
            self.alike(data)
        elif self.piece and self.within("p") and self.open[-1][0] in ("small", "em", "a"):
            tag, words = self.open[-1]
            self.reason[{"small": 2 if words else 0, "em": 1, "a": 3}[tag]] += data

    def alike(self, data):
        """Blank lines that are told together: one stands there, with how many there are."""
        number = re.fullmatch(r"([1-9][\d,]*) lines of these same bytes", data)
        if number is None:
            self.faults.append(f"{data!r} behind the notes")
        else:
            self.piece[3] *= int(number[1].replace(",", ""))

    def note(self, data):
        if self.within("section", id="seen"):
            list(self.warned.values())[-1][0] += data
            return
        if self.open[-1][0] == "li" and data.endswith("\n"):
            data = data[:-1]  # the one that ends the item
        found = self.bytes_in(data, False)
        if self.piece:
            self.piece[3] += found
        else:
            self.notes[-1][1] += found
            if self.within("mark"):
                self.notes[-1][2] += found

    # ---- as the library has it
    def digest(self):
        """Its bytes, line feeds among them."""
        return b"".join(line[3] for line in self.lines)

    def all_notes(self):
        return b"".join(piece[3] for piece in self.pieces.values())
