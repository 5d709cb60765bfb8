"""On a terminal: control characters are shown and do not act, and long work shows how far it is. In a file or a pipe bytes stay as they are."""
import fcntl
import os
import pty
import struct
import subprocess
import termios
import time

from .calls import RUDIGNALS, SANITIZED, expect, run

# as notes have it, and as a terminal shows it
BYTES = b"a\x1b[2Jb\x07c\x7fd \xc2\x9b31m e\xe2\x80\xaef\xe2\x81\xa6g \rh\xe4\xb8\xad\xc3\xa9 i\n"
SHOWN = "a^[[2Jb^Gc^?d <U+009B>31m e<U+202E>f<U+2066>g ^Mh\u4e2d\u00e9 i\n".encode()


def all_shown(ours):
    """What the terminal was given; reading fails when the other end is closed and nothing is left."""
    shown = b""
    while True:
        try:
            piece = os.read(ours, 65536)
        except OSError:
            piece = b""
        if not piece:
            os.close(ours)
            return shown
        shown += piece


def on_terminal(words, stdin=b"", both=True, **more):
    """Status and what a terminal is given by standard output and, unless it goes elsewhere, standard error."""
    ours, theirs = pty.openpty()
    settings = termios.tcgetattr(theirs)
    settings[1] &= ~termios.OPOST  # line feeds as they are
    termios.tcsetattr(theirs, termios.TCSANOW, settings)
    fcntl.ioctl(theirs, termios.TIOCSWINSZ, struct.pack("HHHH", 50, 132, 0, 0))
    child = subprocess.Popen([RUDIGNALS, *words], stdin=subprocess.PIPE, stdout=more.pop("stdout", theirs), stderr=theirs if both else subprocess.DEVNULL, **more)
    os.close(theirs)
    child.stdin.write(stdin)
    child.stdin.close()
    shown = all_shown(ours)
    return child.wait(), shown


def notes_do_not_act(folder):
    (folder / "notes").write_bytes(BYTES)
    (folder / "kept").write_bytes(b"x\x9b31m\n\xff\x1bc\n")
    row = b"   1  end of paragraph".ljust(55) + b"|"
    cases = [
        (["format", "-s", "notes"], BYTES, SHOWN),
        (["index", "--line=1", "-s", "notes"], BYTES, SHOWN),
        (["explain", "-s", "notes"], row + BYTES, row + SHOWN),
        (["unflow", "notes"], BYTES.replace(b"\n", b"\r\n"), SHOWN.replace(b"\n", b"\r\n")),
        (["salvage", "LIST", "notes"], BYTES, SHOWN),
        (["restore", "/dev/null", "notes"], BYTES, SHOWN),
        (["format", "--keep", "kept"], b"x\x9b31m\n\xff\x1bc\n", b"x<9B>31m\n<FF>^[c\n"),
        (["index", "--keep", "--line=2", "kept"], b"\xff\x1bc\n", b"<FF>^[c\n"),
    ]
    for words, piped, shown in cases:
        if "LIST" in words:
            words = ["salvage", str(folder / "list-1"), "notes"]
        found = run(words, b"", RUDIGNALS, cwd=folder)
        expect(f"{words} to a pipe", found, (0, piped, ""))
        if words[0] == "salvage":
            words = ["salvage", str(folder / "list-2"), "notes"]
        expect(f"{words} to a terminal", on_terminal(words, cwd=folder), (0, shown))
    status, shown = on_terminal(["flow", "notes"], cwd=folder)
    expect("flow to a terminal", (status, b"\x1b" in shown, b"^[[2J" in shown), (0, False, True))
    for words in ["page", "notes"], ["panel", "notes"]:
        status, shown = on_terminal(words, cwd=folder, env={**os.environ, "TERM": "xterm"})
        expect(f"{words}: nothing acts", (status, b"\x1b[2J" in shown, b"\xe2\x80\xae" in shown, b"\xc2\x9b" in shown), (0, False, False, False))


def json_does_not_act(folder):
    (folder / "notes").write_bytes(BYTES)
    for words in ["index", "--json", "--line=1", "notes"], ["explain", "--json", "-s", "notes"]:
        status, shown = on_terminal(words, cwd=folder)
        expect(f"{words} on a terminal", (status, b"\x1b" in shown, b"\xe2\x80\xae" in shown), (0, False, False))


def words_do_not_act(folder):
    """Names, options and values in messages."""
    odd = "a\x1b[2J\u202e\u009b"
    shown = b"a^[[2J<U+202E><U+009B>"
    for words in ["format", odd], ["format", "--" + odd], [odd], ["format", "-w", odd], ["index", "--line", odd, "-"], ["explain", "-", odd], ["help", odd], ["completion", odd], ["salvage", odd, odd], ["check", odd, odd]:
        status, found = on_terminal(words, cwd=folder)
        expect(f"{words}: nothing acts", (status > 0, b"\x1b" in found, b"\xe2\x80\xae" in found, b"\xc2\x9b" in found), (True, False, False, False))
        if words[0] != "completion":
            expect(f"{words}: it is shown", shown in found, True)


def progress():
    """What takes over two seconds says on a terminal how far it is, and takes that away; elsewhere nothing is said."""
    if SANITIZED:
        return
    ours, theirs = pty.openpty()
    child = subprocess.Popen([RUDIGNALS, "format"], stdin=subprocess.PIPE, stdout=subprocess.DEVNULL, stderr=theirs)
    os.close(theirs)
    for _ in range(14):
        child.stdin.write(b"The valve at the north gate opened late.\n\n" * 8000)
        child.stdin.flush()
        time.sleep(0.25)
    child.stdin.close()
    child.wait()
    shown = all_shown(ours)
    expect("how far it is", (child.returncode, b" MB" in shown, shown.replace(b"\r\n", b"\n").endswith(b" \r")), (0, True, True))
    child = subprocess.Popen([RUDIGNALS, "format"], stdin=subprocess.PIPE, stdout=subprocess.DEVNULL, stderr=subprocess.PIPE)
    for _ in range(10):
        child.stdin.write(b"The valve at the north gate opened late.\n\n" * 8000)
        child.stdin.flush()
        time.sleep(0.25)
    expect("elsewhere nothing", child.communicate(), (None, b""))


ALL = [notes_do_not_act, json_does_not_act, words_do_not_act, progress]
