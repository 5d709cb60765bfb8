"""night: every file of a night, refusals told by all of them, one step from the old night to the new, whole mail. Expected texts are written by hand, or
are what the other subcommands write."""
import email
import email.policy
import json
import os
import pathlib
import re
import shlex
import shutil
import subprocess
import time
import xml.etree.ElementTree

from .calls import ROOT, RUDIGNALS, SANITIZED, at_hand, expect, leave_out, run

FILES = ["digest.eml", "digest.txt", "index.json", "page.html", "status.json", "wall.html", "wall.svg"]
NOTES = "22:40 Pump 2 tripped. Restarted by hand\nafter the valve was bled.\n\n  \u2013 falling\n".encode()
REFUSAL = "line 2, column 3: byte B0 begins no UTF-8 character; --keep leaves such a line as it is"


def night(folder, *arguments, **more):
    return run(["night", *arguments], b"", RUDIGNALS, cwd=folder, **more)


def read(folder, name):
    return (pathlib.Path(folder) / name).read_bytes()


def seen_in(folder, name):
    """The letters of a drawing or a page, cell by cell, without blanks."""
    return re.sub(r"<[^>]*>|\s|&#?\w+;", "", re.sub(r"(?s)<(style|script).*?</\1>", "", read(folder, name).decode()))


def mail_of(folder):
    return email.message_from_bytes(read(folder, "digest.eml"), policy=email.policy.default)


def files(folder):
    """What every file of a night is."""
    (folder / "notes").write_bytes(NOTES)
    expect("night: made", night(folder, "-w", "30", "--to", "out", "notes"), (0, b"", ""))
    made = folder / "out/notes"
    expect("night: its files, and nothing beside them", (sorted(os.listdir(made)), os.listdir(folder / "out")), (FILES, ["notes"]))
    expect("night: digest.txt is what format writes", read(made, "digest.txt"), run(["format", "-w", "30", "notes"], b"", RUDIGNALS, cwd=folder)[1])
    index = [json.loads(line) for line in run(["index", "--json", "-w", "30", "notes"], b"", RUDIGNALS, cwd=folder)[1].splitlines()]
    expect("night: index.json has what index shows", json.loads(read(made, "index.json")), index)
    status = json.loads(read(made, "status.json"))
    expect("night: status.json", [status[key] for key in ("notes", "outcome", "why", "bytes", "lines", "refused", "options")],
           ["notes", "made", None, {"notes": len(NOTES), "digest": len(read(made, "digest.txt"))}, {"digest": 5, "damaged": 0, "mended": 0}, False, {"width": "30", "to": "out"}])
    expect("night: wall.svg is a picture with the digest's words", (xml.etree.ElementTree.fromstring(read(made, "wall.svg")).tag[-3:], "falling" in seen_in(made, "wall.svg")), ("svg", True))
    for name in "page.html", "wall.html":
        expect(f"night: {name}", (b"<!doctype html>" in read(made, name)[:40].lower(), "falling" in seen_in(made, name)), (True, True))
    if at_hand("JSON read by jq", "jq", "jq"):
        expect("night: jq reads status and index", subprocess.run(["jq", "-e", ".", made / "status.json", made / "index.json"], stdout=subprocess.DEVNULL).returncode, 0)


def refusals(folder):
    """Each file says that there is no digest, and shows the notes."""
    (folder / "bad").write_bytes(b"quiet\nok\xb0 DO NOT CYCLE\n")
    expect("night: a refusal", night(folder, "--to", "out", "bad", "gone"), (1, b"", f"rudignals: bad: {REFUSAL}\nrudignals: gone: No such file or directory\n"))
    bad, gone = folder / "out/bad", folder / "out/gone"
    expect("night: all files are there", (sorted(os.listdir(bad)), sorted(os.listdir(gone))), (FILES, FILES))
    expect("night: none is empty", [name for name in FILES if not read(bad, name) or not read(gone, name)], [])
    expect("night: digest.txt tells the refusal and has the notes", read(bad, "digest.txt"),
           f"REFUSED: there are notes, and no digest of them\nbad: {REFUSAL}\n\nThe notes as they are:\n\n".encode() + b"quiet\nok\xb0 DO NOT CYCLE\n")
    expect("night: a file that is not there", read(gone, "digest.txt"), b"NOT READ: there may be notes, and none is shown\ngone: No such file or directory\n")
    for name in "page.html", "wall.html", "wall.svg":
        expect(f"night: {name} says REFUSED, and shows the notes", ("REFUSED" in seen_in(bad, name), "DONOTCYCLE" in seen_in(bad, name)), (True, True))
    expect("night: the mail's subject says it", mail_of(bad)["Subject"], f"bad: REFUSED: bad: {REFUSAL}")
    expect("night: the mail has the notes attached", [part.get_payload(decode=True) for part in mail_of(bad).iter_attachments()], [b"quiet\nok\xb0 DO NOT CYCLE\n"])
    status = json.loads(read(bad, "status.json"))
    expect("night: status.json says it", (status["refused"], status["outcome"], status["why"]), (True, "refused", f"bad: {REFUSAL}"))
    expect("night: index.json says it", json.loads(read(bad, "index.json")), {"refused": f"bad: {REFUSAL}"})
    (folder / "empty").write_bytes(b"")
    expect("night: empty notes are a quiet night", (night(folder, "--to", "out", "empty")[0], read(folder, "out/empty/digest.txt")), (0, b""))
    expect("night: its mail says so", mail_of(folder / "out/empty")["Subject"], "empty: no notes")
    (folder / "folder").mkdir()
    expect("night: a folder in the place of notes", (night(folder, "--to", "out", "folder")[0], b"NOT READ" in read(folder, "out/folder/digest.txt")), (1, True))


def mails(folder):
    """Headers, ways of encoding, attachments, as Python's reader has them."""
    (folder / "notes").write_bytes(NOTES)
    said = ["--mail-from", "Kryo W\u00e4chter <k@example.org>", "--mail-to", '"Ops, night" <ops@example.org>', "--mail-subject", "Nacht\r\nBcc: x@y \u6f22\u5b57" * 4]
    expect("night: mail", night(folder, "--to", "out", *said, "--attach-page", "notes")[0], 0)
    mail = mail_of(folder / "out/notes")
    expect("night: no header of a stranger's", [key for key in mail.keys()], ["From", "To", "Subject", "Date", "Message-ID", "MIME-Version", "Content-Type"])
    expect("night: from", (mail["From"].addresses[0].display_name, mail["From"].addresses[0].addr_spec), ("Kryo W\u00e4chter", "k@example.org"))
    expect("night: to", (mail["To"].addresses[0].display_name, mail["To"].addresses[0].addr_spec), ("Ops, night", "ops@example.org"))
    expect("night: defects", mail.defects, [])
    expect("night: a line of the headers has at most 78 signs", [line for line in read(folder, "out/notes/digest.eml").split(b"\r\n\r\n")[0].split(b"\r\n") if len(line) > 78], [])
    text = mail.get_body()
    expect("night: the text", (text["Content-Type"].params["format"], text["Content-Type"].params["charset"], text["Content-Transfer-Encoding"]), ("flowed", "UTF-8", "8bit"))
    flowed = run(["flow", "notes"], b"", RUDIGNALS, cwd=folder)[1]
    expect("night: the text is what flow writes", text.get_payload(decode=True).rstrip(b"\r\n"), flowed.rstrip(b"\r\n"))
    expect("night: the notes and the page are attached", [(p.get_filename(), p.get_payload(decode=True)) for p in mail.iter_attachments()],
           [("notes", NOTES), ("page.html", read(folder, "out/notes/page.html"))])
    (folder / "long").write_bytes(("\u6f22" * 500 + "\n= .x \n.\nFrom here \u2013 \n").encode())
    status, _, told = night(folder, "--to", "out", "long")
    text = mail_of(folder / "out/long").get_body()
    expect("night: a line of over 998 octets is told, and sent otherwise", (status, "over 998 octets" in told, text["Content-Transfer-Encoding"]), (0, True, "quoted-printable"))
    expect("night: and comes back", text.get_payload(decode=True).rstrip(b"\r\n"), run(["flow", "long"], b"", RUDIGNALS, cwd=folder)[1].rstrip(b"\r\n"))
    expect("night: no line of it is longer than 76", [line for line in read(folder, "out/long/digest.eml").split(b"\r\n") if len(line) > 78], [])
    (folder / "na\u00efve \u6f22.txt").write_bytes(b"x\n")
    expect("night: a name beyond ASCII", (night(folder, "--to", "out", "na\u00efve \u6f22.txt")[0], next(mail_of(folder / "out/na\u00efve \u6f22.txt").iter_attachments()).get_filename()), (0, "na\u00efve \u6f22.txt"))
    for option in ["-p", ">"], ["-c"], ["-m"]:
        expect(f"night: mail in fixed lines with {option}", (night(folder, "--to", "out", *option, "notes")[0], b"Pump 2" in mail_of(folder / "out/notes").get_body().get_payload(decode=True)), (0, True))


def flow_mime(folder):
    """flow --mime writes the same mail by itself; flow tells a line that no server need take."""
    (folder / "notes").write_bytes(NOTES)
    status, out, said = run(["flow", "--mime", "--mail-from", "a@example.org", "notes"], b"", RUDIGNALS, cwd=folder)
    mail = email.message_from_bytes(out, policy=email.policy.default)
    expect("flow --mime", (status, said, mail["Subject"], mail["To"], mail.defects), (0, "", "notes: 3 lines", "a@example.org", []))
    expect("flow --mime: text and notes", (mail.get_body().get_payload(decode=True).rstrip(), [p.get_payload(decode=True) for p in mail.iter_attachments()]),
           (run(["flow", "notes"], b"", RUDIGNALS, cwd=folder)[1].rstrip(), [NOTES]))
    status, out, said = run(["flow", "--mime"], b"ok\n\xb0\n", RUDIGNALS)
    mail = email.message_from_bytes(out, policy=email.policy.default)
    expect("flow --mime: a refusal", (status, "REFUSED" in mail["Subject"], mail.get_body().get_payload(decode=True).startswith(b"REFUSED")), (1, True, True))
    (folder / "long").write_bytes(("\u6f22" * 500 + "\n").encode())
    expect("flow: a line of over 998 octets is told", run(["flow", "long"], b"", RUDIGNALS, cwd=folder)[::2], (0, "rudignals: long: a line has 1500 octets, and mail takes 998 as they are; --mime encodes it\n"))


def handed_on(folder):
    (folder / "notes").write_bytes(NOTES)
    expect("night --sendmail: gets the mail", (night(folder, "--to", "out", "--sendmail", "cat >sent", "notes")[0], read(folder, "sent")), (0, read(folder, "out/notes/digest.eml")))
    expect("night --sendmail: a failure is told", night(folder, "--to", "out", "--sendmail", "cat >/dev/null; exit 75", "notes"),
           (1, b"", "rudignals: the mail was not sent: `cat >/dev/null; exit 75' ended with status 75\n"))
    status, _, said = night(folder, "--to", "out", "--sendmail", "exec <&-; exit 0", "notes")
    expect("night --sendmail: or one that reads nothing", (status, said.startswith("rudignals: the mail was not sent") or status == 0), (status, True))


def wrong_calls(folder):
    (folder / "notes").write_bytes(NOTES)
    (folder / "b").mkdir()
    (folder / "b/notes").write_bytes(NOTES)
    for arguments, said in [
        (["notes"], "--to FOLDER is missing"), (["--to", "out"], "a file of notes must be named"), (["--to", "out", "-"], "-: gives a folder no name"),
        (["--to", "out", "notes", "b/notes"], "b/notes: another file has the same name, and a night is a folder of that name"),
        (["--to", "out", "--mail-to", "nobody", "notes"], "nobody: is no address, as name@host or Name <name@host>"),
        (["--to", "out", "--mail-from", "a@b\nBcc: c@d", "notes"], "a@b^JBcc: c@d: is no address, as name@host or Name <name@host>"),
    ]:
        expect(f"night {arguments}", night(folder, *arguments), (2, b"", f"rudignals: {said}\nTry 'rudignals night --help'.\n"))
        expect(f"night {arguments}: nothing is made", (folder / "out").exists(), False)


def strangers(folder):
    """What is no night of ours stays."""
    (folder / "notes").write_bytes(NOTES)
    (folder / "out/notes").mkdir(parents=True)
    (folder / "out/notes/mine").write_bytes(b"mine")
    expect("night: a stranger's folder stays", night(folder, "--to", "out", "notes"), (1, b"", "rudignals: out/notes: is there and is no night; it is not written over\n"))
    expect("night: and its file", (os.listdir(folder / "out"), read(folder, "out/notes/mine")), (["notes"], b"mine"))
    shutil.rmtree(folder / "out/notes")
    (folder / "out/notes").write_bytes(b"file")
    expect("night: a stranger's file stays", (night(folder, "--to", "out", "notes")[0], read(folder, "out/notes")), (1, b"file"))


def generation(folder):
    """Which night stands there, if all of it is of one; else what is wrong."""
    try:
        if sorted(os.listdir(folder)) != FILES:
            return f"files {os.listdir(folder)}"
        word = read(folder, "digest.txt").split()[0].decode()
        whole = all(word.encode() in read(folder, name) for name in ("digest.txt", "page.html")) and json.loads(read(folder, "status.json"))["bytes"]["notes"] == len(word) + 1
        whole = whole and next(mail_of(folder).iter_attachments()).get_payload(decode=True) == word.encode() + b"\n" and json.loads(read(folder, "index.json"))[0]["length"] == len(word) + 1
        return word if whole else f"a mixture: {word}"
    except (OSError, ValueError, IndexError, StopIteration) as fault:
        return f"{fault}"


def killed(folder):
    """Killed before each of its system calls: the old night or the new one stands whole, and the next run cleans up."""
    if SANITIZED or not at_hand("a night killed before each system call", "strace", "strace"):
        return
    (folder / "notes").write_bytes(b"first\n")
    night(folder, "--to", "out", "notes")
    (folder / "notes").write_bytes(b"second-night\n")
    wrong, left, ended, calls = [], 0, 0, 0
    for calls in range(1, 2000):
        shutil.rmtree(folder / "out")
        (folder / "notes").write_bytes(b"first\n")
        night(folder, "--to", "out", "notes")
        (folder / "notes").write_bytes(b"second-night\n")
        done = subprocess.run(["strace", "-qq", "-o", "/dev/null", "-e", f"inject=all:signal=KILL:when={calls}", RUDIGNALS, "night", "--to", "out", "notes"], cwd=folder, stderr=subprocess.DEVNULL)
        stands = generation(folder / "out/notes")
        if stands not in ("first", "second-night"):
            wrong.append((calls, stands))
        left += any(name.startswith(".night-") for name in os.listdir(folder / "out"))
        ended = done.returncode == 0
        if ended:
            break
        if calls % 7 == 0:
            night(folder, "--to", "out", "notes")
            if os.listdir(folder / "out") != ["notes"] or generation(folder / "out/notes") != "second-night":
                wrong.append((calls, "not cleaned up"))
    expect(f"night: killed at each of {calls} system calls", (wrong, ended, left > 0), ([], True, True))


def full_disk(folder):
    """On a small file system that is full the old night stands, and the next run makes the new one."""
    disk = folder / "disk"
    disk.mkdir()
    if os.geteuid() != 0 or subprocess.run(["mount", "-t", "tmpfs", "-o", "size=400k", "tmpfs", disk], stderr=subprocess.DEVNULL).returncode != 0:
        return
    try:
        (folder / "notes").write_bytes(b"first\n")
        expect("night: on a small disk", night(folder, "--to", "disk", "notes")[0], 0)
        with open(disk / "filler", "wb", buffering=0) as filler:
            try:
                while True:
                    filler.write(b"x" * 4096)
            except OSError:
                pass
        (folder / "notes").write_bytes(b"second-night\n")
        expect("night: a full disk is told", night(folder, "--to", "disk", "notes"), (1, b"", "rudignals: disk/notes: No space left on device\n"))
        expect("night: the old night stands", (generation(disk / "notes"), sorted(os.listdir(disk))), ("first", ["filler", "notes"]))
        (disk / "filler").unlink()
        expect("night: and then the new one", (night(folder, "--to", "disk", "notes")[0], generation(disk / "notes")), (0, "second-night"))
    finally:
        subprocess.run(["umount", disk])


def two_at_once(folder):
    """The first run has made its night and waits for its mail to be taken; the second is told so."""
    (folder / "notes").write_bytes(NOTES)
    first = subprocess.Popen([RUDIGNALS, "night", "--to", "out", "--sendmail", "while [ ! -e go ]; do sleep 0.05; done; cat >/dev/null", "notes"], cwd=folder)
    until = time.monotonic() + 30
    while not (folder / "out/notes").exists() and time.monotonic() < until:
        time.sleep(0.02)
    expect("night: a second run beside the first is told", night(folder, "--to", "out", "notes"), (1, b"", "rudignals: out: another run makes a night there\n"))
    (folder / "go").write_bytes(b"")
    expect("night: the first ends well", first.wait(), 0)


def by_a_server(folder):
    """Through a mail server on the loopback (Debian's python3-aiosmtpd), byte for byte."""
    script = """
import smtplib, socket, sys
from aiosmtpd.controller import Controller
class Keep:
    async def handle_DATA(self, server, session, envelope):
        open(sys.argv[2], "wb").write(envelope.original_content)
        return "250 OK"
with socket.socket() as free:
    free.bind(("127.0.0.1", 0))
    port = free.getsockname()[1]
c = Controller(Keep(), hostname="127.0.0.1", port=port, decode_data=False)
c.start()
try:
    with smtplib.SMTP("127.0.0.1", port) as s:
        s.sendmail("a@example.org", ["b@example.org"], open(sys.argv[1], "rb").read(), mail_options=["BODY=8BITMIME"])
finally:
    c.stop()
"""
    if SANITIZED:
        return
    if subprocess.run(["/usr/bin/python3", "-c", "import aiosmtpd"], stderr=subprocess.DEVNULL).returncode != 0:
        leave_out("a night through a mail server", "python3-aiosmtpd")
        return
    (folder / "notes").write_bytes(NOTES + b"\n.\n..x\nFrom me\n")
    night(folder, "--to", "out", "notes")
    done = subprocess.run(["/usr/bin/python3", "-c", script, "out/notes/digest.eml", "got"], cwd=folder, stderr=subprocess.PIPE)
    expect("night: through a mail server", (done.returncode, (folder / "got").exists() and read(folder, "got")), (0, read(folder, "out/notes/digest.eml")))


def units(folder):
    """examples/nightly: systemd takes the units, and the service's command makes the nights."""
    (folder / "var/notes").mkdir(parents=True)
    (folder / "bin").mkdir()
    (folder / "bin/rudignals").symlink_to(RUDIGNALS)
    for unit in sorted((ROOT / "examples/nightly").glob("*.[st]*")):
        text = re.sub(r"Documentation=.*\n", "", unit.read_text())
        text = text.replace("/usr/bin/rudignals", RUDIGNALS).replace("/usr/bin/cage", "/bin/true").replace("/var/lib/rudignals", str(folder / "var"))
        (folder / unit.name).write_text(text)
    if at_hand("the units of a night read by systemd", "systemd-analyze", "systemd"):
        for unit in sorted(folder.glob("*.[st]*")):
            done = subprocess.run(["systemd-analyze", "verify", f"./{unit.name}"], cwd=folder, stdout=subprocess.PIPE, stderr=subprocess.STDOUT)
            expect(f"nightly: systemd takes {unit.name}", (done.returncode, done.stdout), (0, b""))
    command = re.search(r"^ExecStart=(.*)$", (folder / "rudignals-night.service").read_text(), re.M)[1]
    path = {**os.environ, "PATH": f"{folder}/bin:{os.environ['PATH']}"}
    expect("nightly: no notes, no night", (subprocess.run(shlex.split(command), env=path).returncode, (folder / "var/nights").exists()), (0, False))
    for name in "a.txt", "-b c":
        (folder / "var/notes" / name).write_bytes(NOTES)
    expect("nightly: the service's command", (subprocess.run(shlex.split(command), env=path).returncode, sorted(os.listdir(folder / "var/nights"))), (0, ["-b c", "a.txt"]))
    cron = (ROOT / "examples/nightly/crontab").read_text().splitlines()[-1].split(" ", 5)[5].replace("/var/lib/rudignals", str(folder / "var"))
    expect("nightly: cron's line", subprocess.run(["sh", "-c", cron], env=path).returncode, 0)


def read_by_others(folder):
    """The mail as NeoMutt shows it and as munpack takes it apart (Debian's neomutt and mpack), where these are at hand."""
    (folder / "notes").write_bytes(NOTES)
    night(folder, "--to", "out", "--mail-from", "Kryo W\u00e4chter <k@example.org>", "--mail-subject", "Nacht \u6f22", "notes")
    mail = read(folder, "out/notes/digest.eml")
    if at_hand("a night's mail taken apart by munpack", "munpack", "mpack"):
        (folder / "parts").mkdir()
        subprocess.run(["munpack", "-q", "-C", folder / "parts"], input=mail, stdout=subprocess.DEVNULL)
        expect("night: munpack finds the notes", read(folder, "parts/notes"), NOTES)
    if not at_hand("a night's mail shown by NeoMutt", "neomutt", "neomutt") or not at_hand("a night's mail shown by NeoMutt", "script", "bsdutils"):
        return
    (folder / "box").write_bytes(b"From k@example.org Mon Nov 16 16:00:00 2026\n" + mail.replace(b"\r\n", b"\n") + b"\n")
    (folder / "rc").write_text('set folder="."\nset pipe_decode=yes\nset wait_key=no\nset quit=yes\nset charset=utf-8\npush "<pipe-message>cat>seen<enter><quit>"\n')
    env = {**os.environ, "HOME": str(folder), "LC_ALL": "C.UTF-8", "TERM": "xterm"}
    child = subprocess.Popen(["script", "-qc", "neomutt -n -F rc -R -f box", "/dev/null"], stdin=subprocess.PIPE, stdout=subprocess.DEVNULL, stderr=subprocess.DEVNULL, cwd=folder, env=env)
    try:
        child.wait(30)
    except subprocess.TimeoutExpired:
        child.kill()
    finally:
        child.stdin.close()
    seen = read(folder, "seen").decode() if (folder / "seen").exists() else ""
    head, _, text = seen.partition("\n\n")
    expect("night: NeoMutt shows who it is from and the subject", [line for line in head.split("\n") if line.startswith(("From: ", "Subject: "))], ["From: Kryo W\u00e4chter <k@example.org>", "Subject: Nacht \u6f22: 3 lines"])
    expect("night: NeoMutt shows each word once and in order", text.split(), NOTES.decode().split())


ALL = [units, files, refusals, mails, flow_mime, handed_on, wrong_calls, strangers, killed, full_disk, two_at_once, by_a_server, read_by_others]
