"""What may go wrong with `kiosk` and `kiosk LOG`, case by case: what it must write, and what LOG must hold."""

import os
import pty
import signal
import subprocess
import threading
import time

from lent_faults import BACK, KEEP, OPEN, STORE, judged
from room import ROOT, Room, command, disk, shown

from cases import column, key, name, values  # noqa: E402
from packed import text  # noqa: E402
from programs import kiosk_in_pieces  # noqa: E402
from records import records  # noqa: E402
from runs import run  # noqa: E402
from values import Schema, State  # noqa: E402
from writer import record  # noqa: E402

with open(os.path.join(ROOT, "crates", "kiosk", "stdin"), "rb") as f:
    SHEET = f.read()
SCANS = record("scan", name("plan")) + record("scan", name("point")) + record("list")
UNDONE = "kiosk: not done:"


def lines_of(source):
    """The lines of records over a fresh store with 70 row places, by the model."""
    return text(run(State(70), source)[0])


LINES = lines_of(SHEET)
LATER = lines_of(SHEET + SCANS)[len(LINES) :]


def taken_over(count, size, torn=0, missing=0):
    """What a start must say of LOG."""
    more = ", torn bytes cut off: %d" % torn if torn else ""
    more += ", missing bytes filled with zeros: %d" % missing if missing else ""
    return ("kiosk: log: records taken over: %d, bytes: %d%s\n" % (count, size, more)).encode()


def kiosk(tally, title, files=None, words=("log",), source=SHEET, out=LINES, undone=None, says=(), changed=None, status=0, err=b"", **how):
    """One run of `kiosk`, after which every file must be as it was but for those in `changed`."""
    with Room() as room:
        room.put(files or {})
        before = room.files()
        said = room.run("kiosk", list(words), stdin=source, **how)
        judged("kiosk: " + title, tally, room, before, said, out, undone, says, changed, status, err)


def inputs(tally):
    kiosk(tally, "the curator's sheet", words=())
    kiosk(tally, "no input", words=(), source=b"", out=b"")
    kiosk(tally, "text as input", words=(), source=b"insert plan (7)\n", out=b"no 1 0 0\n")
    folder = os.open("/", os.O_RDONLY)
    kiosk(tally, "a folder as standard input", words=(), source=folder, out=b"", undone=UNDONE, says=["standard input: Is a directory"])
    os.close(folder)
    for size in (1, 37):
        told = kiosk_in_pieces(SHEET, size)
        tally.add("kiosk: its sheet in pieces of %d bytes" % size, [] if told == LINES else ["wrote %s" % shown(told)])


def terminals(tally):
    try:
        master, slave = pty.openpty()
    except OSError:
        print("--    kiosk: a terminal as standard input: there is none here, left out")
        return
    os.write(master, b"\4")  # the end of the input, as typed
    kiosk(tally, "a terminal as standard input", words=(), source=slave, out=b"",
          err=b"kiosk: waits for records, which are bytes and no text, from this terminal\n")
    os.close(slave)
    os.close(master)


def long_answers(tally):
    """Answers of one input that are longer than any buffer, into a pipe that is read slowly."""
    table = Schema(name("t"), 0, (key(), column("words", "text")))
    rows = [values((i, "a text of 24 bytes as is")) for i in range(60)]
    source = record("create", table) + b"".join(record("insert", name("t"), None, [row]) for row in rows) + 150 * record("scan", name("t"))
    wanted = lines_of(source)
    assert len(wanted) > 7 * 65536 and wanted.count(b"ok 60") == 150
    for words in ([], ["log"]):
        with Room() as room:
            running = subprocess.Popen(command("kiosk") + words, cwd=room.folder, stdin=subprocess.PIPE, stdout=subprocess.PIPE)
            feeder = threading.Thread(target=lambda: (running.stdin.write(source), running.stdin.close()))
            feeder.start()
            told = b""
            while piece := os.read(running.stdout.fileno(), 5000):
                told += piece
                time.sleep(0.001)
            feeder.join()
            running.wait()
            running.stdout.close()
            wrong = [] if told == wanted else ["should write %s, wrote %s" % (shown(wanted), shown(told))]
            if words and room.files() != {"log": source}:
                wrong.append("LOG is not the input")
            tally.add("kiosk: %d bytes of answers read slowly%s" % (len(wanted), ", with LOG" if words else ""), wrong)


def outputs(tally):
    """Standard output that takes nothing. What was carried out is in LOG, and LOG holds nothing else."""
    for words in ((), ("log",)):
        changed = {"log": SHEET} if words else {}
        title = ", with LOG" if words else ""
        with open("/dev/full", "wb") as full:
            kiosk(tally, "standard output is a full disk" + title, words=words, stdout=full, out=b"", undone=UNDONE,
                  says=["standard output: No space"], changed=changed)
        for how, ignored in [("ignored", [signal.SIGPIPE]), ("not ignored", [])]:  # the program sees to the signal itself
            end, start = os.pipe()
            os.close(end)
            kiosk(tally, "standard output is a closed pipe, SIGPIPE %s%s" % (how, title), words=words, stdout=start, ignored=ignored,
                  out=b"", undone=UNDONE, changed=changed)
            os.close(start)


def without_standard_files(tally):
    """No file that is opened may take the number of one that is closed: answers and messages would go into it."""
    for words in ((), ("log",)):
        for closed in ([0], [1], [2], [1, 2], [0, 1, 2]):
            changed = {"log": b"" if 0 in closed else SHEET} if words else {}
            kiosk(tally, "started without standard files %s%s" % (closed, ", with LOG" if words else ""), words=words, closed=closed,
                  source=b"" if 0 in closed else SHEET, out=LINES if closed == [2] else b"",
                  undone=None if 2 in closed else UNDONE, changed=changed)


def usages(tally):
    kiosk(tally, "two names", {"log": SHEET}, ["log", "more"], out=b"", undone=UNDONE, says=["usage: kiosk [LOG]"])
    for word in ("-h", "--help"):
        with Room() as room:
            said = room.run("kiosk", [word])
            right = said.out.startswith(b"usage: kiosk [LOG]") and not said.err
            tally.add("kiosk: " + word, [] if right else ["should print its usage, wrote %r and said %r" % (said.out, said.err)])


def taking_over(tally):
    kiosk(tally, "LOG is made", changed={"log": SHEET})
    kiosk(tally, "LOG is made in another folder", {"far/x": b""}, ["far/log"], changed={"far/log": SHEET})
    kiosk(tally, "an empty LOG", {"log": b""}, changed={"log": SHEET})
    count = len(list(records(SHEET)))
    told = taken_over(count, len(SHEET))
    kiosk(tally, "LOG is taken over", {"log": SHEET}, source=SCANS, out=LATER, changed={"log": SHEET + SCANS}, err=told)
    kiosk(tally, "LOG is taken over, nothing comes in", {"log": SHEET}, source=b"", out=b"", err=told)
    begun = SHEET[:79] + OPEN + SHEET[79:]  # a batch that is left open
    told_begun = taken_over(count + 1, len(begun))
    for title, ending in [("taken back", BACK), ("kept", KEEP)]:
        later = lines_of(begun + ending + SCANS)[len(lines_of(begun)) :]
        kiosk(tally, "LOG leaves a batch open, which is then " + title, {"log": begun}, source=ending + SCANS, out=later,
              changed={"log": begun + ending + SCANS}, err=told_begun)
    ended = begun + BACK
    later = lines_of(ended + SCANS)[len(lines_of(ended)) :]
    kiosk(tally, "LOG has a batch that was taken back", {"log": ended}, source=SCANS, out=later, changed={"log": ended + SCANS},
          err=taken_over(count + 2, len(ended)))
    broken = b"\0\2\2\1" + b"\0\0" + b"\0\2\1\0"
    kiosk(tally, "LOG begins with broken records", {"log": broken + SHEET}, source=SCANS, out=LATER,
          changed={"log": broken + SHEET + SCANS}, err=taken_over(count + 3, len(SHEET) + len(broken)))
    kiosk(tally, "the input ends in a record", {"log": SHEET}, source=SCANS + b"\0\x20\1", out=LATER + b"no 1 0 0\n",
          changed={"log": SHEET + SCANS + b"\0\x20\1"}, err=told)
    for given, size in [(b"", 4097), (b"x" * 10, 4097), (b"x" * 65534, 65535), (b"", 1)]:
        over, missing = size.to_bytes(2, "big") + given, size - len(given)
        kiosk(tally, "LOG ends in a record of bad length, %d, %d bytes of it there" % (size, len(given)), {"log": SHEET + over},
              source=SCANS, out=LATER, changed={"log": SHEET + over + bytes(missing) + SCANS},
              err=taken_over(count + 1, len(SHEET + over), missing=missing))
    kiosk(tally, "LOG ends with a record of bad length", {"log": SHEET + b"\0\1x"}, source=SCANS, out=LATER,
          changed={"log": SHEET + b"\0\1x" + SCANS}, err=taken_over(count + 1, len(SHEET) + 3))


def whole_part(data):
    """How many records of a log are whole, and how many bytes they have."""
    count = at = 0
    while at + 2 <= len(data) and at + 2 + int.from_bytes(data[at : at + 2], "big") <= len(data):
        at += 2 + int.from_bytes(data[at : at + 2], "big")
        count += 1
    return count, at


def torn_logs(tally):
    """A log that ends anywhere: the torn record is cut off, and what comes then is answered over what is left."""
    wrong = []
    for end in range(1, len(SHEET)):
        with Room() as room:
            room.put({"log": SHEET[:end]})
            said = room.run("kiosk", ["log"], stdin=SCANS)
            count, whole = whole_part(SHEET[:end])
            kept = SHEET[:whole]
            right = said.out == lines_of(kept + SCANS)[len(lines_of(kept)) :] and said.err == taken_over(count, whole, torn=end - whole)
            if not right or room.files() != {"log": kept + SCANS}:
                wrong.append("at byte %d: wrote %s, said %r" % (end, shown(said.out), said.err))
    tally.add("kiosk: LOG torn at %d places" % (len(SHEET) - 1), wrong[:3])


def two_kiosks(tally):
    """Two that share a LOG by mistake: none writes over what the other appended."""
    parts = [SHEET, SCANS, record("drop", name("point"), 1), SCANS]
    with Room() as room:
        pipes = {"stdin": subprocess.PIPE, "stdout": subprocess.PIPE, "stderr": subprocess.DEVNULL}
        both = [subprocess.Popen(command("kiosk") + ["log"], cwd=room.folder, bufsize=0, **pipes) for _ in range(2)]
        for number, part in enumerate(parts):
            running = both[number % 2]
            running.stdin.write(part)
            for _ in records(part):
                while running.stdout.readline()[:3] not in (b"ok ", b"no ", b""):
                    pass
        for running in both:
            running.communicate()
        left = room.files().get("log")
        tally.add("kiosk: two with one LOG", [] if left == b"".join(parts) else ["LOG should hold all records, is %s" % shown(left)])


def no_logs(tally):
    """A file that is no log is left as it is, whatever its length."""
    largest = b"\0\x30\xd8\xbc" + bytes(50000)
    for title, data in [
        ("a text", b"create plan (id integer key, sheet text null)\n"),
        ("a text of a byte", b"x"),
        ("a text whose end could be one of a record", b"  " + b"x" * 0x2020),
        ("a store", STORE),
        ("the start of the largest store", largest),
        ("4,096 zeros", bytes(4096)),
        ("4,097 zeros", bytes(4097)),
        ("200,000 zeros and a record", bytes(200000) + SHEET),
    ]:
        kiosk(tally, title + " as LOG", {"log": data}, out=b"", undone="kiosk: not done: log is as it was",
              says=["log: this is no log of a kiosk"])
    kiosk(tally, "a folder as LOG", {"log": "dir"}, out=b"", undone=UNDONE, says=["log: Is a directory"])
    kiosk(tally, "a named pipe as LOG", {"log": "pipe"}, out=b"", undone=UNDONE, says=["log: this is no plain file"])
    kiosk(tally, "a device as LOG", words=["/dev/full"], out=b"", undone=UNDONE, says=["/dev/full: this is no plain file"])
    kiosk(tally, "no folder for LOG", words=["far/log"], out=b"", undone=UNDONE, says=["far/: No such file"])
    kiosk(tally, "a file where LOG's folder should be", {"far": b""}, ["far/log"], out=b"", undone=UNDONE, says=["far/: Not a directory"])
    kiosk(tally, "a folder that takes no file", words=["/proc/seluvama"], out=b"", undone=UNDONE, says=["/proc/seluvama: "])
    kiosk(tally, "an empty name", words=[""], out=b"", undone=UNDONE)
    kiosk(tally, "a name of 5,000 bytes", words=["x" * 5000], out=b"", undone=UNDONE)


def full_disks(tally):
    """What can't be kept is neither carried out nor answered."""
    ignored = [signal.SIGXFSZ]
    fails = {"ignored": ignored, "out": b"", "undone": "kiosk: not done: log does not have", "says": ["log: File too large"]}
    kiosk(tally, "no room for the first piece", limit=100, changed={"log": b""}, **fails)
    kiosk(tally, "no room for a later piece", {"log": SHEET}, source=SCANS, limit=len(SHEET) + 5, **fails)
    kiosk(tally, "no room for zeros at LOG's end", {"log": SHEET + b"\xff\xff"}, ignored=ignored, limit=len(SHEET) + 2, out=b"",
          undone="kiosk: not done: log is not taken over", says=["log: File too large"])
    with Room() as room:
        room.put({"log": SHEET})
        killed = room.run("kiosk", ["log"], stdin=SCANS, limit=len(SHEET) + 5)
        left = room.files()["log"]
        said = room.run("kiosk", ["log"], stdin=SCANS)
        wrong = [] if killed.status == -signal.SIGXFSZ and killed.out == b"" else ["should be killed before it answers"]
        if left != (SHEET + SCANS)[: len(left)] or len(left) < len(SHEET):
            wrong.append("LOG lost what it had: %s" % shown(left))
        if said.out != LATER or room.files()["log"] != SHEET + SCANS:
            wrong.append("the next start should take LOG over, said %r" % said.err)
        tally.add("kiosk: killed by SIGXFSZ, and started again", wrong)
    with disk(4096) as place:
        if place is None:
            print("--    kiosk: a full disk: no small disk can be mounted here, left out")
            return
        place.put({"log": (4096 // len(SCANS)) * SCANS})
        before = place.files()
        said = place.run("kiosk", ["log"], stdin=SHEET)
        judged("kiosk: a full disk", tally, place, before, said, b"", "kiosk: not done: log does not have", ["log: No space left"])


def play(tally):
    for part in (inputs, terminals, long_answers, outputs, without_standard_files, usages):
        part(tally)
    for part in (taking_over, torn_logs, two_kiosks, no_logs, full_disks):
        part(tally)
