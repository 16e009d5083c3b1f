"""What may go wrong with `lent STORE JOURNAL RECORDS STORE_AFTER JOURNAL_AFTER`, case by case: what it must write, and that no file but the last
two is ever another, nor one of them without the other."""

import os
import random
import signal
import subprocess
import time

from room import ROOT, Room, Said, command, compared, disk, shown

from journal import journal_size  # noqa: E402
from layout import image  # noqa: E402
from packed import text  # noqa: E402
from runs import answer_both  # noqa: E402
from values import State  # noqa: E402

DATA = os.path.join(ROOT, "crates", "lent", "data")
LARGEST = 3201212  # bytes of a store with 4,096 row places


def data(name):
    with open(os.path.join(DATA, name), "rb") as f:
        return f.read()


STORE, SHEET, SCAN = data("fresh.store"), data("sheet.records"), data("scan.records")
SPOILED, CUT = data("spoiled.store"), data("cut.store")
JOURNAL = bytes(journal_size(70))
OPEN, KEEP, BACK = b"\0\2\1\x0c", b"\0\2\1\x0d", b"\0\2\1\x0e"
BATCH = SHEET[:79] + OPEN + SHEET[79:]  # the sheet, a batch being opened behind its first three records and left open


def answered(store, journal, records):
    """The lines as bytes, and the two files afterwards by the names that most cases have."""
    lines, after, kept = answer_both(store, journal, records)
    return text(lines), {"after": after, "kept": kept}


LINES, LEFT = answered(STORE, JOURNAL, SHEET)
BATCH_LINES, BATCH_LEFT = answered(STORE, JOURNAL, BATCH)
REFUSED = b"no 38 0 0\n"
OLD = b"what was there before"
NAMES = ["store", "journal", "records", "after", "kept"]
SAME = ["store", "journal", "records", "store", "journal"]


def as_they_were(after, kept):
    return "lent: not done: %s and %s are as they were" % (after, kept)


UNDONE = as_they_were("after", "kept")
SAME_UNDONE = as_they_were("store", "journal")


def renamed(left, after, kept):
    return {after: left["after"], kept: left["kept"]}


def judged(title, tally, room, before, said, out, undone, says=(), changed=None, status=0, err=b""):
    """Holds what a program wrote and left against what it must write and leave. `undone`: how its last line on standard error begins;
    None: it says `err` and no more."""
    wrong = compared(before, room.files(), changed or {})
    if said.status != status:
        wrong.append("should end with %s, ended with %s" % (status, said.status))
    if out is not None and said.out != out:
        wrong.append("should write %s, wrote %s" % (shown(out), shown(said.out)))
    if undone is None and said.err != err:
        wrong.append("should say %r, said %r" % (err, said.err))
    if undone is not None and not said.last().startswith(undone):
        wrong.append("the last line on standard error should be '%s ..', is %r" % (undone, said.last()))
    for word in says:
        if word.encode() not in said.err:
            wrong.append("should say '%s', said %r" % (word, said.err))
    tally.add(title, wrong)


def lent(tally, title, files, words=NAMES, out=b"", undone=UNDONE, says=(), changed=None, status=0, **how):
    """One run of `lent`, after which every file must be as it was but for those in `changed`."""
    with Room() as room:
        room.put(files)
        before = room.files()
        said = room.run("lent", words, **how)
        judged("lent: " + title, tally, room, before, said, out, undone, says, changed, status)


def good(**more):
    return {"store": STORE, "journal": JOURNAL, "records": SHEET, **more}


def whole_runs(tally):
    well = {"out": LINES, "undone": None}
    lent(tally, "two new files", good(), changed=LEFT, **well)
    lent(tally, "both replaced", good(after=OLD, kept=OLD), changed=LEFT, **well)
    lent(tally, "the same names before and after", good(), SAME, changed=renamed(LEFT, "store", "journal"), **well)
    lent(tally, "one name for RECORDS and STORE_AFTER", good(), ["store", "journal", "records", "records", "kept"],
         changed=renamed(LEFT, "records", "kept"), **well)
    lent(tally, "STORE_AFTER is JOURNAL and JOURNAL_AFTER is STORE", good(), ["store", "journal", "records", "journal", "store"],
         changed=renamed(LEFT, "journal", "store"), **well)
    lent(tally, "STORE_AFTER in another folder", good(**{"far/x": b""}), ["store", "journal", "records", "far/after", "kept"],
         changed=renamed(LEFT, "far/after", "kept"), **well)
    lent(tally, "one last name, in two folders", good(**{"far/x": b""}), ["store", "journal", "records", "far/after", "after"],
         changed=renamed(LEFT, "far/after", "after"), **well)
    lent(tally, "this folder, said so", good(), ["./" + name for name in NAMES], changed=LEFT, **well)
    for name in ("after", "kept"):
        for title, what in [("somebody's", OLD), ("a folder", "dir"), ("a named pipe", "pipe")]:
            lent(tally, "%s.new is %s" % (name, title), good(**{name + ".new": what}), changed=LEFT, **well)
    lent(tally, "STORE_AFTER.new is STORE", {"a.new": STORE, "journal": JOURNAL, "records": SHEET}, ["./a.new", "journal", "records", "a", "kept"],
         changed=renamed(LEFT, "a", "kept"), **well)
    lent(tally, "no records", good(records=b""), out=b"", undone=None, changed={"after": STORE, "kept": JOURNAL})
    lent(tally, "a record cut off", good(records=SHEET + b"\0\x20\1"), out=LINES + b"no 1 0 0\n", undone=None, changed=LEFT)
    scan = text(answer_both(LEFT["after"], LEFT["kept"], SCAN)[0])
    two = [*NAMES, "after", "kept", "scan", "last", "page"]
    lent(tally, "two fives", good(scan=SCAN), two, out=LINES + scan, undone=None, changed={**LEFT, **renamed(LEFT, "last", "page")})
    for name in ("after", "kept"):
        taken = {name + ".new" + mark: OLD for mark in ["", *"123456789"]}
        lent(tally, "ten files are in %s's way" % name, good(**taken), says=[name + ": ten files"])


def batches(tally):
    """A batch left open in the journal's file, and ended by a later run."""
    lent(tally, "a batch is left open", good(records=BATCH), out=BATCH_LINES, undone=None, changed=BATCH_LEFT)
    lent(tally, "a batch is left open, the same names", good(records=BATCH), SAME, out=BATCH_LINES, undone=None,
         changed=renamed(BATCH_LEFT, "store", "journal"))
    opened = {"store": BATCH_LEFT["after"], "journal": BATCH_LEFT["kept"], "records": BACK}
    begun = answer_both(STORE, JOURNAL, SHEET[:79])
    lent(tally, "taken back by a later run", opened, out=b"ok 0\n", undone=None, changed={"after": begun[1], "kept": JOURNAL})
    lent(tally, "an open journal beside another store", {**opened, "store": STORE}, out=REFUSED, says=["store: this is no sound store"])
    for places in (1, 8192):
        journal = bytes(journal_size(places))
        lines, left = answered(STORE, journal, BATCH)
        lent(tally, "a batch with %d places" % places, good(records=BATCH, journal=journal), out=lines, undone=None, changed=left)


def wrong_names(tally):
    def to(after, kept):
        return {"words": NAMES[:3] + [after, kept], "undone": as_they_were(after, kept)}

    old = {"after": OLD, "kept": OLD}
    for name in NAMES[:3]:
        lent(tally, "no " + name, {k: v for k, v in good(**old).items() if k != name}, says=[name + ": No such file"])
        lent(tally, "a folder as " + name, good(**{**old, name: "dir"}), says=[name + ": Is a directory"])
        fault = "/proc/self/mem"  # opens, and can't be read
        words = [fault if n == name else n for n in NAMES]
        lent(tally, "%s can't be read" % name, good(**old), words, says=[fault + ": Input/output"])
    for after, kept in [("far/after", "kept"), ("after", "far/kept")]:
        lent(tally, "no folder for %s" % (after if "/" in after else kept), good(), says=["No such file"], **to(after, kept))
        lent(tally, "a file as the folder of %s" % (after if "/" in after else kept), good(far=OLD), says=["Not a directory"], **to(after, kept))
    proc = "/proc/seluvama"
    lent(tally, "a folder that takes no file, for the store", good(), **to(proc, "kept"))
    lent(tally, "a folder that takes no file, for the journal", good(), **to("after", proc))
    for name in ("after", "kept"):
        lent(tally, "a folder as " + name, good(**{name: "dir"}), says=[name + ": Is a directory"])
        lent(tally, "a named pipe as " + name, good(**{name: "pipe"}), says=[name + ": this is no plain file"])
        lent(tally, "a link as " + name, good(**{name: "link to real"}, real=OLD), says=[name + ": this is a link"])
        lent(tally, "a link that leads nowhere as " + name, good(**{name: "link to nowhere"}), says=[name + ": this is a link"])
        lent(tally, "a device as " + name, good(**{name: "device"}), says=[name + ": "])
    for wrong in ("", "x" * 5000, "./" * 2046 + "x"):
        lent(tally, "a name of %d bytes for the store" % len(wrong), good(), NAMES[:3] + [wrong, "kept"], undone="lent: not done:")
        lent(tally, "a name of %d bytes for the journal" % len(wrong), good(), NAMES[:3] + ["after", wrong], undone="lent: not done:")
    for title, files in [("", good()), (", made already", good(after=OLD))]:
        lent(tally, "one name for both afterwards" + title, files, says=["after: this is to hold the store"], **to("after", "after"))
        lent(tally, "one name for both afterwards, written in two ways" + title, files, says=["this is to hold"], **to("after", ".//after"))
    for after, kept in [("a", "a.new"), ("a.new", "a")]:
        lent(tally, "the store to %s, the journal to %s" % (after, kept), good(), says=["that of the new file beside"], **to(after, kept))
    if os.getuid() != 0:
        for name in ("after", "kept"):
            with Room() as room:
                room.put(good(**old))
                os.chmod(room.path(name), 0o444)
                before = room.files()
                judged("lent: %s may not be written" % name, tally, room, before, room.run("lent", NAMES), b"", UNDONE)
    first = ["nothing", "journal", "records", "after", "kept", "store", "journal", "records", "last", "page"]
    lent(tally, "the first of two fives fails", good(), first, out=LINES, says=["nothing: No such"], changed=renamed(LEFT, "last", "page"))
    later = ["spoiled", "journal", "records", "after", "kept", "after", "kept", "records", "last", "page"]
    lent(tally, "a later five wants what a refused one did not write", good(spoiled=SPOILED), later,
         out=REFUSED, undone=as_they_were("last", "page"), says=["after: No such"])


def no_stores(tally):
    """38: nothing may be written."""
    said = {"out": REFUSED, "says": ["store: this is no sound store, or its journal is not sound"]}
    for title, store in [
        ("an unsound STORE", SPOILED),
        ("a STORE cut by a byte", CUT),
        ("an empty STORE", b""),
        ("a STORE of 4,000,000 bytes", STORE + bytes(4000000 - len(STORE))),
        ("a STORE a byte longer than the largest", image(State(4096)) + b"\0"),
        ("a text as STORE", b"insert plan (7, A)\n"),
    ]:
        lent(tally, title, good(store=store, after=OLD, kept=OLD), **said)
        lent(tally, title + ", no files afterwards", good(store=store), **said)
        lent(tally, title + ", the same names", good(store=store), SAME, undone=SAME_UNDONE, **said)
    for title, journal in [
        ("an empty JOURNAL", b""),
        ("a JOURNAL cut by a byte", JOURNAL[:-1]),
        ("a JOURNAL of a byte more", JOURNAL + b"\0"),
        ("a JOURNAL of no place", bytes(journal_size(0))),
        ("a JOURNAL a place longer than the largest", bytes(journal_size(8193))),
        ("a JOURNAL a byte longer than the largest", bytes(journal_size(8192) + 1)),
        ("a closed JOURNAL that is not zero", JOURNAL[:-1] + b"\1"),
        ("a JOURNAL that says a place and has none", b"\1\0\1" + JOURNAL[3:]),
        ("a text as JOURNAL", b"insert plan (7, A)\n"),
    ]:
        lent(tally, title, good(journal=journal, after=OLD, kept=OLD), **said)
        lent(tally, title + ", the same names", good(journal=journal), SAME, undone=SAME_UNDONE, **said)
    largest = image(State(4096))
    assert len(largest) == LARGEST
    lines, left = answered(largest, bytes(journal_size(8192)), BATCH)
    lent(tally, "the largest STORE and the largest JOURNAL", good(store=largest, journal=bytes(journal_size(8192)), records=BATCH),
         out=lines, undone=None, changed=left)


def halves(tally):
    """The second file can't be replaced once the first is: a folder comes in its way while the records are read. It is said which is new."""
    for title, source, lines, left, way, told in [
        ("none is open", SHEET, LINES, {"after": LEFT["after"]}, "kept", "after is replaced, but kept is as it was"),
        ("a batch is open", BATCH, BATCH_LINES, {"kept": BATCH_LEFT["kept"]}, "after", "kept is replaced, but after is as it was"),
    ]:
        with Room() as room:
            room.put(good(records="pipe"))
            before = room.files()
            with subprocess.Popen(command("lent") + NAMES, cwd=room.folder, stdout=subprocess.PIPE, stderr=subprocess.PIPE) as running:
                with open(room.path("records"), "wb") as records:
                    records.write(source)
                    records.flush()
                    out = running.stdout.read(len(lines))  # both were tried, and all is answered
                    os.mkdir(room.path(way))
                rest, err = running.communicate(timeout=60)
            said = Said(out + rest, err, running.returncode)
            judged("lent: one file of two is replaced, " + title, tally, room, before, said, lines, "lent: not done: " + told,
                   changed={**left, way: "dir"})


def outputs(tally):
    """Standard output that takes nothing: neither file may be touched."""
    with open("/dev/full", "wb") as full:
        lent(tally, "standard output is a full disk", good(after=OLD, kept=OLD), stdout=full, says=["standard output: No space"])
        lent(tally, "standard output is a full disk, the same names", good(), SAME, stdout=full, undone=SAME_UNDONE)
    for title, ignored in [("ignored", [signal.SIGPIPE]), ("not ignored", [])]:  # the program sees to the signal itself
        end, start = os.pipe()
        os.close(end)
        lent(tally, "standard output is a closed pipe, SIGPIPE " + title, good(after=OLD, kept=OLD), stdout=start, ignored=ignored)
        os.close(start)


def without_standard_files(tally):
    """No file that is opened may take the number of one that is closed: answers and messages would go into it."""
    for closed in ([0], [1], [0, 1], [2], [1, 2], [0, 1, 2]):
        well = 1 not in closed
        undone = None if well or 2 in closed else UNDONE
        lent(tally, "started without standard files %s" % closed, good(after=OLD, kept=OLD), closed=closed, out=LINES if well else b"",
             undone=undone, changed=LEFT if well else {})
        if 2 in closed:
            lent(tally, "started without standard files %s, a named pipe afterwards" % closed, good(after="pipe"), closed=closed, undone=None)


def full_disks(tally):
    """One of them can't be written: both stay as they were, and that is known before anything is answered."""
    lent(tally, "no file may have 10,000 bytes", good(), SAME, limit=10000, ignored=[signal.SIGXFSZ], undone=SAME_UNDONE,
         says=["store.new: File too large"])
    lent(tally, "no file may have as many bytes as the journal", good(), SAME, limit=len(JOURNAL) - 1, ignored=[signal.SIGXFSZ], undone=SAME_UNDONE,
         says=["journal.new: File too large"])
    with Room() as room:
        room.put(good())
        before = room.files()
        room.run("lent", SAME, limit=10000)
        left = room.files()
        left.pop("store.new", None)
        wrong = compared(before, left, {})
        said = room.run("lent", SAME)
        left = room.files()
        left.pop("store.new", None)
        wrong += compared({**before, **renamed(LEFT, "store", "journal")}, left, {})
        if said.out != LINES or said.err:
            wrong.append("the next run should answer, wrote %s and said %r" % (shown(said.out), said.err))
        tally.add("lent: killed by SIGXFSZ, and run again", wrong)
    pages = 4096
    for free in (0, 2 * pages, 4 * pages, 6 * pages):  # beside a store that takes four pages, a journal that takes five and records that take one
        for words in (SAME, NAMES):
            with disk(10 * pages + free) as place:
                if place is None:
                    print("--    lent: a full disk: no small disk can be mounted here, left out")
                    return
                place.put(good())
                before = place.files()
                said = place.run("lent", words)
                title = "lent: a disk with %d bytes left, %s and %s afterwards" % (free, *words[3:])
                judged(title, tally, place, before, said, b"", as_they_were(*words[3:]), ["No space left"])


def usages(tally):
    usage = "usage: lent STORE JOURNAL RECORDS STORE_AFTER JOURNAL_AFTER"
    for words in ([], NAMES[:1], NAMES[:3], NAMES[:4], [*NAMES, "store"]):
        lent(tally, "%d names" % len(words), good(), words, undone="lent: not done:", says=[usage])
    for word in ("-h", "--help"):
        with Room() as room:
            said = room.run("lent", [word])
            right = said.out.startswith(usage.encode()) and not said.err
            tally.add("lent: " + word, [] if right else ["should print its usage, wrote %r and said %r" % (said.out, said.err)])


def kills(tally, rounds):
    """Killed at some moment, each file is the old or the new one, whole, and what was there first is new first; the next run is not hindered."""
    rng = random.Random(13)
    store = image(State(1024))
    lines, left = answered(store, JOURNAL, BATCH)
    seen = {(False, False): 0, (False, True): 0, (True, True): 0}
    wrong = []
    with Room() as room:
        room.put(good(store=store, records=BATCH))
        began = time.time()
        room.run("lent", NAMES)
        length = time.time() - began
    for _ in range(rounds):
        with Room() as room:
            room.put(good(store=store, records=BATCH))
            running = subprocess.Popen(command("lent") + SAME, cwd=room.folder, stdout=subprocess.PIPE, stderr=subprocess.PIPE)
            time.sleep(rng.random() * length * 1.1)
            running.kill()
            running.communicate()
            files = room.files()
            for name, old, new in (("store", store, left["after"]), ("journal", JOURNAL, left["kept"])):
                if files[name] not in (old, new):
                    wrong.append("%s is neither the old nor the new one, but %s" % (name, shown(files[name])))
            new = (files["store"] == left["after"], files["journal"] == left["kept"])
            if new not in seen:
                wrong.append("the store is new and the journal of its open batch is not")
            else:
                seen[new] += 1
            room.put({"store": store, "journal": JOURNAL})
            said = room.run("lent", SAME)
            if said.out != lines or said.err or room.files()["store"] != left["after"]:
                wrong.append("the next run should work, said %r" % said.err)
    title = "lent: killed at %d moments: %d times both were old, %d times the journal was new, %d times both were" % (rounds, *seen.values())
    tally.add(title, wrong)


def play(tally, rounds):
    for part in (whole_runs, batches, wrong_names, no_stores, halves, outputs, without_standard_files, full_disks, usages):
        part(tally)
    kills(tally, rounds)
