"""Fixed lists replayed by the model."""

import os
import struct

from layout import NotSound, lent_state
from packed import read_list, read_number, text
from runs import answer_both, fresh, left_bytes, run

BACK = b"\0\2\1\x0e"  # operation 14 as a record


def check(list_file):
    """Says how many cases passed; whether all did."""
    cases = {"lent.list": lent_cases, "journals.list": journal_cases}.get(os.path.basename(list_file), stream_cases)
    results = list(cases(list_file))
    for case, good in enumerate(results):
        if not good:
            print("%s: case %d differs" % (list_file, case))
    print("%s: %d passed, %d failed" % (list_file, results.count(True), results.count(False)))
    return all(results)


def stream_cases(list_file):
    """Lines, final bytes, and what refusals carry where the text says so."""
    carried = carried_of(list_file)
    with open(list_file, "rb") as f:
        for case, (places, journal, source, lines, left) in enumerate(read_list(f)):
            state = fresh(places, journal)
            got, notes = run(state, source)
            wanted = {r: what for (c, r), what in carried.items() if c == case}
            same = all(notes[r].split(" ", 1)[1] == what for r, what in wanted.items())
            yield text(got) == lines and left_bytes(state, journal) == left and same


def carried_of(list_file):
    """From the text beside a list: {(case, request): what the refusal carries}."""
    found = {}
    with open(list_file[: -len(".list")] + ".txt") as f:
        for line in f:
            words, *carries = line.rstrip("\n").split(" | ")
            for carry in carries:
                request, what = carry.split(": ")
                found[int(words.split()[0]), int(request)] = what
    return found


def lent_cases(list_file):
    """Whether each changed store is sound or not, as the list says."""
    with open(list_file, "rb") as f:
        base = f.read(read_number(f))
        while head := f.read(4):
            store = changed(base, f, struct.unpack(">I", head)[0])
            yield sound(store) == f.read(1)[0]


def changed(base, f, count):
    """The bytes with the changes that stand in a list."""
    data = bytearray(base)
    for _ in range(count):
        at, byte = struct.unpack(">IB", f.read(5))
        data[at] = byte
    return bytes(data)


def journal_cases(list_file):
    """Whether a taking back says and leaves what the list says, or 38 and both as they were."""
    for store, journal, *wanted in lent_journals(list_file):
        yield answer_both(store, journal, BACK) == tuple(wanted)


def lent_journals(list_file):
    """For each case: a store and a journal; the lines of a taking back, and both afterwards."""
    with open(list_file, "rb") as f:
        while head := f.read(4):
            store, journal = f.read(struct.unpack(">I", head)[0]), f.read(read_number(f))
            for _ in range(read_number(f)):
                yield lent_journal(f, store, journal)


def lent_journal(f, store, journal):
    lent = changed(store, f, read_number(f))
    size = read_number(f)
    beside = changed(journal[:size].ljust(size, b"\0"), f, read_number(f))
    if f.read(1) == b"\0":
        return lent, beside, ["no 38 0 0"], lent, beside
    said = "ok 0" if beside[0] else "no 45 0 0"
    return lent, beside, [said], changed(store, f, read_number(f)), bytes(size)


def sound(store):
    try:
        lent_state(store)
    except NotSound:
        return 0
    return 1
