#!/usr/bin/env python3
"""Counts the instructions that single requests take in stores of several sizes (docs/SPEED.md).

  pace.py            a table: requests down, R = 64, 256, 1,024 and 4,096 across
  pace.py batches    two tables: requests outside and inside a batch, R = 70; the test of a journal and the taking back, R = 64 and 4,096

Each count is that of `lent` with the request less that of `lent` with a record that is broken (1), under callgrind: the same on every run. `lent` tests
store and journal first, which is in both and shown by itself: all less a run that is refused (38) at the first byte of the one that is tested.
`valgrind` must be there, and `lent` built (`./run --build lent`).
"""

import os
import re
import subprocess
import sys
import tempfile

from cases import column, key, name, value, values
from journal import journal_image, journal_size
from layout import image
from programs import command
from runs import run
from values import Schema, State
from writer import record

SIZES = [64, 256, 1024, 4096]
BROKEN = bytes([0, 2, 1, 0])  # an operation that there is not
USED = [2, 16, 64]  # journal places


def filled(places, journal=1):
    """Plans and points: a tenth of the places are plans, the rest but four points, each of a plan."""
    state = State(places, journal)
    state.add_table(Schema(name("plan"), 0, (key(), column("sheet", "text", "nullable", default=None))))
    state.add_table(Schema(name("point"), 0, (key(), column("plan", "integer", "nullable index", default=None, to="plan"))))
    plans = places // 10
    for i in range(plans):
        state.put_row(name("plan"), value(2 * i), values((2 * i, "A")))
    for i in range(places - plans - 4):
        state.put_row(name("point"), value(2 * i), values((2 * i, 2 * (i % (plans - 1)))))
    return state, plans, places - plans - 4


def requests(plans, points):
    middle = points // 2 * 2
    unused = 2 * (plans - 1)  # a plan that no point refers to
    return [
        ("insert a point in the middle", record("insert", name("point"), None, [values((middle + 1, 0))])),
        ("insert a point that exists (27)", record("insert", name("point"), None, [values((middle, 0))])),
        ("update a point, same key", record("update", name("point"), [(value(middle), values((middle, 4)))])),
        ("update a point's key", record("update", name("point"), [(value(middle), values((middle + 1, 4)))])),
        ("delete a point", record("delete", name("point"), [value(middle)])),
        ("delete a plan that no point has", record("delete", name("plan"), [value(unused)])),
        ("delete a plan that points have (32)", record("delete", name("plan"), [value(0)])),
        ("get a point", record("get", name("point"), [value(middle)])),
        ("look up the points of a plan", record("lookup", name("point"), 1, [value(0)])),
        ("scan the plans", record("scan", name("plan"))),
    ]


def instructions(store, journal, source, folder):
    names = [os.path.join(folder, part) for part in ("store", "journal", "records", "store.after", "journal.after")]
    for file, data in zip(names, (store, journal, source)):
        with open(file, "wb") as f:
            f.write(data)
    words = ["valgrind", "--tool=callgrind", "--main-stacksize=33554432", "--callgrind-out-file=" + os.path.join(folder, "out")]
    done = subprocess.run(words + command("lent")[-1:] + names, capture_output=True, text=True, check=True)
    return int(re.search(r"Collected : (\d+)", done.stderr)[1]), done.stdout


def spoiled(data):
    return b"\xff" + data[1:]


def shown(head, rows):
    print("| %s |" % " | ".join(head))
    print("|---|" + "---:|" * (len(head) - 1))
    for words, cells in rows.items():
        print("| %s | %s |" % (words, " | ".join("{:,}".format(cell) if isinstance(cell, int) else cell for cell in cells)))


def sizes(folder):
    table, told = {}, {}
    journal = bytes(journal_size(1))
    for places in SIZES:
        state, plans, points = filled(places)
        store = image(state)
        nothing, _ = instructions(store, journal, b"", folder)
        broken, _ = instructions(store, journal, BROKEN, folder)
        unsound, _ = instructions(spoiled(store), journal, b"", folder)
        table.setdefault("test the store for soundness", []).append(nothing - unsound)
        for words, source in requests(plans, points):
            count, lines = instructions(store, journal, source, folder)
            table.setdefault(words, []).append(count - broken)
            told.setdefault(words, []).append(lines.count("\n"))
    shown(["request"] + ["R = {:,}".format(places) for places in SIZES], table)
    print("\nLines written: " + "; ".join("%s %s" % (words, counts) for words, counts in told.items() if max(counts) > 1))


def beside(folder):
    """Requests outside a batch and inside one that has just been opened."""
    state, plans, points = filled(70, 70)
    store, closed = image(state), journal_image(state)
    run(state, record("open"))
    journals = [closed, journal_image(state)]
    idle = [instructions(store, journal, BROKEN, folder)[0] for journal in journals]
    table = {}
    for words, source in requests(plans, points):
        outside, inside = [instructions(store, journal, source, folder)[0] - less for journal, less in zip(journals, idle)]
        table[words] = [outside, inside, "%.2f" % (inside / outside)]
    shown(["request, R = 70", "outside", "inside", "times"], table)


def batches(folder):
    """The test of a journal, closed and with places in use, and the taking back."""
    table = {}
    for places in (SIZES[0], SIZES[-1]):
        for journal in (70, 8192):
            state, _, _ = filled(places, journal)
            store, data = image(state), journal_image(state)
            count = instructions(store, data, b"", folder)[0] - instructions(store, spoiled(data), b"", folder)[0]
            table.setdefault("test a closed journal, J = {:,}".format(journal), []).append(count)
        for used in USED:
            state, _, _ = filled(places, 70)
            moved = [(value(2 * i), values((2 * i + 1, 4))) for i in range(used // 2)]
            run(state, record("open") + b"".join(record("update", name("point"), [pair]) for pair in moved))
            store, data = image(state), journal_image(state)
            nothing = instructions(store, data, b"", folder)[0]
            count = nothing - instructions(store, spoiled(data), b"", folder)[0]
            table.setdefault("test an open journal, places in use: %d" % used, []).append(count)
            count = instructions(store, data, record("back"), folder)[0] - instructions(store, data, BROKEN, folder)[0]
            table.setdefault("take back, places in use: %d" % used, []).append(count)
    rows = dict(sorted(table.items(), key=lambda row: row[0].split(":")[0], reverse=True))
    shown(["journal", *["R = {:,}".format(places) for places in (SIZES[0], SIZES[-1])]], rows)


def main(words):
    if words not in ([], ["batches"]):
        print(__doc__, file=sys.stderr)
        return 2
    with tempfile.TemporaryDirectory() as folder:
        if words:
            beside(folder)
            print()
            batches(folder)
        else:
            sizes(folder)
    return 0


if __name__ == "__main__":
    sys.exit(main(sys.argv[1:]))
