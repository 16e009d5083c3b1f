#!/usr/bin/env python3
"""Lends `lent` each store and journal of oracle/lists/journals.list and has the batch taken back: what it says and the bytes of both files
afterwards must be what the list says, and after 38 both must be as they were. Says nothing of a case that passes.

  journals.py

The programs are those that `./run --build kiosk lent` makes, or of the folder that SELUVAMA_PROGRAMS names.
"""

import os
import sys

from room import ROOT, Room, Tally, compared, shown

from checks import BACK, lent_journals  # noqa: E402
from packed import text  # noqa: E402

LIST = os.path.join(ROOT, "oracle", "lists", "journals.list")
TOGETHER = 50  # cases in one run of the program


def play(cases, first):
    """What is wrong with some cases, run by one program."""
    with Room() as room:
        room.put({"back": BACK})
        words, wanted, out = [], {"back": BACK}, b""
        for i, (store, journal, lines, after, kept) in enumerate(cases):
            names = ["%s%d" % (name, i) for name in ("store", "journal")]
            room.put(dict(zip(names, (store, journal))))
            words += [*names, "back", *names]
            wanted.update(zip(names, (after, kept)))
            out += text(lines)
        said = room.run("lent", words)
        wrong = compared(wanted, room.files(), {})
        if said.out != out:
            wrong.append("should write %s, wrote %s" % (shown(out), shown(said.out)))
        return ["behind case %d: %s" % (first, what) for what in wrong]


def main():
    tally = Tally()
    cases = list(lent_journals(LIST))
    refused = sum(lines == ["no 38 0 0"] for _, _, lines, _, _ in cases)
    wrong = []
    for at in range(0, len(cases), TOGETHER):
        wrong += play(cases[at : at + TOGETHER], at)
    tally.add("lent: %d journals beside stores, %d of them refused (38)" % (len(cases), refused), wrong)
    return tally.end()


if __name__ == "__main__":
    sys.exit(main())
