#!/usr/bin/env python3
"""Plays faults against the built programs and compares every file's bytes before and after: wrong names, folders, empty, long, unsound and
cut files, one name for two, full disks, closed pipes, closed standard files, kills.

  faults.py [KILLS]    so many kills of `lent`, 10 if not said

The programs are those that `./run --build kiosk lent` makes, or of the folder that SELUVAMA_PROGRAMS names.
"""

import sys

import room
import kiosk_faults
import lent_faults


def main(words):
    if len(words) > 1 or not all(word.isdigit() for word in words):
        print(__doc__, file=sys.stderr)
        return 2
    tally = room.Tally()
    lent_faults.play(tally, int(words[0]) if words else 10)
    kiosk_faults.play(tally)
    return tally.end()


if __name__ == "__main__":
    sys.exit(main(sys.argv[1:]))
