#!/usr/bin/env python3
"""Holds the proved programs against recorded answers, of the Rust or of the model.

  beside.py STREAMS ANSWERS    each stream through `lent` over a fresh store and journal: lines and every byte of both afterwards;
                               and through `kiosk` where it has 70 row places and no journal place is missing (43): lines

The programs must be built (`./run --build kiosk lent`).
"""

import sys
import tempfile

from journal import journal_image
from layout import image
from packed import read_answers, read_streams
from programs import kiosk, lent
from records import records
from runs import fresh


def main(words):
    if len(words) != 2:
        print(__doc__, file=sys.stderr)
        return 2
    streams = requests = by_kiosk = lines_differ = bytes_differ = 0
    with open(words[0], "rb") as f, open(words[1], "rb") as g, tempfile.TemporaryDirectory() as folder:
        for (places, journal, source), (lines, _, after) in zip(read_streams(f), read_answers(g)):
            state = fresh(places, journal)
            told, store_after, journal_after = lent(image(state), journal_image(state), source, folder)
            left = store_after + (journal_after if journal else b"")
            alike = told == lines
            count = len(list(records(source)))
            if places == 70 and b"no 43 " not in lines:
                alike = alike and kiosk(source) == lines
                by_kiosk += count
            if not alike or left != after:
                print("stream %d (R = %d) differs" % (streams, places))
            lines_differ += not alike
            bytes_differ += left != after
            streams += 1
            requests += count
    print("%d streams, %d requests, %d of them through kiosk too" % (streams, requests, by_kiosk))
    print("streams whose lines differ: %d; whose bytes differ: %d" % (lines_differ, bytes_differ))
    return 0 if lines_differ == bytes_differ == 0 and requests else 1


if __name__ == "__main__":
    sys.exit(main(sys.argv[1:]))
