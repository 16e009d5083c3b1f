#!/usr/bin/env python3
"""Document 01 as a plain program: no index, no sorted areas, no lent bytes.

The state is a dictionary of schemas and one of rows. The store's bytes, the index among
them, are made from these two whenever somebody asks. To be read in this order:
values.py, records.py, rules.py, layout.py, journal.py, runs.py.

  model.py STREAMS ANSWERS              answer a streams file
  model.py --records R [--store FILE]   records from standard input, lines to standard output
  model.py --lent STORE JOURNAL RECORDS STORE_AFTER JOURNAL_AFTER
                                        records over a lent store and its journal, lines to standard output
  model.py --check LIST..               replay list files
"""

import sys

from checks import check
from layout import image
from packed import packed, read_streams, text
from runs import answer_both, fresh, left_bytes, run
from values import State


def answer_streams(streams, answers):
    with open(streams, "rb") as f, open(answers, "wb") as out:
        for places, journal, source in read_streams(f):
            state = fresh(places, journal)
            lines, notes = run(state, source)
            out.write(packed(text(lines)) + packed(text(notes)) + packed(left_bytes(state, journal)))


def answer_records(places, store_file=None):
    state = State(places)
    lines, _ = run(state, sys.stdin.buffer.read())
    sys.stdout.buffer.write(text(lines))
    if store_file:
        with open(store_file, "wb") as f:
            f.write(image(state))


def answer_lent_files(store, journal, source, store_after, journal_after):
    lent = []
    for file in (store, journal, source):
        with open(file, "rb") as f:
            lent.append(f.read())
    lines, *after = answer_both(*lent)
    sys.stdout.buffer.write(text(lines))
    for file, data in zip((store_after, journal_after), after):
        with open(file, "wb") as f:
            f.write(data)


def main(words):
    if words[:1] == ["--records"] and len(words) in (2, 4):
        answer_records(int(words[1]), words[3] if len(words) == 4 else None)
    elif words[:1] == ["--lent"] and len(words) == 6:
        answer_lent_files(*words[1:])
    elif words[:1] == ["--check"] and len(words) > 1:
        return 0 if all([check(name) for name in words[1:]]) else 1
    elif len(words) == 2:
        answer_streams(*words)
    else:
        print(__doc__, file=sys.stderr)
        return 2
    return 0


if __name__ == "__main__":
    sys.exit(main(sys.argv[1:]))
