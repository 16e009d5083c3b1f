#!/usr/bin/env python3
"""Two answers files to the same streams, held against each other.

  differ.py [--tally] STREAMS ANSWERS OTHER-ANSWERS

Lines, bytes after every request (by their CRC), what refusals carry, and the final bytes.
A difference is shown with the smallest prefix of its stream that has it.
"""

import sys
from itertools import zip_longest

from packed import read_answers, read_streams
from records import Broken, Reader, printed, records
from tally import Tally, by_request


def shown(record):
    """A record as one line for a reader."""
    if record is None:
        return "broken by its length"
    try:
        operation, operands = Reader(record).request()
    except Broken as b:
        return "broken at %d: %s" % (b.offset, record.hex())
    return operation + " " + " ".join(plain(o) for o in operands)


def plain(x):
    """Names and values as lines print them, lists in brackets."""
    if isinstance(x, bytes):
        return "t:" + x.hex()
    if x is None or isinstance(x, int):
        return str(x)
    if isinstance(x, tuple) and len(x) == 2 and isinstance(x[0], int) and not isinstance(x[1], tuple):
        return printed(x)
    return "[" + " ".join(plain(y) for y in x) + "]"


def first_difference(source, one, other):
    """The number of the first request answered otherwise, and how; None if there is none."""
    rows = zip_longest(
        records(source), by_request(one[0]), by_request(other[0]), one[1].decode().splitlines(), other[1].decode().splitlines()
    )
    for number, (_, lines, lines2, note, note2) in enumerate(rows):
        for note_of in (note, note2):
            if note_of is not None and note_of.startswith("outside"):
                return number, note_of
        if lines != lines2 or note != note2:
            return number, "%s (%s)\n  against %s (%s)" % (lines, note, lines2, note2)
    return None if one[2] == other[2] else (number, "the final bytes")


def show(stream, places, source, number, how):
    print("stream %d, R = %d, request %d: %s" % (stream, places, number, how))
    for i, record in zip(range(number + 1), records(source)):
        print("  %3d %s" % (i, shown(record)))
    print("  records: %s" % b"".join(framed(r) for _, r in zip(range(number + 1), records(source))).hex())


def framed(record):
    return b"\0\0" if record is None else len(record).to_bytes(2, "big") + record


def main(words):
    with_tally = words[:1] == ["--tally"]
    words = words[with_tally:]
    if len(words) != 3:
        print(__doc__, file=sys.stderr)
        return 2
    different, outside, streams, tally = 0, 0, 0, Tally()
    with open(words[0], "rb") as f, open(words[1], "rb") as one, open(words[2], "rb") as other:
        triples = zip_longest(read_streams(f), read_answers(one), read_answers(other))
        for streams, (stream, a, b) in enumerate(triples, 1):
            if None in (stream, a, b):
                raise SystemExit("the files don't have as many streams as each other")
            places, _, source = stream
            tally.add(source, a[0])
            found = first_difference(source, a, b)
            if found:
                different, outside = different + 1, outside + found[1].startswith("outside")
                show(streams - 1, places, source, *found)
    print("%d streams, %d requests: %d differences (%d of them left the domain)" % (streams, tally.requests, different, outside))
    if with_tally:
        print("\n".join(tally.lines()))
    return 1 if different else 0


if __name__ == "__main__":
    sys.exit(main(sys.argv[1:]))
