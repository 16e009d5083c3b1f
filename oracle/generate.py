#!/usr/bin/env python3
"""Streams of requests, seeded.

  generate.py inside SEED COUNT [R] > STREAMS    at least COUNT requests inside the domain, with R row places if said
  generate.py broken SEED COUNT > STREAMS        outside the domain, and broken records
  generate.py batches SEED COUNT [R] > STREAMS   inside the domain, with batches and as many journal places as they need
  generate.py tight SEED COUNT > STREAMS         as broken, with batches and few journal places
  generate.py --tally STREAMS                    how often each operation, code, AT and GONE comes
"""

import random
import sys

from batched import InsideBatches, TightBatches
from inside import Inside
from packed import read_streams, stream, text
from runs import fresh, run
from tally import Tally
from wild import Wild

PLACES = [4, 6, 8, 8, 10, 12, 12, 16, 24, 40, 70]
NARROW = [1, 2, 3, 4, 5, 6, 8, 12, 20, 70]
JOURNALS = [1, 2, 3, 4, 5, 6, 8, 12, 20, 70]


def made(kind, seed, count, start):
    """Streams with so many requests in all. `start` gives a stream in the making and its requests, None for one that was not found."""
    seen, done, number = {}, 0, 0
    while done < count:
        stream, wanted = start(random.Random("%s %d %d" % (kind, seed, number)), seen)
        found = [data for data in wanted if data is not None]
        done, number = done + len(found), number + 1
        yield stream, b"".join(found)


def inside(seed, count, fixed=None):
    """Pairs of R and records."""

    def start(rng, seen):
        stream = Inside(rng, fixed or rng.choice(PLACES), seen)
        return stream, [stream.request() for _ in range(rng.randrange(20, 90))]

    for stream, source in made("inside", seed, count, start):
        yield stream.state.places, source


def broken(seed, count):
    """Pairs of R and records, some of them broken."""

    def start(rng, seen):
        stream = Wild(rng, rng.choice(NARROW), seen)
        return stream, some_bad_lengths(rng, stream)

    for stream, source in made("broken", seed, count, start):
        yield stream.state.places, source + stream.ending()


def some_bad_lengths(rng, stream):
    return [stream.bad_length() if rng.random() < 0.02 else stream.request() for _ in range(rng.randrange(20, 90))]


def batches(seed, count, fixed=None):
    """R, J and records; no batch is open at the end."""

    def start(rng, seen):
        stream = InsideBatches(rng, fixed or rng.choice(PLACES), seen)
        wanted = [stream.request() for _ in range(rng.randrange(30, 110))]
        return stream, wanted + [stream.end()] if stream.state.batch is not None else wanted

    for stream, source in made("batches", seed, count, start):
        yield stream.state.places, max(1, stream.most), source


def tight(seed, count):
    """R, J and records, some of them broken; a batch may be open at the end."""

    def start(rng, seen):
        stream = TightBatches(rng, rng.choice(NARROW), rng.choice(JOURNALS), seen)
        return stream, some_bad_lengths(rng, stream)

    for stream, source in made("tight", seed, count, start):
        yield stream.state.places, stream.state.journal, source + stream.ending()


def print_tally(streams):
    tally = Tally()
    for places, journal, source in streams:
        tally.add(source, text(run(fresh(places, journal), source)[0]))
    print("\n".join(tally.lines()))


def main(words):
    if len(words) == 2 and words[0] == "--tally":
        with open(words[1], "rb") as f:
            print_tally(read_streams(f))
    elif len(words) == 3 and words[0] in MAKERS or len(words) == 4 and words[0] in ("inside", "batches"):
        for places, *journal, source in MAKERS[words[0]](*[int(word) for word in words[1:]]):
            sys.stdout.buffer.write(stream(places, *(journal or [0]), source))
    else:
        print(__doc__, file=sys.stderr)
        return 2
    return 0


MAKERS = {"inside": inside, "broken": broken, "batches": batches, "tight": tight}

if __name__ == "__main__":
    sys.exit(main(sys.argv[1:]))
