#!/usr/bin/env python3
"""Feeds the built programs random and damaged records and spoiled stores and journals, and holds them against the plain model.

  fuzz.py [RECORDS [STORES [SEED]]]    100,000 records, 2,000 stores, as many journals, and seed 1 if not said
  fuzz.py --journals COUNT [SEED]      the model against the decider alone, without the programs
  fuzz.py --list LIST                  a small part as a list, with the model's answers, for the gate to replay

Records of every operation, as they are, cut, lengthened, with bits turned, with other counts, and with lengths 0, 1, 4,096, 4,097 and 65,535 go
through `lent` over a fresh store and journal and, where those are as the kiosk's, through `kiosk`, some of them a few bytes at a time. Stores and journals are made by
requests, and then some of their bytes are changed: both must be refused and left as they are, or be sound and answer as the model does, the journals
by the decider's verdict too (decider.py).
"""

import os
import random
import sys
import tempfile
from itertools import chain

from generate import broken, inside, tight
from journal import journal_image, journal_size
from layout import image
from packed import packed, stream, text
from programs import kiosk, kiosk_in_pieces, lent
from records import records
from runs import answer, answer_both, fresh
from spoiled import agrees, framed, spoiled_pairs
from values import JOURNAL_MOST, State

LENGTHS = [0, 1, 4096, 4097, 65535]
REFUSED = ["no 38 0 0"]


def lines_of(state, source):
    """The lines of an input, by the model."""
    lines = []
    for record in records(source):
        lines += ["no 1 0 0"] if record is None else answer(state, record)[0]
    return text(lines)


def damaged(rng, body):
    """A record without its length, damaged in one way or left alone; with its length, right or wrong."""
    way = rng.randrange(8)
    if way == 0 and len(body) > 2:
        return framed(body[: rng.randrange(2, len(body))])
    if way == 1 and len(body) < 4000:
        return framed(body + rng.randbytes(rng.randrange(1, 20)))
    if way in (2, 3) and body:
        data = bytearray(body)
        for _ in range(rng.randrange(1, 4)):
            data[rng.randrange(len(data))] ^= 1 << rng.randrange(8)
        return framed(bytes(data))
    if way == 4 and len(body) > 3:  # a byte that is likely to be a count or a length
        data = bytearray(body)
        data[rng.randrange(2, len(data))] = rng.choice([0, 1, 2, 7, 8, 9, 24, 25, 255])
        return framed(bytes(data))
    if way == 5 and rng.random() < 0.05:
        length = rng.choice(LENGTHS)
        return length.to_bytes(2, "big") + (body + bytes(65535))[:length]
    if way == 6 and rng.random() < 0.1:
        return framed(rng.randbytes(rng.randrange(2, 60)))
    return framed(body)


def damaged_streams(count, seed):
    """Pairs of R and damaged records."""
    for number, (places, source) in enumerate(broken(seed, count)):
        rng = random.Random("damage %d %d" % (seed, number))
        if number % 4 == 0:
            places = 70
        bodies = [body for body in records(source) if body is not None]
        source = b"".join(damaged(rng, body) for body in bodies)
        if rng.random() < 0.1:
            source = source[: rng.randrange(len(source) + 1)]
        yield places, source


def damaged_batches(count, seed):
    """R, J and damaged records with batches."""
    for number, (places, journal, source) in enumerate(tight(seed, count)):
        rng = random.Random("damaged batches %d %d" % (seed, number))
        if number % 4 == 0:
            places, journal = 70, JOURNAL_MOST
        bodies = [body for body in records(source) if body is not None]
        yield places, journal, b"".join(damaged(rng, body) for body in bodies)


def write_list(file):
    """Streams that fit `replay`'s buffers, in small stores."""
    cases = 0
    with open(file, "wb") as f:
        for places, source in damaged_streams(4000, 7):
            state = State(places)
            lines = lines_of(state, source)
            if places < 9 and len(source) < 60000 and len(lines) < 60000:
                f.write(stream(places, 0, source) + packed(lines) + packed(image(state)))
                cases += 1
    print("%s: %d cases" % (os.path.basename(file), cases))


def fuzz_records(count, seed, folder):
    done = wrong = streams = 0
    plain = ((places, 0, source) for places, source in damaged_streams(count // 2, seed))
    for places, journal, source in chain(plain, damaged_batches(count // 2, seed)):
        state = fresh(places, journal)
        before = image(state), journal_image(state)
        lines = lines_of(state, source)
        right = lent(*before, source, folder) == (lines, image(state), journal_image(state))
        if places == 70 and b"no 43 " not in lines:
            right = right and kiosk(source) == lines
            if streams % 16 == 0:
                right = right and kiosk_in_pieces(source, 1 + streams % 999) == lines
        if not right:
            print("records: stream %d (R = %d, J = %d) differs" % (streams, places, journal))
        wrong += not right
        streams += 1
        done += len(list(records(source)))
    print("%d records in %d streams, %d streams differ" % (done, streams, wrong))
    return wrong


def fuzz_stores(count, seed, folder):
    unsound = sound = wrong = 0
    for number, (places, source) in enumerate(inside(seed, count * 60)):
        if number == count:
            break
        rng = random.Random("stores %d %d" % (seed, number))
        bodies = list(records(source))
        half = len(bodies) // 2
        state = State(places)
        lines_of(state, b"".join(framed(body) for body in bodies[:half]))
        store = bytearray(image(state))
        for _ in range(rng.choice([0, 1, 1, 1, 2, 3])):
            at = rng.randrange(12) if rng.random() < 0.2 else rng.randrange(len(store))
            store[at] = rng.choice([0, 1, 255, store[at] ^ (1 << rng.randrange(8))])
        if rng.random() < 0.03:
            del store[rng.randrange(len(store)) :]
        rest = b"".join(framed(body) for body in bodies[half : half + 10])
        journal = bytes(journal_size(1))
        lines, *after = answer_both(bytes(store), journal, rest)
        unsound += lines == REFUSED
        sound += lines != REFUSED
        if lent(bytes(store), journal, rest, folder) != (text(lines), *after):
            print("stores: store %d (R = %d) differs" % (number, places))
            wrong += 1
    print("%d stores, %d sound and %d not, %d differ" % (sound + unsound, sound, unsound, wrong))
    return wrong


def fuzz_journals(count, seed, folder=None):
    """Through `lent` where a folder is given."""
    unsound = is_open = wrong = 0
    for number, (store, journal, rest) in enumerate(spoiled_pairs(count, seed)):
        right = agrees(store, journal)
        lines, *after = answer_both(store, journal, rest)
        unsound += lines == REFUSED
        is_open += lines != REFUSED and journal[0]
        if folder:
            right = right and lent(store, journal, rest, folder) == (text(lines), *after)
        if not right:
            print("journals: pair %d differs" % number)
            wrong += 1
    print("%d pairs of a store and a journal, %d open and sound, %d not sound, %d differ" % (count, is_open, unsound, wrong))
    return wrong


def main(words):
    if len(words) == 2 and words[0] == "--list":
        write_list(words[1])
        return 0
    if 2 <= len(words) <= 3 and words[0] == "--journals":
        return 1 if fuzz_journals(*[int(word) for word in words[1:] + ["1"]][:2]) else 0
    numbers = [int(word) for word in words] + [100000, 2000, 1][len(words) :]
    with tempfile.TemporaryDirectory() as folder:
        wrong = fuzz_records(numbers[0], numbers[2], folder) + fuzz_stores(*numbers[1:], folder) + fuzz_journals(*numbers[1:], folder)
    return 1 if wrong else 0


if __name__ == "__main__":
    sys.exit(main(sys.argv[1:]))
