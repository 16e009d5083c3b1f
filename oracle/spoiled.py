"""Stores and journals as requests leave them, one of the two spoiled at random or taken from elsewhere, with records to come."""

import random

from decider import taken_back
from generate import tight
from journal import HEADER, PLACE, journal_image
from layout import NotSound, image, lent_state
from records import records
from runs import answer, answer_both, fresh
from writer import record

BACK = record("back")


def framed(body):
    return len(body).to_bytes(2, "big") + body


def spoiled_pairs(count, seed):
    """Store, journal and records."""
    elsewhere = b""
    for number, (places, journal, source) in enumerate(tight(seed, 80 * count)):
        if number == count:
            return
        rng = random.Random("pairs %d %d" % (seed, number))
        bodies = [body for body in records(source) if body is not None]
        state = fresh(places, journal)
        half = open_somewhere(rng, state, bodies)
        store, beside = image(state), journal_image(state)
        rest = b"".join(framed(body) for body in bodies[half : half + rng.randrange(6)])
        yield spoil_one(rng, store, beside, elsewhere) + (rest + (BACK if rng.random() < 0.7 else b""),)
        elsewhere = beside


def open_somewhere(rng, state, bodies):
    """Answers a part of the records, most often up to a place where a batch is open with some places in use; how many."""
    half = rng.randrange(len(bodies) // 4, len(bodies) + 1)
    for done, body in enumerate(bodies):
        if done >= half and (state.batch or rng.random() < 0.02):
            return done
        answer(state, body)
    return len(bodies)


def spoil_one(rng, store, journal, elsewhere):
    """Both as they are, the journal with some bytes changed, with its places mixed, cut, from another store; or the store with a byte changed."""
    way = rng.randrange(12)
    if way == 0:
        return store, journal
    if way == 1:
        return with_bytes(rng, store, len(store)), journal
    if way == 2:
        return store, elsewhere or journal
    if way == 3:
        return store, mixed(rng, journal)
    if way == 4:
        size = rng.choice([len(journal) - 1, len(journal) + 1, len(journal) - PLACE, len(journal) + PLACE, rng.randrange(len(journal))])
        return store, journal[:size].ljust(size, b"\0")
    used = HEADER + PLACE * int.from_bytes(journal[1:3], "big")
    return store, with_bytes(rng, journal, rng.choice([used, used, used, HEADER, len(journal)]))


def with_bytes(rng, data, size):
    """One to three of the first bytes changed, mostly where something stands."""
    data = bytearray(data)
    standing = [at for at in range(size) if data[at]]
    for _ in range(rng.choice([1, 1, 1, 2, 3])):
        at = rng.choice(standing) if standing and rng.random() < 0.7 else rng.randrange(size)
        data[at] = rng.choice([0, 1, 2, 255, (data[at] + 1) % 256, data[at] ^ 1 << rng.randrange(8)])
    return bytes(data)


def mixed(rng, journal):
    """Places in another order, one twice, or one left out: the layout holds, the way back is another."""
    used = int.from_bytes(journal[1:3], "big")
    places = [journal[HEADER + PLACE * i : HEADER + PLACE * (i + 1)] for i in range(used)]
    way = rng.randrange(3)
    if way == 0:
        rng.shuffle(places)
    elif way == 1 and places:
        places.pop(rng.randrange(used))
    elif places and HEADER + PLACE * used < len(journal):
        places.insert(rng.randrange(used + 1), rng.choice(places))
    return (journal[:1] + len(places).to_bytes(2, "big") + b"".join(places)).ljust(len(journal), b"\0")


def decided(store, journal):
    """What taking back leaves, by the decider; None where the journal, or by the model the store, is not sound."""
    try:
        lent_state(store)
    except NotSound:
        return None
    return taken_back(store, journal)


def agrees(store, journal):
    """Whether model and decider say the same of the two, and of what taking back leaves."""
    left = decided(store, journal)
    if left is None:
        return answer_both(store, journal, BACK) == (["no 38 0 0"], store, journal)
    said = "ok 0" if journal[0] else "no 45 0 0"
    return answer_both(store, journal, BACK) == ([said], left, bytes(len(journal)))
