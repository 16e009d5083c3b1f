"""Records answered: one, many, and many over a lent store and its journal."""

import zlib

from journal import journal_image, lend_journal
from layout import NotSound, image, lent_state
from records import Broken, Reader, printed, records
from rules import STEPS, Refused
from values import State


def answer(state, record):
    """One record without its length: its lines, and what the refusal carries."""
    try:
        operation, operands = Reader(record).request()
        rows, count = STEPS[operation](state, *operands)
    except Broken:
        return ["no 1 0 0"], "-"
    except Refused as r:
        return ["no %d %d %d" % (r.code, r.at, r.gone)], r.carried
    lines = [" ".join(["row"] + [printed(value) for value in row]) for row in rows]
    return lines + ["ok %d" % count], "-"


def run(state, source):
    """Lines and notes of an input."""
    lines, notes = [], []
    for record in records(source):
        new, carried = (["no 1 0 0"], "-") if record is None else answer(state, record)
        lines += new
        notes.append("%08x %s" % (zlib.crc32(image(state)), carried))
    return lines, notes


def fresh(places, journal):
    """A fresh state for a stream; one that says no J has no batch, and gets one place."""
    return State(places, journal or 1)


def left_bytes(state, journal):
    """The store's bytes and, where the stream says J, the journal's behind them."""
    return image(state) + (journal_image(state) if journal else b"")


def answer_both(store, journal, source):
    """Lines and the bytes of both after a run over a lent store and its journal, tested once."""
    try:
        state = lent_state(store)
        lend_journal(state, journal)
    except NotSound:
        return ["no 38 0 0"], store, journal
    lines, _ = run(state, source)
    return lines, image(state), journal_image(state)

