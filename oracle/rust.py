#!/usr/bin/env python3
"""The Rust's answers to streams, with batches too.

  rust.py ORACLE STREAMS ANSWERS

The Rust knows no batch. One that was kept is, for it, the requests sent; one that was taken back, the requests not sent. So a stream with batches
becomes several without: at each taking back the stream as it went until then, for the answers inside, and at the end what was kept. The batch
operations themselves, and create and drop inside a batch, are not sent: their lines are set down here. No batch may be open at the end.
"""

import os
import subprocess
import sys
import tempfile
import zlib

from journal import journal_size
from layout import image
from packed import packed, read_answers, read_streams, stream, text
from records import OPERATIONS, records
from tally import by_request
from values import State

TURN, INSIDE = ["no 45 0 0"], ["no 44 0 0"]
AT_ONCE = 400  # streams, so that their stores fit in memory


def rust_answers(oracle, streams):
    """The oracle's lines, notes and bytes for pairs of R and records."""
    with tempfile.TemporaryDirectory() as work:
        with open(os.path.join(work, "streams"), "wb") as f:
            f.write(b"".join(stream(places, 0, source) for places, source in streams))
        subprocess.run([oracle, f.name, os.path.join(work, "answers")], check=True)
        with open(os.path.join(work, "answers"), "rb") as f:
            return list(read_answers(f))


class Sent:
    """A stream as the Rust gets it: streams without batches, and for each request where its answer stands."""

    def __init__(self, source):
        self.streams = [[]]  # the last is the one that goes on
        self.told = []  # for each request: the stream's number, how many of it were sent by then, and lines that are not the Rust's
        self.mark = None  # how many were sent when the batch was opened
        for record in records(source):
            lines = self.take(record)
            self.told.append((len(self.streams) - 1, len(self.streams[-1]), lines))
        if self.mark is not None:
            raise SystemExit("a batch is open at the end, and the Rust has no journal")

    def take(self, record):
        operation, now = OPERATIONS[record[1]], self.streams[-1]
        is_open = self.mark is not None
        if operation in ("open", "keep", "back"):
            if is_open == (operation == "open"):
                return TURN
            if operation == "back":
                self.streams.append(now[: self.mark])
            self.mark = None if is_open else len(now)
            return ["ok 0"]
        if is_open and operation in ("create", "drop"):
            return INSIDE
        now.append(len(record).to_bytes(2, "big") + record)
        return None


def joined(sent, places, journal, answers):
    """Lines, notes and bytes of a stream, from the answers to those that the Rust got."""
    new = "%08x" % zlib.crc32(image(State(places)))
    parts = [(list(by_request(lines)), notes.decode().splitlines()) for lines, notes, _ in answers]
    lines, notes = [], []
    for number, count, given in sent.told:
        told, noted = parts[number]
        if len(told) < count:
            notes.append(noted[-1])  # outside the domain
            break
        crc, carried = noted[count - 1].split(" ", 1) if count else (new, "-")
        lines += told[count - 1] if given is None else given
        notes.append("%s %s" % (crc, carried if given is None else "-"))
    return text(lines), text(notes), answers[-1][2] + (bytes(journal_size(journal)) if journal else b"")


def batch_answers(oracle, streams):
    """Lines, notes and bytes for R, J and records."""
    sents = [Sent(source) for _, _, source in streams]
    asked = [(places, b"".join(part)) for (places, _, _), sent in zip(streams, sents) for part in sent.streams]
    answers = iter(rust_answers(oracle, asked))
    for (places, journal, _), sent in zip(streams, sents):
        yield joined(sent, places, journal, [next(answers) for _ in sent.streams])


def main(words):
    if len(words) != 3:
        print(__doc__, file=sys.stderr)
        return 2
    with open(words[1], "rb") as f:
        streams = list(read_streams(f))
    with open(words[2], "wb") as out:
        for at in range(0, len(streams), AT_ONCE):
            for answer in batch_answers(words[0], streams[at : at + AT_ONCE]):
                out.write(b"".join(map(packed, answer)))
    return 0


if __name__ == "__main__":
    sys.exit(main(sys.argv[1:]))
