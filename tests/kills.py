#!/usr/bin/env python3
"""Kills `kiosk LOG` at random moments under load, starts it again and holds it against the plain model.

  kills.py [ROUNDS [SEED]]    200 rounds and seed 1 if not said; ten rounds share a LOG

In each round records of the oracle's generators go in through a pipe, in pieces of any size, until the program is killed by SIGKILL. Then
LOG must hold what it held before and a beginning of what was sent, the answers that came must be the model's for the records in LOG, in
order, and the program that is started again must say what it takes over and cuts off, and scan every table as the model does.
"""

import random
import subprocess
import sys
import threading
import time

from kiosk_faults import taken_over
from lent_faults import BACK, KEEP, OPEN
from room import Room, Tally, command, shown

from cases import name  # noqa: E402
from generate import broken, inside  # noqa: E402
from packed import text  # noqa: E402
from records import records  # noqa: E402
from runs import answer  # noqa: E402
from values import State  # noqa: E402
from writer import record  # noqa: E402

SHARED = 10  # rounds with one LOG
LONGEST = 0.03  # seconds from the start to a kill


class Log:
    """What the model makes of a log: its state, how many records it has, and what is wrong with its end."""

    def __init__(self):
        self.state, self.data, self.count, self.torn, self.missing = State(70), b"", 0, 0, 0

    def add(self, data):
        """Carries out what was appended, and answers the lines. Of its end is remembered how many bytes are torn, or missing."""
        self.data += data
        at, lines = len(self.data) - len(data), []
        self.torn = self.missing = 0
        while at < len(self.data):
            size = int.from_bytes(self.data[at : at + 2], "big")
            end = at + 2 + size
            if at + 2 > len(self.data) or 2 <= size <= 4096 and end > len(self.data):
                self.torn = len(self.data) - at
                break
            lines += answer(self.state, self.data[at + 2 : end])[0] if 2 <= size <= 4096 else ["no 1 0 0"]
            self.count += 1
            self.missing = max(0, end - len(self.data))
            at = end
        return text(lines)

    def taken_over(self):
        """Mends the end as a start must, and answers the line that it must say."""
        if not self.data:
            return b""
        self.data = self.data[: len(self.data) - self.torn]
        said = taken_over(self.count, len(self.data), self.torn, self.missing)
        self.data += bytes(self.missing)
        self.torn = self.missing = 0
        return said


def stock(seed):
    """Records of the generators, whole and broken ones, and between them some of bad length and of batches."""
    rng = random.Random("stock %d" % seed)
    found = []
    for (_, one), (_, other) in zip(inside(seed, 1500, 70), broken(seed, 1500)):
        bodies = [body for source in (one, other) for body in records(source) if body is not None]
        found += [len(body).to_bytes(2, "big") + body for body in bodies]
        size = rng.choice([0, 1, 4097, 9999])
        found.append(size.to_bytes(2, "big") + bytes(size))
        found.append(rng.choice([OPEN, KEEP, BACK]))
    return found


def load(rng, room, source):
    """Sends the records in pieces until the program is killed, and answers what it wrote."""
    moment = rng.random() * LONGEST
    pipes = {"stdin": subprocess.PIPE, "stdout": subprocess.PIPE, "stderr": subprocess.PIPE}
    running = subprocess.Popen(command("kiosk") + ["log"], cwd=room.folder, bufsize=0, **pipes)
    told = []

    def feed():
        at = 0
        try:
            while at < len(source):
                size = rng.choice([1, 7, 37, 200, 1000, 5000])
                at += running.stdin.write(source[at : at + size])
        except BrokenPipeError:
            pass

    threads = [threading.Thread(target=feed), threading.Thread(target=lambda: told.append(running.stdout.read()))]
    for thread in threads:
        thread.start()
    time.sleep(moment)
    running.kill()
    for thread in threads:
        thread.join()
    running.wait()
    for pipe in (running.stdin, running.stdout, running.stderr):
        pipe.close()
    return told[0]


def round_of(rng, room, log, source):
    """One kill and one start. Answers what is wrong, how many answers came, and whether LOG's end was to be mended."""
    log.taken_over()
    base = log.data
    told = load(rng, room, source)
    left = room.files().get("log", b"")
    if left[: len(base)] != base or not source.startswith(left[len(base) :]):
        return ["LOG should be what it was and what was sent, is %s" % shown(left)], 0, False
    lines = log.add(left[len(base) :])
    wrong = [] if lines.startswith(told) else ["an answer is not the model's for LOG: %s" % shown(told[-200:])]
    ragged = log.torn + log.missing > 0
    said = log.taken_over()
    mended = log.data
    scans = record("list") + b"".join(record("scan", table) for table in sorted({*log.state.tables, name("nothing")}))
    again = room.run("kiosk", ["log"], stdin=scans)
    if again.err != said:
        wrong.append("should say %r, said %r" % (said, again.err))
    if again.out != log.add(scans):
        wrong.append("the scans are not the model's")
    if room.files().get("log") != mended + scans:
        wrong.append("LOG should be mended")
    return wrong, sum(line[:3] in (b"ok ", b"no ") for line in told.splitlines(keepends=True) if line.endswith(b"\n")), ragged


def main(words):
    if len(words) > 2 or not all(word.isdigit() for word in words):
        print(__doc__, file=sys.stderr)
        return 2
    rounds, seed = [int(word) for word in words] + [200, 1][len(words) :]
    rng = random.Random("kills %d" % seed)
    found = stock(seed)
    tally = Tally()
    answered = mended = 0
    for start in range(0, rounds, SHARED):
        wrong, log = [], Log()
        with Room() as room:
            for number in range(start, min(start + SHARED, rounds)):
                first = rng.randrange(len(found))
                source = record("list") + 16 * b"".join(found[first:] + found[:first])  # a LOG of broken records alone would be no log
                faults, answers, ragged = round_of(rng, room, log, source)
                wrong += ["round %d: %s" % (number, fault) for fault in faults]
                answered += answers
                mended += ragged
                if faults:
                    break
        tally.add("kiosk: killed in rounds %d to %d" % (start + 1, min(start + SHARED, rounds)), wrong)
    print("      %d kills, %d answers came before them, %d times LOG's end was mended" % (rounds, answered, mended))
    return tally.end()


if __name__ == "__main__":
    sys.exit(main(sys.argv[1:]))
