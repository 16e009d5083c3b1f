#!/usr/bin/env python3
"""Makes the fixed lists.

  record.py rust ORACLE     rust.list: the Rust's answers inside the domain
  record.py paper           paper.list: document 01's answers to what the Rust can't say
  record.py batch ORACLE    batch.list: answers to batches (02, T-06)

rust.list has the cases of by_hand_inside.py and by_hand_places.py, and generated streams, chosen
so that every operation, code, AT and GONE comes several times. Answers and bytes are the oracle's; a case
where hand, model and oracle don't agree is not recorded, but reported. batch.list has the cases of by_hand_batch.py,
and generated streams chosen likewise: some with the oracle's answers, and some with the model's, where places are few.
"""

import os
import sys
from collections import Counter

import by_hand_batch
import by_hand_inside
import by_hand_paper
import by_hand_places
from generate import batches, inside, tight
from packed import packed, stream, text
from records import records
from runs import fresh, left_bytes, run
from rust import batch_answers, rust_answers
from tally import by_request, operation
from values import store_size

HERE = os.path.dirname(os.path.abspath(__file__))
LISTS = os.path.join(HERE, "..", "crates", "replay", "data")  # where the program that replays them looks
SEED, REQUESTS = 20011, 60000  # where the generated streams come from
CASES, WIDE, WANTED = 60, 2, 6  # cases in all, of them generated with R = 70, how often each answer should come
BATCHES, BATCH_REQUESTS = 10, 15000  # generated cases of batch.list from either source, and of how many requests


def model_answers(places, source, journal=0):
    state = fresh(places, journal)
    lines, notes = run(state, source)
    return text(lines), text(notes), left_bytes(state, journal)


def met(source, lines):
    """What a stream meets: operation with `ok`, or with code, AT and GONE, and whether in a batch."""
    found, inside_batch = Counter(), []
    for record, answer in zip(records(source), by_request(lines)):
        words = answer[-1].split()
        asked = operation(record)
        found[(asked, *(words if words[0] == "no" else ["ok"]), *inside_batch)] += 1
        if words[0] == "ok" and asked in ("open", "keep", "back"):
            inside_batch = ["in a batch"] if asked == "open" else []
    return found


def chosen(streams, answers, have, count):
    """The streams that add most to what is met too rarely, for their size."""
    left = {i: met(stream[-1], a[0]) for i, (stream, a) in enumerate(zip(streams, answers))}

    def gain(i):
        new = sum(min(n, max(0, WANTED - have[what])) for what, n in left[i].items())
        return new / (len(streams[i][-1]) + len(answers[i][0]) + len(answers[i][2]))

    for _ in range(count):
        best = max(left, key=gain)
        have.update(left.pop(best))
        yield best


def words_of(places, source, lines):
    """A few words for a generated case: its size and the refusals met."""
    found = Counter()
    for answer in by_request(lines):
        words = answer[-1].split()
        if words[0] == "no":
            found[words[1] + (" GONE 1" if words[3] == "1" else "")] += 1
    codes = ", ".join(sorted(found, key=lambda w: int(w.split()[0])))
    return "generated, %d requests, codes %s" % (len(list(records(source))), codes or "none")


def carried(notes):
    """Requests whose refusal carries something: {number: what}."""
    whats = [line.split(" ", 1)[1] for line in notes.decode().splitlines()]
    return {i: what for i, what in enumerate(whats) if what != "-"}


def write(name, cases):
    """Cases are (words, R, J, records, lines, notes, bytes)."""
    with open(os.path.join(LISTS, name + ".list"), "wb") as f, open(os.path.join(LISTS, name + ".txt"), "w") as t:
        for number, (words, places, journal, source, lines, notes, left) in enumerate(cases):
            size = store_size(places)
            f.write(stream(places, journal, source) + packed(lines) + packed(left[:size]) + (packed(left[size:]) if journal else b""))
            carries = "".join(" | %d: %s" % item for item in carried(notes).items())
            sizes = "R = %d, J = %d" % (places, journal) if journal else "R = %d" % places
            t.write("%d (%s) %s%s\n" % (number, sizes, words, carries))
        print("%s.list: %d cases, %d bytes" % (name, len(cases), f.tell()))


def agree(words, hand, one, other):
    """Hand-written lines and carried notes, and two answers."""
    if one != other:
        raise SystemExit("the model and the oracle differ: " + words)
    if hand and (hand.lines != one[0] or any(carried(one[1]).get(i) != what for i, what in hand.carries.items())):
        raise SystemExit("written otherwise by hand: " + words)


def record_rust(oracle):
    hand = by_hand_inside.CASES + by_hand_places.CASES
    streams = [(c.places, c.source) for c in hand] + list(inside(SEED, REQUESTS))
    answers = rust_answers(oracle, streams)
    have = Counter()
    for (_, source), answer in zip(streams[: len(hand)], answers):
        have.update(met(source, answer[0]))
    narrow = [i for i, (places, _) in enumerate(streams) if i >= len(hand) and places <= 12]
    wide = [i for i, (places, _) in enumerate(streams) if i >= len(hand) and places == 70]
    picked = list(range(len(hand)))
    for pool, count in ((wide, WIDE), (narrow, CASES - WIDE - len(hand))):
        best = chosen([streams[i] for i in pool], [answers[i] for i in pool], have, count)
        picked += [pool[i] for i in best]
    cases = []
    for i in picked:
        places, source = streams[i]
        written = hand[i] if i < len(hand) else None
        words = written.words if written else words_of(places, source, answers[i][0])
        agree(words, written, answers[i], model_answers(places, source))
        cases.append((words, places, 0, source, *answers[i]))
    write("rust", cases)
    print_met(have)


def by_hand(hand):
    """Cases with the lines written by hand and the model's bytes."""
    for c in hand:
        answer = model_answers(c.places, c.source, c.journal)
        agree(c.words, c, answer, answer)
        yield c.words, c.places, c.journal, c.source, *answer


def record_batch(oracle):
    cases = list(by_hand(by_hand_batch.CASES))
    have = sum((met(source, lines) for _, _, _, source, lines, *_ in cases), Counter())
    pools = (("the Rust's", batches, lambda streams: list(batch_answers(oracle, streams))),
             ("few places", tight, lambda streams: [model_answers(places, source, journal) for places, journal, source in streams]))
    for words, maker, answers_to in pools:
        pool = [s for s in maker(SEED, BATCH_REQUESTS) if s[0] <= 12 and s[1] <= 20]
        answers = answers_to(pool)
        for i in chosen(pool, answers, have, BATCHES):
            places, journal, source = pool[i]
            agree(words, None, answers[i], model_answers(places, source, journal))
            cases.append((words + ", " + words_of(places, source, answers[i][0]), places, journal, source, *answers[i]))
    write("batch", cases)
    print_met(have)


def print_met(have):
    for what, times in sorted(have.items()):
        print("  %4d %s" % (times, " ".join(what)))


def main(words):
    os.makedirs(LISTS, exist_ok=True)
    if words == ["paper"]:
        write("paper", list(by_hand(by_hand_paper.CASES)))
    elif len(words) == 2 and words[0] == "batch":
        record_batch(words[1])
    elif len(words) == 2 and words[0] == "rust":
        record_rust(words[1])
    else:
        print(__doc__, file=sys.stderr)
        return 2
    return 0


if __name__ == "__main__":
    sys.exit(main(sys.argv[1:]))
