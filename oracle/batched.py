"""Streams with batches (02, T-06): requests of inside.py or wild.py, and a batch opened, kept or taken back between them."""

from inside import Inside
from rules import STEPS, Refused
from wild import Wild
from writer import record


class Batches:
    """Over Inside or Wild. Batches are long enough to change many rows, and now and then one is opened or ended out of turn."""

    opened, ended, astray = 12, 7, 2  # how often in percent

    def request(self):
        is_open = self.state.batch is not None
        if self.chance(self.astray):
            return self.batch_request("open" if is_open else self.pick(["keep", "back"]))
        if is_open and self.chance(self.ended):
            return self.end()
        if not is_open and len(self.state.tables) >= min(self.founded, 4) and self.chance(self.opened):
            return self.batch_request("open")
        return super().request()

    def end(self):
        return self.batch_request(self.pick(["keep", "back", "back"]))

    def batch_request(self, operation):
        try:
            STEPS[operation](self.state)
        except Refused:
            pass
        return record(operation)


class InsideBatches(Batches, Inside):
    """With as many places as are asked for: what the Rust answers too."""

    def __init__(self, rng, places, seen):
        super().__init__(rng, places, seen)
        self.most = 0  # places that were in use at once

    def request(self):
        data = super().request()
        self.most = max(self.most, len(self.state.batch or ()))
        return data


class TightBatches(Batches, Wild):
    """With few places, so that they are missing often; broken records too."""

    opened, ended = 25, 5

    def __init__(self, rng, places, journal, seen):
        super().__init__(rng, places, seen)
        self.state.journal = journal

    def batch_request(self, operation):
        data = super().batch_request(operation)
        return data + self.broken_beside(operation) if self.chance(5) else data

    def broken_beside(self, operation):
        """A batch operation with a byte too many."""
        body = record(operation)[2:] + self.rng.randbytes(1)
        return bytes([0, len(body)]) + body
