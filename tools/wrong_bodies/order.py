"""In which order rounds are begun, and until when."""
import contextlib
import math
import threading
import time
from collections import Counter, namedtuple

from .kept import cost_of

# The order of edits that are to be tried: those that an earlier run had no time for; those that changed, or whose function did, since they
# were last refused; those in their turn; and those that rest on something that changed.
LEFT, CHANGED, IN_TURN, OTHER = range(4)
WHY = {LEFT: "left by an earlier run", CHANGED: "new, or its function changed", IN_TURN: "in its turn", OTHER: "what it rests on changed"}
# What a check costs beside its edits, in what the dearest of them costs; and how much longer a check may take than those before it.
READING = 4
SLACK = 1.5

Round = namedtuple("Round", "rank cheapness number crate tries")


class Late(Exception):
    """There is no time left for a check."""


def round_cost(tries):
    costs = [cost_of(it.edit) for it in tries]
    return sum(costs) + READING * max(costs)


class Limit:
    """Until when checks may run, and what they took so far: of each crate the most processor seconds for what one cost."""

    def __init__(self, minutes):
        self.ends = math.inf if minutes is None else time.monotonic() + 60 * minutes
        self.paces, self.running = Counter(), set()

    def end(self):
        """The time is over now: ends the checks that run."""
        self.ends = -math.inf
        for it in [*self.running]:
            it.kill()

    def left(self):
        return self.ends - time.monotonic()

    @contextlib.contextmanager
    def ending(self, process):
        """Ends a process when the time is over, should it still run then."""
        end = threading.Timer(min(self.left(), threading.TIMEOUT_MAX), process.kill)
        end.start()
        self.running.add(process)
        try:
            if self.left() <= 0:
                process.kill()
            yield
        finally:
            self.running.discard(process)
            end.cancel()

    def note(self, crate, tries, seconds):
        """Notes what a check took that came to its end."""
        self.paces[crate.name] = max(self.paces[crate.name], seconds / round_cost(tries))

    def expected(self, crate, tries):
        """The seconds that a check takes: by what checks of its crate took before, or else by those of the dearest crate so far."""
        pace = self.paces[crate.name] or max(self.paces.values(), default=0)
        return SLACK * pace * round_cost(tries)

    def allows(self, crate, tries):
        """Whether a check that begins now ends in time."""
        return self.expected(crate, tries) < self.left()


class Queue:
    """The rounds that are to be begun: the most urgent first, and of these the dearest. Of a crate the first one ends before another
    begins, since it leaves what the others take up."""

    def __init__(self, limit):
        self.limit, self.rounds, self.number, self.is_fed = limit, [], 0, False
        self.changed, self.is_open, self.running = threading.Condition(), {}, 0

    def put(self, rank, crate, tries):
        with self.changed:
            self.rounds.append(Round(rank, -round_cost(tries), self.number, crate, tries))
            self.number += 1
            self.changed.notify_all()

    def end(self):
        """No more is put in."""
        with self.changed:
            self.is_fed = True
            self.changed.notify_all()

    def take(self, may_begin):
        """Waits for the most urgent round that ends in time, until one more may begin beside so many; none where none is left."""
        with self.changed:
            while True:
                self.rounds = [it for it in self.rounds if self.limit.allows(it.crate, it.tries)]
                if self.is_fed and not self.rounds:
                    return None
                ready = [it for it in self.rounds if self.is_open.get(it.crate.name, True)]
                if ready and may_begin(self.running):
                    found = min(ready)
                    self.rounds.remove(found)
                    self.is_open.setdefault(found.crate.name, False)
                    self.running += 1
                    return found
                self.changed.wait(1)

    def is_over(self, round_of):
        """Notes that a round is over."""
        with self.changed:
            self.is_open[round_of.crate.name] = True
            self.running -= 1
            self.changed.notify_all()
