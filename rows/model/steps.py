"""What steps have in common: their stamps, and the rows of homes."""
import re

from model.values import CLOSED, LATEST


class Steps:
    """The options of a script, and steps of any part."""

    def __init__(self, words):
        said = dict(re.findall(r"--(\w+)[ =](\d+)", " ".join(words)))
        self.homes = int(said.get("homes", 4))
        self.sample = int(said.get("sample", min(2, self.homes)))
        self.rows, self.transit = int(said.get("rows", 1_048_576)), int(said.get("transit", 10_000))
        self.queues, self.room = int(said.get("queues", 64)), int(said.get("flights", 120_000)) // self.homes
        # With one home no choice of homes is hidden, and each stamp is known.
        self.is_exact = self.homes == 1

    # ---- stamps and steps

    def stamp(self, state, actor, *parts):
        """The stamp of a step, or nothing where the clock is out of its range."""
        if state.now >= LATEST:
            return None
        nought = (0, 0)
        seen, first = state.seen.get(actor, nought), state.last.get(parts[0], nought)
        if len(parts) == 2:
            first = self.above(max(first, state.last.get(parts[1], nought)), state.now)
        return self.above(max(first, seen), state.now)

    def above(self, before, now):
        if not self.is_exact:
            return (max(before[0], now), 0)
        return (now, 0) if now > before[0] else (before[0], before[1] + 1)

    def commit(self, state, actor, stamp, *parts):
        """A step is an event at this stamp."""
        for it in parts:
            state.last[it] = stamp
        state.seen[actor] = stamp
        state.least, state.most = state.least + 1, state.most + 1
        if self.is_exact:
            state.events += (stamp,)

    def read(self, state, actor, part):
        """A read raises what an actor has seen."""
        state.seen[actor] = max(state.seen.get(actor, (0, 0)), state.last.get(part, (0, 0)))

    def by_name(self, state, actor, name):
        """The queue of a name, looked up within another action."""
        self.read(state, actor, "directory")
        return state.queues.get(name)

    # ---- homes

    def keys(self, queue):
        return [(queue, it) for it in range(self.homes)]

    @staticmethod
    def kept(home, moment):
        """The rows that have not expired."""
        life = home.settings.retention * 1000
        return tuple(it for it in home.rows if moment < it.enqueued + life)

    def put(self, state, key, home, rows, **changed):
        """A home after a step: what has expired is gone."""
        kept = {it.lineage for it in rows}
        for it in home.rows:
            if it.lineage not in kept and it.lineage not in state.gone:
                state.gone[it.lineage] = "expired"
        state.homes[key] = home._replace(rows=tuple(rows), **changed)

    @staticmethod
    def is_spent(home, row):
        return home.settings.target is not None and row.receives >= home.settings.most

    def is_live(self, home, row, moment):
        return row.visible <= moment and not self.is_spent(home, row)

    def is_dead(self, home, row, moment):
        return row.visible <= moment and self.is_spent(home, row)

    @staticmethod
    def in_flight(rows, moment):
        return sum(1 for it in rows if it.receives and moment < it.visible)

    def each_home(self, state, actor, queue, reply, change):
        """Each home of a queue takes a step, one that does not serve is passed over."""
        for key in self.keys(queue):
            if reply.is_out:
                yield state.copy()
            stamp = self.stamp(state, actor, key)
            if change(state, key, state.homes.get(key), stamp):
                self.commit(state, actor, stamp, key)
        if not reply.is_out:
            yield state
