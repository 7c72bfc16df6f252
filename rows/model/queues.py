"""The list of queues, and what their homes do as it changes."""
import collections

from model.policies import agrees, allow_text, may_have, read_attributes, redrive_text, with_attributes
from model.steps import Steps
from model.values import ARN, CLOSED, COUNTS, MINUTE, NUMBERS, URL, Home, Queue, Settings, named, same


class Queues(Steps):
    """Actions on names and attributes."""

    def create(self, state, actor, asked, reply):
        """The queue is made, if it is not there, and then its homes take its settings, those that do not serve are opened."""
        name, given = asked["QueueName"], read_attributes(asked.get("Attributes", {}))
        if reply.is_out:
            yield state.copy()
        stamp = self.stamp(state, actor, "directory")
        refusal = "ClockRange" if stamp is None else self.create_refusal(state, name, given, stamp[0])
        if refusal:
            yield from same(state, reply, refusal)
            return
        if name not in state.queues:
            state.made += 1
            plain = Queue(state.made, name, tuple(NUMBERS.items()), None, None, None, 0, None)
            state.queues[name] = with_attributes(state, plain, given)
        self.commit(state, actor, stamp, "directory")
        if not reply.is_out and reply.told != {"QueueUrl": URL + name}:
            return
        yield from self.configure(state, actor, state.queues[name], reply)

    def create_refusal(self, state, name, given, moment):
        """The first check of a creation that fails, after the clock."""
        queue = state.queues.get(name)
        if queue:
            return None if agrees(queue, given) else "QueueNameExists"
        if any(it == name and moment < when + MINUTE for it, when in state.deleted):
            return "QueueDeletedRecently"
        if not may_have(state, name, given):
            return "InvalidAttributeValue"
        return None if state.made < self.queues else "TableFull"

    def configure(self, state, actor, queue, reply):
        """Each home takes the settings of its queue, if their version is above its own."""
        numbers = dict(queue.attributes)
        settings = Settings(numbers["DelaySeconds"], numbers["MessageRetentionPeriod"], numbers["VisibilityTimeout"], queue.target,
                            queue.redrive[1] if queue.redrive else None)

        def change(state, key, home, stamp):
            if home == CLOSED:
                return False
            if home is None:
                state.homes[key] = Home(settings, queue.version, 0, ())
            else:
                newer = {"settings": settings, "version": queue.version} if home.version < queue.version else {}
                self.put(state, key, home, self.kept(home, stamp[0]), **newer)
            return True
        yield from self.each_home(state, actor, queue.number, reply, change)

    def set_attributes(self, state, actor, asked, reply):
        name, given = named(asked), read_attributes(asked["Attributes"])
        if reply.is_out:
            yield state.copy()
        stamp = self.stamp(state, actor, "directory")
        queue = state.queues.get(name)
        refusal = "ClockRange" if stamp is None else "QueueDoesNotExist" if not queue else None
        refusal = refusal or (None if may_have(state, name, given) else "InvalidAttributeValue")
        if refusal:
            yield from same(state, reply, refusal)
            return
        state.queues[name] = with_attributes(state, queue, given)
        self.commit(state, actor, stamp, "directory")
        if reply.is_out or reply.told == {}:
            yield from self.configure(state, actor, state.queues[name], reply)

    def purge(self, state, actor, asked, reply):
        name = named(asked)
        if reply.is_out:
            yield state.copy()
        stamp, queue = self.stamp(state, actor, "directory"), state.queues.get(name)
        refusal = "ClockRange" if stamp is None else "QueueDoesNotExist" if not queue else None
        if not refusal and queue.purged is not None and stamp[0] < queue.purged + MINUTE:
            refusal = "PurgeQueueInProgress"
        if refusal:
            yield from same(state, reply, refusal)
            return
        state.queues[name] = queue._replace(purged=stamp[0])
        self.commit(state, actor, stamp, "directory")

        def change(state, key, home, stamp):
            if home in (None, CLOSED):
                return False
            self.let_go(state, home, stamp, "purged")
            state.homes[key] = home._replace(rows=())
            return True
        if reply.is_out or reply.told == {}:
            yield from self.each_home(state, actor, queue.number, reply, change)

    def delete_queue(self, state, actor, asked, reply):
        name = named(asked)
        if reply.is_out:
            yield state.copy()
        stamp, queue = self.stamp(state, actor, "directory"), state.queues.get(name)
        refusal = "ClockRange" if stamp is None else "QueueDoesNotExist" if not queue else None
        if refusal:
            yield from same(state, reply, refusal)
            return
        del state.queues[name]
        state.deleted += ((name, stamp[0]),)
        self.commit(state, actor, stamp, "directory")

        def change(state, key, home, stamp):
            if home == CLOSED:
                return False
            if home:
                self.let_go(state, home, stamp, "closed")
            state.homes[key] = CLOSED
            return True
        if reply.is_out or reply.told == {}:
            yield from self.each_home(state, actor, queue.number, reply, change)

    def let_go(self, state, home, stamp, word):
        """All rows of a home are gone: those that have expired, and the others by this word."""
        kept = self.kept(home, stamp[0])
        state.gone.update({it.lineage: word if it in kept else "expired" for it in home.rows})

    def tell(self, state, actor, reply, refusal, told):
        """A step of the directory that only tells."""
        if reply.is_out:
            yield state
            return
        stamp = self.stamp(state, actor, "directory")
        refusal = "ClockRange" if stamp is None else refusal
        if refusal:
            yield from same(state, reply, refusal)
        elif reply.told == told:
            self.commit(state, actor, stamp, "directory")
            yield state

    def url(self, state, actor, asked, reply):
        name = asked["QueueName"]
        yield from self.tell(state, actor, reply, None if name in state.queues else "QueueDoesNotExist", {"QueueUrl": URL + name})

    def list_queues(self, state, actor, asked, reply):
        prefix = asked.get("QueueNamePrefix", "")
        yield from self.tell(state, actor, reply, None, {"QueueUrls": [URL + it for it in state.queues if it.startswith(prefix)]})

    def sources(self, state, actor, asked, reply):
        queue = state.queues.get(named(asked))
        told = [URL + it.name for it in state.queues.values() if queue and it.target == queue.number]
        yield from self.tell(state, actor, reply, None if queue else "QueueDoesNotExist", {"queueUrls": told})

    def attributes(self, state, actor, asked, reply):
        names = asked.get("AttributeNames", [])
        names = [*NUMBERS, "RedrivePolicy", "RedriveAllowPolicy", "QueueArn", *COUNTS] if "All" in names else names
        if reply.is_out:
            yield state.copy()
        stamp, queue = self.stamp(state, actor, "directory"), state.queues.get(named(asked))
        refusal = "ClockRange" if stamp is None else None if queue else "QueueDoesNotExist"
        if refusal:
            yield from same(state, reply, refusal)
            return
        self.commit(state, actor, stamp, "directory")
        shown = {**{it: str(number) for it, number in queue.attributes}, "QueueArn": ARN + queue.name,
                 "RedrivePolicy": redrive_text(queue.redrive), "RedriveAllowPolicy": allow_text(queue.allow)}
        if not any(it in COUNTS for it in names):
            if reply.told == shown_of(names, shown):
                yield state
            return
        yield from self.counted(state, actor, queue, names, shown, reply)

    def counted(self, state, actor, queue, names, shown, reply):
        """Each home counts its messages, and one that does not serve ends that."""
        counts = collections.Counter(dict.fromkeys(COUNTS, 0))
        for key in self.keys(queue.number):
            if reply.is_out:
                yield state.copy()
            home = state.homes.get(key)
            if home in (None, CLOSED):
                yield from same(state, reply, "QueueDoesNotExist")
                return
            stamp = self.stamp(state, actor, key)
            rows = self.kept(home, stamp[0])
            visible, in_flight = sum(it.visible <= stamp[0] for it in rows), self.in_flight(rows, stamp[0])
            counts.update(dict(zip(COUNTS, (visible, len(rows) - visible - in_flight, in_flight))))
            self.put(state, key, home, rows)
            self.commit(state, actor, stamp, key)
        if reply.told == shown_of(names, {**shown, **{it: str(many) for it, many in counts.items()}}):
            yield state


def shown_of(names, shown):
    """The attributes of these names, without policies that are not set."""
    return {"Attributes": {it: shown[it] for it in names if shown[it] is not None}}
