"""Messages that are sent, received, deleted and changed, one alone or in batches."""
import collections

from model.steps import Steps
from model.values import ALLOWED, CLOSED, HANDLE, HOURS_12, LATEST, OURS, Row, Unread, digest, id_text, named, same


class Messages(Steps):
    """Actions on messages."""

    def send(self, state, actor, asked, reply):
        if reply.is_out:
            yield state.copy()
        queue = self.by_name(state, actor, named(asked))
        if reply.is_out:
            yield state
        elif not queue:
            yield from same(state, reply, "QueueDoesNotExist")
        else:
            yield from self.send_one(state, actor, queue, asked, reply.code, reply.told)

    def send_one(self, state, actor, queue, asked, code, told):
        """A message is sent to any home: it is told, or why it is not."""
        refusal = "InvalidMessageContents" if not ALLOWED.fullmatch(asked["MessageBody"]) else "ClockRange" if state.now >= LATEST else None
        if refusal:
            if code == refusal:
                yield state
            return
        for key in self.keys(queue.number):
            if self.is_sent(state, actor, key, asked, code, told):
                yield state
                return

    def is_sent(self, state, actor, key, asked, code, told):
        """Whether a home takes the message that is told, or refuses it so."""
        home = state.homes.get(key)
        if home in (None, CLOSED):
            return code == "QueueDoesNotExist"
        stamp = self.stamp(state, actor, key)
        rows = self.kept(home, stamp[0])
        if len(rows) >= self.rows:
            return code == "OverLimit"
        found, body = (*key, home.next), asked["MessageBody"]
        if code or told != {"MessageId": id_text(found), "MD5OfMessageBody": digest(body)}:
            return False
        delay = asked.get("DelaySeconds", home.settings.delay)
        row = Row(found, found, body, home.next, None, stamp[0], stamp[0] + delay * 1000, 0, None, None)
        self.put(state, key, home, rows + (row,), next=home.next + 1)
        state.sent += (found,)
        self.commit(state, actor, stamp, key)
        return True

    def receive(self, state, actor, asked, reply):
        if reply.is_out:
            yield state.copy()
        queue = self.by_name(state, actor, named(asked))
        if not queue:
            yield from same(state, reply, "QueueDoesNotExist")
        elif state.now >= LATEST:
            yield from same(state, reply, "ClockRange")
        elif self.is_exact and not reply.is_out:
            yield from self.look(state, actor, (queue.number, 0), asked, reply)
        else:
            yield from self.look_at_some(state, actor, queue, asked, reply)

    def look_at_some(self, state, actor, queue, asked, reply):
        """Several homes are looked at, in any order, up to the first that gives messages or refuses. Which gave none is not known."""
        kinds = {key: self.look_kind(state, actor, key) for key in self.keys(queue.number)}
        many = collections.Counter(kinds.values())
        before = min(many["none"] + many["over"], self.sample - 1)
        if reply.is_out or (reply.code == "QueueDoesNotExist" and many[None]):
            if reply.is_out:
                yield state.copy()
            state.most += before
            yield state
        elif reply.code == "OverLimit" or reply.told == {"Messages": []}:
            if self.sample <= many["none"] + (many["over"] if reply.code else 0) and (many["over"] or not reply.code):
                state.least, state.most = state.least + self.sample, state.most + self.sample
                yield state
        elif reply.told.get("Messages"):
            handle = HANDLE.fullmatch(reply.told["Messages"][0].get("ReceiptHandle", ""))
            key = (queue.number, int(handle[2], 16)) if handle else None
            if kinds.get(key) == "some":
                state.most += before
                yield from self.look(state, actor, key, asked, reply)

    def look_kind(self, state, actor, key):
        """What a look at a home gives: some messages, none, or that too many are in flight; nothing of one that does not serve."""
        home, stamp = state.homes.get(key), self.stamp(state, actor, key)
        if home in (None, CLOSED) or stamp is None:
            return None
        rows = self.kept(home, stamp[0])
        if not any(self.is_live(home, it, stamp[0]) for it in rows):
            return "none"
        return "some" if self.in_flight(rows, stamp[0]) < self.room else "over"

    def look(self, state, actor, key, asked, reply):
        """A look at one home, that of the messages, if there are any."""
        home, stamp = state.homes.get(key), self.stamp(state, actor, key)
        if home in (None, CLOSED):
            yield from same(state, reply, "QueueDoesNotExist")
            return
        moment = stamp[0]
        rows = self.kept(home, moment)
        live = {it.serial: it for it in rows if self.is_live(home, it, moment)}
        left = self.room - self.in_flight(rows, moment)
        if live and left <= 0:
            if reply.code == "OverLimit":
                self.put(state, key, home, rows)
                self.commit(state, actor, stamp, key)
                yield state
            return
        if reply.code or set(reply.told) != {"Messages"}:
            return
        messages = reply.told["Messages"]
        until = moment + 1000 * asked.get("VisibilityTimeout", home.settings.timeout)
        given = {row.serial: row for it in messages if (row := self.received(key, live, it, asked, moment, until))}
        rows = tuple(given.get(it.serial, it) for it in rows)
        slots = [it.slot for it in rows if it.slot is not None]
        wanted = min(asked.get("MaxNumberOfMessages", 1), len(live), max(left, 0))
        if len(messages) == len(given) == wanted and len(slots) == len(set(slots)):
            self.put(state, key, home, rows)
            self.commit(state, actor, stamp, key)
            yield state

    def received(self, key, live, told, asked, moment, until):
        """The row of a message that a receive gives, as it is then; nothing where the message is a wrong one."""
        handle = HANDLE.fullmatch(told.get("ReceiptHandle", ""))
        if not handle or not told["ReceiptHandle"].startswith("2-"):
            return None
        queue, home, slot, serial, count = (int(it, 16) for it in handle.groups())
        row = live.get(serial)
        if row is None or (queue, home) != key or row.slot not in (None, slot) or count != row.receives + 1:
            return None
        wanted = {"Body": row.body, "MD5OfBody": digest(row.body), "MessageId": id_text(row.id), "ReceiptHandle": told["ReceiptHandle"]}
        names = [*asked.get("MessageSystemAttributeNames", []), *asked.get("AttributeNames", [])]
        shown = {"ApproximateReceiveCount": str(count), "SentTimestamp": str(row.enqueued)}
        shown = {it: text for it, text in shown.items() if it in names or "All" in names}
        if shown:
            wanted["Attributes"] = shown
        return row._replace(slot=slot, receives=count, last=moment, visible=until) if told == wanted else None

    def delete(self, state, actor, asked, reply):
        yield from self.by_handle(state, actor, asked, reply, self.delete_one)

    def change(self, state, actor, asked, reply):
        if change_entry_refusal(asked):
            raise Unread("a timeout")
        yield from self.by_handle(state, actor, asked, reply, self.change_one)

    def by_handle(self, state, actor, asked, reply, one):
        """What is done with the handle of one message."""
        if reply.is_out:
            yield state.copy()
        queue = self.by_name(state, actor, named(asked))
        if reply.is_out:
            yield state
        elif not queue:
            yield from same(state, reply, "QueueDoesNotExist")
        elif reply.code or reply.told == {}:
            yield from one(state, actor, queue, asked, reply.code, reply.told)

    def handle_of(self, queue, text):
        """A home of the queue, with the slot, serial and receive count of a handle."""
        handle = HANDLE.fullmatch(text)
        if not handle:
            return None
        number, home, slot, serial, count = (int(it, 16) for it in handle.groups())
        is_of_queue = number == queue.number and home < self.homes and serial < 2**62 and count
        return ((number, home), slot, serial, count) if is_of_queue else None

    def at_handle(self, state, actor, queue, asked):
        """The home of a handle, the stamp of a step there, its rows and the row of the handle, if it is there; or a refusal before that."""
        handle = self.handle_of(queue, asked["ReceiptHandle"])
        key, slot, serial, count = handle or (None, 0, 0, 0)
        home = state.homes.get(key)
        refusal = "ReceiptHandleIsInvalid" if not handle else "ClockRange" if state.now >= LATEST else None
        refusal = refusal or ("QueueDoesNotExist" if home in (None, CLOSED) else "ReceiptHandleIsInvalid" if serial >= home.next else None)
        if refusal:
            return refusal, None
        stamp = self.stamp(state, actor, key)
        rows = self.kept(home, stamp[0])
        # A row that was never received has no handle, and one that was has shown its slot.
        row = next((it for it in rows if (it.slot, it.serial, it.receives) == (slot, serial, count)), None)
        return None, (key, home, stamp, rows, row)

    def delete_one(self, state, actor, queue, asked, code, _):
        refusal, found = self.at_handle(state, actor, queue, asked)
        if refusal == code and found:
            key, home, stamp, rows, row = found
            self.put(state, key, home, rows)
            if row:
                state.gone[row.lineage] = "deleted"
                state.homes[key] = home._replace(rows=tuple(it for it in rows if it is not row))
            self.commit(state, actor, stamp, key)
        if refusal == code:
            yield state

    def change_one(self, state, actor, queue, asked, code, _):
        refusal, found = self.at_handle(state, actor, queue, asked)
        if found:
            key, home, stamp, rows, row = found
            until = stamp[0] + 1000 * asked["VisibilityTimeout"]
            held = row and row.receives and stamp[0] < row.visible
            refusal = "MessageNotInflight" if not held else "InvalidParameterValue" if until > row.last + HOURS_12 else None
            if not refusal and not code:
                self.put(state, key, home, tuple(it._replace(visible=until) if it is row else it for it in rows))
                self.commit(state, actor, stamp, key)
        if refusal == code:
            yield state

    def send_batch(self, state, actor, asked, reply):
        yield from self.batch(state, actor, asked, reply, self.send_one, send_entry_refusal)

    def delete_batch(self, state, actor, asked, reply):
        yield from self.batch(state, actor, asked, reply, self.delete_one, lambda _: None)

    def change_batch(self, state, actor, asked, reply):
        yield from self.batch(state, actor, asked, reply, self.change_one, change_entry_refusal)

    def has_step(self, queue, entry):
        """Whether a home is asked for an entry."""
        return ALLOWED.fullmatch(entry["MessageBody"]) if "MessageBody" in entry else self.handle_of(queue, entry["ReceiptHandle"])

    def batch(self, state, actor, asked, reply, one, own_refusal):
        """Each entry of a batch, one after another."""
        if reply.is_out:
            yield state.copy()
        queue = self.by_name(state, actor, named(asked))
        if reply.is_out:
            yield state
            return
        if not queue:
            yield from same(state, reply, "QueueDoesNotExist")
            return
        if set(reply.told) != {"Failed", "Successful"} or not is_whole(asked["Entries"], reply.told):
            return
        failed, done = ({it["Id"]: it for it in reply.told[list_of]} for list_of in ("Failed", "Successful"))
        states = [state]
        for entry in asked["Entries"]:
            name = entry["Id"]
            code = failed[name]["Code"] if name in failed else None
            told = {it: text for it, text in done.get(name, {}).items() if it != "Id"}
            states = [after for it in states for after in self.entry(it.copy(), actor, queue, entry, code, told, one, own_refusal)]
        yield from states

    def entry(self, state, actor, queue, entry, code, told, one, own_refusal):
        """An entry is done for itself. It may be refused for want of memory once nothing else before its step refuses it."""
        if code == "NoMemory":
            if not own_refusal(entry) and self.has_step(queue, entry):
                yield state
        elif own_refusal(entry):
            if code == own_refusal(entry):
                yield state
        elif one == self.send_one or code or told == {}:
            yield from one(state, actor, queue, entry, code, told)


def is_whole(entries, told):
    """Whether each entry has one answer, those of each list in order, and whose fault each failure is."""
    ids, failed = [it["Id"] for it in entries], [it["Id"] for it in told["Failed"]]
    done = [it["Id"] for it in told["Successful"]]
    faults = all(set(it) == {"Code", "Id", "SenderFault"} and it["SenderFault"] == (it["Code"] not in OURS) for it in told["Failed"])
    return faults and failed == [it for it in ids if it in failed] and done == [it for it in ids if it not in failed]


def send_entry_refusal(entry):
    """What is wrong with an entry alone."""
    if entry.get("MessageAttributes") or entry.get("MessageSystemAttributes"):
        return "UnsupportedOperation"
    is_right = 0 <= entry.get("DelaySeconds", 0) <= 900 and 1 <= len(entry["MessageBody"].encode()) <= 1_048_576
    return None if is_right else "InvalidParameterValue"


def change_entry_refusal(entry):
    return None if 0 <= entry["VisibilityTimeout"] <= 43_200 else "InvalidParameterValue"
