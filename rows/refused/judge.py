"""Whether replies and an audit may come of the lines of a row, by the model."""
from model import Model
from model.values import Reply, State, Unread

# What a line is refused as for itself, whatever the queues are.
ALONE = {"InvalidRequest", "UnsupportedOperation", "InvalidAttributeName", "InvalidAttributeValue", "InvalidParameterValue", "InvalidAddress",
         "EmptyBatchRequest", "TooManyEntriesInBatchRequest", "InvalidBatchEntryId", "BatchEntryIdsNotDistinct", "BatchRequestTooLong"}


class Judge:
    """A row, and what its lines leave where none is refused for want of memory."""

    def __init__(self, words, asked, replies):
        self.model, self.replies, self.alone, self.before = Model(words), replies, set(), []
        states = [State()]
        for at, (line, text) in enumerate(zip(asked, replies)):
            self.before.append(states)
            reply = Reply(text)
            after = self.known(states, line, reply)
            if not after and reply.code in ALONE:
                self.alone.add(at)
            elif not after:
                raise ValueError(f"line {at + 1} is answered {text!r} in the row, and by the model it cannot be")
            else:
                states = after
        self.before.append(states)
        if not self.is_audit(states, replies[-1]):
            raise ValueError(f"the audit of the row is {replies[-1]!r}, and by the model it cannot be")

    def has_event(self, at):
        """Whether a line is answered by an event at the least."""
        return max(it.least for it in self.before[at]) < min(it.least for it in self.before[at + 1])

    def known(self, states, line, reply):
        """The states after a line of the row, none if it cannot be answered so."""
        try:
            return self.model.after(states, line, reply)
        except (Unread, KeyError, TypeError, ValueError, AttributeError):
            # What the model cannot read is refused for itself.
            return []

    def is_audit(self, states, text):
        """Whether an audit is that of one of these states."""
        told = Reply(text)
        return told.is_formed() and any(self.model.is_audit(it, told.told) for it in states)

    def faults(self, talk, audit):
        """What is wrong with a talk, each item of which is the number of a line, what was asked and the reply, and with the audit after it."""
        same = next((it for it, (at, _, text) in enumerate(talk) if it != at or text != self.replies[at]), len(talk))
        states = self.before[same]
        for at, asked, text in talk[same:]:
            reply = Reply(text)
            if not reply.is_formed():
                yield f"line {at + 1} is answered {text!r}"
                return
            if at in self.alone:
                if text != self.replies[at] and not reply.is_out:
                    yield f"line {at + 1} is refused for itself, and answered {text!r}"
                continue
            after = self.model.after(states, asked, reply)
            if not after:
                yield f"line {at + 1} cannot be answered {text!r} then"
                return
            states = after
        if not self.is_audit(states, audit):
            yield f"the audit cannot be {audit!r} then"
