"""The values of the model: what all parts are, and how ids and replies are written."""
import collections
import hashlib
import json
import re

LATEST, HOURS_12, MINUTE = 2**62, 43_200_000, 60_000
COUNTS = ("ApproximateNumberOfMessages", "ApproximateNumberOfMessagesDelayed", "ApproximateNumberOfMessagesNotVisible")
NUMBERS = {"DelaySeconds": 0, "MessageRetentionPeriod": 345_600, "ReceiveMessageWaitTimeSeconds": 0, "VisibilityTimeout": 30}
URL, ARN = "http://localhost/000000000000/", "arn:aws:sqs:local:000000000000:"
ALLOWED = re.compile("[\t\n\r\u0020-\ud7ff\ue000-\ufffd\U00010000-\U0010ffff]*")
HANDLE = re.compile(r"(?:2-)?([0-9a-f]{12})-([0-9a-f]{3})-([0-9a-f]{8})-([0-9a-f]{16})-([0-9a-f]{8})")
TASK = re.compile(r"task-([0-9a-f]{16})")
# What an entry is refused for that is not its sender's fault.
OURS = {"NoMemory", "ClockRange", "Worn"}
CODES = {it: number for number, it in enumerate((
    "NoMemory", "ClockRange", "Worn", "InvalidRequest", "InvalidAttributeName", "InvalidAttributeValue", "InvalidParameterValue", "InvalidAddress",
    "QueueDoesNotExist", "QueueNameExists", "QueueDeletedRecently", "PurgeQueueInProgress", "InvalidMessageContents", "OverLimit",
    "ReceiptHandleIsInvalid", "MessageNotInflight", "EmptyBatchRequest", "TooManyEntriesInBatchRequest", "InvalidBatchEntryId",
    "BatchEntryIdsNotDistinct", "BatchRequestTooLong", "ResourceNotFoundException", "UnsupportedOperation", "TableFull"), 1)}
CLOSED = "closed"

Settings = collections.namedtuple("Settings", "delay retention timeout target most")
Queue = collections.namedtuple("Queue", "number name attributes redrive allow target version purged")
Home = collections.namedtuple("Home", "settings version next rows")
Row = collections.namedtuple("Row", "id lineage body serial slot enqueued visible receives last origin")
Item = collections.namedtuple("Item", "number row source target task homeward")
Task = collections.namedtuple("Task", "number source destination rate started status reason left moved second in_second")
Walk = collections.namedtuple("Walk", "task home nothings")


class State:
    """What all parts and actors are."""

    DICTS = ("queues", "homes", "tasks", "seen", "last", "tried", "walks", "gone")
    PLAIN = ("now", "made", "deleted", "items", "next_item", "sent", "events", "least", "most")
    __slots__ = DICTS + PLAIN

    def __init__(self):
        for it in self.DICTS:
            setattr(self, it, {})
        self.now = self.made = self.least = self.most = 0
        self.deleted, self.items, self.next_item, self.sent, self.events = (), (), 1, (), ()

    def copy(self):
        new = State.__new__(State)
        for it in self.DICTS:
            setattr(new, it, dict(getattr(self, it)))
        for it in self.PLAIN:
            setattr(new, it, getattr(self, it))
        return new

    def key(self):
        """What two states that are the same have in common."""
        return (tuple(self.queues), *(frozenset(getattr(self, it).items()) for it in self.DICTS), *(getattr(self, it) for it in self.PLAIN))


class Reply:
    """A reply, as it is read."""

    def __init__(self, text):
        self.text, self.told = text, json.loads(text)
        self.code = self.told["Error"]["Code"] if "Error" in self.told else None
        self.is_out = self.code == "NoMemory"

    def is_formed(self):
        """Whether it is compact JSON with its members in order, and a refusal has its number."""
        is_known = self.code is None or self.told == {"Error": {"Code": self.code, "Number": CODES.get(self.code)}}
        return is_known and json.dumps(self.told, separators=(",", ":"), ensure_ascii=False, sort_keys=True).encode() + b"\n" == self.text


class Unread(Exception):
    """A member that only a line which is refused for itself has."""


def same(state, reply, code):
    """The state stays as it is, if the reply is this refusal."""
    if reply.code == code:
        yield state


def same_word(state, reply, word):
    if reply.told == {"Turn": word}:
        yield state


def named(asked):
    return asked["QueueUrl"][len(URL):]


def named_by_arn(text):
    return text[len(ARN):]


def digest(body):
    return hashlib.md5(body.encode()).hexdigest()


def id_text(found):
    """A message id: a UUID of version 8."""
    queue, home, serial = found
    digits = f"{queue:012x}"
    return f"{digits[:8]}-{digits[8:]}-8{home:03x}-{0x8000 | serial >> 48:04x}-{serial & (1 << 48) - 1:012x}"


def task_number(text):
    found = TASK.fullmatch(text)
    return int(found[1], 16) or None if found else None


def is_active(task):
    return task.status in ("RUNNING", "CANCELLING")
