"""Rows in which one allocation is refused, and what their replies and their audit may be then."""
import json
import os
import re

from refused.judge import Judge
from refused.program import is_out_of_memory, lines_of

ROWS = os.path.dirname(os.path.dirname(os.path.realpath(__file__)))
# The most bytes that a row may read to be run here: each of its runs reads them all.
LONGEST = 300_000
# What takes several steps of which the last may be refused: the first ones stand then, as does that a message was tried.
IN_STEPS = {"CreateQueue", "SetQueueAttributes", "GetQueueAttributes", "PurgeQueue", "DeleteQueue", "EnterTurn"}
# What stands in a replay for a line that was refused.
LEFT_OUT, CLOCK_ALONE = "left out", "a line that sets its clock"


class Row:
    """A line of rows.txt that runs as a script to its end."""

    def __init__(self, name, words, lines):
        self.name, self.words, self.lines = name, words, lines
        self.asked = [as_object(line) for line in lines]
        self.title = " ".join([name, *words[1:-1]])
        self.ways = {}

    def run(self, program, first=0, many=1):
        return program.run(self.words, b"".join(self.lines), first, many)

    def begin(self, program):
        """Runs it with none refused."""
        ended = self.run(program)
        if ended.status or ended.error or len(ended.replies) != len(self.lines) + 1:
            raise SystemExit(f"no_memory: {self.title} ends with {ended.status} and {ended.error!r} where none is refused")
        self.replies, self.many = ended.replies, ended.asked
        self.judge = Judge(self.words, self.asked, self.replies)

    def has_one_home(self):
        """Whether no choice of homes changes a reply."""
        return any(it in " ".join(self.words) + " " for it in ("--homes 1 ", "--homes=1 "))

    def is_in_one_step(self, at):
        """Whether a line that is refused changes nothing: it has one step, chooses no home, and counts no message as tried."""
        return self.has_one_home() and self.asked[at].get("Action") not in IN_STEPS


def as_object(line):
    """What a line asks, or nothing where it is no JSON object."""
    try:
        found = json.loads(line)
    except (ValueError, RecursionError):
        return {}
    return found if isinstance(found, dict) else {}


def bytes_of(name):
    with open(os.path.join(ROWS, name + ".in"), "rb") as text:
        return re.sub(rb"<<(.+?)\*(\d+)>>", lambda repeat: repeat[1] * int(repeat[2]), text.read())


def cancels():
    """A script that is no row: tasks start, are cancelled and end, so that one of the cancels asks for memory."""
    policy = json.dumps({"deadLetterTargetArn": "arn:aws:sqs:local:000000000000:d", "maxReceiveCount": 1})
    asked = [{"Action": "CreateQueue", "QueueName": "d"}, {"Action": "CreateQueue", "QueueName": "q", "Attributes": {"RedrivePolicy": policy}}]
    for number in range(1, 5):
        handle = f"task-{number:016x}"
        asked += [{"Action": "StartMessageMoveTask", "SourceArn": "arn:aws:sqs:local:000000000000:d"},
                  {"Action": "CancelMessageMoveTask", "TaskHandle": handle}, {"Action": "TaskTurn", "TaskHandle": handle}]
    return Row("cancels", ["script", "--homes", "1", "--sample", "1", "--audit"], [json.dumps(it).encode() + b"\n" for it in asked])


def every_row():
    """The rows that are run here, and the titles of those scripts that are not, with the reason."""
    found, left = {"cancels": cancels()}, []
    with open(os.path.join(ROWS, "rows.txt"), encoding="utf-8") as table:
        for line in table:
            if not line.strip() or line.startswith("#"):
                continue
            name, words, status, _, most = ([cell.strip() for cell in line.split("|")] + [""] * 2)[:5]
            words = words.split()
            if words[:1] != ["script"] or "--help" in words or status == "2":
                continue
            words = [it for it in words if it != "--audit"] + ["--audit"]
            title = " ".join([name, *words[1:-1]])
            if status != "0" or most:
                left.append((title, f"it ends with status {status}" if status != "0" else "its output is bounded"))
                continue
            lines = lines_of(bytes_of(name))
            if sum(map(len, lines)) > LONGEST:
                left.append((title, f"it reads {sum(map(len, lines)):,} bytes"))
            else:
                found[title] = Row(name, words, lines)
    return list(found.values()), left


def refused_in(asked, reply):
    """Which part of a line a reply says was refused for want of memory: all (True), the ids of some entries, or nothing."""
    if b"NoMemory" not in reply:
        return None
    told = json.loads(reply)
    if told.get("Error", {}).get("Code") == "NoMemory":
        return True
    return {it["Id"] for it in told.get("Failed", []) if it["Code"] == "NoMemory"} or None


def without(line, asked, part, way):
    """A line that does what one of which this part was refused did: nothing to the queues. It may have set the clock."""
    if part is not True:
        left = [it for it in asked["Entries"] if it["Id"] not in part]
        if left:
            return json.dumps({**asked, "Entries": left}).encode() + b"\n"
    if way == LEFT_OUT:
        return None
    both = {it: asked[it] for it in ("Now", "Actor") if it in asked}
    return json.dumps({"Action": "GetQueueUrl", "QueueName": "never-made", **both}).encode() + b"\n"


def rest_of(reply, part):
    """The reply to a batch, without the entries that were refused."""
    told = json.loads(reply)
    return {"Successful": told["Successful"], "Failed": [it for it in told["Failed"] if it["Id"] not in part]}


class Run:
    """A row in which some allocations were refused."""

    def __init__(self, row, ended):
        self.row, self.replies, self.status, self.error = row, ended.replies, ended.status, ended.error
        self.parts = [refused_in(asked, reply) for asked, reply in zip(row.asked, self.replies)]

    def refused(self):
        return [at for at, part in enumerate(self.parts) if part]

    def talk(self):
        """The number of each line, what it asks, and its reply."""
        return list(zip(range(len(self.row.asked)), self.row.asked, self.replies))

    def faults(self, program):
        """What is wrong with it."""
        if self.status == 1:
            yield from self.ends_early()
        elif self.status != 0 or self.error:
            yield f"status {self.status}, {self.error!r}"
        elif len(self.replies) != len(self.row.replies):
            yield f"{len(self.replies)} lines to {len(self.row.lines)} requests and an audit"
        elif not self.refused():
            yield from self.differs(self.row.replies)
        else:
            yield from self.row.judge.faults(self.talk(), self.replies[-1])
            yield from self.replayed_wrong(program)

    def ends_early(self):
        """One allocation was refused and ended the script, so that each reply before is the row's."""
        told = len(self.replies)
        ends = (told, "audit") if told == len(self.row.lines) else (told,)
        if is_out_of_memory(self.error) not in ends:
            yield f"{told} replies, and it ends with {self.error!r}"
        yield from self.differs(self.row.replies[:told])

    def differs(self, wanted):
        at = next((at for at, both in enumerate(zip(self.replies, wanted)) if both[0] != both[1]), None)
        if at is not None:
            yield f"line {at + 1} is answered {self.replies[at]!r} and not {wanted[at]!r}"

    def replayed_wrong(self, program):
        """The same program answers the other lines so where one that is in one step is left out, or sets the clock alone."""
        if not all(map(self.row.is_in_one_step, self.refused())):
            return
        faults = []
        for way in (LEFT_OUT, CLOCK_ALONE):
            found = list(self.differs_from_replay(self.replay(program, way)))
            if not found:
                return
            faults.append(f"{found[0]}, where it is {way}")
        yield f"after NoMemory to line {self.refused()[0] + 1} " + "; ".join(faults)

    def replay(self, program, way):
        """The replies where what was refused is left out: to each line that is in it, and at the end the audit."""
        key = (way, tuple((at, part if part is True else tuple(sorted(part))) for at, part in enumerate(self.parts) if part))
        if key not in self.row.ways:
            lines = [self.line_of_replay(at, way) for at in range(len(self.row.lines))]
            ended = program.run(self.row.words, b"".join(it for it in lines if it is not None))
            replies = iter(ended.replies)
            self.row.ways[key] = [next(replies) if it is not None else None for it in lines] + list(replies)
        return self.row.ways[key]

    def line_of_replay(self, at, way):
        """What stands for a line, or nothing."""
        return without(self.row.lines[at], self.row.asked[at], self.parts[at], way) if self.parts[at] else self.row.lines[at]

    def differs_from_replay(self, wanted):
        """The lines that a replay answers otherwise, but what was refused."""
        for at, (reply, other) in enumerate(zip(self.replies, wanted)):
            part = self.parts[at] if at < len(self.parts) else None
            if part is True or (part and other is None):
                continue
            if part and len(json.loads(reply)["Failed"]) + len(json.loads(reply)["Successful"]) == len(part):
                continue
            if rest_of(reply, part) != json.loads(other) if part else reply != other:
                yield f"line {at + 1} is answered {reply!r} and not {other!r}"
        if len(wanted) != len(self.replies):
            yield f"{len(self.replies)} replies, and {len(wanted)} of a replay"
