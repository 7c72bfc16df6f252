"""A server with eight clients and two movers, some of whose allocations are refused while they call."""
import collections
import contextlib
import hashlib
import importlib.machinery
import importlib.util
import json
import os
import random
import subprocess
import threading
import time

from refused.program import is_out_of_memory

ROWS = os.path.dirname(os.path.dirname(os.path.realpath(__file__)))
CLIENTS, CYCLES = 8, 8
# For one that sets the queues up, and one that takes what is left: another one goes on for one that is cut off.
SPARE = 16
CONNECTIONS = CLIENTS + SPARE
WORDS = ["--movers", "2", "--homes", "2", "--idle", "30"]
# From when on the allocations are counted that are refused: the n-th is one of the first NEAR but among the calls.
BEGIN, CALLS, END, NEAR = "from its begin on", "once it has queues", "once all is taken", 300
# Connections of a server that is asked nothing, and its longest run in seconds.
FEW, SOON = 3, 20
# The longest run, and the longest that a message is on its way while all is quiet, in seconds.
SECONDS, QUIET = 60, 1.0


def helpers():
    """The server and the clients of rows/serve."""
    loader = importlib.machinery.SourceFileLoader("serve", os.path.join(ROWS, "serve"))
    found = importlib.util.module_from_spec(importlib.util.spec_from_loader("serve", loader))
    loader.exec_module(found)
    return found


serve = helpers()
QUEUES = {
    "d": {"VisibilityTimeout": "3600"},
    "e": {"VisibilityTimeout": "3600"},
    "q": {"VisibilityTimeout": "3600"},
    "r": {"VisibilityTimeout": "0", "RedrivePolicy": json.dumps({"deadLetterTargetArn": serve.ARN + "d", "maxReceiveCount": 1})},
}


class Gone(Exception):
    """A connection that ended in place of a reply."""


class Server(serve.Server):
    """A server that is started so that allocations can be refused."""

    def __init__(self, program, connections=CONNECTIONS):
        words = ["serve", "--listen", "127.0.0.1:0", "--connections", str(connections), *WORDS]
        pipes = {"stdin": subprocess.DEVNULL, "stdout": subprocess.PIPE, "stderr": subprocess.PIPE}
        self.process = program.started(words, text=True, **pipes)
        line = self.process.stdout.readline()
        self.port = int(line.rsplit(":", 1)[1]) if line.startswith("listening ") else None


class Caller:
    """A client that notes what it was told."""

    def __init__(self, server, run):
        self.client, self.run = server.client(), run

    def ask(self, action, **members):
        """The reply. One of NoMemory is counted, and nothing then."""
        try:
            self.client.write(json.dumps({"Action": action, **members}) + "\n")
            line = self.client.reply()
        except (ConnectionError, BrokenPipeError):
            line = ""
        if not line:
            self.run.note("gone", action)
            if action == "ReceiveMessage" and members["QueueUrl"] == serve.URL + "q" and "VisibilityTimeout" not in members:
                self.run.note("lost", "message")
            raise Gone(action)
        told = json.loads(line)
        if told.get("Error", {}).get("Code") == "NoMemory":
            self.run.note("refused", action)
            return None
        return told

    def ask_until_done(self, action, **members):
        """The reply; what is refused for want of memory is asked again."""
        while (told := self.ask(action, **members)) is None:
            if time.monotonic() > self.run.end:
                raise serve.Wrong(f"{action} is refused for {SECONDS} s")
        return told

    def send(self, queue, body):
        self.run.tell("tried", queue, body)
        told = self.ask("SendMessage", QueueUrl=serve.URL + queue, MessageBody=body)
        if told is not None:
            serve.want(told.get("MD5OfMessageBody") == hashlib.md5(body.encode()).hexdigest() and "MessageId" in told, told)
            self.run.tell("sent", queue, body)

    def receive(self, queue, **members):
        """The messages that it is given. They are noted, but one again of which it is not known whether it was deleted."""
        told = self.ask("ReceiveMessage", QueueUrl=serve.URL + queue, **members)
        if told is None:
            return []
        for it in told["Messages"]:
            serve.want(it["MD5OfBody"] == hashlib.md5(it["Body"].encode()).hexdigest(), it)
            if it["Body"] not in self.run.undeleted:
                self.run.tell("given", queue, it["Body"])
        return told["Messages"]

    def take(self, queue):
        """Receives and deletes what is left in a queue, and says whether there was something. What is in a lost reply comes again."""
        messages = self.receive(queue, MaxNumberOfMessages=10, VisibilityTimeout=1)
        # Those of this queue are dead letters now.
        taken = messages if queue != "r" else []
        self.run.undeleted |= {it["Body"] for it in taken}
        for it in taken:
            self.delete(queue, it)
            self.run.undeleted.discard(it["Body"])
        return bool(messages)

    def delete(self, queue, message):
        told = self.ask_until_done("DeleteMessage", QueueUrl=serve.URL + queue, ReceiptHandle=message["ReceiptHandle"])
        serve.want(told == {}, told)


def brief_faults(program, number):
    """How many allocations a server makes whose connections ask nothing, and what is wrong with it where one of them is refused. It ends once
    its clients have hung up, also where a thread cannot be made."""
    counts = program.counts()
    counts.refuse(number)
    server, faults = Server(program, FEW), []
    late = threading.Timer(SOON, lambda: (faults.append(f"it has not ended after {SOON} s"), server.process.kill()))
    late.start()
    try:
        for _ in range(FEW if server.port is not None else 0):
            with contextlib.suppress(ConnectionError):
                server.client().close()
        output, error = server.process.communicate()
    finally:
        late.cancel()
        server.process.kill()
    lost = server.process.returncode == 1 and not output.strip() and is_out_of_memory(error) is not None
    if not faults and not lost and (server.process.returncode, output, error) != (0, serve.YES + "\n", ""):
        faults.append(f"it ends with {server.process.returncode}, {output!r}, {error!r}")
    return counts.asked(), faults


class Run:
    """One run of a server."""

    def __init__(self, program, seed, most):
        self.program, self.seed, self.faults, self.is_all_taken, self.is_spent = program, seed, [], False, False
        self.lock, self.noted, self.told = threading.Lock(), collections.Counter(), collections.defaultdict(list)
        chosen = random.Random(seed)
        # Mostly they are among the calls, and in each fourth run they are several.
        self.where = chosen.choice([BEGIN, END, *[CALLS] * 6])
        self.first = chosen.randrange(1, (most if self.where == CALLS else NEAR) + 1) if most else 0
        self.many = 0 if not most else chosen.randrange(2, 31) if chosen.randrange(4) == 0 else 1
        # The messages of which it is not known whether they were deleted.
        self.undeleted = set()
        self.end = time.monotonic() + SECONDS

    def title(self):
        if not self.first:
            return "a server with none refused"
        return f"server, seed {self.seed}, allocations {self.first} to {self.first + self.many - 1} {self.where}"

    def note(self, what, action):
        with self.lock:
            self.noted[what] += 1
            self.noted[f"{what} {action}"] += 1

    def tell(self, what, queue, body):
        with self.lock:
            self.told[what, queue].append(body)

    def run(self):
        counts = self.program.counts()
        counts.refuse(self.first if self.where == BEGIN else 0, self.many)
        server = Server(self.program)
        watch = threading.Timer(SECONDS, self.is_late, [server])
        watch.start()
        try:
            if server.port is not None:
                self.clients_of(server, counts)
            output, error = server.process.communicate()
        finally:
            watch.cancel()
            server.process.kill()
        self.asked = counts.asked()
        self.look_at_end(server, output, error)
        return self

    def is_late(self, server):
        self.faults.append(f"it has not ended after {SECONDS} s")
        server.process.kill()

    def guarded(self, do, *words):
        """What a client does: it may be cut off. Whether it was not."""
        try:
            do(*words)
        except Gone:
            return False
        except Exception as wrong:  # whatever it is, it is told with the seed
            with self.lock:
                self.faults.append(f"{type(wrong).__name__} {wrong}")
        return True

    def clients_of(self, server, counts):
        left = self.until_done(self.set_up, server, SPARE - 1)
        if not left:
            # Each connection was cut off before the queues were there: those that are left hang up.
            self.noted["no queues"] += 1
            for _ in range(CONNECTIONS - SPARE + 1):
                server.client().close()
            return
        if self.where == CALLS:
            counts.refuse(self.first, self.many)
        threads = [threading.Thread(target=self.guarded, args=(self.cycles, server, number)) for number in range(CLIENTS)]
        for it in threads:
            it.start()
        for it in threads:
            it.join()
        left = self.until_done(self.take_rest, server, left + 1)
        self.is_all_taken = left > 0
        self.is_spent = self.where != END and counts.asked() >= self.first + self.many
        if self.where == END:
            counts.refuse(self.first, self.many)
        for _ in range(left):
            server.client().close()

    def until_done(self, do, server, tries):
        """Does it by one connection after another until one is not cut off; how many are left after that."""
        while tries > 0:
            tries -= 1
            if self.guarded(do, server):
                break
        return tries

    def set_up(self, server):
        caller = Caller(server, self)
        try:
            for name, attributes in QUEUES.items():
                told = caller.ask("CreateQueue", QueueName=name, Attributes=attributes)
                if told is None:
                    # What it left undone is done by another one.
                    told = caller.ask_until_done("CreateQueue", QueueName=name, Attributes=attributes)
                serve.want(told == {"QueueUrl": serve.URL + name}, told)
        finally:
            caller.client.close()

    def cycles(self, server, number):
        """Sends, receives and deletes; the second queue's messages are received once, so that they are dead letters."""
        caller = Caller(server, self)
        try:
            for cycle in range(CYCLES):
                caller.send("q", f"q-{number}-{cycle}")
                for it in caller.receive("q"):
                    caller.delete("q", it)
                caller.send("r", f"r-{number}-{cycle}")
                caller.receive("r", MaxNumberOfMessages=10)
                if number == 0 and cycle == CYCLES // 2:
                    told = caller.ask_until_done("StartMessageMoveTask", SourceArn=serve.ARN + "d", DestinationArn=serve.ARN + "e")
                    serve.want("TaskHandle" in told, told)
        finally:
            caller.client.close()

    def take_rest(self, server):
        """Takes what is left in all queues, until nothing new has come for a second and none of what was sent is missing, or long after."""
        caller, last = Caller(server, self), time.monotonic()
        try:
            while time.monotonic() - last < QUIET * (1 if not self.missing() else 5):
                if any([caller.take(queue) for queue in QUEUES]):
                    last = time.monotonic()
                if not self.missing():
                    break
        finally:
            caller.client.close()

    def missing(self):
        """What was told as sent and is not yet where it is to come to."""
        found = set(self.told["given", "q"]) | set(self.told["given", "d"]) | set(self.told["given", "e"])
        # Movers without a thread of their own come once all connections have ended, so that dead letters may still be where they were.
        sent = self.told["sent", "q"] + (self.told["sent", "r"] if self.where != BEGIN else [])
        return set(sent) - found

    def look_at_end(self, server, output, error):
        status = server.process.returncode
        lost = status == 1 and not output.strip() and is_out_of_memory(error) is not None
        if not lost and (status, output, error) != (0, serve.YES + "\n", ""):
            self.faults.append(f"it ends with {status}, {output!r}, {error!r}")
        if server.port is None:
            if not (lost and self.where == BEGIN):
                self.faults.append(f"it does not begin: {status}, {error!r}")
            self.noted["no beginning"] += 1
            return
        self.noted["no verdict" if lost else "yes"] += 1
        faults = self.noted["refused"] + self.noted["gone"] + lost
        if faults > self.many:
            self.faults.append(f"{self.many} refused, and {dict(self.noted)}")
        if lost and self.is_spent:
            self.faults.append("no verdict, though nothing was refused at the end")
        self.messages_wrong()

    def messages_wrong(self):
        """Each message that was told as sent is given once, or was in a reply that was lost."""
        kept = self.told["given", "q"], self.told["given", "d"] + self.told["given", "e"]
        for name, given in zip("qr", kept):
            twice = [it for it, many in collections.Counter(given).items() if many > 1]
            unsent = set(given) - set(self.told["tried", name])
            if twice or unsent:
                self.faults.append(f"{twice} are given twice, and {unsent} were not sent")
        if not self.is_all_taken:
            self.noted["rest that cannot be taken"] += 1
        elif len(self.missing()) > self.noted["lost"]:
            self.faults.append(f"{sorted(self.missing())} are lost, and replies with up to {self.noted['lost']} messages are")
