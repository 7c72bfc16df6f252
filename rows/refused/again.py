"""Rows in which what was refused for want of memory is asked once more, and all goes on from there."""
import collections
import json
import subprocess
import threading

from refused.program import SECONDS, is_out_of_memory
from refused.scripts import refused_in


class Talk:
    """A script that is given its next line once it answered the last one."""

    def __init__(self, program, words, first):
        program.counts().refuse(first)
        pipes = {"stdin": subprocess.PIPE, "stdout": subprocess.PIPE, "stderr": subprocess.PIPE}
        self.process = program.started(words, **pipes)
        self.watch = threading.Timer(SECONDS, self.process.kill)
        self.watch.start()

    def ask(self, line):
        """Its reply, or nothing where it has ended."""
        try:
            self.process.stdin.write(line if line.endswith(b"\n") else line + b"\n")
            self.process.stdin.flush()
        except BrokenPipeError:
            pass
        return self.process.stdout.readline()

    def end(self):
        """What it writes after its last reply, its status and its standard error."""
        try:
            rest, error = self.process.communicate()
        finally:
            self.watch.cancel()
        return rest, self.process.returncode, error.decode("utf-8", "replace")


class Again:
    """A row in which one allocation is refused, and what was refused by it is asked again. If that changed nothing, all goes on as in the row."""

    def __init__(self, row, program, first):
        self.row, self.program, self.first = row, program, first
        # Each item is the number of a line, what was asked, and the reply.
        self.talk, self.tried, self.is_as_row, self.faults = [], collections.Counter(), True, []

    def run(self):
        talk = Talk(self.program, self.row.words, self.first)
        for at, line in enumerate(self.row.lines):
            if not self.is_answered(talk, at, line):
                break
        self.end(*talk.end())
        return self

    def is_answered(self, talk, at, line):
        """Asks one line, and once more what was refused of it."""
        reply, asked = talk.ask(line), self.row.asked[at]
        if not reply:
            return False
        self.talk.append((at, asked, reply))
        part = refused_in(asked, reply)
        if part:
            self.is_as_row &= part is True and self.row.is_in_one_step(at)
            rest = asked if part is True else {**asked, "Entries": [it for it in asked["Entries"] if it["Id"] in part]}
            reply = talk.ask(line if part is True else json.dumps(rest).encode() + b"\n")
            self.talk.append((at, rest, reply))
            self.tried[word_of(asked.get("Action", "a line"), reply)] += 1
            if b"NoMemory" in reply or not reply:
                self.faults.append(f"line {at + 1}: the second try is answered {reply!r}")
        if self.is_as_row and reply != self.row.replies[at]:
            self.faults.append(f"line {at + 1} is answered {reply!r} and not {self.row.replies[at]!r}")
        return bool(reply)

    def end(self, rest, status, error):
        """Holds all that was answered against what may be."""
        told = len(self.talk) - sum(self.tried.values())
        if status == 1:
            if is_out_of_memory(error) not in ((told, "audit") if told == len(self.row.lines) else (told,)) or self.tried:
                self.faults.append(f"it ends with {error!r} after {told} lines")
        elif status != 0 or error or told != len(self.row.lines):
            self.faults.append(f"status {status}, {error!r} after {told} lines")
        else:
            self.faults += self.row.judge.faults(self.talk, rest)
            if self.is_as_row and rest != self.row.replies[-1]:
                self.faults.append(f"the audit is {rest!r} and not {self.row.replies[-1]!r}")


def word_of(action, reply):
    """An action, with the word of a turn or the name of a refusal."""
    told = json.loads(reply or "{}")
    word = told.get("Turn") or told.get("Error", {}).get("Code")
    return f"{action} {word}" if word else str(action)
