"""A program some of whose allocations are refused."""
import mmap
import os
import re
import struct
import subprocess
import threading

HERE = os.path.dirname(os.path.realpath(__file__))
# The longest wait for the end of a script or for a reply, in seconds.
SECONDS = 60


def lines_of(text):
    """The lines of some bytes, each with its line feed, at which alone a line ends."""
    return re.findall(rb"[^\n]*\n|[^\n]+\Z", text)


class Ended:
    """What a program wrote, and how it ended."""

    def __init__(self, status, output, error, asked):
        self.status, self.error, self.asked = status, error, asked
        self.replies = lines_of(output)


class Counts:
    """The file by which a process is told which allocations to refuse, and tells how many it asked for."""

    def __init__(self, folder):
        self.path = os.path.join(folder, f"counts-{threading.get_ident()}")
        with open(self.path, "w+b") as file:
            file.write(bytes(24))
            file.flush()
            self.map = mmap.mmap(file.fileno(), 24)

    def refuse(self, first, many=1):
        """Refuses so many allocations from this one on, counted from now; none where it is 0."""
        self.map[0:24] = struct.pack("qqq", 0, first, many)

    def asked(self):
        return struct.unpack("q", self.map[0:8])[0]


class Program:
    """The words that start a program, and the library that refuses."""

    def __init__(self, words, folder):
        self.words, self.folder, self.own = words, folder, threading.local()
        self.library = os.path.join(folder, "refuse.so")
        subprocess.run(["cc", "-O1", "-shared", "-fPIC", "-o", self.library, os.path.join(HERE, "refuse.c")], check=True)

    def counts(self):
        """Those of this thread: it runs one process at a time."""
        if not hasattr(self.own, "counts"):
            self.own.counts = Counts(self.folder)
        return self.own.counts

    def environment(self):
        return {**os.environ, "LD_PRELOAD": self.library, "REFUSED": self.counts().path}

    def run(self, words, lines, first=0, many=1):
        """It reads these bytes, and so many of its allocations from the first on are refused."""
        counts = self.counts()
        counts.refuse(first, many)
        ended = subprocess.run([*self.words, *words], input=lines, capture_output=True, check=False, env=self.environment(), timeout=SECONDS)
        return Ended(ended.returncode, ended.stdout, ended.stderr.decode("utf-8", "replace"), counts.asked())

    def started(self, words, **how):
        return subprocess.Popen([*self.words, *words], env=self.environment(), **how)


def is_out_of_memory(error):
    """The number of replies that a script went out of memory after, "audit", or None."""
    told = re.fullmatch(r"sqd: no memory (?:after (\d+) requests|in (audit))\n", error)
    return told and (told[2] or int(told[1]))
