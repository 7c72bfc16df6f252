"""The gate that proves the crates meanwhile: which libraries it has left so far, and how much of the machine it leaves."""
import os
import re
import shutil
import threading

DONE = re.compile(r"rt: (\w+) (proved$|is kept: an earlier run|NOT PROVED)", re.M)
ROOM = 4_000_000  # what is left free for the gate beside each check, in KiB


class Gate:
    """A run of `rt ci`, by what it writes into a file. With no file there is none, and the libraries are those of the crates' out/."""

    def __init__(self, log, crates, folder, free_memory, memory):
        self.log, self.crates, self.folder = log, crates, folder
        self.free_memory, self.memory = free_memory, memory
        self.lock, self.is_over, self.taken = threading.Lock(), not log, {}

    def read(self):
        """Takes the libraries of the crates that were proved since: a link each, since the gate puts others back at its end."""
        with self.lock:
            if not self.log or self.is_over:
                return
            is_over = os.path.exists(f"{self.log}.over")
            with open(self.log, encoding="utf-8", errors="replace") as file:
                said = DONE.findall(file.read())
            for name, word in said:
                crate = self.crates.get(name)
                if crate and name not in self.taken:
                    place = f"{self.folder}/rlib/{name}/{name}.rlib"
                    if os.path.isdir(crate.library):
                        try:
                            shutil.copytree(crate.library, place, copy_function=os.link)
                        except OSError:
                            shutil.rmtree(place, ignore_errors=True)
                            if is_over:
                                raise
                            continue  # the gate has it in its hands: the next reading takes it
                        crate.library = place
                    self.taken[name] = word != "NOT PROVED"
            self.is_over = is_over

    def is_proved(self, crate):
        """Whether a crate is proved, or the crates below a program; None where that is not known yet."""
        self.read()
        wanted = [it.name for it in crate.below] + [crate.name] * (not crate.is_program())
        if all(self.taken.get(it) for it in wanted) or not self.log:
            return True
        return False if self.is_over or any(self.taken.get(it) is False for it in wanted) else None

    def may_begin(self, running):
        """Whether one more check may begin beside so many: beside the gate half of the processors, and only where memory is free."""
        self.read()
        half = max(1, len(os.sched_getaffinity(0)) // 2)
        return self.is_over or running < half and self.free_memory() >= self.memory + ROOM
