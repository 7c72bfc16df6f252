"""Wrong bodies as they are written, and the crates that they stand in."""
import os
import subprocess
import sys
import threading

from .functions import functions_of, is_in_a_cycle

PARTS = ("src", "specs", "proofs")
SAYING = threading.Lock()


def say(text):
    """Writes a line, also where several threads do."""
    with SAYING:
        sys.stdout.write(f"{text}\n")
        sys.stdout.flush()


class Edit:
    """A wrong body: the texts that it makes of files, and the one function that it stands in."""

    def __init__(self, crate, file):
        self.crate, self.name = crate, os.path.basename(file)[: -len(".edit")]
        self.texts, self.path, self.function, self.body = {}, None, None, None
        self.wanted, self.by, self.verdict, self.why = "refused", None, None, None
        # The goal that refused it last, and those that it opened beside it.
        self.last_goal, self.beside = None, frozenset()
        self.fault = self.read(file)
        if not self.fault and len(self.texts) == 1:
            self.place()

    def read(self, file):
        """Applies the edit, or says why that cannot be done."""
        path = old = None
        with open(file, encoding="utf-8") as lines:
            for line in lines.read().split("\n"):
                word, _, rest = line.partition(":")
                rest = rest[1:] if rest.startswith(" ") else rest
                if word == "told":
                    self.wanted = rest
                elif word == "by":
                    self.by = rest
                elif word == "file":
                    path = rest
                elif word == "old":
                    old = rest
                elif word == "new":
                    text = self.texts.get(path, self.crate.files.get(path, ""))
                    if not old or text.count(old) != 1:
                        return f"its old text stands {text.count(old or ' ')} times in {path}, and not once"
                    self.texts[path], old = text.replace(old, rest), None
        return None if any(it != self.crate.files[path] for path, it in self.texts.items()) else "it changes nothing"

    def place(self):
        """Finds the function that it stands in, and the body that it gives it."""
        ((path, made),) = self.texts.items()
        was = self.crate.files[path]
        for it in functions_of(path, was) if path.startswith("src/") else []:
            if made.startswith(was[: it.opens]) and made.endswith(was[it.closes :]):
                self.path, self.body = path, made[it.opens : len(made) - len(was) + it.closes]
                # The proof of one that calls itself is the cycle's: a copy would have none.
                self.function = it._replace(is_copied=it.is_copied and not is_in_a_cycle(self.crate, it.path))

    def tell(self, verdict, why):
        self.verdict, self.why = verdict, why
        more = "" if verdict == self.wanted else f" (and not {self.wanted})"
        say(f"{self.crate.name}/{self.name}: {verdict}{more}: {why}")


class Crate:
    """A crate: its files and its edits."""

    def __init__(self, root, name, uses):
        self.root, self.name, self.uses, self.folder = root, name, uses, f"crates/{name}"
        self.edits, self.files, self.below, self.library = [], {}, [], f"{root}/crates/{name}/out/rlib/{name}.rlib"
        # The functions of which a copy as they are was proved, earlier or in this run.
        self.copies = set()

    def read(self, folders):
        for part in PARTS:
            for at, _, names in os.walk(f"{self.root}/{self.folder}/{part}"):
                for it in names:
                    with open(f"{at}/{it}", encoding="utf-8", newline="") as file:
                        self.files[os.path.relpath(f"{at}/{it}", f"{self.root}/{self.folder}")] = file.read()
        for folder in (os.path.join(self.root, it.replace("{}", self.name)) for it in folders):
            names = sorted(os.listdir(folder)) if os.path.isdir(folder) else []
            self.edits += [Edit(self, f"{folder}/{it}") for it in names if it.endswith(".edit")]

    def is_program(self):
        return "src/main.rt" in self.files

    def build(self, lock):
        """Builds the library where it is not there, or is older than its sources."""
        with lock:
            files = (f"{self.root}/{self.folder}/{it}" for it in self.files)
            is_there = os.path.isdir(self.library)
            if not is_there or any(os.path.getmtime(it) > os.path.getmtime(self.library) for it in files):
                subprocess.run(["rt", "lib"], cwd=f"{self.root}/{self.folder}", stdin=subprocess.DEVNULL, check=True)


def crates_of(root, folders):
    """The crates of a repository, with their edits, the lowest first."""
    with open(f"{root}/crates.txt", encoding="utf-8") as lines:
        heads = [line.partition("#")[0].partition(":") for line in lines]
    left = {name.strip(): uses.split() for name, colon, uses in heads if colon}
    crates = {}
    while left:
        name = next(it for it, uses in left.items() if not any(below in left for below in uses))
        it = crates[name] = Crate(root, name, left.pop(name))
        for below in (crates[use] for use in it.uses if use in crates):
            it.below += [its for its in (*below.below, below) if its not in it.below]
        it.read(folders)
    return crates
