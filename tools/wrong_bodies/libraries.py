"""What a built library states, module by module, as the toolchain wrote it down.

The library that the gate leaves of a crate holds, in toolchain/checked.a, a file for each module of its statements: for
each file of specs/ and of proofs/, each declared type, and the contract of each function, also of private ones. A head
names the modules that it imports; then come the bytes of what is stated. toolchain/mir.json has the code of each function as
it was proved, with the name of each function, type and trait that it uses. A body is in none of these modules but those of
code and links, which are left out here.
"""
import hashlib
import json
import os
import re

BODY = re.compile(rb"^--@ body \d+\n", re.M)
IMPORT = re.compile(rb"^--@ import (\S+)", re.M)
# A module of a function's code, or of what else it makes of its contract: its contract stands for it.
OF_FUNCTION = re.compile(r"(Rattle-\w+)-proofs\.(.*)\.(?:Code|Met|Statement|Symbol|Reads|Kinds|TheLink)$")


def stated(module):
    """The module that says what this one does of a function."""
    found = OF_FUNCTION.match(module)
    return f"{found[1]}-specs.contracts.{found[2]}" if found else module


class Library:
    """The modules of a crate's library, each with a sum and what it imports of the repository's crates."""

    def __init__(self, name, path, crates):
        self.name, self.sums, self.imports, self.code = name, {}, {}, {}
        with open(f"{path}/toolchain/mir.json", encoding="utf-8") as file:
            self.code = dict(json.load(file))
        with open(f"{path}/toolchain/checked.json", encoding="utf-8") as lines:
            places = [json.loads(line) for line in lines]
        own = f"part/Rattle-{name}-"
        with open(f"{path}/toolchain/checked.a", "rb") as file:
            for module, at, size in places:
                if module.startswith(own) and not OF_FUNCTION.match(module):
                    file.seek(at)
                    self.add(module[len("part/") :], file.read(size), crates)

    def add(self, module, text, crates):
        at = BODY.search(text)
        names = [it.decode() for it in IMPORT.findall(text, 0, at.start())]
        # What it takes of the toolchain's libraries is of the toolchain.
        self.imports[module] = sorted({stated(it) for it in names if re.match(r"Rattle-(\w+)-", it) and it[7:].split("-")[0] in crates})
        self.sums[module] = hashlib.sha256(repr(names).encode() + text[at.end() :]).hexdigest()

    def named(self, path):
        """The modules of what a path of the code names, as `tree::Tree::with`: a function, a type with its view and variants, or a
        trait or an impl of one, with its methods."""
        found = []
        for head in (f"Rattle-{self.name}-specs.{it}.{path.replace('::', '.')}" for it in ("contracts", "declared")):
            is_trait = f"{head}.TheImpl" in self.sums or f"{head}.TheBound" in self.sums
            found += [it for it in self.sums if it == head or it.startswith(f"{head}." if is_trait else f"{head}.The")]
        return found


def holds_statements(path):
    """Whether a library is one that the gate leaves, with statements and no proofs: only of these are there sums."""
    places = f"{path}/toolchain/checked.json"
    if not os.path.isfile(places):
        return False
    with open(places, encoding="utf-8") as lines:
        return any('"part/' in it for it in lines)
