"""A sum for each edit, of all that decides whether its contract refuses it.

A contract is all that a caller knows of a function, so the bodies of other functions, and what proves them, decide nothing.
In the sum are the toolchain; the edit; the text of the function that it stands in, its stored proof, and its code; and what
these rest on, in this crate and below, as the toolchain wrote it into the libraries: the contract of each function that it
calls, each type and definition that one of them cites, each lemma that its proof or its attributes name. Where the edit names an
item of the repository that its function did not name, or stands in no one function's body, or the crate is a program, whose
statements no library holds, all is in it that the crate and those that it uses state.
"""
import functools
import hashlib
import re

from .kit import kit_sum
from .libraries import Library, stated

# Raised when this program changes what it takes for a refusal: then each edit is tried anew.
READING = 1
WORD = re.compile(r"[A-Za-z_]\w*")
ITEM = re.compile(r"\b(?:fn|struct|enum|trait|const|static|type) +(\w+)")
CALL = re.compile(r"\b(\w+)(?:::<.*?>)?\(")
PATH = re.compile(r"\w+(?:::[\w+]+)+")
ATTRIBUTE = re.compile(r"\b([a-z]\w*)::(specs|proofs)::([\w:]+)")
IMPORTED = re.compile(r"\bRattle\.(\w+)\.(specs|proofs)\.([\w.+]+)")


def sum_of(*parts):
    return hashlib.sha256(repr(parts).encode()).hexdigest()[:32]


def short_sum(*parts):
    return sum_of(*parts)[:8]


class Sums:
    """The sums of the edits of some crates, whose libraries are there."""

    def __init__(self, crates):
        self.crates = crates

    @functools.lru_cache(maxsize=None)
    def library(self, name):
        return Library(name, self.crates[name].library, self.crates)

    @functools.lru_cache(maxsize=None)
    def declared(self, name):
        """The names of the functions, types, traits and constants of a crate."""
        crate = self.crates[name]
        return frozenset(word for it, text in crate.files.items() if it.startswith("src/") for word in ITEM.findall(text))

    @functools.lru_cache(maxsize=None)
    def modules(self, name, words):
        """The module of a file of specs/ or proofs/ that dotted words lead into, if there is one."""
        parts = words.split(".")
        heads = (f"Rattle-{name}-{'.'.join(parts[:end])}" for end in range(len(parts), 1, -1))
        return next((stated(it) for it in heads if stated(it) in self.library(name).sums), None)

    def own(self, crate):
        """The libraries whose modules count for a crate: its own, where it has one, and those below."""
        return [it.name for it in (*crate.below, crate) if not it.is_program()]

    def reached(self, start):
        """All modules that some rest on, with those of the views and variants of each type among them."""
        found, left = set(), [*start]
        while left:
            module = left.pop()
            if module in found:
                continue
            found.add(module)
            left += self.rests_on(module)
        return found

    @functools.lru_cache(maxsize=None)
    def rests_on(self, module):
        library = self.library(module[len("Rattle-") :].split("-")[0])
        path = re.match(r"Rattle-\w+-specs\.(?:contracts|declared)\.(.*)", module)
        more = library.named(path[1]) if path else []
        return [*library.imports.get(module, []), *more]

    def sums_of(self, modules):
        return [(it, self.library(it[len("Rattle-") :].split("-")[0]).sums.get(it)) for it in sorted(modules)]

    def proof(self, crate, path):
        """The files of the stored proof of a function, and of closures in it."""
        name = path.split("::")[-1]
        parts = {name, f"+{name}"}
        return sorted(it for it in crate.files if it.startswith("proofs/") and parts & {*it.split("/")[:-1]})

    def cited(self, crate, texts):
        """The modules that texts name: a proof by its imports, an attribute by its paths."""
        found = []
        for text in texts:
            for name, part, rest in [*IMPORTED.findall(text), *ATTRIBUTE.findall(text)]:
                name = crate.name if name == "crate" else name
                if name in self.own(crate):
                    found.append(self.modules(name, f"{part}.{rest.replace('::', '.')}".rstrip(".")))
        return {it for it in found if it}

    def code(self, crate, path):
        """The code of a function and of the closures in it, by their symbols; none where no one function has that name."""
        every = self.library(crate.name).code
        *_, owner, name = ["", *path.split("::")]
        ends = [it for it in every if f"::{it}".endswith(f"::{path}") or owner[:1].isupper() and it.endswith(f"::{owner}::{name}")]
        if len(ends) != 1:
            return {}
        *module, last = ends[0].split("::")
        within = ("::".join([*module, "fn", last, ""]), "::".join([*module[:-1], "fn", *module[-1:], last, ""]))
        return {it: code for it, code in every.items() if it == ends[0] or it.startswith(within)}

    @functools.lru_cache(maxsize=None)
    def of_function(self, name, file, function):
        """What decides on any edit of a function that names nothing new; None where its code is not known."""
        crate = self.crates[name]
        text, code = crate.files[file][function.begins : function.closes], self.code(crate, function.path)
        if not code:
            return None
        start = set()
        for symbol in {*code, *(word for it in code.values() for word in PATH.findall(repr(it)))}:
            below, _, rest = symbol.partition("::")
            if below in self.own(crate):
                start.update(self.library(below).named(rest))
        proof = [(it, crate.files[it]) for it in self.proof(crate, function.path)]
        heads = sorted(it for path in {"src/lib.rt", file} for it in re.findall(r"(?m)^#!\[.*", crate.files[path]))
        start |= self.cited(crate, [text, *heads, *(it for _, it in proof)])
        return text, proof, heads, sorted(code.items()), self.sums_of(self.reached(start))

    @functools.lru_cache(maxsize=None)
    def whole(self, name):
        """What decides on any edit of a crate, but what it calls by a name of its own: its proofs, and all that it and the crates
        that it uses state. Of a program, whose statements no library holds, also its text, and what the crates further down
        state of the functions that it calls."""
        crate = self.crates[name]
        files = [it for it in sorted(crate.files) if crate.is_program() or not it.startswith("src/")]
        used = [it for it in self.own(crate) if it in (name, *crate.uses)]
        start = {it for below in used for it in self.library(below).sums if "-specs." in it}
        start |= self.cited(crate, [crate.files[it] for it in files])
        if crate.is_program():
            calls = (CALL.findall(text) for it, text in crate.files.items() if it.startswith("src/"))
            start |= self.called(crate, {word for its in calls for word in its})
        return [(it, crate.files[it]) for it in files], start

    def called(self, crate, words):
        """The modules of all functions and types of these names, in a crate and below."""
        modules = (it for name in self.own(crate) for it in self.library(name).sums if "-specs." in it)
        return {it for it in modules if words & {*it.partition("-specs.")[2].split(".")}}

    def new_names(self, edit):
        """The items of the repository that an edit names and its function did not."""
        text = edit.crate.files[edit.path][edit.function.begins : edit.function.closes]
        new = {*WORD.findall(edit.body)} - {*WORD.findall(text)}
        return {word for it in (*edit.crate.below, edit.crate) for word in new & self.declared(it.name)}

    def of_copy(self, edit):
        """The sum of a copy, as it is, of the function that an edit stands in; None where that is not known."""
        if not edit.body or edit.crate.is_program():
            return None
        decides = self.of_function(edit.crate.name, edit.path, edit.function)
        return decides and sum_of((READING, kit_sum(), edit.crate.name), edit.path, edit.function.path, decides)

    def is_coarse(self, edit):
        """Whether its sum has the whole crate in it."""
        return not edit.body or edit.crate.is_program() or bool(self.new_names(edit)) or not self.of_function(edit.crate.name, edit.path, edit.function)

    def of_own(self, edit):
        """A sum of an edit and of the function that it stands in, with its stored proof, whatever these rest on."""
        files = edit.crate.files
        if not edit.body:
            return short_sum(sorted(edit.texts.items()), sorted((it, files[it]) for it in edit.texts))
        text = files[edit.path][edit.function.begins : edit.function.closes]
        return short_sum(edit.path, edit.body, text, [files[it] for it in self.proof(edit.crate, edit.function.path)])

    def of_edit(self, edit):
        """The sum of an edit that can be applied."""
        crate, base = edit.crate, (READING, kit_sum(), edit.crate.name, edit.by)
        if not self.is_coarse(edit):
            return sum_of(base, edit.path, edit.function.path, edit.body, self.of_function(crate.name, edit.path, edit.function))
        files, start = self.whole(crate.name)
        if edit.body:
            text = crate.files[edit.path][edit.function.begins : edit.function.closes]
            own, names = (edit.path, edit.function.path, edit.body, text), self.new_names(edit)
        else:
            own = sorted(edit.texts.items()), sorted(crate.files.items())
            names = {*WORD.findall(repr(edit.texts))} - {*WORD.findall(repr([crate.files[it] for it in edit.texts]))}
        return sum_of(base, own, files, self.sums_of(self.reached(start | self.called(crate, names))))
