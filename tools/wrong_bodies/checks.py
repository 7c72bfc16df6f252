"""What a check of the toolchain's prover says of each function."""
import re

from .functions import UNOFFERED, goals_at

VERDICT = re.compile(r"(?:fn|struct|enum|impl) (\S+): (proved|not proved|no proof|could not tell)\b(.*)")
# An open goal: where it stands, what is to hold there, and its name. Of what the ghost fields of a type keep no words are given.
GOAL = re.compile(r"note: (?:\./)?(src/\S+: (?:it is not proved that .*?|`search` found no proof)) \(`([^`]+)`\)")
ERROR = re.compile(r"(?:\./)?((?:src|specs|proofs)/\S+?):(\d+):\d+: error(?:\[.*?\])?: (.*)")
# What is said of a proof that rests on another one that was refused, and of one that names what an edit took away.
RESTS = re.compile(r"not admitted|was rejected|depends on")
GONE = re.compile(r"has no field|is not in scope|has no `|is no name|operand is missing|expected the end|cannot continue")
UNCOVERED = re.compile(r"borrow checker (?:does not cover|\W*s part in its proof is not made)|does not cover this function")


def kind_of(goal):
    """What a goal is about, whatever the way to it: a clause that the function ensures, or that a call requires."""
    stem, _, clause = goal.partition("-clause-")
    return ("returns" if stem.startswith("returns") else re.sub(r"(-requires|-then|-else|-in[-_]).*", "", stem)), clause


class Check:
    """What a check said: the state of each function, its open goals, and the errors."""

    def __init__(self, text, status, proofs):
        self.text, self.status, self.proofs = text, status, proofs
        self.states, self.goals, self.uncovered, self.errors = {}, {}, set(), []
        goals = []
        for line in text.split("\n"):
            verdict, goal = VERDICT.match(line), GOAL.match(line)
            if goal:
                goals.append((goal[2], goal[1].strip(), "allow values at which this goal is false" in line))
            elif verdict:
                # A function's open goals stand above its line.
                name, self.states[verdict[1]] = verdict[1], verdict[2]
                self.goals[name], goals = goals, []
                if UNCOVERED.search(verdict[3]):
                    self.uncovered.add(name)
            elif UNCOVERED.search(line):
                self.uncovered.update(re.findall(r"`(\w+(?:::[\w+]+)+)`", line))
            elif ERROR.match(line) and UNOFFERED not in line:
                self.errors.append(ERROR.match(line).groups())

    def symbol_of(self, end):
        """The whole name of a function. A method is named where its type stands."""
        found = [it for it in self.states if f"::{it}".endswith(f"::{end}") and "::fn::" not in it]
        return found[0] if len(found) == 1 else end

    def parts(self, symbol):
        """A function and the closures in it; all functions where none is named."""
        if not symbol:
            return [*self.states]
        *module, owner, name = ["", *symbol.split("::")]
        module = [it for it in module if it]
        within = ("::".join([*module, owner, "fn", name, ""]), "::".join([*module, "fn", owner, name, ""]))
        return [it for it in self.states if it == symbol or it.startswith(within)]

    def is_proved(self, symbol):
        parts = self.parts(symbol)
        return symbol in (None, *parts) and all(self.states[it] == "proved" for it in parts)

    def is_uncovered(self, symbol):
        """Whether the borrow checker makes no part of its proof, so that no contract was tried."""
        return any(it in self.uncovered for it in self.parts(symbol))

    def errors_of(self, name):
        """The errors of its own in a function's proof: in its folder, or in that of the cycle of calls that it is in."""
        *module, last = name.split("::")[1:]
        folders = tuple("/".join(["proofs", *module, it, ""]) for it in (last, f"+{last}"))
        return [it for it in self.errors if it[0].startswith(folders) and not RESTS.search(it[2])]

    def answers_of(self, name):
        """The goals of a function whose stored answers are refused: those that name what is gone, and those that show something else
        than is to be shown now."""
        gone, other = set(), set()
        for path, number, words in self.errors_of(name):
            (gone if GONE.search(words) else other).update(goals_at(self.proofs.get(path, ""), int(number)))
        return gone, other - gone

    def open_goals(self, symbol):
        """The open goals of a function that its contract opens, the surest first. An open goal is none of these where an answer to
        one of its kind is refused: it may be the same goal, under the name that the edit gives it."""
        found = []
        for name in self.parts(symbol):
            if self.states[name] in ("not proved", "no proof"):
                unfit = {kind_of(it) for its in self.answers_of(name) for it in its}
                found += [it for it in self.goals[name] if kind_of(it[0]) not in unfit]
        return sorted(found, key=lambda it: (not it[2], not it[0].startswith("returns")))

    def unfit_answers(self, symbol):
        """The goals whose answers show something else than is to be shown now, with all that they name in its place."""
        return frozenset(it for name in self.parts(symbol) for it in self.answers_of(name)[1] if it)

    def proof_error(self, symbol):
        """An error in the stored proof of a function that is not proved: the proof does not fit, which says little of the contract."""
        errors = (it for name in self.parts(symbol) if self.states[name] != "proved" for it in self.errors_of(name))
        return next((f"{path}:{number}: {words[:160]}" for path, number, words in errors), None)
