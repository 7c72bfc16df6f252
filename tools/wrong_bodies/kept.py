"""What was refused once, over the same texts, by the same toolchain, and what has not been tried over its texts yet.

A file of the repository has a line for each edit and toolchain: the edit's name, the toolchain's, a sum of the edit and its
function, a sum of all that decides, the goal that refused it, and the goals that it opened beside that one. An edit whose sum
stands there is not tried again, but in its turn: an eighth of them at each commit. The lines of an edit stand the latest first,
one for each of the last toolchains, so that these may take turns. An edit that a run had no time for has a line with its name
and the word 'left'.
"""
import os
import subprocess

TURNS = 8
TOOLCHAINS = 3
LEFT = "left"


def turn_of(root):
    """Which eighth is tried again: by the number of commits, so that eight commits in a row try all; none where there is no commit."""
    ran = subprocess.run(["git", "-C", root, "rev-list", "--count", "HEAD"], capture_output=True, text=True, check=False)
    return int(ran.stdout) % TURNS if ran.returncode == 0 else None


def cost_of(edit):
    """What a try of an edit costs, beside what others cost: it grows with the length of its function, and with the libraries below its
    crate."""
    return (500 + len(edit.body or "")) * (8 + len(edit.crate.below))


def turns_of(edits):
    """The turn of each edit: those of one function together, those of a crate in few turns, and each turn of about one cost."""
    groups, found, before = {}, {}, 0
    for it in edits:
        groups.setdefault((it.crate.name, it.function.path if it.body else it.name), []).append(it)
    costs = {key: sum(map(cost_of, its)) for key, its in groups.items()}
    for key, its in groups.items():
        found.update(dict.fromkeys(its, (2 * before + costs[key]) * TURNS // (2 * sum(costs.values()))))
        before += costs[key]
    return found


class Line:
    """What is kept of an edit for one toolchain."""

    def __init__(self, own, sum_of, goals):
        self.own, self.sum, self.goals = own, sum_of, goals


class Kept:
    """The lines of the file: of each edit what is kept for each toolchain, the latest first, and the edits that were left."""

    def __init__(self, file, kit):
        self.file, self.kit, self.lines, self.left = file, kit, {}, set()
        if file and os.path.exists(file):
            with open(file, encoding="utf-8") as lines:
                for name, *words in (it.split() for it in lines if it.strip()):
                    if words == [LEFT]:
                        self.left.add(name)
                    else:
                        kit_of, own, sum_of, *goals = words
                        self.lines.setdefault(name, {})[kit_of] = Line(own, sum_of, goals)

    def goal_of(self, name, sum_of):
        """The goal by which an edit of this sum was refused, if it was."""
        return next((it.goals[0] for it in self.lines.get(name, {}).values() if it.sum == sum_of), None)

    def last_goals_of(self, name):
        """The goal by which an edit was refused last, over whatever texts, if it was, and those that it opened beside it: by this
        toolchain, or else by another."""
        found = self.lines.get(name, {})
        goal, *beside = next((it.goals for it in [found.get(self.kit), *found.values()] if it), [None])
        return goal, frozenset(beside)

    def has_own(self, name, own):
        """Whether an edit was last refused in this function as it is, whatever that rests on."""
        return next((it.own == own for it in self.lines.get(name, {}).values()), False)

    def leave(self, name):
        """Keeps that an edit has not been tried over its texts yet."""
        self.left.add(name)

    def note(self, name, own, sum_of, goal, beside=()):
        """Keeps that an edit is refused, or with no goal that it is not."""
        self.left.discard(name)
        was = self.lines.pop(name, {})
        if goal:
            now = {self.kit: Line(own, sum_of, [goal, *sorted(beside)])}
            others = [it for it in was.items() if it[0] != self.kit]
            self.lines[name] = {**now, **dict(others[: TOOLCHAINS - 1])}

    def is_refused(self, name):
        """Keeps that an edit is tried over its texts: it was refused earlier."""
        self.left.discard(name)

    def write(self, names):
        """Writes the lines of these edits, and no others. The file is never half of what it was."""
        with open(f"{self.file}.new", "w", encoding="utf-8") as file:
            for name in sorted(it for it in {*self.lines, *self.left} if it in names):
                file.writelines(f"{name} {kit} {it.own} {it.sum} {' '.join(it.goals)}\n" for kit, it in self.lines.get(name, {}).items())
                file.writelines(f"{name} {LEFT}\n" for _ in {name} & self.left)
        os.replace(file.name, self.file)
