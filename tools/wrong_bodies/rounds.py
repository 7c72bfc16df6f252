"""Which edits are tried by one check: a contract is all that a caller knows of a function, so one copy of a crate can hold many."""
from collections import namedtuple

from .functions import has_answer, is_in_a_cycle, proof_of

# An edit, or none, in a function; with a suffix it is in a copy of the function. Where its body is the function's own it is a control.
# The stored answers to some of its goals may be left out. What is tried in brief is not told how to go on where it is not proved, and
# goals may be set aside: for these no search is made. So an edit that opened several goals is tried by the one that refused it last, which
# is open or not whatever becomes of the others. A second try of an edit stands beside the first, and counts where a stored answer does
# not fit the first.
Try = namedtuple("Try", "edit function body suffix left_out in_brief aside is_second", defaults=[frozenset(), False, frozenset(), False])


def end_of(it):
    """The end of the name of a try's function, as a check takes it: of a method its type and itself."""
    path = it.function.path + it.suffix if it.function else it.edit.by or ""
    return "::".join(path.split("::")[-2:])


def is_control(it):
    return it.edit.body != it.body


def rounds_of(crate, edits, most):
    """Divides edits of a crate into few rounds of about one size. A function is copied for each of its edits, and once as it is
    where its proof is written, unless that copy was proved earlier; and twice for an edit that was last refused by a goal with a
    stored answer, once without the answer, which spares a check. One that cannot be copied has an edit a round, among others of
    its kind: beside an edit in place nothing is known of who calls its function."""
    alone, groups = [], {}
    for it in edits:
        if it.body:
            groups.setdefault(it.function, []).append(it)
        else:
            alone.append([Try(it, None, None, "")])
    copied, placed = [], []
    for function, its in groups.items():
        if not function.is_copied:
            in_brief = not is_in_a_cycle(crate, function.path)
            for at, it in enumerate(its):
                placed += [[]] if at == len(placed) else []
                placed[at].append(Try(it, function, it.body, "", in_brief=in_brief, aside=it.beside if in_brief else frozenset()))
            continue
        tries = [Try(it, function, it.body, f"_w{at}", in_brief=True, aside=it.beside) for at, it in enumerate(its, 1)]
        with_answer = [it for it in tries if has_answer(crate, function.path, it.edit.last_goal)]
        tries += [it._replace(suffix=f"{it.suffix}s", left_out=frozenset([it.edit.last_goal]), is_second=True) for it in with_answer]
        if proof_of(crate, function.path) and function not in crate.copies:
            was = crate.files[its[0].path][function.opens : function.closes]
            tries.append(Try(its[0], function, was, "_w0"))
        copied.append(tries)
    rounds = [[] for _ in range(-(-sum(map(len, copied)) // most))]
    for tries in sorted(copied, key=len, reverse=True):
        min(rounds, key=len).extend(tries)
    return [*rounds, *placed, *alone]
