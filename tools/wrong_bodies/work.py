"""The copies in a temporary folder, the checks in them, and what they say of each edit."""
import os
import re
import shutil
import subprocess
import threading
import time
import traceback
from collections import Counter

from .checks import Check
from .edits import say
from .functions import copy_proof, function_at, leave_out, leave_unoffered, proof_of
from .kit import KIT
from .order import Late
from .rounds import end_of, is_control

MEMORY = 3_500_000  # what a check takes, in KiB
ENDED = {0, 1, 2}  # the statuses of a check that came to its end: not 3, where the prover could not tell, nor a signal
BY_PROOF = "refused by its proof alone"
LATER = 30  # s
NO_FUNCTION = "no_such_function"  # where a check is to be of this one alone, it ends before any proof
LOWEST = "19"


def free_memory():
    with open("/proc/meminfo", encoding="utf-8") as lines:
        return next(int(line.split()[1]) for line in lines if line.startswith("MemAvailable"))


def checks_at_once():
    return max(1, min(len(os.sched_getaffinity(0)), free_memory() // MEMORY))


class Work:
    """Checks of copies of crates, so many at once."""

    def __init__(self, options, crates, folder, limit):
        self.options, self.crates, self.folder, self.limit, self.rooms = options, crates, folder, limit, 0
        self.lock, self.used = threading.Lock(), Counter()

    def kept(self, crate):
        """The work of the crate's earlier checks, which later ones take up: of a check of the crate itself, or of a round."""
        rounds = f"{self.folder}/{crate.name}.kept"
        return rounds if os.path.isdir(rounds) else f"{crate.root}/{crate.folder}/out/incremental"

    def command(self, crate, words):
        """A check of a crate by the toolchain's prover, over the libraries that are built."""
        own = [it for it in crate.uses if it in self.crates]
        # Proofs, tests and the programs of the project have the processors first.
        command = ["nice", "-n", LOWEST, f"{KIT}/bin/rattle", "check", "--crate-name", crate.name]
        command += ["src/main.rt" if crate.is_program() else "src/lib.rt"]
        for it in ["std", *(it for it in crate.uses if it not in own)]:
            command += ["--extern", f"{it}={KIT}/rlibs/{it}.rlib"]
        for it in own:
            command += ["--extern", f"{it}={self.crates[it].library}"]
        for it in [f"{KIT}/rlibs", *(os.path.dirname(it.library) for it in crate.below)]:
            command += ["-L", f"dependency={it}"]
        command += ["--antt-project", f"{KIT}/rattle/logic/antt-project.json", "--logic-built", f"{KIT}/logic_built"]
        return [*command, "--incremental", "out/incremental", "--jobs", "1", "--progress", *words]

    def run_check(self, crate, room, words):
        """Runs a check to its end. Returns what it said, its status, the processor seconds that it took, and its slow functions."""
        last, text, slow = None, "", []
        ran = subprocess.Popen(self.command(crate, words), cwd=room, stdin=subprocess.DEVNULL, stdout=subprocess.PIPE,
                               stderr=subprocess.STDOUT, errors="replace", text=True)
        with self.limit.ending(ran):
            for line in ran.stdout:
                text += line
                if line.startswith("checked "):
                    now = time.monotonic()
                    slow += [f"{line.split()[1]} {now - last:.0f} s"] if last and now - last > 10 else []
                    last = now
        _, status, used = os.wait4(ran.pid, 0)
        ran.returncode = -(status & 127) or status >> 8
        seconds = used.ru_utime + used.ru_stime
        with self.lock:
            self.used[crate.name] += seconds
        return text, ran.returncode, seconds, slow

    def check(self, crate, room, tries, words, proofs):
        """Runs a check, and writes down what it took. One that did not come to its end, most likely for memory, is run once more; one
        for which there is no time is late."""
        what = " ".join(end_of(it) if is_control(it) else it.edit.name for it in tries)
        for _ in range(2):
            if not self.limit.allows(crate, tries):
                raise Late
            began = time.monotonic()
            text, status, seconds, slow = self.run_check(crate, room, words)
            if status in ENDED:
                break
            if self.limit.left() <= 0:
                raise Late
            say(f"{crate.name}: a check ended early, with status {status}: {what[:100]}")
        self.limit.note(crate, tries, seconds)
        if self.options.times:
            took = f"{time.monotonic() - began:.0f} s, {seconds:.0f} processor s"
            with self.lock, open(self.options.times, "a", encoding="utf-8") as file:
                print(f"{crate.name}: {took}: {what} {' '.join(slow)}", file=file)
        return Check(text, status, proofs)

    def texts_of(self, crate, tries):
        """The files of the crate with these edits."""
        texts = dict(crate.files)
        for it in (it for it in tries if not it.function):
            texts.update(it.edit.texts)
            leave_out(texts, it.edit.by or "", "", it.left_out)
        for it in sorted((it for it in tries if it.function), key=lambda it: (it.function.opens, not it.suffix), reverse=True):
            path = it.edit.path
            was, function = texts[path], it.function
            head = was[function.begins : function.opens]
            if it.suffix:
                copied = re.sub(r"\bfn (\w+)", rf"fn \1{it.suffix}", head, count=1) + it.body + "}"
                end = function.closes + 1
                texts[path] = f"{was[:end]}\n\n{copied}{was[end:]}"
                copy_proof(texts, proof_of(crate, function.path), it.suffix)
            else:
                texts[path] = was[: function.opens] + it.body + was[function.closes :]
            leave_out(texts, function.path, it.suffix, it.left_out | it.aside)
            if it.in_brief:
                leave_unoffered(crate, texts, function.path, it.suffix, it.aside)
        return texts

    def with_tries(self, crate, tries, only=None):
        """Checks a copy of the crate with these edits: their functions, or the one that is named. Returns what was said, and of which
        edits the text does not read."""
        with self.lock:
            self.rooms += 1
            room = f"{self.folder}/{self.rooms}"
        texts = self.texts_of(crate, tries)
        try:
            for path, text in texts.items():
                os.makedirs(os.path.dirname(f"{room}/{path}"), exist_ok=True)
                with open(f"{room}/{path}", "w", encoding="utf-8", newline="") as file:
                    file.write(text)
            # A check replaces what it keeps, and never writes it in place: links serve.
            if os.path.isdir(self.kept(crate)):
                shutil.copytree(self.kept(crate), f"{room}/out/incremental", copy_function=os.link)
            words = [word for it in ([only] if only else map(end_of, tries)) if it for word in ("--only", it)]
            check = self.check(crate, room, tries, words, {it: text for it, text in texts.items() if it.startswith("proofs/")})
            with self.lock:
                if not os.path.isdir(f"{self.folder}/{crate.name}.kept") and os.path.isdir(f"{room}/out/incremental"):
                    os.rename(f"{room}/out/incremental", f"{self.folder}/{crate.name}.kept")
        finally:
            shutil.rmtree(room, ignore_errors=True)
        unread = {}
        for path, line, words in check.errors:
            # Of a crate that reads well the prover says, by its name, which item of src/ it refuses.
            if path.startswith("src/") and not (check.states and words.startswith("`")):
                place = function_at(path, texts[path], int(line))
                unread.update({it: f"{path}:{line}: {words}" for it in tries if not it.function or it.function.path + it.suffix == place})
        return check, unread

    def read_round(self, crate, tries):
        """Tells of each edit whether its text reads, by a check that proves nothing."""
        check, unread = self.with_tries(crate, tries, NO_FUNCTION)
        for it in tries:
            if it in unread:
                it.edit.tell("BAD EDIT", f"it does not read: {unread[it][:200]}")
        if check.status not in (1, 2) or (check.status == 1) != bool(unread):
            raise SystemExit(f"wrong-bodies: {crate.name} does not read, whatever the edits: {check.text.strip()[-200:]}")

    def try_round(self, crate, tries):
        """Tries edits by one check, and once more those of which it does not tell. Each has its verdict then, if there was time. A round
        that the system does not let be made, since no disk is left, say, is made once more a little later."""
        for left in (1, 0):
            try:
                self.judge(crate, tries)
                return
            except Late:
                return
            except OSError as why:
                if left:
                    say(f"{crate.name}: a round ended early: {why!r:.300}")
                    time.sleep(LATER)
                    continue
                fault = why
            except Exception as why:  # its edits are told, and the others are tried
                say(traceback.format_exc())
                fault = why
            for it in (it for it in tries if not is_control(it) and not it.edit.verdict):
                it.edit.tell("NOT TRIED", f"{fault!r:.300}")
            return

    def judge(self, crate, tries):
        """Makes a round, and tells what it says of each edit."""
        check, unread = self.with_tries(crate, tries)
        # Nothing is said of edits beside a control that is not proved: their copies lack something.
        seconds = {it.edit: it for it in tries if it.is_second}
        controls = [it.function for it in tries if is_control(it)]
        unsure = {it.function for it in tries if is_control(it) and not check.is_proved(check.symbol_of(end_of(it)))}
        crate.copies.update({*controls} - unsure)
        left, unfit = [], []
        for it in (it for it in tries if not is_control(it) and not it.is_second):
            symbol = end_of(it) and check.symbol_of(end_of(it))
            goals = check.open_goals(symbol)
            if not goals and it.edit in seconds and seconds[it.edit].left_out <= check.unfit_answers(symbol):
                # The answer that the try beside it leaves out does not fit: that one tells whether the search leaves its goal open.
                goals = check.open_goals(check.symbol_of(end_of(seconds[it.edit])))
            if it in unread:
                it.edit.tell("BAD EDIT", f"it does not read: {unread[it][:200]}")
            elif check.is_uncovered(symbol):
                it.edit.tell("BAD EDIT", "the borrow checker does not cover it, so that no contract was tried")
            elif goals and it.function not in unsure:
                it.edit.tell("refused", f"{goals[0][0]}: {goals[0][1]}")
                opened = [name for each in {it, seconds.get(it.edit, it)} for name, *_ in check.goals.get(check.symbol_of(end_of(each)), [])]
                it.edit.beside = it.aside.union(opened) - {goals[0][0]}
            elif check.unfit_answers(symbol) - it.left_out and it.function not in unsure:
                # An answer shows something else than is to be shown now: does the search leave the goal open too?
                unfit.append(it._replace(left_out=it.left_out | check.unfit_answers(symbol)))
            elif len(tries) > 1 or it.in_brief:
                left.append(it)
            elif not check.states:
                it.edit.tell("BAD EDIT", f"no function was reached: {check.text.strip()[-200:]}")
            elif check.is_proved(symbol):
                it.edit.tell("PASSED", "it is still proved")
            elif check.proof_error(symbol):
                it.edit.tell(BY_PROOF, check.proof_error(symbol))
            else:
                it.edit.tell("UNCLEAR", "it is not proved, yet for no reason of its own")
        if left and unread and not check.states:
            # Where some did not compile, nothing was said of the others.
            edits = {it.edit for it in left}
            self.try_round(crate, [it for it in tries if it.edit in edits and it not in unread])
            return
        if unfit:
            self.try_round(crate, unfit)
        # Another goal may refuse an edit now.
        whole = [it._replace(aside=frozenset()) for it in left if it.aside]
        if whole:
            self.try_round(crate, whole)
        for it in (it for it in left if not it.aside):
            self.try_round(crate, [it._replace(suffix="", in_brief=False)])
