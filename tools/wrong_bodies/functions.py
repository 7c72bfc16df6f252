"""The functions of a source file, found by its layout."""
import re
from collections import namedtuple

# A function: its path below the crate, where it and its body begin and end in the text of its file, and
# whether it may stand there twice, under two names.
Function = namedtuple("Function", "path begins opens closes is_copied")
HEAD = re.compile(r"( *)(?:pub(?:\([\w ]+\))? )?(?:const )?fn (\w+)")
IMPL = re.compile(r"impl(?:<(.*?)>)? (?:(\S.*?) for )?(\w+)(?:<([^{]*)>)? ?(?:\{|where)")
TRAIT = re.compile(r"(?:pub )?trait (\w+)")
# The name of an answer that cannot be read, by which a check is told to print no more than that a function is not proved.
UNOFFERED = "not_offered"
# A declaration of a proof: an answer to the goal of its name, or a lemma of its own.
DECLARED = re.compile(r"(?m)^(?:abbrev |abstract )*(?:pub )?(\S+) :(?= |$)( goal\.)?")


def owner_of(impl):
    """How a check names an impl: by its type, with the arguments where they are not its own parameters, and by the trait and its arguments."""
    own, trait, owner, arguments = impl.groups()
    parameters = re.findall(r"(?:^|, )(?:const )?('?\w+)", own or "")
    given = [it for it in (arguments or "").split(", ") if it and not it.startswith("'")]
    if not trait and any(it not in parameters for it in given):
        owner = "+".join([owner, *given])
    words = re.findall(r"(?<!')\b[A-Za-z]\w+\b(?!::)", trait or "")
    return owner + "".join(it[0].upper() + it[1:] for it in words), bool(trait)


def functions_of(path, text):
    """The functions of a file that `rt fmt` laid out: a body ends at a brace right below its `fn`."""
    module = [it for it in path[len("src/") : -len(".rt")].split("/") if it not in ("lib", "main", "mod")]
    found, owner, of_trait, head, begins, opens, at = [], "", False, None, None, None, 0
    for line in text.splitlines(True):
        if not head and line.startswith("impl"):
            # Its head may go on over some lines.
            owner, of_trait = owner_of(IMPL.match(" ".join(text[at : text.index("{", at) + 1].split())))
        elif not head and TRAIT.match(line):
            owner, of_trait = TRAIT.match(line)[1], True
        elif not head and HEAD.match(line):
            head, opens = HEAD.match(line), None
            begins = at if begins is None else begins
        elif not head:
            # Attributes belong to the function below them.
            begins = (at if begins is None else begins) if line.strip().startswith("#[") else None
        if head and re.match(head[1] + r"\S", line):
            if opens is None and line.endswith("{\n"):
                opens = at + len(line) - 1
            elif opens is None and line == head[1] + "{}\n":
                head = begins = None
            elif line == head[1] + "}\n":
                names = [*module, owner, head[2]] if head[1] else [*module, head[2]]
                is_copied = head[2] != "main" and not (head[1] and of_trait)
                found.append(Function("::".join(names), begins, opens, at + len(head[1]), is_copied))
                head = begins = None
            elif opens is None and line.endswith((";\n", "}\n")):
                head = begins = None
        at += len(line)
    return found


def function_at(path, text, number):
    """The function in whose body a line of a file is."""
    at = len("".join(text.splitlines(True)[: number - 1]))
    return next((it.path for it in functions_of(path, text) if it.opens <= at < it.closes), None)


def is_in_a_cycle(crate, path):
    """Whether a function calls itself: its proof then stands in a folder of the cycle, as `+name`."""
    return any(f"/+{path.split('::')[-1]}/" in it for it in crate.files)


def proof_of(crate, path):
    """The folder of a function's proof, if one is written: of a method where its type stands."""
    *_, owner, name = ["", *path.split("::")]
    folders = {it.rpartition("/")[0] for it in crate.files if it.startswith("proofs/")}
    at = f"proofs/{path.replace('::', '/')}"
    found = [it for it in folders if it.endswith(f"/{owner}/{name}")] if owner[:1].isupper() else []
    return at if at in folders else found[0] if len(found) == 1 else None


def place_of_proof(crate, path):
    """The folder in which a check looks for a function's proof, whether one is written or not: of a type's own method where the type
    stands, of any other where it stands itself; None where two types have the name."""
    *module, owner, name = ["", *path.split("::")]
    if not owner[:1].isupper():
        return f"proofs/{path.replace('::', '/')}"
    declared = re.compile(rf"(?m)^(?:pub(?:\([\w ]+\))? )?(?:struct|enum) {owner}\b")
    files = [it for it, text in crate.files.items() if it.startswith("src/") and declared.search(text)]
    if not files:
        return f"proofs/{path.replace('::', '/')}"
    return f"proofs/{files[0][len('src/') : -len('.rt')]}/{owner}/{name}" if len(files) == 1 else None


def leave_unoffered(crate, texts, path, suffix, aside):
    """Writes answers that cannot be read into a function's proof: to the goals that are set aside, so that no search is made for them,
    and one more. A check prints how to go on with a function that is not proved, which can take as long as all else, but not with
    one of whose answers it refuses any."""
    folder = proof_of(crate, path) or place_of_proof(crate, path)
    if folder:
        file = f"{folder}{suffix}/Answers.antt"
        unread = (f"\npub {it} : {UNOFFERED}_here\n{it} = {UNOFFERED}_here\n" for it in (UNOFFERED, *sorted(aside)))
        texts[file] = texts.get(file, "") + "".join(unread)


def copy_proof(texts, folder, suffix):
    """Puts a copy of a function's proof under the name of its copy."""
    module = re.escape(folder[len("proofs/") :].replace("/", ".")) if folder else ""
    for name in [it for it in texts if folder and it.startswith(f"{folder}/")]:
        text = re.sub(rf"\bproofs\.{module}\b", rf"\g<0>{suffix}", texts[name])
        texts[f"{folder}{suffix}{name[len(folder):]}"] = text


def parts_of(text):
    """The declarations of a proof, by their names, each with its text and whether it answers a goal."""
    parts = [(it, DECLARED.findall(it)) for it in re.split(r"\n{2,}", text)]
    return {name: (it, bool(is_answer)) for it, found in parts for name, is_answer in found}


def has_answer(crate, path, goal):
    """Whether the proof of a function has an answer to a goal."""
    folder = proof_of(crate, path)
    text = crate.files.get(f"{folder}/Answers.antt", "") if folder else ""
    return parts_of(text).get(goal, ("", False))[1]


def goals_at(text, number):
    """The goals whose answers a line of a proof belongs to: its own, or those of the answers that use the lemma that it is of."""
    above = "\n".join(text.split("\n")[:number])
    names, parts = {name for name, _ in DECLARED.findall(above)[-1:]}, parts_of(text)
    while more := {it for it, (part, _) in parts.items() if it not in names and names & {*re.split(r"[\s(),]+", part)}}:
        names |= more
    return {it for it in names if parts.get(it, ("", False))[1]}


def leave_out(texts, path, suffix, goals):
    """Leaves the answers to some goals out of the stored proof of a function; all of the proof where no answer is left."""
    name = path.split("::")[-1]
    ends = tuple(f"/{it}{suffix}/Answers.antt" for it in (name, f"+{name}"))
    for file in [it for it in texts if goals and it.endswith(ends)]:
        parts = re.split(r"\n{2,}", texts[file])
        left = "\n\n".join(it for it in parts if not goals & {name for name, _ in DECLARED.findall(it)})
        if any(is_answer for _, is_answer in DECLARED.findall(left)):
            texts[file] = left
        else:
            del texts[file]
