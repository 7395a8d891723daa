"""The wrong bodies of crates/NAME/wrong, as the checks that list and try them read them. A file NAME.edit is one. Its line 'refused by: FUNCTION GOAL' names
the public call and the goal, that of a clause, which has to be left open. Then come a file of the crate and, as often as need be, what stands once in it
and what is put in its place, each text in a line.

usage: python3 checks/wrong_bodies.py FOLDER <SAID     prints the functions and goals that the prover refuses, by what it says of the crate in a folder
"""
import dataclasses, pathlib, re, sys

from rattle_source import TOP, read

LINE = re.compile(r"(refused by|file|old|new): ?(.*)")
IN_ORDER = re.compile(r"refused by (?:file (?:old new )+)+")
# the goals of clauses, and of the invariant of a type that a call returns, which says what no clause sees
PROMISE = re.compile(r"(?:returns|invariant_of-result)(?:-\S+)?")
FUNCTION = re.compile(r"^(?P<indent> *)(?P<access>pub(?:\(\w+\))? )?(?:final |const |unsafe |extern \"C\" )*fn (?P<name>\w+)", re.M)
# what a function stands in: an impl for a type, or a public trait, whose functions are as public as it is
OWNER = re.compile(r"^(?:impl(?:<.*?>)? (?P<trait>.* for )?(?:&\S* )?|(?P<public>pub )?(?:pub\(\w+\) )?trait )(?P<type>\w+)", re.M)
PUBLIC = re.compile(r"^pub use [^;]*;", re.M)
# what the prover says, with the indented lines that follow: of a goal that a proof file answers, of one that it searches for, and of a function
SAID = re.compile(r"^\S.*(?:\n[ \t]+.*)*", re.M)
ANSWERED = re.compile(r"\./proofs/(\S+)/Answers\.antt:\S+ error: `([^`]+)`")
UNSEEN = re.compile(r"\./proofs/(\S+)/Answers\.antt:\S+ error: \d+ declarations? that depends? on (.*) not checked: (.*?)(?: and \d+ more)?$", re.M)
SEARCHED = re.compile(r"note: src/\S+ it is not proved that .*?\(`([^`]+)`\)")
VERDICT = re.compile(r"fn \w+::(\S+): (.*)")
# a limit of the prover's own, or of the machine, or a name that the proof cites and the body lacks: it has refused nothing then
LIMIT = r"\bran out of (?:time|stack|memory|the (?:steps|memory) that)|outgrew the memory limit|stopped at the step limit|could not tell"
LIMIT = re.compile(LIMIT + r"|error: `[^`]+`: (?:`[^`]+`: )?(?:record|module) `[^`]+` has no ")


@dataclasses.dataclass(frozen=True)
class Edit:
    """A wrong body: its file, the function that has it, the goal that refuses it, and its changes, each a file, an old text and a new one."""
    path: str
    function: str
    goal: str
    changes: tuple
    crate = property(lambda self: self.path.split("/")[1])
    name = property(lambda self: pathlib.PurePath(self.path).stem)


def read_edit(path):
    """The edit that a file has. A `ValueError` says what it lacks."""
    lines = [LINE.fullmatch(line) for line in read(path).splitlines()]
    in_order = path.endswith(".edit") and all(lines) and IN_ORDER.fullmatch("".join(f"{line[1]} " for line in lines))
    if not in_order or len(lines[0][2].split()) != 2:
        raise ValueError(f"{path}: an edit is NAME.edit, with lines 'refused by', a function and a goal, 'file', 'old' and 'new'")
    told, changes = {}, []
    for word, text in (line.groups() for line in lines):
        told[word] = text
        if word == "new":
            changes.append((told["file"], told["old"], text))
    return Edit(path, *lines[0][2].split(), tuple(changes))


def faults_of(edit):
    """What is wrong with an edit in itself: it changes nothing, or what isn't there, or what is no code; or what refuses it is no promise of a public call."""
    texts = [read(f"crates/{edit.crate}/{file}") if file.startswith("src/") else "" for file, _, _ in edit.changes]
    for text, (file, old, new) in zip(texts, edit.changes):
        if not old or text.count(old) != 1 or old.split() == new.split():
            yield f"{edit.path}: what it replaces doesn't stand once in src/, in {file}, or is the new text"
    if not PROMISE.fullmatch(edit.goal):
        yield f"{edit.path}: {edit.goal} is the goal of no clause"
    if not any(is_in_call(edit, text.partition(old)[0]) for text, (_, old, _) in zip(texts, edit.changes)):
        yield f"{edit.path}: {edit.function} is no public call in which it changes something"


def is_in_call(edit, text):
    """Whether a text of a file of the crate, up to what an edit replaces, ends in the edit's function, and this is a public one."""
    *_, function = [None, *FUNCTION.finditer(text)]
    if not function or function["name"] != edit.function.rpartition("::")[2]:
        return False
    *_, owner = [None, *OWNER.finditer(text)] if function["indent"] else [None]
    is_public = function["access"] == "pub " or owner and (owner["trait"] or owner["public"])
    passed_on = " ".join(PUBLIC.findall(read(f"crates/{edit.crate}/src/lib.rt")))
    is_reached = re.search(rf"\b{owner['type'] if owner else function['name']}\b", passed_on)
    is_export = "no_mangle" in text[: function.start()].rpartition("\n\n")[2]
    return bool(is_public and (is_reached or is_export))


def read_edits():
    """The edits that can be tried, and what is wrong with the others."""
    edits, faults = [], []
    for path in sorted(str(file.relative_to(TOP)) for file in pathlib.Path(TOP).glob("crates/*/wrong/*")):
        try:
            edits.append(read_edit(path))
        except ValueError as error:
            faults.append(str(error))
    wrong = {edit: found for edit in edits if (found := [*faults_of(edit)])}
    return [edit for edit in edits if edit not in wrong], [*faults, *(fault for found in wrong.values() for fault in found)]


def refused_goals(folder, said):
    """The goals that the prover has refused of the crate in a folder, as pairs of a function and a goal; and each function that it has left unproved for
    another reason than that it calls one such. What it says of a goal that it searches for stands above its line on the function."""
    goals, wrong, searched = set(), set(), []
    for text in SAID.findall(said):
        found = set()
        if told := ANSWERED.match(text):
            function = told[1].replace("/", "::")
            found = {(function, told[2])}
            wrong.add(function)
        elif told := UNSEEN.match(text):
            # goals whose proof was not looked at, where none of what they rest on is another goal
            text_of_proof = pathlib.Path(folder, "proofs", told[1], "Answers.antt").read_text(encoding="utf-8")
            is_lemma = not any(f"pub {name} : goal.{name}\n" in text_of_proof for name in re.findall(r"`([^`]+)`", told[2]))
            found = {(told[1].replace("/", "::"), goal) for goal in re.findall(r"[\w-]+(?=,| \(|$)", told[3]) if is_lemma}
        elif told := SEARCHED.match(text):
            searched += [] if LIMIT.search(text) else [told[1]]
        elif told := VERDICT.match(text):
            found = {(told[1], goal) for goal in searched}
            wrong |= {told[1]} if searched or not told[2].startswith("proved") and "it calls" not in told[2] else set()
            searched = []
        goals |= set() if LIMIT.search(text) else found
    return goals, wrong


if __name__ == "__main__":
    print(*sorted(" ".join(goal) for goal in refused_goals(sys.argv[1], sys.stdin.read())[0]), sep="\n")
