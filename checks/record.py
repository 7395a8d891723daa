#!/usr/bin/env -S python3 -B
"""The two records that a release is compared with. proved.txt, which is committed, has what the last gate that passed has proved: the kit's words, and for each
crate of crates.txt two checksums, of its code with its line there, and of its definitions and proofs. checks/gate writes it.

The record of the whole check has the kit's words, how many steps passed and were skipped, how many tests there are, and one checksum of all that was
committed but proved.txt, by which it is kept on this machine: by ./check, where no step failed or lacked a tool, and nothing but what is committed stood
here from its begin to its end. What makes a release puts it in as checked.txt.

usage: checks/record.py               says of which crates the sources are others than proved.txt has, and whether the kit is
       checks/record.py --release     as well whether anything isn't committed, or the whole check hasn't passed on it; else it prints the record
"""
import hashlib, os, pathlib, re, shutil, sys

from rattle_source import CACHE, TOP, read, read_list, said_by, sources

PROVED = "proved.txt"
HEAD = "# What the last gate that passed has proved (checks/record.py): the checksums of each crate's code, and of its definitions and proofs."
HEAD_OF_CHECKED = "# What the whole check passed on (checks/record.py): the checksum of all that was committed but proved.txt."


def sum_of(paths, *texts):
    """The checksum of some files, with their names, and of texts."""
    parts = [part for path in paths for part in (path.encode(), pathlib.Path(TOP, path).read_bytes())]
    return hashlib.sha256(b"\0".join([*map(str.encode, texts), *parts])).hexdigest()


def sums():
    """The line of each crate."""
    for name, libraries in read_list().items():
        code = sum_of(sources(name), f"{name}: {' '.join(libraries)}")
        yield f"{name} {code} {sum_of(sources(name, parts=('specs', 'proofs')))}"


def kit(or_none=False):
    """The words of the kit that say by which logic it proves; of none where there is none, and that will do."""
    return "none" if or_none and not shutil.which("rt") else re.search(r"logic \w+", said_by("rt", "version"))[0]


def named_kit():
    """Those of the kit that README names."""
    return ", ".join(re.findall(r"`(logic \w+)`", read("README.md")))


def write_proved(words, *lines):
    pathlib.Path(TOP, PROVED).write_text("\n".join([HEAD, f"kit: {words}", *lines, ""]), encoding="utf-8")


def recorded(expression=r"^\w+ \w{64} \w{64}$"):
    """The lines of the crates that were proved."""
    return re.findall(expression, read(PROVED), re.M)


def keep_proved(proved):
    """Keeps what a gate that has passed over sources of these checksums has proved, where the record is another and no source has changed since. Returns
    whether it was another."""
    is_other = recorded("^kit: (.*)$") != [kit()] or recorded() != proved
    if is_other and proved == [*sums()]:
        write_proved(kit(), *proved)
    return is_other


def uncommitted(*but):
    """The names of what stands here and isn't committed, but for some files."""
    lines = said_by("git", "status", "--porcelain", "-z", "--no-renames", "--untracked-files=normal").split("\0")
    return [line[3:] for line in lines if line and line[3:] not in but]


def tree(commit="HEAD"):
    """The checksum of a commit, but for proved.txt: of each file's kind, its checksum by git and its name."""
    lines = said_by("git", "ls-tree", "-r", "-z", commit).split("\0")[:-1]
    return hashlib.sha256("\0".join(line for line in lines if line.partition("\t")[2] != PROVED).encode()).hexdigest()


def committed():
    """The checksum of what is committed, empty where something else stands here, but for proved.txt."""
    return "" if uncommitted(PROVED) else tree()


def checked(of):
    """The record of the whole check on a tree, empty where there is none. A clone for the checks of releases has one of its own, in out/."""
    return read(f"out/checked/{of}") or read(f"{CACHE}/checked/{of}")


def write_checked(folder, of, steps):
    import counts  # (which asks for nothing here)

    lines = HEAD_OF_CHECKED, f"kit: {named_kit()}", f"steps: {steps}", f"tests: {counts.tests()}", f"tree: {of}"
    os.makedirs(f"{folder}/checked", exist_ok=True)
    pathlib.Path(folder, "checked", of).write_text("".join(f"{line}\n" for line in lines), encoding="utf-8")


def keep_checked(passed, failed, skipped, before):
    """Keeps what a whole check has passed on, where it has; says what it did."""
    reasons = [f"{failed} failed"] * (failed > 0) + [f"{skipped} lack a tool"] * (skipped > 0)
    reasons += ["the check began with something that isn't committed"] * (not before) + ["something changed while it ran"] * (committed() != before)
    if reasons:
        return f"no record of the whole check is kept: {reasons[0]}"
    write_checked(CACHE, before, f"{passed} passed, {skipped} skipped")
    return f"the record of the whole check is kept, as {CACHE}/checked/{before}"


def not_proved():
    """What is other than proved.txt has."""
    if recorded("^kit: (.*)$") != [named_kit()]:
        yield f"{PROVED}: the gate hasn't proved this by the kit that README names, {named_kit()}; ./check does, and writes this file"
    if left := re.sub(r"^(#.*|kit: .*|\w+ \w{64} \w{64})\n", "", read(PROVED), flags=re.M):
        yield f"{PROVED}: the gate writes no {left!r}"
    for name in sorted({line.split()[0] for line in {*sums()} ^ {*recorded()}}):
        yield f"{PROVED}: the gate hasn't proved {name} as it is; ./check does, and writes this file"


def not_checked():
    """What isn't committed, and whether the whole check hasn't passed on what is; with the last commit on which it has."""
    yield from (f"{path} isn't committed as it is: a release is made of what is" for path in uncommitted())
    if not checked(tree()):
        commits = said_by("git", "rev-list", "--max-count=100", "HEAD").split()
        last = next((commit for commit in commits if checked(tree(commit))), "none of the last 100 commits here")
        yield f"the whole check hasn't passed on what is committed, but on {last}. ./check passes on it, or says why not"


if __name__ == "__main__":
    if sys.argv[1:] not in ([], ["--release"]):
        sys.exit("usage: checks/record.py [--release]")
    is_release = len(sys.argv) > 1
    wrong = [*not_proved(), *(not_checked() if is_release else [])]
    print(end=checked(tree()) if is_release and not wrong else "")
    sys.exit("\n".join(wrong) or None)
