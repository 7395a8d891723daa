#!/usr/bin/env -S python3 -B
"""A ratchet. From a commit to the next no kind of what KINDS counts falls, and none of what FEWER counts rises, unless the commit's message has a line 'counts:
WHY'. It looks at each commit since the branch left main, on main at the last ones, and counts in what git has of them. In checks/steps.toml stands each check,
and each crate that has wrong bodies, with all its parts."""
import collections, functools, os, pathlib, re, subprocess

from rattle_source import TOP, finish, read, said_by

LAST = 30  # commits, on main
STEPS = "checks/steps.toml"
LINE_OF_CODE = r"^\s*(?!//|#\[doc)\S"
# a kind: the files, and what counts in them: lines with this, or where there is none the file
KINDS = {
    "tests of Rust": (r"(rust|crates)/.*\.r[st]", r"^\s*#\[test\]"),
    "fences of examples in docs of Rust": (r"rust/src/.*\.rs", r"^\s*//[/!] *```"),
    "rows of tests": (r"rust/tests/rows/.*\.rs|crates/\w+_tests/src/.*\.rt|rust/tests/refused/calls\.txt|checks/refused_calls\.txt", r"^[^ /#].* => "),
    "tests of Python": (r"bindings/python/\w+\.py", r"^ +def test"),
    "lines of examples of Python": (r"bindings/python/.*\.(py|md)", r"^\s*>>> "),
    "checks in tests of C": (r"bindings/c/\w+\.(c|cpp|h)", r"\bCHECK\("),
    "examples in the headers for C": (r"bindings/c/ndarray_layout\w*\.h", r"^ \* {4}\w.* == "),
    "examples": (r"(rust|rust/over_image/src|bindings/\w+)/(examples|bin)/.*\.(rs|py|c)", None),
    "steps of the check": (STEPS, r"^.* = \{ run = "),
    "parts of steps": (r"checks/\w+", r"^ *(run|run_both|report|answers|ends|run_step) \S"),
    "planted faults": (r"checks/planted\.toml", r"^ *\[\""),
    "wrong bodies": (r"(crates|threads)/\w+/wrong/.*\.edit", None),
    "commands of the workflow": (r"\.github/workflows/.*\.yml", r"^ *(- )?run: "),
}
FEWER = {
    **{f"lines by hand in rust/src/{name}": (rf"rust/src/{name}(/.*)?\.rs", LINE_OF_CODE) for name in ("arrays", "convenience", "compat")},
    "tests that are left out": (r".*\.(rs|rt|py)", r"^\s*(#\[ignore|@unittest\.(skip\(|expected)|self\.skipTest|raise unittest\.SkipTest)"),
    "steps of the workflow that may fail, or be left out": (r"\.github/workflows/.*\.yml", r"continue-on-error|\|\| *(true|:)|^ *(- )?if:"),
}
EXPRESSIONS = {kind: (re.compile(files), lines and re.compile(lines, re.M)) for kind, (files, lines) in {**KINDS, **FEWER}.items()}


@functools.cache
def blobs():
    """What prints each blob that it is told."""
    return subprocess.Popen(["git", "cat-file", "--batch"], cwd=TOP, stdin=subprocess.PIPE, stdout=subprocess.PIPE)


@functools.cache
def counts_in(path, blob):
    """How many there are in a file, of each kind that counts in it."""
    kinds = {kind: lines for kind, (files, lines) in EXPRESSIONS.items() if files.fullmatch(path)}
    text = ""
    if any(kinds.values()):
        blobs().stdin.write(f"{blob}\n".encode())
        blobs().stdin.flush()
        size = int(blobs().stdout.readline().split()[2])
        text = blobs().stdout.read(size + 1).decode(errors="replace")
    return {kind: len(lines.findall(text)) if lines else 1 for kind, lines in kinds.items()}


@functools.cache
def counts_of(commit):
    """How many there are of each kind in a commit."""
    found = collections.Counter(dict.fromkeys(EXPRESSIONS, 0))
    for line in said_by("git", "ls-tree", "-r", "-z", commit).split("\0")[:-1]:
        head, _, path = line.partition("\t")
        found.update(counts_in(path, head.split()[2]))
    return found


def tests():
    """How many tests there are, by language."""
    count = counts_of("HEAD")
    return ", ".join(f"{count[kind]} {kind}" for kind in KINDS if "tests" in kind)


def faults():
    base = said_by("git", "merge-base", "HEAD", "origin/main", check=False, stderr=subprocess.DEVNULL).strip()
    is_main = not base or base == said_by("git", "rev-parse", "HEAD").strip()
    for line in said_by("git", "rev-list", "--parents", *([f"--max-count={LAST}", "HEAD"] if is_main else [f"{base}..HEAD"])).splitlines():
        commit, *parents = line.split()
        parents = [parent for parent in parents if said_by("git", "ls-tree", parent, "checks/counts.py")]  # (which have this check)
        subject, _, text = said_by("git", "log", "-1", "--format=%s%n%b", commit).partition("\n")
        for kind, now in counts_of(commit).items() if parents and not re.search(r"^counts: \S", text, re.M) else ():
            before = [counts_of(parent)[kind] for parent in parents]
            if now > max(before) if kind in FEWER else now < min(before):
                yield f"{commit[:8]} {subject}: {now} {kind}, before it {' and '.join(map(str, before))}: its message says no 'counts: WHY'"


def not_listed():
    """Each check, and each part of the wrong bodies of a crate, that no step runs."""
    steps = read(STEPS)
    checks = sorted(path.name for path in pathlib.Path(TOP, "checks").iterdir() if os.access(path, os.X_OK) and not path.suffix)
    checks.remove("checked_clone")  # (which other checks call)
    yield from (f"{STEPS}: no step runs checks/{name}" for name in checks if not re.search(rf'run = ".*\bchecks/{name}\b', steps))
    for crate in sorted(path.parent.name for path in pathlib.Path(TOP).glob("crates/*/wrong")):
        parts = re.findall(rf'run = "checks/edits {crate}(?: (\d+)/(\d+))?"', steps)
        if not parts or sorted(parts) != sorted((str(at + 1), parts[0][1]) for at in range(int(parts[0][1] or 0))) and parts != [("", "")]:
            yield f"{STEPS}: no step tries the wrong bodies of {crate}, or not all parts of them"


if __name__ == "__main__":
    print(*(f"{count:6}  {kind}" for kind, count in counts_of("HEAD").items()), sep="\n")
    finish([*faults(), *not_listed()])
