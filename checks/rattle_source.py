"""What the checks, the tools and bench/ share: the files of the repository, and the crates that crates.txt lists, each after its libraries."""
import os, pathlib, re, subprocess, sys

TOP = str(pathlib.Path(__file__).resolve().parents[1])
PARTS = ("src", "specs", "proofs")
# what is kept on this machine of earlier checks, outside each clone
CACHE = os.path.join(os.environ.get("XDG_CACHE_HOME") or os.path.expanduser("~/.cache"), "pahluode")


def read(path):
    """The text of a file of the repository, empty where there is none."""
    file = pathlib.Path(TOP, path)
    return file.read_text(encoding="utf-8") if file.is_file() else ""


def said_by(*words, **how):
    """What a command prints, at the top of the repository."""
    return subprocess.run(words, **{"cwd": TOP, "check": True, "stdout": subprocess.PIPE, "text": True, **how}).stdout


def files(*patterns):
    """The files that git knows or would add, of some patterns, sorted."""
    found = said_by("git", "ls-files", "-z", "--cached", "--others", "--exclude-standard", "--", *patterns).split("\0")
    return sorted({path for path in found if os.path.isfile(os.path.join(TOP, path))})


def finish(found):
    """Prints what a check has found wrong, and ends it by its status."""
    print(*found, sep="\n", end="\n" * bool(found))
    sys.exit(bool(found))


def sources(*crates, parts=("src",)):
    """The paths of the sources of some crates, sorted: their code, or what stands in other parts of their folders."""
    folders = (pathlib.Path(TOP, "crates", crate, part) for crate in crates for part in parts)
    return sorted(str(file.relative_to(TOP)) for folder in folders for file in folder.rglob("*") if file.suffix in (".rt", ".antt"))


def read_list():
    """The libraries that each crate uses, in the order of crates.txt."""
    lines = (line.partition("#")[0].partition(":") for line in read("crates.txt").splitlines())
    return {head.split()[0]: libraries.replace(",", " ").split() for head, _, libraries in lines if head.strip()}


def crates_below(name):
    """A crate and all that it depends on, each after the libraries that it uses."""
    crates = read_list()
    below = (crate for library in crates[name] if library in crates for crate in crates_below(library))
    return [*dict.fromkeys(below), name]


def sums_of(name, *made):
    """The checksums of crates.txt, of the sources of a crate and of those below it, and of what was made of them."""
    return said_by("sha256sum", "crates.txt", *sources(*crates_below(name), parts=PARTS), *made)


def library(name):
    """The folder of a crate's proved library: in a check where the gate put it once it was proved, else where the gate or `rt check` left it."""
    return f"{os.environ['PROVED']}/{name}" if os.environ.get("PROVED") else f"{TOP}/crates/{name}/out/rlib"
