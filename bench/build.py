"""Builds what the benchmark runs, in a folder of its own, and shows its tables; of this repository only docs/PERFORMANCE.md is ever written.

The crate in ffi/ is a static library in Rattle above this repository's crates. Its sources are kept as texts, since the gate reads no
`.rt` or `.antt` file outside of crates. Where the kit is there it is proved, with each crate below it that isn't built yet. Everywhere it is
compiled by rustc without its contracts, on the Rust package.
"""
import argparse, contextlib, hashlib, os, re, shutil, subprocess, sys, tempfile, time

HERE = os.path.dirname(os.path.abspath(__file__))
TOP = os.path.dirname(HERE)
PAGE = f"{TOP}/docs/PERFORMANCE.md"
sys.path.insert(0, f"{TOP}/checks")
from rattle_source import crates_below, read_list

from ndarray_layer import cut_layer

CRATE, BY_RUSTC = "bench_ffi", "bench_by_rustc"
LINE = f"{CRATE} staticlib: ndarray_layout nd_base nd_owned"
PARTS = ("src", "specs", "proofs")
# As a user of ndarray builds it: optimized, nothing checked, for any x86-64 processor. It is one unit, so that nothing depends on
# how rustc cuts it. No jump crosses 32 bytes or ends there, since many processors decode such a block anew: else a call of a few
# nanoseconds changes by a third with where the linker puts it.
FLAGS = ("opt-level=3", "codegen-units=1", "overflow-checks=off", "debug-assertions=off", "llvm-args=-x86-branches-within-32B-boundaries")
RUSTC = ["rustc", "--edition", "2024", *(word for flag in FLAGS for word in ("-C", flag))]


class NotBuilt(Exception):
    """Something that the benchmark needs couldn't be built."""


class Room:
    """A folder to work in, with the time since it was opened."""

    def __init__(self, folder):
        self.folder, self.began = os.path.abspath(folder), time.monotonic()

    def say(self, text):
        with open("/proc/loadavg", encoding="utf-8") as file:
            load = " ".join(file.read().split()[:3])
        print(f"bench: {time.monotonic() - self.began:.0f} s, load {load}: {text}", file=sys.stderr, flush=True)

    def must(self, words, where, log, stdin=subprocess.DEVNULL, **how):
        """Runs a command that has to end well, its output in a log."""
        path = f"{self.folder}/{log}"
        with open(path, "a", encoding="utf-8") as file:
            done = subprocess.run(words, cwd=where, stdin=stdin, stdout=file, stderr=subprocess.STDOUT, **how)
        if done.returncode:
            with open(path, encoding="utf-8", errors="replace") as file:
                end = "".join(file.readlines()[-20:])
            raise NotBuilt(f"{os.path.basename(words[0])} ended with status {done.returncode}; its log is {path}:\n{end}")


@contextlib.contextmanager
def opened_room(keep):
    """The folder that is kept, or else one for this run alone."""
    if keep:
        os.makedirs(keep, exist_ok=True)
        yield Room(keep)
    else:
        with tempfile.TemporaryDirectory(prefix="bench-") as folder:
            yield Room(folder)


class Quick(argparse.Action):
    """The option --quick, which sets others."""

    def __call__(self, parser, asked, values, option=None):
        vars(asked).update(self.const, quick=True)


def arguments(text, **quick):
    """The options that every script here has; what --quick sets of its others."""
    parser = argparse.ArgumentParser(description=text, formatter_class=argparse.RawDescriptionHelpFormatter)
    parser.add_argument("--page", action="store_true", help="write the table into docs/PERFORMANCE.md, in place of the one that is there")
    parser.add_argument("--keep", metavar="FOLDER", help="work there and keep it, so that the next run proves only what has changed")
    words = "few rounds of few rows, without the kit: shows that all runs, and its figures mean nothing"
    parser.add_argument("--quick", nargs=0, action=Quick, const=quick, default=False, help=words)
    return parser


def copy_crate(crate, to):
    """Copies a crate's sources, and the library that was built of them, which rt takes where it fits."""
    os.makedirs(f"{to}/out", exist_ok=True)
    for part in PARTS:
        shutil.rmtree(f"{to}/{part}", ignore_errors=True)
        if os.path.isdir(f"{crate}/{part}"):
            shutil.copytree(f"{crate}/{part}", f"{to}/{part}")
    if os.path.isfile(f"{crate}/out/rlib/stamp") and not os.path.isdir(f"{to}/out/rlib"):
        shutil.copytree(f"{crate}/out/rlib", f"{to}/out/rlib")


def copy_own_crate(to, changed=lambda text: text):
    """Copies the sources of the crate in ffi/ under their real names."""
    for part in PARTS:
        shutil.rmtree(f"{to}/{part}", ignore_errors=True)
    for folder, _, names in os.walk(f"{HERE}/ffi"):
        target = os.path.normpath(f"{to}/{os.path.relpath(folder, f'{HERE}/ffi')}")
        os.makedirs(target, exist_ok=True)
        for name in names:
            with open(f"{folder}/{name}", encoding="utf-8") as source, open(f"{target}/{name.removesuffix('.txt')}", "w", encoding="utf-8") as file:
                file.write(changed(source.read()))


def copy_programs(room):
    """Copies src/, with a second module of our calls, which calls what rustc compiled."""
    to = f"{room.folder}/src"
    shutil.rmtree(to, ignore_errors=True)
    shutil.copytree(f"{HERE}/src", to)
    with open(f"{to}/ours.rs", encoding="utf-8") as file:
        text = file.read()
    for side, crate in (("proved", CRATE), ("by_rustc", BY_RUSTC)):
        os.makedirs(f"{to}/{side}", exist_ok=True)
        with open(f"{to}/{side}/ours.rs", "w", encoding="utf-8") as file:
            file.write(text.replace(CRATE, crate).replace("use super::tables", "use crate::tables"))
    return to


def copy_repository(room, *crates):
    """Copies the crates that some of them use, and these themselves, to the room, and returns the copy's folder."""
    listed, copy = read_list(), f"{room.folder}/repository"
    lines = {name: f"{name}: {' '.join(listed[name])}" for crate in crates for name in crates_below(crate)}
    for name in lines:
        copy_crate(f"{TOP}/crates/{name}", f"{copy}/crates/{name}")
    copy_own_crate(f"{copy}/crates/{CRATE}")
    shutil.copy(f"{TOP}/HANDLES", copy)
    with open(f"{copy}/crates.txt", "w", encoding="utf-8") as file:
        file.write("\n".join([*lines.values(), LINE, ""]))
    return copy


def has_kit():
    return shutil.which("rt") is not None


def kit_folder():
    told = subprocess.run(["rt", "doc"], stdin=subprocess.DEVNULL, capture_output=True, text=True, check=True)
    return os.path.dirname(told.stdout.strip())


def link_proved(room):
    """Proves and builds the crate in ffi/, and returns how a Rust program is linked with it."""
    copy = copy_repository(room, "ndarray_layout", "nd_owned")
    room.say(f"proving and building ours, some minutes where nothing is built yet; log: {room.folder}/ours.log")
    room.must(["rt", "lib"], f"{copy}/crates/{CRATE}", "ours.log")
    archives = [f"{copy}/crates/{CRATE}/out/lib{CRATE}.a", f"{kit_folder()}/c/liblibc_c.a"]
    return ["--cfg", "proved", *(word for archive in archives for word in ("-C", f"link-arg={archive}"))]


def link_by_rustc(room):
    """Compiles the Rust package, and on it the crate in ffi/ without its contracts, under other names; returns how a program is linked."""
    source = f"{room.folder}/{BY_RUSTC}"
    copy_own_crate(source, lambda text: text.replace(CRATE, BY_RUSTC))
    eraser, libraries = f"{room.folder}/erase", [f"{room.folder}/lib{name}.rlib" for name in ("ndarray_layout", BY_RUSTC)]
    room.must([*RUSTC, f"{TOP}/rust/eraser/main.rs", "-o", eraser], room.folder, "package.log")
    text = subprocess.run([eraser, BY_RUSTC, f"{source}/src"], capture_output=True, text=True, check=True).stdout
    with open(f"{room.folder}/{BY_RUSTC}.rs", "w", encoding="utf-8") as file:
        file.write(text)
    rlib, std = ["--crate-type", "rlib", "--cap-lints", "allow", "--crate-name"], ["--cfg", 'feature="std"']
    room.must([*RUSTC, *rlib, "ndarray_layout", *std, f"{TOP}/rust/src/lib.rs", "-o", libraries[0]], room.folder, "package.log")
    words = ["--extern", f"ndarray_layout={libraries[0]}", "-o", libraries[1]]
    room.must([*RUSTC, *rlib, BY_RUSTC, f"{room.folder}/{BY_RUSTC}.rs", *words], room.folder, "package.log")
    return ["-L", room.folder, "--extern", f"{BY_RUSTC}={libraries[1]}"]


def build_layer(room, source):
    """Compiles ndarray's lowest layer, and returns its library."""
    root = cut_layer(source, f"{HERE}/layer", f"{room.folder}/layer")
    library = f"{room.folder}/libndarray_layer.rlib"
    words = ["--crate-type", "rlib", "--crate-name", "ndarray_layer", "--cfg", 'feature="std"', "--cap-lints", "allow"]
    older = ["2021" if word == "2024" else word for word in RUSTC]
    room.must([*older, *words, root, "-o", library], room.folder, "layer.log")
    return library


def build_program(room, name, *words, shift=0):
    """Compiles a program of src/, and returns its file. Another shift moves its code, so that it is another build."""
    program = f"{room.folder}/{name}-{shift}"
    env = {**os.environ, "SHIFT": str(shift)}
    room.must([*RUSTC, f"{copy_programs(room)}/{name}.rs", "-o", program, *words], room.folder, f"{name}.log", env=env)
    return program


def show_table(name, head, rows, is_for_page):
    """Shows the table that a script makes: in columns, or as Markdown on the page, between the two comments with the script's name."""
    if is_for_page:
        lines = (head, ["---", *["---:"] * (len(head) - 1)], *rows)
        write_between(name, "\n".join(map("|".join, lines)))
        return
    widths = [max(map(len, column)) for column in zip(head, *rows)]
    for cells in (head, *rows):
        first, *others = (cell.ljust(width) if at == 0 else cell.rjust(width) for at, (cell, width) in enumerate(zip(cells, widths)))
        print("  ".join([first, *others]))


def sum_of_table(text):
    """What stands after a table of the page, so that it is seen where a number of it isn't what was measured."""
    return hashlib.sha256(text.strip().encode()).hexdigest()[:16]


def write_between(name, text):
    """Puts a table between the two lines of docs/PERFORMANCE.md that have its name."""
    with open(PAGE, encoding="utf-8") as file:
        page = file.read()
    made = f"<!-- bench/{name} -->\n\n{text}\n\n<!-- /bench/{name} {sum_of_table(text)} -->"
    page, count = re.subn(rf"<!-- bench/{name} -->.*?<!-- /bench/{name}(?: \w+)? -->", lambda _: made, page, flags=re.S)
    if count != 1:
        raise NotBuilt(f"{PAGE} has no lines of bench/{name}")
    with open(PAGE, "w", encoding="utf-8") as file:
        file.write(page)
