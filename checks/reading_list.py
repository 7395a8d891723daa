#!/usr/bin/env -S python3 -B
"""Prints what a reader has to know of the promise in docs/PROVED.md: the words that the clauses of its calls name, also by the ghost members of the sources
that say what the clauses see a value as; then the words that these are made of. Beside each stand its file and the lines of its definition, without
comments and examples."""
import collections, functools, re, sys

from rattle_source import crates_below, read, sources

PAGE = "docs/PROVED.md"
SOURCES = sources(*crates_below("nd_owned"), "ndl_session")
COMMENT = re.compile(r"^ *(?://|--).*", re.M)
IMPORT = re.compile(r"\buse Rattle\.(\w+)\.specs\.([\w.]+)\.\{(.*?)\}", re.S)
NO_CODE = re.compile(r"^-- examples?\b.*|^ *--.*?\n|^(?:pub )?use .*?\n|^ *\n", re.M | re.S)
DEFINED = re.compile(r"(?:infixl \d+ |abbrev )?(?:pub (?:record |data )?)?(\S+)")
WORD = re.compile(r"(?<![\w'.-])[^\W\d][\w'→-]*|[^\w\s(){},.;]+")
MEMBER = re.compile(r"(?:\b[A-Z]\w*|⟧)\.([a-z]\w*)|\b([A-Z]\w+)")  # `D.list`; a type
BLOCK = re.compile(r"^(?:pub trait (\w+)|impl(?:<.*?>)? (?:([A-Z]\w*)(?:<[^{]*>)? for )?&?(?:'\w+ )?(\w+|\[)).*?^\}", re.M | re.S)
GHOST = re.compile(r"^    ghost (?!use)(\w+)\b.*?(?=^$|^    \S|^\})", re.M | re.S)
# each `impl` and each public trait of the sources, as (path, trait, type, text); a trait's type is None
BLOCKS = [(path, found[1] or found[2], found[3], found[0]) for path in SOURCES for found in BLOCK.finditer(read(path))]
TRAITS = {"Model", *(trait for _, trait, target, _ in BLOCKS if not target)}
# what clauses see a value as: by the name of a trait's member, and by that of a type for its model, each → [(path, text)]
GHOSTS = collections.defaultdict(list)
for path, trait, target, text in BLOCKS:
    for member in GHOST.finditer(text) if target and trait in TRAITS else []:
        GHOSTS[target if trait == "Model" else member[1]].append((path, member[0]))


def source_of(call):
    """Where a public call stands, as (path, its name and the text up to its body)."""
    owner, _, name = call.rpartition("::")
    inherent = [(path, text) for path, trait, target, text in BLOCKS if owner and not trait and target == owner]
    for path, text in inherent or [(path, read(path)) for path in SOURCES]:
        found = re.search(rf"^( *)pub fn {name}\b.*?(?=^\1{{$| {{$)", text, re.M | re.S)
        if found and (owner or not found[1]):
            return path, f"{call} " + re.sub(r"\b(?:requires|ensures)\*? \w+ \{", "{", found[0])
    sys.exit(f"{PAGE}: there is no call {call}")


def file_of(crate, module):
    """The file of a module of definitions, which a crate may re-export from one below it."""
    passed_on = re.search(rf"^pub use Rattle\.(\w+)\.specs\.{re.escape(module)}$", read(f"crates/{crate}/specs/Lib.antt"), re.M)
    return file_of(passed_on[1], module) if passed_on else f"crates/{crate}/specs/{module.replace('.', '/')}.antt"


@functools.cache
def definitions_in(path):
    """The words that a file of definitions has: each → its lines of code."""
    found = {}
    for text in re.findall(r"^[^ }\n].*(?:\n[ }].*)*", NO_CODE.sub("", read(path)), re.M):
        found.setdefault(DEFINED.match(text)[1], []).extend(text.splitlines())
    return found


@functools.cache
def known_in(path):
    """The words of definitions that a file may name: what each is called there → (file, word)."""
    found = {word: (path, word) for word in definitions_in(path)} if path.endswith(".antt") else {}
    for crate, module, group in IMPORT.findall(COMMENT.sub("", read(path))):
        for word, _, renamed in (entry.strip().partition(" as ") for entry in group.split(",")):
            found[renamed or word] = (file_of(crate, module), word)
    return {name: (file, word) for name, (file, word) in found.items() if word in definitions_in(file)}


def words_in(path, text):
    """The words of definitions that a text of a file names, as (file, word), in order."""
    known = known_in(path)
    return list(filter(None, (known.get(name) or known.get(f"◌{name}◌") for name in WORD.findall(text))))


@functools.cache
def named_by_the_promise():
    """The words that the calls of the promise name, those of the first call first, and the ghost members that these calls stand on."""
    section = read(PAGE).partition("Of the layer as a whole:\n")[2].partition("\n\nSo code above")[0]
    words = []
    for path, text in map(source_of, re.findall(r"`([\w:]+)`", section)):
        words += words_in(path, text)
        for name in dict.fromkeys(map("".join, MEMBER.findall(text))):
            words += [word for place, member in GHOSTS.get(name, []) for word in words_in(place, member)]
    return list(dict.fromkeys(words))


@functools.cache
def all_words():
    """Those words, and then the words that they are made of."""
    found = [*named_by_the_promise()]
    for path, word in found:
        found += [one for one in dict.fromkeys(words_in(path, "\n".join(definitions_in(path)[word]))) if one not in found]
    return found


def counts_of(words):
    """How many words there are, and how many lines their definitions have."""
    return len(words), sum(len(definitions_in(path)[word]) for path, word in words)


if __name__ == "__main__":
    named = named_by_the_promise()
    for title, part in (("the clauses name:", named), ("these are made of:", all_words()[len(named) :])):
        print(title, *(f"  {word}  {path}, {len(definitions_in(path)[word])}" for path, word in part), "", sep="\n")
    print("{} words, {} lines; the clauses name {} of them, {} lines".format(*counts_of(all_words()), *counts_of(named)))
