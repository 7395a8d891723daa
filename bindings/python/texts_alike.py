"""What C, C++ and Python say of the same calls: random ones, most of which break a rule.

    python3 texts_alike.py IN_C IN_CPP [CALLS]      the programs of bindings/c/texts_alike.c and .cpp; 100,000 calls

The sentences are to be the same, letter for letter. After one, and a semicolon, Python may say what it alone can do or has. Each
rule has to be broken in each language that has a call which it breaks.
"""

import random
import subprocess
import sys
from collections import Counter
from enum import IntEnum

import ndarray_layout as nd
from ndarray_layout import LayoutError, Slice

RULES = """NONE COUNT INDEX BOUND STEP SIZE SPAN BYTES LOWEST HIGHEST LENGTH ALIAS OTHER_SIZE COPY MISSING
    COORDINATE COMMON STRETCH EMPTY AXIS SAME_AXIS SPLIT"""
Rule = IntEnum("Rule", RULES, start=0)
What = IntEnum("What", "STRIDES SLICE INDEX AXES TARGET WINDOW CHUNK")
Unit = IntEnum("Unit", "ELEMENTS BYTES", start=0)
"""As the header has them, from `ND_RULE_NONE`, `ND_LIST_STRIDES` and `ND_ELEMENTS` on."""

MAX = 2**63 - 1
HUGE = (2**31, 2**40, 2**62, MAX)
FEWEST = 10
"""How often each rule is broken at least, in each language."""

IN_BYTES = (Rule.SPAN, Rule.LOWEST, Rule.HIGHEST, Rule.LENGTH, Rule.ALIAS)
KINDS = {
    *((Rule.COUNT, what, Unit.ELEMENTS) for what in What),
    *((Rule.EMPTY, what, Unit.ELEMENTS) for what in (What.WINDOW, What.CHUNK)),
    *((rule, 0, Unit.ELEMENTS) for rule in Rule if rule not in (Rule.COUNT, Rule.EMPTY)),
    *((rule, 0, Unit.BYTES) for rule in IN_BYTES),
}

NOT_IN_CPP = {
    (Rule.COUNT, What.INDEX, Unit.ELEMENTS),
    *((rule, 0, Unit.ELEMENTS) for rule in (Rule.COORDINATE, Rule.COMMON, Rule.SAME_AXIS)),
    *((rule, 0, Unit.BYTES) for rule in IN_BYTES),
}
"""What C++ has no calls for: it reads no list of coordinates, and its strides are those of elements."""


class Call:
    """A call of Python, and the words of the same one for the two programs."""

    def __init__(self, name, arguments, named=None, choice=0, start=0, shape=(), strides=(), one=0, other=0, numbers=(), elems=()):
        self.name, self.arguments, self.named = name, arguments, named or {}
        lists = (shape, strides), (numbers, [field for elem in elems for field in fields_of(elem)])
        first, second = ([written(one_list) for one_list in pair] for pair in lists)
        self.words = " ".join([name, str(int(choice)), str(start), *first, str(one), str(other), *second])

    def said(self):
        """What Python says."""
        try:
            getattr(nd, self.name)(*self.arguments, **self.named)
        except LayoutError as error:
            return error.text
        return "no rule is broken"


def written(numbers):
    return ",".join(map(str, numbers)) + "," if numbers else "-"


def fields_of(elem):
    if elem is None:
        return (2, 0, 0, 0, 0)
    return (1, 0, elem, 0, 0) if isinstance(elem, int) else (0, int(elem.end is not None), elem.start, elem.end or 0, elem.step)


class Calls:
    """Random calls, by a fixed seed."""

    def __init__(self):
        self.numbers = random.Random("texts")

    def __iter__(self):
        makers = [getattr(self, name) for name in sorted(dir(self)) if name.startswith("call_")]
        while True:
            for maker in makers:
                yield maker()

    def seldom(self, share=0.05):
        return self.numbers.random() < share

    def length(self):
        return self.numbers.choice(HUGE) if self.seldom(0.03) else self.numbers.choice((0, 1, 1, 2, 2, 3, 4, 6))

    def shape(self):
        return tuple(self.length() for _ in range(self.numbers.randint(0, 4)))

    def strides(self, shape):
        numbers, steps, step = self.numbers, [], 1
        if self.seldom():
            return tuple(numbers.choice((1, -1)) * numbers.choice(HUGE) for _ in shape)
        for length in reversed(shape):
            steps.append(step * numbers.choice((1, 1, 1, -1, 0, 2)))
            step = min(step * max(length, 1), MAX // 2)
        return tuple(reversed(steps)) if numbers.random() < 0.7 else tuple(steps)

    def layout(self):
        shape = self.shape()
        return shape, self.strides(shape)

    def start(self):
        return self.numbers.choice((0, 3, 50, 1000, MAX, 2**63) if self.seldom() else (0, 3, 50, 1000))

    def list_like(self, shape):
        """A list that mostly has a number for each axis."""
        numbers = [self.length() for _ in shape]
        return tuple(numbers + [1] * self.seldom(0.1))[self.seldom(0.1) :]

    def elems(self, shape):
        numbers, elems = self.numbers, []
        for length in shape:
            low, high = (-length - 1, length + 1) if length < 9 and self.seldom(0.2) else (-min(length, 9), min(length, 9))
            if self.seldom(0.3):
                elems.append(numbers.randint(low, max(high - 1, low)))
            else:
                end = None if self.seldom(0.3) else numbers.randint(low, high)
                elems.append(Slice(numbers.randint(low, high), end, numbers.choice((1, 2, -1, -2, 1, 2, -3, 0))))
        return (elems + [None] * self.seldom(0.2) + [0] * self.seldom(0.1))[:6]

    def call_layout_start(self):
        (shape, strides), size, writable = self.layout(), self.numbers.choice((1, 8)), self.seldom(0.5)
        strides = strides[self.seldom() :] + (1,) * self.seldom()
        length = self.numbers.choice((self.numbers.randint(0, 150), MAX, 2**64 - 1))
        named = {"elem_size": size, "length": length, "writable": writable}
        return Call("layout_start", (shape, strides), named, writable, 0, shape, strides, size, length)

    def call_check_layout(self):
        (shape, strides), size, writable = self.layout(), self.numbers.choice((1, 8)), self.seldom(0.5)
        start, length = self.start(), self.numbers.choice((self.numbers.randint(0, 150), MAX, 2**64 - 1))
        named = {"elem_size": size, "length": length, "writable": writable}
        return Call("check_layout", (start, shape, strides), named, writable, start, shape, strides, size, length)

    def call_lay_over(self):
        """Of items in whose size some stride isn't counted: else Python counts items, where C counts bytes."""
        (shape, strides), size, writable = self.layout(), self.numbers.choice((1, 4, 7)), self.seldom(0.5)
        size, strides = size if any(stride % size for stride in strides) else 1, strides + (1,) * self.seldom()
        nbytes, offset = self.numbers.choice((self.numbers.randint(0, 150), MAX, 2**64 - 1)), self.start()
        named = {"itemsize": size, "nbytes": nbytes, "offset": offset, "writable": writable}
        return Call("lay_over", (shape, strides), named, writable, offset, shape, strides, size, nbytes)

    def call_slice_view(self):
        (shape, strides), start, clamp = self.layout(), self.start(), self.seldom(0.3)
        elems = self.elems(shape)
        return Call("slice_view", (start, shape, strides, elems, clamp), None, clamp, start, shape, strides, elems=elems)

    def call_permuted_axes(self):
        shape, strides = self.layout()
        axes = self.numbers.sample(range(len(shape)), len(shape))
        if axes and self.seldom(0.3):
            axes[0] = self.numbers.randint(0, 4)
        axes += [0] * self.seldom(0.2)
        return Call("permuted_axes", (shape, strides, axes), None, 0, 0, shape, strides, numbers=axes)

    def call_reshape(self):
        (shape, strides), order = self.layout(), self.seldom(0.5)
        to = [part for length in shape for part in ({4: (2, 2), 6: (2, 3)}.get(length, (length,)))][:6]
        while len(to) > 1 and self.seldom(0.5) and max(to) < 99:
            at = self.numbers.randrange(len(to) - 1)
            to[at : at + 2] = [to[at] * to[at + 1]]
        to = self.shape() if self.seldom(0.2) else tuple(to)
        return Call("reshape", (shape, strides, to, "CF"[order]), None, order, 0, shape, strides, numbers=to)

    def call_broadcast(self):
        shape, strides = self.layout()
        target = self.shape()[:2] + tuple(length if length != 1 else self.length() for length in shape)
        target = self.shape() if self.seldom(0.2) else target
        return Call("broadcast", (shape, strides, target), None, 0, 0, shape, strides, numbers=target)

    def call_windows(self):
        shape, strides = self.layout()
        window = self.list_like(shape)
        return Call("windows", (shape, strides, window), None, 0, 0, shape, strides, numbers=window)

    def call_exact_chunks(self):
        shape, strides = self.layout()
        chunk = self.list_like(shape)
        return Call("exact_chunks", (shape, strides, chunk), None, 0, 0, shape, strides, numbers=chunk)

    def call_split_at(self):
        (shape, strides), start, numbers = self.layout(), self.start(), self.numbers
        axis, index = numbers.randint(0, 4), numbers.choice((0, 1, 2, 3, 9, MAX))
        return Call("split_at", (start, shape, strides, axis, index), None, 0, start, shape, strides, axis, index)

    def call_merge_axes(self):
        (shape, strides), numbers = self.layout(), self.numbers
        take, into = numbers.randint(0, 4), numbers.randint(0, 4)
        return Call("merge_axes", (shape, strides, take, into), None, 0, 0, shape, strides, take, into)

    def call_next_index(self):
        shape = self.shape()
        index = [self.numbers.randint(0, max(length, 1)) for length in shape] + [0] * self.seldom(0.2)
        return Call("next_index", (shape, index), None, 0, 0, shape, numbers=index)

    def call_broadcast_shapes(self):
        first, second = self.shape(), self.shape()
        return Call("broadcast_shapes", (first, second), None, 0, 0, first, numbers=second)


def said_by(program, calls):
    """What a program says, a line of each call."""
    words = "".join(f"{call.words}\n" for call in calls)
    return subprocess.run([program], input=words, stdout=subprocess.PIPE, text=True, check=True).stdout.splitlines()


def check(call, python, text, cpp):
    """Ends the program where a call isn't said alike. Python may say more, after a semicolon, and C++ may have no such call."""
    if python != text and not python.startswith(f"{text}; ") or cpp not in ("-", text):
        sys.exit(f"{call.words}\n    Python: {python}\n    C:      {text}\n    C++:    {cpp}")


def compared(calls, in_c, in_cpp):
    """How often each rule is broken in Python and in C, and in C++."""
    seen, seen_in_cpp = Counter(), Counter()
    for call, said, cpp in zip(calls, in_c, in_cpp, strict=True):
        numbers, text = said.split("\t")
        check(call, call.said(), text, cpp)
        kind = tuple(map(int, numbers.split()))
        seen[kind] += 1
        seen_in_cpp[kind] += cpp != "-"
    return seen, seen_in_cpp


def missing(seen, kinds):
    """The kinds that are too few, and those that aren't known."""
    return [kind for kind in kinds if seen[kind] < FEWEST] + [kind for kind in seen if seen[kind] and kind not in kinds]


def named(kind):
    rule, what, unit = kind
    return " ".join([Rule(rule).name, *([What(what).name] if what else []), *(["in bytes"] if unit else [])])


def main(in_c, in_cpp, count=100_000):
    calls = [call for _, call in zip(range(int(count)), Calls())]
    seen, seen_in_cpp = compared(calls, said_by(in_c, calls), said_by(in_cpp, calls))
    for kind, times in sorted(seen.items()):
        print(f"{named(kind)}: {times}, in C++ {seen_in_cpp[kind]}")
    few = [*map(named, missing(seen, KINDS)), *(f"{named(kind)} in C++" for kind in missing(seen_in_cpp, KINDS - NOT_IN_CPP))]
    print(f"{len(calls)} calls, alike in C, C++ and Python" if not few else f"too few, or not known: {', '.join(few)}")
    return int(bool(few))


if __name__ == "__main__":
    sys.exit(main(*sys.argv[1:]))
