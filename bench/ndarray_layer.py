"""Cuts the lowest layer out of ndarray's source, as a crate that compiles alone.

No line of ndarray is kept here: its files are read, items that need the rest of ndarray are cut by a pattern on their first line,
and private items become public, since the benchmark is another crate. The root of the new crate and what stands for ndarray's other
parts is in layer/. Each cut must find something, so that a source that has changed is noticed.
"""
import os, re, shutil

FILES = ["src/aliases.rs", "src/error.rs", "src/indexes.rs", "src/order.rs", "src/shape_builder.rs", "src/slice.rs"]
FILES += [f"src/layout/{name}.rs" for name in ("mod", "layoutfmt")]
FILES += [
    f"src/dimension/{name}.rs"
    for name in (
        "axes",
        "broadcast",
        "conversion",
        "dim",
        "dimension_trait",
        "dynindeximpl",
        "mod",
        "ndindex",
        "ops",
        "remove_axis",
        "reshape",
        "sequence",
    )
]
STAND_INS = {"lib.rs": "src", "axis.rs": "src/dimension", "macros.rs": "src/dimension"}

# What is cut of each file: items by their first line, each with its comments and attributes.
CUT_ITEMS = {
    "src/aliases.rs": [r"^pub type (Array|ArcArray|LayoutRef)"],
    "src/dimension/dimension_trait.rs": [r"^    fn as_array_view(_mut)?\b", r"^use crate::\{ArrayView1"],
    "src/indexes.rs": [
        *(rf"^use crate::{name};" for name in ("split_at::SplitAt", "zip::Offset", "Axis", "Layout", "NdProducer")),
        r"^use crate::\{ArrayBase",
        *(r"^pub fn indices_of", r"^pub struct IndexPtr", r"Offset for IndexPtr", r"NdProducer for Indices"),
    ],
    "src/slice.rs": [r"^pub trait MultiSliceArg", r"^impl<.*MultiSliceArg<", r"^(macro_rules! )?impl_multislice_tuple"],
}
# What is replaced in each file, once these are cut.
REPLACED = {
    "src/aliases.rs": [(r"^use crate::\{ArcArray[^}]*\};", "use crate::{Ix, IxDynImpl};")],
    "src/dimension/mod.rs": [(r"^fn ", "pub fn ")],
    "src/slice.rs": [(r"^use crate::\{ArrayViewMut, ", "use crate::{")],
}
# A copy of the source that leaves out how three axes are put in order says so. A stable sort by exchanges stands there then.
LEFT_OUT = re.compile(r"\{ /\* left out: the three axes[^*]*\*/ \}")
SORTED = "let s = stride.slice_mut(); swap!(s, order, 0, 1); swap!(s, order, 1, 2); swap!(s, order, 0, 1);"


class OtherSource(Exception):
    """The source isn't the one that this file was written for."""


def find_file(source, path):
    """Where a file of ndarray lies: at its own path, or in a flat folder, under its path with dashes."""
    flat = "src--" + path.replace("/", "--") + ".txt"
    for name in (path, flat):
        if os.path.isfile(f"{source}/{name}"):
            return f"{source}/{name}"
    raise OtherSource(f"{source} has no {path}")


def end_of_item(lines, first):
    """The line after an item: its braces are closed, or it ended with a semicolon."""
    depth, opened = 0, False
    for at in range(first, len(lines)):
        depth += sum(lines[at].count(c) for c in "{[(") - sum(lines[at].count(c) for c in "}])")
        opened = opened or "{" in lines[at]
        if depth == 0 and (opened or lines[at].rstrip().endswith(";")):
            return at + 1
    raise OtherSource(f"an item has no end: {lines[first]}")


def cut_items(text, head, path):
    """The text without each item whose first line has `head`, with its comments and attributes."""
    lines, found = text.split("\n"), 0
    while (at := next((at for at, line in enumerate(lines) if re.search(head, line)), None)) is not None:
        first, found = at, found + 1
        while first > 0 and re.match(r"\s*(//|#\[)", lines[first - 1]):
            first -= 1
        del lines[first : end_of_item(lines, at)]
    if not found:
        raise OtherSource(f"{path}: nothing to cut for {head}")
    return "\n".join(lines)


def cut_file(path, text):
    """What the layer's crate has of a file."""
    for head in CUT_ITEMS.get(path, ()):
        text = cut_items(text, head, path)
    for pattern, new in REPLACED.get(path, ()):
        text, count = re.subn(pattern, lambda _: new, text, flags=re.M)
        if not count:
            raise OtherSource(f"{path}: nothing to replace for {pattern}")
    if path == "src/dimension/reshape.rs":
        text = re.sub(r'^#\[cfg\(feature = "std"\)\]\s*\Z', "", text, flags=re.M)
    return LEFT_OUT.sub(lambda _: SORTED, text).replace("pub(crate) ", "pub ")


def cut_layer(source, stand_ins, to):
    """Writes the crate of ndarray's lowest layer to a folder, and returns the file of its root."""
    for path in FILES:
        with open(find_file(source, path), encoding="utf-8") as file:
            text = cut_file(path, file.read())
        os.makedirs(os.path.dirname(f"{to}/{path}"), exist_ok=True)
        with open(f"{to}/{path}", "w", encoding="utf-8") as file:
            file.write(text)
    for name, folder in STAND_INS.items():
        shutil.copy(f"{stand_ins}/{name}", f"{to}/{folder}/{name}")
    return f"{to}/src/lib.rs"
