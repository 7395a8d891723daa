"""The fenced blocks of a page, for the checks that compare, type or leave them out; and the anchors of headings."""
import re, sys

from rattle_source import read

BLOCK = re.compile(r"^```(\w*)\n(.*?)^```$", re.M | re.S)
FENCE = re.compile(r"^.*(?:```|~~~).*$", re.M)


def text_and_blocks(page):
    """The text of a page without its blocks, and the blocks, as matches: kind and text. A fence that no block has ends the check."""
    text = BLOCK.sub("", read(page))
    for fence in FENCE.findall(text):
        sys.exit(f"{page}: {fence!r} is no fence of a block: ```KIND or ```, alone in its line")
    return text, [*BLOCK.finditer(read(page))]


def anchor_of(heading):
    """The anchor of a heading, as the web shows it."""
    return re.sub(r"[^\w\- ]", "", heading.lower()).replace(" ", "-")
