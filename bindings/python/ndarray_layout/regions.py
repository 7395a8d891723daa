"""Regions of one array, as many writers have them: which two conflict, in which groups they may be written at once, and which chunks
each touches. The package imports this where one of its calls is asked for.
"""

from ._conflicts import first_conflict, first_intersection
from ._errors import show_once
from ._waves import aligned, chunks_of, waves

__all__ = ["aligned", "chunks_of", "first_conflict", "first_intersection", "waves"]

show_once(globals())
