"""Refusals as exceptions: the number of docs/SCOPE.md, what it carries, and a sentence.

The number and what it carries are the proved library's. The sentence is written here, from what was asked, and is not proved.
"""
from __future__ import annotations

from typing import Optional

MOST_LAMPS = 1_048_576
MOST_ENERGY = 2**40

# By number: the name of the refusal, and what it means where no more is known.
MEANINGS = {
    1: ("options", "an option is out of bounds"),
    2: ("count", f"there must be 1 to {MOST_LAMPS:,} lamps, with one y and one energy each"),
    3: ("point", "a lamp lies outside the map: its converted x or y is not from 0 to 1"),
    4: ("tables", "a lent column is too short for the tables"),
    5: ("no tree", "the id leads to a zoom that has no table"),
    6: ("no cluster", "there is no cluster with this id"),
    7: ("tile", "there is no such tile: z goes up to 31, x and y stay below 2^z"),
    8: ("empty tile", "the tile has no entries"),
    9: ("box", "a number of the search is not finite, its radius is below 0, or with longitudes a y is not from 0 to 1"),
    10: ("no room", "there are more items than the output takes"),
    11: ("spoiled", "the state and the columns do not fit together"),
    12: ("text", "the text is not of the lister's form"),
    15: ("energy", f"a lamp brings, or is posted, more than {MOST_ENERGY:,} watt-hours (2^40)"),
    16: ("lamp", "there is no such lamp: they are counted from 0"),
}


class Refused(Exception):
    """A numbered refusal.

    >>> refused = Refused(6, sentence="70 is the id of a lamp")
    >>> refused.number, refused.carried, refused.name
    (6, 0, 'no cluster')
    >>> str(refused)
    'refused 6 (no cluster): 70 is the id of a lamp'
    """

    def __init__(self, number: int, carried: int = 0, sentence: Optional[str] = None) -> None:
        self.number = number
        self.carried = carried
        self.name, meaning = MEANINGS.get(number, ("unknown", "a number that docs/SCOPE.md does not have"))
        self.sentence = sentence or meaning
        super().__init__(f"refused {number} ({self.name}): {self.sentence}")

    def __reduce__(self) -> tuple:
        return Refused, (self.number, self.carried, self.sentence)
