"""The lightest cage from stock, by judging every one: "The lightest cage" of docs/RULES.md.

A book is a function of a beam and a cage.
"""
from functools import cache
from itertools import product
from typing import NamedTuple

from rebar import NUMBERS, SPACINGS, Cage
from rules import RULES


class Chosen(NamedTuple):
    """A chosen cage: of two the lighter is the smaller, and of equal steel that with the smaller cage."""

    steel: int
    cage: Cage


class Impossible(NamedTuple):
    """No cage passes; with the greatest answer."""

    number: int


def cages(mains, ties):
    """Every cage from stock."""
    return map(Cage._make, product(mains, NUMBERS, mains, NUMBERS, ties, SPACINGS))


def count_cages(mains, ties):
    return (len(mains) * len(NUMBERS)) ** 2 * len(ties) * len(SPACINGS)


@cache
def decide(beam, book, mains, ties):
    """The decision of a beam with these marks in stock."""
    lightest, greatest = None, 0
    for cage in cages(mains, ties):
        answer = book(beam, cage)
        if answer > greatest:
            greatest = answer
        if answer == 0:
            key = RULES.steel(beam, cage), cage
            if lightest is None or key < lightest:
                lightest = key
    return Impossible(greatest) if lightest is None else Chosen(*lightest)
