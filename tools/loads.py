"""What acts on a beam: "Actions" of docs/RULES.md.

A load is six numbers: moment and shear at the left face, at midspan and at the right face.
"""
from functools import lru_cache
from typing import NamedTuple

from formula import rule

LOADS = ("dead", "live", "wind", "earthquake")
NO_LOAD = (0, 0, 0, 0, 0, 0)
GREATEST_LOAD = 100_000  # of each number, without its sign


class Actions(NamedTuple):
    """In tenths of kg·m and of kg."""

    bottom: int  # moment
    top: int  # moment
    shear: int
    gravity: int  # shear


@rule
class Combinations:
    """The factors of the loads in tenths, and what they make of the loads.

    Wind and earthquake come from either side. The factors of a row stand in the order of the loads, without the one whose
    signs stand beside.
    """

    gravity: tuple = ((14, 0, 0, 0), (12, 16, 0, 0))
    wind: tuple = (16, -16)
    with_wind: tuple = ((12, 10, 0), (9, 0, 0))
    earthquake: tuple = (10, -10)
    with_earthquake: tuple = ((12, 10, 0), (9, 0, 0))
    moments: tuple = (0, 2, 4)  # their places in a load
    shears: tuple = (1, 3, 5)
    gravity_shears: tuple = (1, 3, 5)
    least_bottom: int = 0
    least_top: int = 0

    def rows(self):
        """The ten rows of factors."""
        yield from self.gravity
        for wind in self.wind:
            yield from ((dead, live, wind, earthquake) for dead, live, earthquake in self.with_wind)
        for earthquake in self.earthquake:
            yield from ((dead, live, wind, earthquake) for dead, live, wind in self.with_earthquake)

    @lru_cache(1000)
    def actions(self, loads):
        """The actions of dead, live, wind and earthquake load."""
        moments = sums(self.rows(), loads, self.moments)
        shears = sums(self.rows(), loads, self.shears)
        gravity = sums(self.gravity, loads, self.gravity_shears)
        return Actions(
            bottom=max(self.least_bottom, max(moments)),
            top=max(self.least_top, max(-moment for moment in moments)),
            shear=max(abs(shear) for shear in shears),
            gravity=max(abs(shear) for shear in gravity),
        )


def sums(rows, loads, places):
    """The sum of the loads with each row's factors, at each of these places."""
    return [sum(factor * load[place] for factor, load in zip(row, loads)) for row in rows for place in places]
