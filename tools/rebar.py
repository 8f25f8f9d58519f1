"""Marks, grades, beams, cages and their steel: "The beam", "Bar marks", "Concrete grades", "The cage" and "Steel" of
docs/RULES.md. Lengths are whole mm unless tenths are named.
"""
from dataclasses import dataclass
from functools import cached_property
from typing import NamedTuple

from formula import rule, up
from loads import NO_LOAD

MAIN, TIE = 0, 1
MARKS = {MAIN: range(3, 12), TIE: range(3, 6)}
NUMBERS = range(2, 13)  # of the bars of a face
SPACINGS = range(50, 601, 25)

# ---- the beam ----

# what each number of a beam may be; those of a load stand in loads.py
VALUES = {
    "width": range(250, 801),
    "height": range(250, 901),
    "cover": range(20, 76),
    "concrete": (180, 210, 240, 280, 350, 420),
    "steel": (2800, 4200),
    "aggregate": range(10, 41),
    "frame": (0, 1),
    "span": range(1000, 12001),
    "factor": (60, 75),
}


@dataclass(frozen=True)
class Beam:
    width: int
    height: int
    cover: int
    concrete: int
    steel: int
    aggregate: int
    frame: int
    span: int
    factor: int
    dead: tuple
    live: tuple = NO_LOAD
    wind: tuple = NO_LOAD
    earthquake: tuple = NO_LOAD

    @property
    def loads(self):
        return self.dead, self.live, self.wind, self.earthquake


# ---- the cage ----


class Cage(NamedTuple):
    """Six numbers. Of two cages the smaller is the one whose first differing number is smaller."""

    bottom: int  # mark
    bottoms: int  # number of bars
    top: int
    tops: int
    tie: int
    spacing: int


CAGE_VALUES = Cage(MARKS[MAIN], NUMBERS, MARKS[MAIN], NUMBERS, MARKS[TIE], SPACINGS)._asdict()

# ---- bar marks and grades ----


@rule
class Sizes:
    """A number for each bar mark from the first to the last."""

    numbers: tuple
    first: int = 3
    last: int = 11

    def of(self, mark):
        if not self.first <= mark <= self.last:
            raise LookupError(f"no mark {mark}")
        return self.numbers[mark - self.first]


@rule
class BarMarks:
    """Diameters in tenths, and areas in mm²."""

    diameters: Sizes = Sizes((95, 127, 159, 191, 222, 254, 287, 323, 358))
    areas: Sizes = Sizes((71, 129, 199, 284, 387, 510, 645, 819, 1006))


class Grade(NamedTuple):
    """What the grades of concrete and steel give."""

    root: int  # r, whole part of 1,000 × √f
    block: int  # β, hundredths
    ratio: int  # ρ, ten-thousandths


@rule
class Grades:
    """The table of the concrete grades, with ρ at each steel grade."""

    concretes: tuple = VALUES["concrete"]
    roots: tuple = (13416, 14491, 15491, 16733, 18708, 20493)
    blocks: tuple = (85, 85, 85, 85, 80, 75)
    steels: tuple = VALUES["steel"]
    ratios: tuple = ((29, 31, 33, 36, 40, 44), (19, 21, 22, 24, 27, 29))

    @cached_property
    def table(self):
        """The grade by concrete and steel."""
        return {
            (concrete, steel): Grade(*numbers)
            for steel, ratios in zip(self.steels, self.ratios)
            for concrete, *numbers in zip(self.concretes, self.roots, self.blocks, ratios)
        }

    def of(self, beam):
        return self.table[beam.concrete, beam.steel]


# ---- steel ----


@rule
class Steel:
    """The steel of a cage, in mm³: L × (both main areas) + ties × length × (tie area).

    The number of ties is (L − 100) ÷ s, rounded up, plus 1.
    """

    ends: int = 100
    last_tie: int = 1
    least_hook: int = 75
    hook_diameters: int = 6
    tenths: int = 10
    widths: int = 2
    covers_of_width: int = 2
    heights: int = 2
    covers_of_height: int = 2
    hooks: int = 2

    def of(self, beam, cage, marks):
        area = marks.areas.of
        bars = cage.bottoms * area(cage.bottom) + cage.tops * area(cage.top)
        ties = up(beam.span - self.ends, cage.spacing) + self.last_tie
        return beam.span * bars + ties * self.length(beam, marks.diameters.of(cage.tie)) * area(cage.tie)

    def length(self, beam, diameter):
        """A tie is 2 × (b − 2c) + 2 × (h − 2c) + 2 hooks long; a hook is 75 or six tie diameters, the greater."""
        hook = max(self.least_hook, up(self.hook_diameters * diameter, self.tenths))
        width = self.widths * (beam.width - self.covers_of_width * beam.cover)
        height = self.heights * (beam.height - self.covers_of_height * beam.cover)
        return width + height + self.hooks * hook
