"""The numbers that the articles look at: "Numbers of a face and of a cage" of docs/RULES.md."""
from typing import NamedTuple

from formula import rule, up

BOTTOM, TOP = "bottom", "top"

# ---- the numbers of a face ----


@rule
class Stress:
    """y is fy ÷ 100."""

    part: int = 100

    def of(self, beam):
        return beam.steel // self.part


class Face(NamedTuple):
    area: int  # n × A
    depth: int  # d, tenths
    force: int  # q
    takes: int  # the depth that it takes up, tenths
    outer_row: int  # its length, hundredths
    room: int  # the length that fits, hundredths


@rule
class Gap:
    """The gap between bars, in hundredths of a mm: the greatest of 10 × w, 2,500 and 133 × aggregate."""

    diameters: int = 10
    least: int = 2500
    aggregates: int = 133

    def of(self, beam, diameter):
        return max(self.diameters * diameter, self.least, self.aggregates * beam.aggregate)


@rule
class Row:
    """i bars fit a row when 10 × i × w + (i − 1) × gap is at most 100 × b − 200 × c − 20 × t."""

    diameters: int = 10
    last_bar: int = 1
    widths: int = 100
    covers: int = 200
    tie_diameters: int = 20

    def length(self, number, diameter, gap):
        return self.diameters * number * diameter + (number - self.last_bar) * gap

    def room(self, beam, tie):
        return self.widths * beam.width - self.covers * beam.cover - self.tie_diameters * tie

    def fits(self, length, room):
        return length <= room


@rule
class Depth:
    """d is 10 × h − 10 × c − t − (half of w, rounded up).

    With two rows it loses (w + 250) × (half of n, rounded down) ÷ n, rounded up.
    """

    heights: int = 10
    covers: int = 10
    half: int = 2
    between_rows: int = 250
    inner_half: int = 2

    def of(self, beam, diameter, tie):
        return self.heights * beam.height - self.covers * beam.cover - tie - up(diameter, self.half)

    def lost(self, number, diameter):
        return up((diameter + self.between_rows) * (number // self.inner_half), number)


@rule
class DepthTaken:
    """The depth that a face takes up is 10 × c + t + w × rows + 250 × (rows − 1)."""

    covers: int = 10
    between_rows: int = 250
    last_row: int = 1

    def of(self, beam, diameter, tie, rows):
        return self.covers * beam.cover + tie + diameter * rows + self.between_rows * (rows - self.last_row)


@rule
class Faces:
    """A face has one row when its bars fit one; otherwise two, the outer one with half of n, rounded up."""

    gap: Gap = Gap()
    row: Row = Row()
    one_row: int = 1
    two_rows: int = 2
    half: int = 2
    depth: Depth = Depth()
    stress: Stress = Stress()
    taken: DepthTaken = DepthTaken()

    def of(self, beam, number, diameter, area, tie):
        """The face with so many bars of a diameter and an area, and ties of a diameter."""
        gap, room = self.gap.of(beam, diameter), self.row.room(beam, tie)
        outer_row, rows = self.row.length(number, diameter, gap), self.one_row
        depth = self.depth.of(beam, diameter, tie)
        if not self.row.fits(outer_row, room):
            outer_row, rows = self.row.length(up(number, self.half), diameter, gap), self.two_rows
            depth -= self.depth.lost(number, diameter)
        force = number * area * self.stress.of(beam)
        return Face(number * area, depth, force, self.taken.of(beam, diameter, tie, rows), outer_row, room)


# ---- what the articles look at ----


class Question:
    """A beam with its actions and grade, and a cage with its two faces."""

    def __init__(self, beam, cage, actions, grade, marks, faces):
        diameter, area = marks.diameters.of, marks.areas.of
        tie = diameter(cage.tie)
        self.beam, self.actions, self.grade = beam, actions, grade
        self.bottom = faces.of(beam, cage.bottoms, diameter(cage.bottom), area(cage.bottom), tie)
        self.top = faces.of(beam, cage.tops, diameter(cage.top), area(cage.top), tie)
        self.tie_area = area(cage.tie)
        self.spacing = cage.spacing
        self.strip = beam.concrete * beam.width  # f × b
        self.depth = min(self.bottom.depth, self.top.depth)  # z

    def face(self, name):
        return self.bottom if name == BOTTOM else self.top

    def faces_and_moments(self):
        return (self.bottom, self.actions.bottom), (self.top, self.actions.top)


class Shear(NamedTuple):
    """What bears shear, in kg."""

    concrete: int  # vc
    most: int  # vm
    ties: int  # vs
    stress: int  # y


@rule
class Strengths:
    """vc is 53 × r × b × z ÷ 100,000,000, vm the same with 265, vs is (tie area) × y × z ÷ (5 × s), each rounded down."""

    concrete: int = 53
    concrete_part: int = 100_000_000
    most: int = 265
    most_part: int = 100_000_000
    stress: Stress = Stress()
    spacings: int = 5

    def of(self, question):
        plane = question.grade.root * question.beam.width * question.depth
        stress = self.stress.of(question.beam)
        pull = question.tie_area * stress * question.depth
        return Shear(self.concrete * plane // self.concrete_part, self.most_of(plane), self.ties_of(pull, question), stress)

    def most_of(self, plane):
        return self.most * plane // self.most_part

    def ties_of(self, pull, question):
        return pull // (self.spacings * question.spacing)
