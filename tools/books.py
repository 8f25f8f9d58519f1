"""The article books: "General book", "Frame layer", "Yard layer" and "Approved book" of docs/RULES.md.

An article gives its tests: its number, and two sides of which the left is at most the right where it holds.
"""
from typing import NamedTuple

from faces import BOTTOM, TOP, Strengths
from formula import rule, up
from rebar import Cage

# ---- the articles of the general book ----


@rule
class OuterRow:
    """1 bottom, 2 top: the outer row fits."""

    article: int
    face: str

    def tests(self, question, _):
        face = question.face(self.face)
        yield self.article, face.outer_row, face.room


@rule
class ClearDistance:
    """3: both depths that the faces take up + 250 are at most 10 × h."""

    article: int = 3
    least: int = 250
    heights: int = 10

    def tests(self, question, _):
        taken = question.bottom.takes + question.top.takes
        yield self.article, taken + self.least, self.heights * question.beam.height


@rule
class NetStrain:
    """4 bottom, 5 top: 16,000,000 × q is at most 51 × β × f × b × d."""

    article: int
    face: str
    force: int = 16_000_000
    block: int = 51

    def tests(self, question, _):
        face = question.face(self.face)
        yield self.article, self.force * face.force, self.block * question.grade.block * question.strip * face.depth


@rule
class Bending:
    """6 bottom, 7 top: 170,000 × m × f × b + 90,000 × q × q is at most 153 × q × f × b × d.

    With all that has q on one side: 9 × q × (17 × f × b × d − 10,000 × q).
    """

    articles: tuple = (6, 7)
    moment: int = 170_000
    strength: int = 9
    depth: int = 17
    force: int = 10_000

    def tests(self, question, _):
        for article, (face, moment) in zip(self.articles, question.faces_and_moments()):
            bracket = self.depth * question.strip * face.depth - self.force * face.force
            yield article, self.moment * moment * question.strip, self.strength * face.force * bracket


def least_steel(question, face, area):
    """The sides of ρ × b × d and of a number times n × A."""
    return question.grade.ratio * question.beam.width * face.depth, area * face.area


@rule
class LeastSteel:
    """8 bottom, 9 top: where m > 0, ρ × b × d is at most 100,000 × n × A."""

    articles: tuple = (8, 9)
    no_moment: int = 0
    area: int = 100_000

    def tests(self, question, _):
        for article, (face, moment) in zip(self.articles, question.faces_and_moments()):
            if moment > self.no_moment:
                yield article, *least_steel(question, face, self.area)


@rule
class GreatestShear:
    """10: 10 × v is at most p × vm."""

    article: int = 10
    shear: int = 10

    def tests(self, question, strengths):
        yield self.article, self.shear * question.actions.shear, question.beam.factor * strengths.most


@rule
class ShearStrength:
    """11: 10 × v is at most p × (vc + vs)."""

    article: int = 11
    shear: int = 10

    def tests(self, question, strengths):
        strength = strengths.concrete + strengths.ties
        yield self.article, self.shear * question.actions.shear, question.beam.factor * strength


@rule
class LeastTies:
    """12: where 20 × v > p × vc, 7 × b × s is at most 400 × (tie area) × y."""

    shear: int = 20
    article: int = 12
    spacing: int = 7
    area: int = 400

    def tests(self, question, strengths):
        if self.shear * question.actions.shear > question.beam.factor * strengths.concrete:
            left = self.spacing * question.beam.width * question.spacing
            yield self.article, left, self.area * question.tie_area * strengths.stress


@rule
class Spacing:
    """13: 20 × s is at most z. 26: 40 × s is at most z."""

    article: int
    spacings: int

    def tests(self, question, _):
        yield self.article, self.spacings * question.spacing, question.depth


@rule
class WidestSpacing:
    """13: s is at most 300. 26: s is at most 120."""

    article: int
    widest: int

    def tests(self, question, _):
        yield self.article, question.spacing, self.widest


@rule
class HeavyTies:
    """13: where vs ≥ 2 × vc, 40 × s is at most z, and s at most 300."""

    concretes: int = 2
    spacing: Spacing = Spacing(13, 40)
    widest: WidestSpacing = WidestSpacing(13, 300)

    def tests(self, question, strengths):
        if self.are_heavy(strengths):
            yield from self.spacing.tests(question, strengths)
            yield from self.widest.tests(question, strengths)

    def are_heavy(self, strengths):
        return strengths.ties >= self.concretes * strengths.concrete


@rule
class GeneralBook:
    strengths: Strengths = Strengths()
    articles: tuple = (
        *(OuterRow(1, BOTTOM), OuterRow(2, TOP), ClearDistance(), NetStrain(4, BOTTOM), NetStrain(5, TOP)),
        *(Bending(), LeastSteel(), GreatestShear(), ShearStrength(), LeastTies(), Spacing(13, 20), HeavyTies()),
    )

    def tests(self, question):
        strengths = self.strengths.of(question)
        for article in self.articles:
            yield from article.tests(question, strengths)


# ---- the articles of the frame layer ----


@rule
class LeastFrameSteel:
    """21 bottom, 22 top: ρ × b × d is at most 100,000 × n × A."""

    article: int
    face: str
    area: int = 100_000

    def tests(self, question, _):
        yield self.article, *least_steel(question, question.face(self.face), self.area)


@rule
class GreatestSteel:
    """23 bottom, 24 top: 400 × n × A is below b × d."""

    article: int
    face: str
    area: int = 400
    below: int = 1

    def tests(self, question, _):
        face = question.face(self.face)
        yield self.article, self.area * face.area + self.below, question.beam.width * face.depth


@rule
class BottomOfTop:
    """25: top area is at most 2 × bottom area."""

    article: int = 25
    bottoms: int = 2

    def tests(self, question, _):
        yield self.article, question.top.area, self.bottoms * question.bottom.area


@rule
class CapacityShear:
    """j, in tenths of kg: 10 × (both probable moments) ÷ L, rounded up.

    A probable moment, in kg·mm, is 5 × q × (17 × f × b × d − 12,500 × q) ÷ (680 × f × b), rounded up; a bracket below 0
    counts as 0.
    """

    least_bracket: int = 0
    depth: int = 17
    bracket_force: int = 12_500
    force: int = 5
    strip: int = 680
    moments: int = 10

    def of(self, question):
        moments = self.probable_moment(question, question.bottom) + self.probable_moment(question, question.top)
        return self.rounded_shear(self.moments * moments, question.beam.span)

    def probable_moment(self, question, face):
        bracket = self.depth * question.strip * face.depth - self.bracket_force * face.force
        product = self.force * face.force * max(self.least_bracket, bracket)
        return self.rounded_moment(product, self.strip * question.strip)

    def rounded_moment(self, dividend, divisor):
        return up(dividend, divisor)

    def rounded_shear(self, dividend, divisor):
        return up(dividend, divisor)


@rule
class CapacityOfSection:
    """27: 10 × (g + j) is at most p × vm."""

    article: int = 27
    shear: int = 10

    def tests(self, question, strengths, gravity, capacity):
        yield self.article, self.shear * (gravity + capacity), question.beam.factor * strengths.most


@rule
class CapacityOfConcreteAndTies:
    """28: 10 × (g + j) is at most p × (vc + vs), with vc as 0 when 2 × j > g + j."""

    article: int = 28
    shear: int = 10
    no_concrete: int = 0
    capacities: int = 2

    def tests(self, question, strengths, gravity, capacity):
        concrete = self.no_concrete if self.is_cracked(gravity, capacity) else strengths.concrete
        strength = concrete + strengths.ties
        yield self.article, self.shear * (gravity + capacity), question.beam.factor * strength

    def is_cracked(self, gravity, capacity):
        return self.capacities * capacity > gravity + capacity


@rule
class FrameLayer:
    """Of its own it refuses only beams of the frame."""

    strengths: Strengths = Strengths()
    capacity: CapacityShear = CapacityShear()
    no_frame: int = 0
    articles: tuple = (
        *(LeastFrameSteel(21, BOTTOM), LeastFrameSteel(22, TOP), GreatestSteel(23, BOTTOM), GreatestSteel(24, TOP)),
        *(BottomOfTop(), Spacing(26, 40), WidestSpacing(26, 120)),
    )
    capacity_articles: tuple = (CapacityOfSection(), CapacityOfConcreteAndTies())

    def tests(self, question):
        if question.beam.frame == self.no_frame:
            return
        strengths = self.strengths.of(question)
        for article in self.articles:
            yield from article.tests(question, strengths)
        gravity, capacity = self.gravity(question), self.capacity.of(question)
        for article in self.capacity_articles:
            yield from article.tests(question, strengths, gravity, capacity)

    def gravity(self, question):
        return question.actions.gravity


# ---- the yard layer and the approved book ----


class Limits(NamedTuple):
    """The three numbers of a yard layer."""

    most_bars: int
    least_spacing: int
    flag: int


def yard(limits, cage):
    """The yard layer's own answer."""
    if max(cage.bottoms, cage.tops) > limits.most_bars:
        return 41
    if cage.spacing < limits.least_spacing:
        return 42
    return 43 if limits.flag != 0 and cage.bottom != cage.top else 0


class ApprovedRow(NamedTuple):
    width: int
    height: int
    concrete: int
    steel: int
    cage: Cage
    bottom: int  # moment, tenths
    top: int  # moment, tenths
    shear: int  # tenths

    def is_for(self, beam, cage):
        section = beam.width, beam.height, beam.concrete, beam.steel
        return self.cage == cage and (self.width, self.height, self.concrete, self.steel) == section

    def allows(self, actions):
        return actions.bottom <= self.bottom and actions.top <= self.top and actions.shear <= self.shear


def approved(rows, beam, cage, actions):
    """The approved book's answer."""
    some = [row for row in rows if row.is_for(beam, cage)]
    if not some:
        return 60
    return 0 if any(row.allows(actions) for row in some) else 61
