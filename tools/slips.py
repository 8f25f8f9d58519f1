"""The rules of docs/RULES.md with one number one greater or one smaller, and with a line read in another way."""
from dataclasses import dataclass, is_dataclass, replace

from books import CapacityOfConcreteAndTies, CapacityShear, FrameLayer, HeavyTies
from faces import Row, Strengths
from formula import changed, numbers_of, rule, up, value_at
from loads import NO_LOAD
from rebar import Beam, Cage
from reference import REFERENCE, WORKED
from rules import RULES, Rules


def answers(rules, question):
    """What is told of a beam and a cage, or nothing where the rules have no numbers for them."""
    try:
        return rules.framed(*question), rules.steel(*question)
    except LookupError:
        return None


@dataclass(frozen=True)
class Slip:
    words: str  # what is another than in the rules
    rules: Rules  # what the rules are then


# ---- one number ----


def step_words(place):
    """The last step of a place; where it leads to a rule in a tuple, also the class of the rule."""
    part, step = value_at(RULES, place), place[-1]
    return f"{step} ({type(part).__name__})" if isinstance(step, int) and is_dataclass(part) else str(step)


def words_of(place):
    return ".".join(step_words(place[:count]) for count in range(1, len(place) + 1))


def slips():
    """The rules with each of their numbers one greater and one smaller in turn."""
    for place, number in numbers_of(RULES):
        for wrong in (number + 1, number - 1):
            rules = changed(RULES, place, wrong)
            if answers(rules, (REFERENCE, WORKED)) is not None:  # else they are no rules at all
                yield Slip(f"{words_of(place)}: {wrong:,} in place of {number:,}", rules)


# ---- other readings, each of one line ----


@rule
class AtTheLimit:
    """An article that refuses at its limit too."""

    article: object

    def tests(self, *looked_at):
        for article, left, right in self.article.tests(*looked_at):
            yield article, left + 1, right


class FullRowTooLong(Row):
    def fits(self, length, room):
        return length < room


class MostRoundedUp(Strengths):
    def most_of(self, plane):
        return up(self.most * plane, self.most_part)


class TiesRoundedUp(Strengths):
    def ties_of(self, pull, question):
        return up(pull, self.spacings * question.spacing)


class HeavierTies(HeavyTies):
    def are_heavy(self, strengths):
        return strengths.ties > self.concretes * strengths.concrete


class ProbableMomentRoundedDown(CapacityShear):
    def rounded_moment(self, dividend, divisor):
        return dividend // divisor


class CapacityRoundedDown(CapacityShear):
    def rounded_shear(self, dividend, divisor):
        return dividend // divisor


class CrackedAtHalf(CapacityOfConcreteAndTies):
    def is_cracked(self, gravity, capacity):
        return self.capacities * capacity >= gravity + capacity


class AllShear(FrameLayer):
    def gravity(self, question):
        return question.actions.shear


def at_the_limit(*place):
    """The rules with the article of this place refusing at its limit too."""
    return changed(RULES, place, AtTheLimit(value_at(RULES, place)))


def misreadings():
    """The rules read in another way."""
    bottom, top, *others = RULES.general_book.articles
    general, frame = ("general_book", "articles"), ("frame_layer", "articles")
    yield Slip("2 before 1", changed(RULES, general, (top, bottom, *others)))
    yield Slip("a row that just fits", changed(RULES, ("faces", "row"), FullRowTooLong()))
    yield Slip("4 at its limit", at_the_limit(*general, 3))
    yield Slip("5 at its limit", at_the_limit(*general, 4))
    yield Slip("8 and 9 at their limits", at_the_limit(*general, 6))
    yield Slip("vm rounded up", changed(RULES, ("general_book", "strengths"), MostRoundedUp()))
    yield Slip("12 at its limit", at_the_limit(*general, 9))
    yield Slip("vs > 2 × vc in 13", changed(RULES, (*general, 11), HeavierTies()))
    yield Slip("21 at its limit", at_the_limit(*frame, 0))
    yield Slip("22 at its limit", at_the_limit(*frame, 1))
    yield Slip("26 at its limit", at_the_limit(*frame, 5))
    yield Slip("27 at its limit", at_the_limit("frame_layer", "capacity_articles", 0))
    yield Slip("v in place of g", replace(RULES, frame_layer=AllShear()))
    yield Slip("probable moments rounded down", changed(RULES, ("frame_layer", "capacity"), ProbableMomentRoundedDown()))
    yield Slip("j rounded down", changed(RULES, ("frame_layer", "capacity"), CapacityRoundedDown()))
    yield Slip("2 × j ≥ g + j in 28", changed(RULES, ("frame_layer", "capacity_articles", 1), CrackedAtHalf()))
    yield Slip("vs rounded up in the frame", changed(RULES, ("frame_layer", "strengths"), TiesRoundedUp()))


# ---- questions that tell each of the other readings, and some slips ----


def cut(dead=0, live=0, earthquake=0):
    """These shears at the left face, and of the earthquake at midspan."""
    return (0, dead, 0, 0, 0, 0), (0, live, 0, 0, 0, 0), NO_LOAD, (0, 0, 0, earthquake, 0, 0)


PULLED = ((10, 0, 10, 0, 10, 0), NO_LOAD, NO_LOAD, NO_LOAD)
CLOSE_QUESTIONS = (
    (Beam(285, 685, 43, 350, 2800, 39, 1, 1614, 60, *cut()), Cage(8, 12, 9, 12, 3, 100)),
    (Beam(369, 568, 57, 240, 4200, 40, 1, 1226, 60, *cut(earthquake=44271)), Cage(5, 4, 5, 2, 5, 50)),
    (Beam(625, 529, 55, 350, 4200, 25, 0, 4476, 75, *cut()), Cage(8, 11, 8, 11, 5, 75)),
    (Beam(625, 741, 26, 350, 4200, 27, 0, 3863, 60, *PULLED), Cage(7, 3, 7, 3, 5, 75)),
    (Beam(314, 614, 23, 350, 2800, 25, 0, 6146, 75, *cut(46359)), Cage(5, 3, 5, 7, 3, 50)),
    (Beam(568, 706, 43, 350, 2800, 24, 0, 11891, 60, *cut(7772)), Cage(3, 6, 6, 5, 3, 200)),
    (Beam(269, 567, 49, 280, 4200, 28, 0, 3065, 75, *cut()), Cage(3, 7, 3, 7, 3, 125)),
    (Beam(625, 741, 26, 350, 4200, 27, 1, 3863, 60, *cut()), Cage(7, 3, 7, 3, 5, 75)),
    (Beam(589, 388, 61, 420, 4200, 29, 1, 1204, 75, *cut()), Cage(7, 2, 7, 3, 5, 75)),
    (Beam(651, 881, 68, 180, 4200, 30, 1, 5136, 75, *cut(3, 49468)), Cage(8, 8, 10, 5, 5, 75)),
    (Beam(660, 872, 37, 240, 2800, 36, 1, 1816, 60, *cut(3, 517)), Cage(11, 4, 11, 5, 5, 75)),
    (Beam(484, 763, 25, 240, 4200, 11, 1, 5430, 60, *cut(2, 28107)), Cage(8, 10, 8, 3, 3, 50)),
    (Beam(692, 633, 36, 420, 2800, 38, 1, 4971, 75, *cut(1, 14269)), Cage(6, 12, 6, 9, 3, 100)),
    (Beam(620, 516, 64, 350, 2800, 34, 1, 11533, 60, *cut(1, 15006)), Cage(10, 4, 10, 7, 3, 50)),
)


def is_told(slip):
    """Whether one of these questions tells a slip."""
    return any(answers(slip.rules, question) != answers(RULES, question) for question in CLOSE_QUESTIONS)
