#!/usr/bin/env python3
"""Makes the cases of the program `trial`, with their answers, from the rules alone.

    python3 tools/worked_cases.py [SEED]      writes crates/trial/stdin and crates/trial/stdout
    python3 tools/worked_cases.py --check     ends with status 1 where a file would change

The rules (rules.py and what it imports) follow docs/RULES.md and docs/FORMATS.md line by line and share nothing with the
crates, so that a slip in one of the two shows where their answers are compared. The cases are found by a search: for every
article a pair of questions that differ by one step of one number, of which one is refused by it and the other is not; of the
pairs found, the one whose passing side is nearest to the limit. Articles 13 and 26 ask two things, and have a pair for each.

The limit of 300 mm of article 13 has no pair, since it never decides alone: where vs is at least 2 vc, 40 times a spacing
above 300 passes 12,000 tenths, and no depth does.

Then every number of the rules is taken one greater and one smaller in turn (slips.py), and questions are sought whose answers
are then others, so that the same wrong number in a definition and in the code shows too. The slips that no question tells are
printed. Some lines are read in another way too, and a question tells each of these misreadings.
"""
import random
from dataclasses import replace
from itertools import product

import orders
from books import ApprovedRow, Limits, approved, yard
from card import short_card
from loads import GREATEST_LOAD, LOADS, NO_LOAD
from rebar import CAGE_VALUES, MAIN, MARKS, NUMBERS, VALUES, Beam, Cage
from reference import DEAD, REFERENCE, REFERENCE_CARD, WORKED
from rules import RULES
from search import Chosen, decide
from slips import CLOSE_QUESTIONS, answers, is_told, misreadings, slips
from stored import arguments, store

# the articles by their first tests; the two that have a second one by that too
WANTED = [*((article, 0) for article in (*range(1, 14), *range(21, 29))), (13, 1), (26, 1)]
PAIR_ROUNDS, SLIP_ROUNDS = 40_000, 6_000


# ---- questions as bytes ----


def with_length(some):
    return bytes([len(some)]) + some


def cage_bytes(cage):
    *five, spacing = cage
    return bytes(five) + spacing.to_bytes(2, "big")


def row_bytes(row):
    *section, cage, bottom, top, shear = row
    allowed = b"".join(number.to_bytes(4, "big") for number in (bottom, top, shear))
    return b"".join(number.to_bytes(2, "big") for number in section) + cage_bytes(cage) + allowed


def limits_bytes(limits):
    return b"".join(number.to_bytes(4, "big") for number in limits)


# ---- the search for cases ----


def random_beam(rng):
    def load():
        if rng.random() < 0.4:
            return NO_LOAD
        scale = rng.choice((300, 3_000, 20_000, GREATEST_LOAD))
        return tuple(rng.randint(-scale, scale) for _ in range(6))

    return Beam(**{name: rng.choice(values) for name, values in VALUES.items()}, **{name: load() for name in LOADS})


def random_cage(rng):
    return Cage(*map(rng.choice, CAGE_VALUES.values()))


def flips(make, values):
    """Questions of neighbouring values whose answers differ, found by halving, or nothing where the ends answer the same."""

    def answer(index):
        return RULES.framed(*make(values[index]))

    low, high = 0, len(values) - 1
    first, last = answer(low), answer(high)
    if first == last:
        return None
    while high - low > 1:
        middle = (low + high) // 2
        if answer(middle) == first:
            low = middle
        else:
            high = middle
    return make(values[low]), make(values[high])


def with_load(beam, name, index, number):
    """The beam with another number in a load."""
    load = getattr(beam, name)
    return replace(beam, **{name: (*load[:index], number, *load[index + 1 :])})


def neighbours(rng, beam, cage):
    """Pairs of questions whose answers differ and that are one step of one number apart."""
    name = rng.choice([name for name, values in VALUES.items() if isinstance(values, range)])
    yield flips(lambda value: (replace(beam, **{name: value}), cage), VALUES[name])
    name = rng.choice(list(CAGE_VALUES))
    yield flips(lambda value: (beam, cage._replace(**{name: value})), CAGE_VALUES[name])
    name, index = LOADS[rng.randrange(4)], rng.randrange(6)
    yield flips(lambda value: (with_load(beam, name, index, value), cage), range(GREATEST_LOAD + 1))


def numbered(beam, cage):
    """All tests of the two books, those of one article counted from 0, with the room that each leaves as a part of its limit."""
    seen = {}
    for article, left, right in RULES.tests(beam, cage):
        yield (article, seen.setdefault(article, 0)), (right - left) / max(1, right)
        seen[article] += 1


def broken(question):
    """The first test that does not hold."""
    return next((test for test, room in numbered(*question) if room < 0), (0, 0))


def slack(question, test):
    """How far the passing side is from the limit."""
    return min((room for other, room in numbered(*question) if other == test), default=1.0)


def in_order(one, two):
    """Two questions, each after the first test that it breaks; the one that breaks the earlier test comes first."""
    first, second = broken(one), broken(two)
    if first == (0, 0) or (second != (0, 0) and second < first):
        return second, two, first, one
    return first, one, second, two


def tables(rng, rounds):
    """For every wanted test the pair nearest to its limit: the question that passes it, the question that it refuses."""
    best = {}
    for _ in range(rounds):
        for pair in neighbours(rng, random_beam(rng), random_cage(rng)):
            if pair is None:
                continue
            test, refused, other, passes = in_order(*pair)
            key = slack(passes, test) + (0 if other == (0, 0) else 0.05)
            if test in WANTED and (test not in best or key < best[test][0]):
                best[test] = key, passes, refused
    missing = [test for test in WANTED if test not in best]
    assert not missing, missing
    return {test: best[test][1:] for test in WANTED}


def at_most_steel():
    """Questions in the frame, with no load, where the greatest steel of article 23 or 24 is just met or just passed."""
    usual = replace(REFERENCE, width=800, concrete=280, steel=2800, frame=1, dead=NO_LOAD, live=NO_LOAD)
    for mark, number, height in product(MARKS[MAIN], NUMBERS[1:], VALUES["height"]):
        beam = replace(usual, height=height)
        bottom, top = Cage(mark, number, mark, number - 1, 3, 50), Cage(mark, number - 1, mark, number, 3, 50)
        face = RULES.question(beam, bottom).bottom
        for over in (0, 1):
            width, rest = divmod(400 * face.area + over, face.depth)
            if rest == 0 and width in VALUES["width"]:
                narrower = replace(beam, width=width)
                if RULES.question(narrower, bottom).bottom.depth == face.depth:
                    yield narrower, bottom
                    yield narrower, top


def telling(rng, asked, rounds):
    """Questions that tell the slips which those asked before do not, and the slips that none of them tells."""
    left, found = list(slips()), []

    def ask(question):
        right = answers(RULES, question)
        rest = [slip for slip in left if answers(slip.rules, question) == right]
        told = len(rest) < len(left)
        left[:] = rest
        return told

    for question in asked:
        ask(question)
    for _ in range(rounds):
        pairs = neighbours(rng, random_beam(rng), random_cage(rng))
        found += [question for pair in pairs for question in pair or () if ask(question)]
    found += [question for question in at_most_steel() if ask(question)]
    return found, left


# ---- worked questions ----


def put_in(dead, earthquake):
    """The reference beam with these moments at midspan in place of its own: nothing else changes in its actions but m."""
    dead_load, live_load = (-4000, 5000, dead, 0, -4000, -5000), (-3000, 4000, 0, 0, -3000, -4000)
    return replace(REFERENCE, dead=dead_load, live=live_load, earthquake=(0, 0, earthquake, 0, 0, 0))


def worked_questions():
    """A beam, a cage, and by hand: the answers of the general book and of the frame layer over it, and for some the steel."""
    in_frame = replace(REFERENCE, frame=1)
    yield REFERENCE, WORKED, (0, 0, 9_604_780)
    yield REFERENCE, WORKED._replace(tops=3), (7, 7, None)
    yield REFERENCE, WORKED._replace(bottoms=2), (6, 6, None)
    yield REFERENCE, WORKED._replace(spacing=225), (13, 13, None)
    yield REFERENCE, WORKED._replace(spacing=125), (13, 13, None)
    yield REFERENCE, WORKED._replace(spacing=150), (0, 0, None)
    yield put_in(-3, 9460), WORKED, (0, 0, 9_604_780)
    yield put_in(-4, 9461), WORKED, (6, 6, 9_604_780)
    yield in_frame, WORKED._replace(spacing=150), (0, 26, None)
    yield in_frame, WORKED._replace(spacing=100), (0, 0, 12_041_500)


def check_by_hand():
    """What the rules say of the worked questions."""
    for beam, cage, (lower, both, steel) in worked_questions():
        assert (RULES.general(beam, cage), RULES.framed(beam, cage)) == (lower, both), (beam, cage)
        assert steel is None or RULES.steel(beam, cage) == steel
    assert RULES.actions(REFERENCE) == (68_000, 96_000, 124_000, 124_000)
    assert RULES.actions(put_in(-3, 9460)) == (94_573, 96_000, 124_000, 124_000)
    assert RULES.actions(put_in(-4, 9461)) == (94_574, 96_000, 124_000, 124_000)


def faulty_cards():
    """Cards with their faults, by hand."""
    good = REFERENCE_CARD
    assert good.hex() == (
        "068b012c01f400d21388"
        "fffff0600000138800000bb800000000fffff060ffffec78"
        "fffff44800000fa0000007d000000000fffff448fffff060"
    )
    yield good[:57], (4, 57)
    yield good + b"\0", (7, 58)
    yield good[:2] + (249).to_bytes(2, "big") + good[4:], (8, 2)
    yield good[:10] + (100_001).to_bytes(4, "big") + good[14:], (8, 10)


# ---- a stream of questions with its answers ----


class Stream:
    def __init__(self):
        self.bytes, self.lines, self.rows = b"", [], []

    def ask(self, beam, cage):
        self.bytes += b"Q" + with_length(short_card(beam)) + cage_bytes(cage)
        self.lines.append(f"Q {RULES.general(beam, cage)} {RULES.framed(beam, cage)} {RULES.steel(beam, cage)}")

    def fault(self, card, number, place):
        self.bytes += b"Q" + with_length(card) + cage_bytes(WORKED)
        self.lines.append(f"Q REFUSED {number} {place}")

    def approve(self, row):
        self.bytes += b"A" + row_bytes(row)
        self.rows.append(row)

    def approved(self, beam, cage):
        return approved(self.rows, beam, cage, RULES.actions(beam))

    def yard(self, limits, beam, cage):
        self.bytes += b"Y" + limits_bytes(limits) + with_length(short_card(beam)) + cage_bytes(cage)
        over_approved = self.approved(beam, cage) or yard(limits, cage)
        over_general = RULES.general(beam, cage) or yard(limits, cage)
        self.lines.append(f"Y {self.approved(beam, cage)} {over_approved} {over_general}")

    def sheet(self, limits, mains, ties, beams):
        """A sheet on the yard layer over the rows so far: the stock, then beams entered at places and designed."""

        def book(beam, cage):
            return self.approved(beam, cage) or yard(limits, cage)

        stream = orders.stocks(mains, ties)
        self.lines += [f"S {mark} OK" for mark in (*mains, *ties)]
        for place, beam in beams:
            stream += orders.enter(place, short_card(beam)) + orders.design(place)
            self.lines.append(f"E {place} OPEN")
            self.lines.append(f"D {place} {shown(decide(beam, book, mains, ties))}")
        self.bytes += b"O" + limits_bytes(limits) + len(stream).to_bytes(2, "big") + stream


def shown(decision):
    """What a place shows of its decision."""
    if not isinstance(decision, Chosen):
        return f"NONE {decision.number}"
    bottom, bottoms, top, tops, tie, spacing = decision.cage
    return f"CAGE {bottoms}#{bottom} {tops}#{top} #{tie}@{spacing} {decision.steel}"


# ---- the yard layer and the approved rows ----


def row(cage, bottom=68_000, top=96_000, shear=124_000, section=(300, 500, 210, 4200)):
    """An approved row; usually for the reference beam, with its actions."""
    return ApprovedRow(*section, cage, bottom, top, shear)


def approved_cases(out):
    """The approved rows, each limit from both sides."""
    free = Limits(12, 0, 0)
    # no row yet
    out.yard(free, REFERENCE, WORKED)
    # rows of another width, height, concrete, steel and cage do not count
    for section in ((301, 500, 210, 4200), (300, 501, 210, 4200), (300, 500, 240, 4200), (300, 500, 210, 2800)):
        out.approve(row(WORKED, section=section))
    for name, value in (("bottom", 6), ("bottoms", 4), ("top", 6), ("tops", 5), ("tie", 4), ("spacing", 225)):
        out.approve(row(WORKED._replace(**{name: value})))
    out.yard(free, REFERENCE, WORKED)
    # each of the three actions one short: the three rows together allow all, and none of them alone
    out.approve(row(WORKED, bottom=67_999))
    out.yard(free, REFERENCE, WORKED)
    out.approve(row(WORKED, top=95_999))
    out.approve(row(WORKED, shear=123_999))
    out.yard(free, REFERENCE, WORKED)
    out.sheet(free, (5,), (3,), [(7, REFERENCE)])
    # up to and including the number
    out.approve(row(WORKED))
    out.yard(free, REFERENCE, WORKED)


def yard_cases(out):
    """41 at either face, 42, 43, each from both sides."""
    mixed, fewer = WORKED._replace(top=6, tops=3), WORKED._replace(bottoms=4, tops=3)
    out.approve(row(mixed))
    out.approve(row(fewer))
    for limits, cage in (
        ((4, 0, 0), WORKED),
        ((3, 0, 0), WORKED),
        ((4, 0, 0), fewer),
        ((3, 0, 0), fewer),
        ((12, 200, 0), WORKED),
        ((12, 201, 0), WORKED),
        ((12, 0, 0), mixed),
        ((12, 0, 1), mixed),
        ((12, 0, 1), WORKED),
        ((0, 4_294_967_295, 4_294_967_295), mixed),
        ((4_294_967_295, 0, 4_294_967_295), mixed),
    ):
        out.yard(Limits(*limits), REFERENCE, cage)


def sheet_cases(out):
    """Sheets: each limit takes away the lightest of the cages that the ones before have left."""
    for cage in (Cage(3, 2, 3, 12, 3, 300), Cage(3, 2, 3, 4, 3, 100), Cage(3, 2, 5, 4, 3, 200)):
        out.approve(row(cage))
    unknown = replace(REFERENCE, concrete=280)
    weak = replace(REFERENCE, dead=DEAD, live=(-3000, 4001, 2000, 0, -3000, -4000))
    for limits in ((12, 0, 0), (4, 0, 0), (4, 101, 0), (4, 101, 1), (3, 101, 1)):
        out.sheet(Limits(*limits), (3, 5), (3,), [(0, REFERENCE), (63, unknown), (7, weak)])


# ---- all ----


def pairs_of_articles(rng):
    """The questions of the pairs: that which passes an article, and that which it refuses."""
    for (article, _), (passes, refused) in tables(rng, PAIR_ROUNDS).items():
        assert RULES.framed(*refused) == article != RULES.framed(*passes)
        yield passes
        yield refused


def report(found, untold):
    print(f"{len(list(slips()))} slips of one number, and {len(list(misreadings()))} misreadings, each of which is told")
    print(f"{len(found)} questions tell slips, and {len(untold)} slips are not told:", *untold, sep="\n")


def main():
    words = arguments(__doc__)
    words.add_argument("seed", type=int, nargs="?", default=33, metavar="SEED", help="of the questions by chance (33)")
    said = words.parse_args()
    rng, out = random.Random(said.seed), Stream()
    check_by_hand()
    worked = [(beam, cage) for beam, cage, _ in worked_questions()]
    pairs = list(pairs_of_articles(rng))
    found, left = telling(rng, worked + pairs, SLIP_ROUNDS)
    assert all(map(is_told, misreadings()))
    for question in worked:
        out.ask(*question)
    for card, fault in faulty_cards():
        out.fault(card, *fault)
    for question in (*pairs, *found, *CLOSE_QUESTIONS):
        out.ask(*question)
    for cases in (approved_cases, yard_cases, sheet_cases):
        cases(out)
    report(found, [slip.words for slip in left if not is_told(slip)])
    store("trial", out.bytes, "".join(line + "\n" for line in out.lines).encode(), said.check)


if __name__ == "__main__":
    main()
