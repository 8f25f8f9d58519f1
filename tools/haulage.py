#!/usr/bin/env python3
"""Writes crates/haulage/stdin and crates/haulage/stdout: a stream of orders to a sheet on the haulage layer, and its answer.

    python3 tools/haulage.py            writes both files
    python3 tools/haulage.py --check    ends with status 1 where a file would change

The articles are those of books.py, which follows docs/RULES.md and knows nothing of the crates; 71 and 72 stand here. What
each order has to print is written beside it, and for a design a search through all cages must agree.
"""
from dataclasses import replace

import orders
from card import short_card
from console import answer
from loads import NO_LOAD
from rebar import MAIN, TIE, Cage
from reference import REFERENCE
from rules import RULES
from search import Chosen, Impossible, decide
from stored import arguments, store

BED, LIFTS = 6000, 75
AS_THE_BED = replace(REFERENCE, span=BED, live=NO_LOAD)
LONGER = replace(AS_THE_BED, span=BED + 1)


def haulage(beam, cage):
    """The answer of the haulage layer over the pile of `cages`."""
    lower = RULES.framed(beam, cage)
    if lower != 0:
        return lower
    if beam.span > BED:
        return 71
    return 72 if RULES.steel(beam, cage) * 785 > LIFTS * 100_000_000 else 0


# ---- orders, each with its line ----


def stock(kind, mark):
    return orders.stock(kind, mark), f"S {mark} OK"


def enter(place, beam):
    return orders.enter(place, short_card(beam)), f"E {place} OK"


def correct(place, beam):
    return orders.correct(place, short_card(beam)), f"K {place} OK"


def design(place, beam, mains, wanted):
    """A design that has to decide in this way."""
    found = decide(beam, haulage, mains, (3,))
    assert found == wanted, found
    words = f"NONE {wanted.number}" if isinstance(wanted, Impossible) else "CAGE"
    return orders.design(place), f"D {place} {words}"


# 5,000 × (516 + 645), and 26 ties of 1,430 mm with 71 mm²: 66.3 kg
LIGHTER = Chosen(8_444_780, Cage(bottom=4, bottoms=4, top=4, tops=5, tie=3, spacing=200))
# 6,000 × (387 + 387), and 31 of the same ties: 61.2 kg
LONGEST = Chosen(7_791_430, Cage(bottom=4, bottoms=3, top=4, tops=3, tie=3, spacing=200))
BILL = ["CAGES", "07 B 4#4 T 5#4 S #3@200 8444780", "TOTAL 1 8444780"]


def all_orders():
    yield stock(MAIN, 5)
    yield stock(TIE, 3)
    yield enter(7, REFERENCE)
    # the lightest from these marks, 9,604,780 mm³, has 75.4 kg
    yield design(7, REFERENCE, (5,), Impossible(72))
    yield stock(MAIN, 4)
    yield design(7, REFERENCE, (4, 5), LIGHTER)
    # as long as the bed, and 1 mm longer
    yield enter(8, AS_THE_BED)
    yield design(8, AS_THE_BED, (4, 5), LONGEST)
    yield correct(8, LONGER)
    yield design(8, LONGER, (4, 5), Impossible(71))


def main():
    said = arguments(__doc__).parse_args()
    asked, lines = zip(*all_orders())
    stdin = b"".join(asked)
    assert answer(stdin, haulage) == [*lines, *BILL]
    store("haulage", stdin, "".join(line + "\n" for line in (*lines, *BILL)).encode(), said.check)
    print(f"{len(asked)} orders")


if __name__ == "__main__":
    main()
