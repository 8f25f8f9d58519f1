"""Beams with the marks in stock: drawn at random, and those of crates/questions."""

import subprocess

import draw
import programs
from models import card, orders, reference, search

REFERENCE = reference.REFERENCE_CARD


class Case:
    """The card of a beam, and the marks in stock."""

    def __init__(self, some, mains, ties):
        self.card, self.mains, self.ties = some, tuple(mains), tuple(ties)
        self.head = orders.stocks(mains, ties) + orders.enter(0, some)

    def line(self):
        """The case as program `questions` reads it."""
        mains, ties = ("".join(f"{mark:X}" for mark in marks) for marks in (self.mains, self.ties))
        return f"{mains} {ties} {self.card.hex()}\n"

    def has_all_marks(self):
        return (self.mains, self.ties) == draw.ALL_MARKS

    def count(self):
        """How many designs take long enough to be measured."""
        return max(4, 3_000_000 // search.count_cages(self.mains, self.ties))

    def is_chosen(self):
        return b"D 0 CAGE\n" in programs.run("cages", self.head + orders.design(0))[0]


def draw_case(chance, most, is_full):
    marks = draw.ALL_MARKS if is_full else draw.draw_marks(chance, 3, 2)
    return Case(card.write_card(draw.draw_beam(chance, most)), *marks)


def draw_cases(chance, count, wanted, most=1.2, is_full=True):
    """The first `count` cases drawn that are chosen, or that are not."""
    some = []
    while len(some) < count:
        case = draw_case(chance, most, is_full)
        if case.is_chosen() == wanted:
            some.append(case)
    return some


def drawn(chance, beams):
    """Cases drawn at random, by kind."""
    return {
        "drawn, chosen, all marks": draw_cases(chance, beams, True),
        "drawn, chosen, one to three main marks and one or two tie marks": draw_cases(chance, beams // 2, True, is_full=False),
        "drawn, impossible, all marks": draw_cases(chance, beams // 4, False, most=4),
    }


def read_case(line):
    mains, ties, some = line.split()
    return Case(bytes.fromhex(some), *([int(mark, 16) for mark in marks] for marks in (mains, ties)))


def stored():
    """The beams of crates/questions, by kind."""
    text = (programs.ROOT / "crates" / "questions" / "stdin").read_text()
    some = [(case, case.has_all_marks(), case.is_chosen()) for case in map(read_case, text.splitlines())]
    return {
        "of crates/questions, chosen, all marks": [case for case, full, chosen in some if full and chosen],
        "of crates/questions, chosen, fewer marks": [case for case, full, chosen in some if chosen and not full],
        "of crates/questions, impossible, all marks": [case for case, full, chosen in some if full and not chosen],
    }


def questions(groups):
    """The last lines that program `questions` prints of the drawn beams; the plain program has to print the same."""
    lines = "".join(case.line() for what, some in groups.items() if what.startswith("drawn") for case in some).encode()
    commands = [programs.build_proved("questions")], [programs.PLAIN, "questions"]
    proved, plain = (subprocess.run(command, input=lines, capture_output=True, check=True).stdout for command in commands)
    if proved != plain:
        raise SystemExit("bench: the plain program counts other questions")
    return proved.decode().splitlines()[-3:]
