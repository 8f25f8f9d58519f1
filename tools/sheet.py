"""The sheet of 64 places with the stock, on any article book: its calls, their refusals, and what a change of stock reopens
(docs/FORMATS.md).
"""
from card import Refusal, read_card
from rebar import MAIN, MARKS, TIE
from search import Chosen, decide

PLACES = 64


def uses(cage, kind, mark):
    """Whether a cage has a mark in its kind."""
    return mark in ((cage.bottom, cage.top) if kind == MAIN else (cage.tie,))


class Sheet:
    def __init__(self, book):
        self.book = book
        self.beams, self.decisions = {}, {}  # by place
        self.marks = {MAIN: set(), TIE: set()}

    def judge_place(self, place, taken):
        """A place that is unknown, or taken or empty where it should be the other, is refused."""
        if place >= PLACES:
            raise Refusal(1)
        if (place in self.beams) != taken:
            raise Refusal(3 if taken else 2)

    def enter(self, place, card):
        self.judge_place(place, taken=False)
        self.put(place, read_card(card))

    def correct(self, place, card):
        self.judge_place(place, taken=True)
        self.put(place, read_card(card))

    def put(self, place, beam):
        """The beam lies at the place, and is open."""
        self.beams[place] = beam
        self.decisions.pop(place, None)

    def strike(self, place):
        self.judge_place(place, taken=True)
        del self.beams[place]
        self.decisions.pop(place, None)

    def stock(self, kind, mark, value):
        """A mark goes in or out; one that stays as it was alters nothing."""
        if mark not in MARKS.get(kind, ()):
            raise Refusal(9)
        is_in = value != 0
        if (mark in self.marks[kind]) != is_in:
            self.marks[kind] ^= {mark}
            self.decisions = {} if is_in else self.standing_without(kind, mark)

    def standing_without(self, kind, mark):
        """The decisions that stand when a mark goes out: the chosen ones that do not use it."""
        chosen = {place: one for place, one in self.decisions.items() if isinstance(one, Chosen)}
        return {place: one for place, one in chosen.items() if not uses(one.cage, kind, mark)}

    def design(self, place):
        """The decision of the beam at the place, which it has from now on."""
        self.judge_place(place, taken=True)
        mains, ties = (tuple(sorted(self.marks[kind])) for kind in (MAIN, TIE))
        if not mains or not ties:
            raise Refusal(10)
        self.decisions[place] = decide(self.beams[place], self.book, mains, ties)
        return self.decisions[place]

    def chosen(self):
        """The places that are chosen, each with its cage and steel."""
        decisions = sorted(self.decisions.items())
        return [(place, one.cage, one.steel) for place, one in decisions if isinstance(one, Chosen)]
