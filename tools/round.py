#!/usr/bin/env python3
"""Writes crates/round/stdin and crates/round/stdout: streams of orders, what the console has to print of each, and in how
many ways of cutting them it has to print the same.

    python3 tools/round.py            writes both files
    python3 tools/round.py --check    ends with status 1 where a file would change

It follows docs/RULES.md and docs/FORMATS.md and knows nothing of the Rattle code. The book is that of crates/round/specs. What
a scenario has to print is also written out by hand beside its orders, and the two must agree.
"""
import orders
from card import write_card
from console import answer
from rebar import MAIN, TIE
from stored import CRATES, arguments, store


def workshop(beam, cage):
    """The book of the workshop."""
    if beam.span > 2000 * cage.tie:
        return 200
    if cage.spacing > 10 * beam.cover:
        return 255
    if beam.height > 50 * (cage.bottom + cage.top):
        return 120
    return 1 if beam.aggregate > 10 * cage.bottoms else 0


# ---- orders with the words that they get ----


def card(dead=-4000, **numbers):
    """A card with these numbers, and with the moment of dead load at the left face."""
    usual = {"width": 300, "height": 500, "concrete": 210, "span": 5000, "dead": (dead, 5000, 3000, 0, -4000, -5000)}
    return write_card(usual | numbers)


def stock(kind, mark, value, words="OK"):
    return orders.stock(kind, mark, value), f"S {mark} {words}"


def enter(place, some, words="OK"):
    return orders.enter(place, some), f"E {place} {words}"


def correct(place, some, words="OK"):
    return orders.correct(place, some), f"K {place} {words}"


def strike(place, words="OK"):
    return orders.strike(place), f"X {place} {words}"


def design(place, words="CAGE"):
    return orders.design(place), f"D {place} {words}"


# ---- scenarios ----

MIDDLE = card()  # 500 high: main marks of 10 together; ties of any mark
LOW = card(height=400)  # main marks of 8 together
BETWEEN = card(height=450)  # main marks of 9 together
HIGH = card(height=800)  # main marks of 16 together
HIGH_COVERED = card(height=800, cover=60)  # the same, and no ties stand too far apart
LONG = card(height=400, span=7000)  # ties of mark 4 at least
ENDLESS = card(span=11000)  # ties of mark 6: there are none
HIGH_LONG = card(height=800, cover=60, span=7000)  # both: of ties of 3 and 4 the thinner have the greater answer
COARSE = card(aggregate=31)  # four bars at the bottom
EMPTY = ["CAGES", "TOTAL 0 0"]
YARD = [stock(MAIN, 5, 1), stock(TIE, 3, 1)]

REFUSALS = [
    *(design(0, "REFUSED 3 0"), correct(0, MIDDLE, "REFUSED 3 0")),
    *(strike(0, "REFUSED 3 0"), correct(0, b"", "REFUSED 3 0")),
    *(enter(64, MIDDLE, "REFUSED 1 0"), correct(64, MIDDLE, "REFUSED 1 0")),
    *(strike(64, "REFUSED 1 0"), design(64, "REFUSED 1 0")),
    *(enter(255, b"", "REFUSED 1 0"), correct(255, b"", "REFUSED 1 0")),
    *(strike(255, "REFUSED 1 0"), design(255, "REFUSED 1 0")),
    *(stock(2, 5, 1, "REFUSED 9 0"), stock(255, 3, 1, "REFUSED 9 0"), stock(MAIN, 2, 1, "REFUSED 9 0")),
    *(stock(MAIN, 12, 1, "REFUSED 9 0"), stock(TIE, 2, 1, "REFUSED 9 0")),
    *(stock(TIE, 6, 1, "REFUSED 9 0"), stock(TIE, 6, 0, "REFUSED 9 0")),
    *(enter(0, b"", "REFUSED 4 0"), enter(0, MIDDLE[:1], "REFUSED 4 1"), enter(0, MIDDLE[:33], "REFUSED 4 33")),
    *(enter(0, b"\x22" + MIDDLE[1:], "REFUSED 5 0"), enter(0, b"\x02\x8a" + MIDDLE[4:], "REFUSED 6 0")),
    *(enter(0, MIDDLE + b"\0", "REFUSED 7 34"), enter(0, card(width=249), "REFUSED 8 2")),
    enter(0, card(height=901), "REFUSED 8 4"),
    *(enter(0, card(concrete=200), "REFUSED 8 6"), enter(0, card(span=999), "REFUSED 8 8")),
    enter(0, card(dead=100001), "REFUSED 8 10"),
    *(design(0, "REFUSED 3 0"), enter(0, MIDDLE), enter(0, MIDDLE, "REFUSED 2 0"), enter(0, b"", "REFUSED 2 0")),
    *(design(0, "REFUSED 10 0"), stock(MAIN, 5, 1), design(0, "REFUSED 10 0")),
    *(stock(MAIN, 5, 0), stock(TIE, 3, 1), design(0, "REFUSED 10 0")),
    *(stock(MAIN, 5, 255), design(0)),
    # no refused order takes the cage away
    *(enter(0, MIDDLE, "REFUSED 2 0"), correct(0, b"", "REFUSED 4 0"), correct(0, MIDDLE + b"\0\0", "REFUSED 7 34")),
    *(correct(0, b"\x42" + MIDDLE[1:], "REFUSED 5 0"), correct(0, b"\0\0", "REFUSED 6 0")),
    correct(0, card(span=12001), "REFUSED 8 8"),
    *(stock(MAIN, 12, 1, "REFUSED 9 0"), stock(2, 5, 0, "REFUSED 9 0")),
    *(strike(64, "REFUSED 1 0"), design(1, "REFUSED 3 0")),
]
# 5,000 × 4 × 199, and 14 ties of 1,430 mm with 71 mm²
REFUSALS_BILL = ["CAGES", "00 B 2#5 T 2#5 S #3@400 5401420", "TOTAL 1 5401420"]

AS_IT_WAS = [
    *YARD,
    *(enter(7, MIDDLE), design(7), stock(MAIN, 5, 1), stock(MAIN, 5, 2)),
    *(stock(TIE, 3, 255), stock(MAIN, 4, 0), stock(TIE, 4, 0), stock(TIE, 5, 0)),
]

COMING_IN = [
    *YARD,
    *(enter(7, MIDDLE), design(7), enter(8, ENDLESS), design(8, "NONE 200"), enter(9, COARSE), design(9)),
    *(enter(10, HIGH), design(10, "NONE 255"), enter(11, HIGH_COVERED), design(11, "NONE 120")),
    # each of the chosen ones is open again, also those that a lighter mark cannot help
    *(stock(MAIN, 11, 1), design(9), design(8, "NONE 200"), design(10)),
    *(design(11), stock(TIE, 4, 1), design(9), design(11)),
    # the greatest answer is neither the first nor the last
    *(stock(MAIN, 11, 0), enter(12, HIGH_LONG), design(12, "NONE 200")),
]

GOING_OUT = [
    *(stock(MAIN, mark, 1) for mark in (3, 4, 5, 7)),
    *(stock(TIE, mark, 1) for mark in (3, 4, 5)),
    *(enter(1, MIDDLE), enter(2, LOW), enter(3, BETWEEN), enter(4, LONG)),
    *(enter(5, ENDLESS), enter(6, MIDDLE), enter(63, card(height=600))),
    # 5 and 5, 4 and 4, 4 and 5, 4 and 4 on ties of 4, none, open, 5 and 7
    *(design(1), design(2), design(3), design(4), design(5, "NONE 200"), design(63)),
    # a main mark that no cage uses, though ties have it; a tie mark that no cage uses, though main bars have it
    *(stock(MAIN, 3, 0), stock(TIE, 5, 0)),
    # one that a top uses; one that both faces of the one and the top of the other use; a tie's, which main bars have too
    *(stock(MAIN, 7, 0), design(63, "NONE 255"), stock(MAIN, 5, 0), stock(TIE, 4, 0)),
    *(design(1, "NONE 255"), design(3, "NONE 255"), design(4, "NONE 200"), design(5, "NONE 200"), design(2)),
    *(stock(MAIN, 4, 0), design(2, "REFUSED 10 0"), stock(TIE, 3, 0), design(2, "REFUSED 10 0")),
]

# a main mark that the bottom alone uses, and one that the top alone uses
BOTTOM_OUT, TOP_OUT = (
    [stock(MAIN, 4, 1), *YARD, enter(1, card(height=left)), enter(3, BETWEEN), design(1), design(3), stock(MAIN, mark, 0)]
    for left, mark in ((500, 4), (400, 5))
)

CORRECTIONS = [
    *YARD,
    # of an open, a chosen and an impossible beam
    *(enter(1, HIGH), correct(1, MIDDLE), design(1), correct(1, MIDDLE), design(1), correct(1, LOW, "OK"), design(1)),
    *(enter(2, ENDLESS), design(2, "NONE 200"), correct(2, MIDDLE), design(2)),
    *(correct(2, ENDLESS), design(2, "NONE 200"), design(2, "NONE 200")),
    # a design once more
    *(enter(5, MIDDLE), design(5), design(5), design(1)),
    # strikes of a chosen, an impossible and an open beam, and of an empty place
    *(strike(1), design(1, "REFUSED 3 0"), correct(1, MIDDLE, "REFUSED 3 0")),
    *(strike(1, "REFUSED 3 0"), strike(2), strike(2, "REFUSED 3 0")),
    *(enter(4, MIDDLE), strike(4), design(4, "REFUSED 3 0"), enter(1, LOW)),
    *(enter(1, LOW, "REFUSED 2 0"), design(1), enter(2, MIDDLE), design(2)),
]

PLACES = (63, 0, 31, 7, 32, 10, 9)
IN_PLACE_ORDER = [
    *(stock(MAIN, 4, 1), stock(MAIN, 6, 1), stock(TIE, 4, 1)),
    *(enter(place, card(height=300 + 4 * place)) for place in PLACES),
    *(design(place) for place in PLACES),
]

ALL_PLACES = [
    *YARD,
    *(enter(place, card(height=436 + place, span=5000 + place)) for place in reversed(range(64))),
    *(design(place) for place in reversed(range(64))),
]

UNKNOWN_LETTERS = (b"R", b"C", b"e", b"k", b"x", b"d", b"s", b"\0", b"\x07", b"@", b"\xff")

# one order of each letter, none of them long
SHORT = [
    *(stock(MAIN, 5, 1), enter(7, b"\x06\x8b\x01", "REFUSED 4 3"), correct(7, b"\0", "REFUSED 3 0")),
    *(strike(7, "REFUSED 3 0"), design(7, "REFUSED 3 0")),
]


def bytes_of(some):
    return b"".join(order for order, _ in some)


def take(streams, some, bill=None, after=b""):
    """Takes the stream of some orders, with these bytes after it.

    The lines have to be those beside the orders, and the bill this one where there is one. It gives the places of the bill.
    """
    stream, lines = bytes_of(some) + after, [line for _, line in some] + ["STOP"] * (after != b"")
    got = answer(stream, workshop)
    assert got[: len(lines)] == lines, [pair for pair in zip(got, lines) if pair[0] != pair[1]][:1]
    assert bill is None or got[len(lines) :] == bill, got[len(lines) :]
    streams.append(stream)
    return [line[:2] for line in got[len(lines) + 1 : -1]]


def take_all(streams, some):
    """Takes the streams of the first orders, the first two, and so on: each shows the bill after one order more."""
    return [take(streams, some[:count]) for count in range(len(some) + 1)]


def take_cuts(streams, stream):
    """Takes a stream up to each of its bytes."""
    streams += [stream[:size] for size in range(len(stream))]


def take_scenarios(streams):
    take(streams, [], EMPTY)
    take(streams, REFUSALS, REFUSALS_BILL)
    assert take_all(streams, AS_IT_WAS)[4:] == [["07"]] * 7
    assert take_all(streams, COMING_IN)[8:] == [["07", "09"]] * 5 + (
        [[], ["09"], ["09"], ["09", "10"], ["09", "10", "11"], [], ["09"], ["09", "11"]] + [["09"]] * 3
    )
    assert take_all(streams, GOING_OUT)[20:] == (
        [["01", "02", "03", "04", "63"]] * 3 + [["01", "02", "03", "04"]] * 2 + [["02", "04"]] + [["02"]] * 6 + [[]] * 4
    )
    assert take(streams, BOTTOM_OUT) == take(streams, TOP_OUT) == ["01"]
    take_all(streams, CORRECTIONS)
    assert take(streams, IN_PLACE_ORDER) == ["00", "07", "09", "10", "31", "32", "63"]
    assert take(streams, ALL_PLACES) == [f"{place:02}" for place in range(64)]


def take_ends(streams):
    """Takes streams that end with an unknown letter, or within an order."""
    # letters that are unknown, with orders after them that nobody reads
    for letter in UNKNOWN_LETTERS:
        take(streams, [*YARD, enter(7, MIDDLE), design(7)], after=letter + orders.strike(7) + orders.design(7))
    # each order cut at each byte
    take(streams, SHORT, EMPTY)
    take_cuts(streams, bytes_of(SHORT))
    take_cuts(streams, orders.stock(TIE, 3) + orders.enter(64, MIDDLE))
    take_cuts(streams, bytes_of([*YARD, enter(7, MIDDLE), design(7), correct(7, LOW), strike(7)]))
    # a length that leaves the next order as bytes of the card, and one that leaves a byte of the card as the next order
    take(streams, [stock(MAIN, 5, 1)], EMPTY, after=b"E\x07\x26" + MIDDLE + orders.design(7))
    take(streams, [enter(7, MIDDLE[:33], "REFUSED 4 33")], EMPTY, after=MIDDLE[33:] + orders.design(7))


# ---- orders by chance ----


def chances(seed):
    """Numbers by chance."""
    while True:
        seed = seed * 6364136223846793005 + 1442695040888963407 & 2**64 - 1
        yield seed >> 33


def order_by_chance(chance):
    def one_of(*some):
        return some[next(chance) % len(some)]

    place = one_of(0, 1, 2, 3, 4, 5, 62, 63, 63, 64)
    some = one_of(MIDDLE, MIDDLE, LOW, LOW, BETWEEN, HIGH, HIGH_COVERED, LONG, ENDLESS, COARSE, MIDDLE[:-1], card(width=249))
    kind = one_of(*[MAIN] * 6, *[TIE] * 4, 2)
    mark = one_of(3, 4, 5, 7, 11) if kind == MAIN else one_of(3, 3, 4, 5, 6)
    value = one_of(0, 1, 2)
    return one_of(
        *[orders.design(place)] * 7,
        *[orders.enter(place, some)] * 5,
        *[orders.correct(place, some)] * 2,
        orders.strike(place),
        *[orders.stock(kind, mark, value)] * 3,
    )


def take_by_chance(streams):
    chance = chances(1)
    streams += [b"".join(order_by_chance(chance) for _ in range(60)) for _ in range(60)]


# ---- all streams ----


def all_streams():
    """The streams, the last two of which are stored for other programs."""
    streams = []
    take_scenarios(streams)
    take_ends(streams)
    take_by_chance(streams)
    return streams + [(CRATES / crate / "stdin").read_bytes() for crate in ("cages", "haulage")]


def count_cuts(stream):
    """In how many ways a stream is cut: into two at every byte, and into pieces of 1, 2, 3, 7 and 4,096 bytes."""
    return max(len(stream) - 1, 0) + 5


def main():
    said = arguments(__doc__).parse_args()
    streams = all_streams()
    stdin = b"".join(len(stream).to_bytes(2, "big") + stream for stream in streams)
    lines = [*(line for stream in streams for line in answer(stream, workshop)), f"CUTS {sum(map(count_cuts, streams))}"]
    store("round", stdin, "".join(line + "\n" for line in lines).encode(), said.check)
    print(f"{len(streams)} streams")


if __name__ == "__main__":
    main()
