#!/usr/bin/env python3
"""Writes crates/cards/stdin and crates/cards/stdout: beam cards, and what the reader has to answer to each.

    python3 tools/cards.py            writes both files
    python3 tools/cards.py --check    ends with status 1 where a file would change

It follows docs/FORMATS.md and docs/RULES.md and knows nothing of the Rattle code. Each card is built from the numbers of a
beam or from a fault that is put into it, so its answer is known before it is read. The reader of card.py reads each card once
more, and the two must agree.
"""
from itertools import combinations

from card import FIELDS, OPTIONAL, REQUIRED, Refusal, beam_of, beyond_of, byte_places, ends_of, read_card, write_card
from loads import GREATEST_LOAD, LOADS
from reference import DEAD, LIVE, REFERENCE_CARD
from rules import RULES
from stored import arguments, store

FIELD_NAMES = [field.name for field in FIELDS if not field.is_load()]
GOOD_LOADS = [-GREATEST_LOAD, 1 - GREATEST_LOAD, -1, 1, GREATEST_LOAD - 1, GREATEST_LOAD]
BAD_LOADS = [-(2**31), -GREATEST_LOAD - 1, GREATEST_LOAD + 1, 2**31 - 1]

LEAST = {"width": 300, "height": 500, "concrete": 210, "span": 5000, "dead": DEAD}
REFERENCE = LEAST | {"live": LIVE}
WHOLE = {
    "width": 400,
    "height": 600,
    "cover": 25,
    "concrete": 280,
    "steel": 2800,
    "aggregate": 10,
    "frame": 1,
    "span": 6000,
    "factor": 60,
    "dead": (-1001, 2002, 3003, -4004, -5005, 6006),
    "live": (7007, -8008, 9009, 10010, -11011, 12012),
    "wind": (13013, 14014, -15015, 16016, 17017, -18018),
    "earthquake": (-19019, 20020, 21021, -22022, 23023, 24024),
}


# ---- the lines ----


def beam_line(beam):
    words = ["BEAM", *(getattr(beam, name) for name in FIELD_NAMES)]
    for name in LOADS:
        words += [name[0].upper(), *getattr(beam, name)]
    return " ".join(map(str, [*words, "ACTIONS", *RULES.actions(beam)]))


def fault_line(number, place):
    return f"FAULT {number} {place}"


def read_line(card):
    """What the reader of card.py answers."""
    try:
        return beam_line(read_card(card))
    except Refusal as fault:
        return fault_line(fault.number, fault.place)


# ---- the cards, each with its line ----


def taken(numbers):
    return write_card(numbers), beam_line(beam_of(numbers))


def refused(card, number, place):
    return card, fault_line(number, place)


def out_of_range(numbers, step):
    """The card with these numbers, of which the one at this step is out of range."""
    return refused(write_card(numbers), 8, byte_places(numbers)[step])


def with_number(numbers, step, value):
    """The numbers with another one in a field, or in a load at a place."""
    if step in FIELD_NAMES:
        return numbers | {step: value}
    name, index = step
    load = list(numbers[name])
    load[index] = value
    return numbers | {name: tuple(load)}


def wrong_numbers(name):
    """Numbers that a field may not hold; of the steel also one between its two."""
    return sorted([*beyond_of(name), 3500]) if name == "steel" else beyond_of(name)


def ends_of_fields():
    for base in (LEAST, WHOLE):
        for name in FIELD_NAMES:
            yield from (taken(base | {name: value}) for value in ends_of(name))
            yield from (out_of_range(base | {name: value}, name) for value in wrong_numbers(name))


def ends_of_loads():
    for base, good, bad in ((REFERENCE, GOOD_LOADS, BAD_LOADS), (WHOLE, GOOD_LOADS[::5], BAD_LOADS[1:3])):
        for name in [name for name in LOADS if name in base]:
            for step in [(name, index) for index in range(6)]:
                yield from (taken(with_number(base, step, value)) for value in good)
                yield from (out_of_range(with_number(base, step, value), step) for value in bad)


def optional_fields():
    """Every choice of the optional fields, none, one, or more of them on the card."""
    for count in range(len(OPTIONAL) + 1):
        for names in combinations(OPTIONAL, count):
            yield taken(LEAST | {name: WHOLE[name] for name in names})


def maps():
    for base in (REFERENCE, WHOLE):
        card = write_card(base)
        for bit in (13, 14, 15):
            yield refused(bytes([card[0] | 1 << (bit - 8)]) + card[1:], 5, 0)
        for name in REQUIRED:
            yield refused(write_card({other: number for other, number in base.items() if other != name}), 6, 0)
    yield refused(bytes([0xFF, 0xFF]), 5, 0)
    yield refused(bytes([0x20, 0x00]), 5, 0)
    yield refused(bytes([0x00, 0x00]), 6, 0)
    yield refused(bytes([0x1D, 0x74]), 6, 0)


def lengths():
    for base in (LEAST, REFERENCE, WHOLE):
        card = write_card(base)
        for size in range(0, len(card)) if base is REFERENCE else range(2, len(card), 9):
            yield refused(card[:size], 4, size)
        yield refused(card[:-1], 4, len(card) - 1)
        for size in (len(card) + 1, len(card) + 2, 255):
            yield refused(card + bytes(size - len(card)), 7, len(card))
    yield refused(bytes([0xFF]), 4, 1)


def spoilt(*steps):
    """The whole card with a number out of range at each of these steps."""
    numbers = WHOLE
    for step in steps:
        numbers = with_number(numbers, step, wrong_numbers(step)[-1] if step in FIELD_NAMES else GREATEST_LOAD + 1)
    return write_card(numbers)


def several_faults():
    card, places = write_card(WHOLE), byte_places(WHOLE)
    steps = list(places)
    # of two numbers out of range the first in byte order
    for first, second in zip(steps, steps[1:]):
        yield refused(spoilt(first, second), 8, places[first])
        yield refused(spoilt(first, second, steps[-1]), 8, places[first])
    yield refused(spoilt(*steps), 8, 2)
    # the length before any number
    yield refused(spoilt("width")[:-1], 4, len(card) - 1)
    yield refused(spoilt("width") + b"\0", 7, len(card))
    yield refused(spoilt(("earthquake", 5))[:-1], 4, len(card) - 1)
    # a bit above 12 before an absent field, that before the length, and the length before a number
    yield refused(bytes([0x3F, 0xFE]) + card[2:], 5, 0)
    yield refused(bytes([0x3F, 0xFE]) + spoilt("height")[2:-1], 5, 0)
    yield refused(bytes([0x1F, 0xFE]) + card[2:], 6, 0)
    yield refused(bytes([0x1F, 0xFE]) + spoilt("height")[2:-1], 6, 0)
    yield refused(bytes([0x1F, 0xFE]) + card[2:] + b"\0", 6, 0)


def all_cards():
    yield taken(REFERENCE)
    yield taken(WHOLE)
    for some in (ends_of_fields, ends_of_loads, optional_fields, maps, lengths, several_faults):
        yield from some()


def main():
    said = arguments(__doc__).parse_args()
    cards = list(all_cards())
    for card, line in cards:
        assert read_line(card) == line, (card.hex(), line, read_line(card))
    # worked by hand
    assert cards[0][0] == REFERENCE_CARD and cards[0][0].hex().startswith("068b012c01f400d21388fffff060")
    assert cards[0][1].endswith("ACTIONS 68000 96000 124000 124000")
    # the last card is cut
    stdin = b"".join(bytes([len(card)]) + card for card, _ in cards) + bytes([len(REFERENCE_CARD)]) + REFERENCE_CARD[:-1]
    stdout = "".join(line + "\n" for _, line in cards) + "CUT\n"
    store("cards", stdin, stdout.encode(), said.check)
    print(f"{len(cards)} cards")


if __name__ == "__main__":
    main()
