"""The beam card of docs/FORMATS.md: a beam as bytes, and the beam that bytes mean, or their first fault.

The numbers on a card are given by the names of its fields; what is left out is absent.
"""
from typing import NamedTuple

from loads import GREATEST_LOAD, LOADS, NO_LOAD
from rebar import VALUES, Beam


class Field(NamedTuple):
    name: str
    size: int  # bytes
    default: object = None  # where it has none, the field is required

    def is_load(self):
        return self.name in LOADS


# in the order of the bits of the map
FIELDS = (
    *(Field("width", 2), Field("height", 2), Field("cover", 1, 40), Field("concrete", 2), Field("steel", 2, 4200)),
    *(Field("aggregate", 1, 20), Field("frame", 1, 0), Field("span", 2), Field("factor", 1, 75)),
    *(Field("dead", 24), Field("live", 24, NO_LOAD), Field("wind", 24, NO_LOAD), Field("earthquake", 24, NO_LOAD)),
)
REQUIRED = tuple(field.name for field in FIELDS if field.default is None)
OPTIONAL = tuple(field.name for field in FIELDS if field.default is not None)


class Refusal(Exception):
    """The number of a refusal, and its byte place."""

    def __init__(self, number, place=0):
        super().__init__(number, place)
        self.number, self.place = number, place


# ---- from a beam to bytes ----


def parts_of(field, numbers):
    """The bytes of each number of a field."""
    if field.is_load():
        return [number.to_bytes(4, "big", signed=True) for number in numbers[field.name]]
    return [numbers[field.name].to_bytes(field.size, "big")]


def write_card(numbers):
    """The card with these numbers."""
    bits = sum(1 << bit for bit, field in enumerate(FIELDS) if field.name in numbers)
    body = b"".join(part for field in FIELDS if field.name in numbers for part in parts_of(field, numbers))
    return bits.to_bytes(2, "big") + body


def byte_places(numbers):
    """Where each number of the card begins: by its field's name, and of a load by its name and place in the load."""
    places, at = {}, 2
    for field in FIELDS:
        if field.name in numbers:
            steps = [(field.name, index) for index in range(6)] if field.is_load() else [field.name]
            places |= {step: at + index * 4 for index, step in enumerate(steps)}
            at += field.size
    return places


def beam_of(numbers):
    """The beam of a card with these numbers, all of them in range."""
    return Beam(**{field.name: numbers.get(field.name, field.default) for field in FIELDS})


def short_card(beam):
    """The card of a beam that leaves out what has its default."""
    values = {field: getattr(beam, field.name) for field in FIELDS}
    return write_card({field.name: value for field, value in values.items() if value != field.default})


# ---- from bytes to a beam ----


def present(card):
    """The fields that stand on a card, where its map and its length are right."""
    if len(card) < 2:
        raise Refusal(4, len(card))
    bits = int.from_bytes(card[:2], "big")
    if bits >> len(FIELDS):
        raise Refusal(5)
    fields = [field for bit, field in enumerate(FIELDS) if bits >> bit & 1]
    if not set(REQUIRED) <= {field.name for field in fields}:
        raise Refusal(6)
    length = 2 + sum(field.size for field in fields)
    if len(card) != length:
        raise Refusal(4, len(card)) if len(card) < length else Refusal(7, length)
    return fields


def read_number(card, at, field):
    number = int.from_bytes(card[at : at + field.size], "big")
    if number not in VALUES[field.name]:
        raise Refusal(8, at)
    return number


def read_load(card, at):
    load = []
    for at in range(at, at + 24, 4):
        load.append(int.from_bytes(card[at : at + 4], "big", signed=True))
        if abs(load[-1]) > GREATEST_LOAD:
            raise Refusal(8, at)
    return tuple(load)


def read_card(card):
    """The beam of a card; its first fault is raised as a refusal."""
    numbers, at = {}, 2
    for field in present(card):
        numbers[field.name] = read_load(card, at) if field.is_load() else read_number(card, at, field)
        at += field.size
    return beam_of(numbers)


# ---- numbers to try ----


def ends_of(name):
    """What a field may hold: of a range both ends and the numbers beside them."""
    values = VALUES[name]
    return [values[0], values[1], values[-2], values[-1]] if isinstance(values, range) else list(values)


def beyond_of(name):
    """Numbers that a field may not hold: 0, those just beside its values, and the greatest of its bytes."""
    greatest = 256 ** next(field.size for field in FIELDS if field.name == name) - 1
    beside = {0, greatest} | {value + step for value in ends_of(name) for step in (-1, 1)}
    return sorted(number for number in beside if number >= 0 and number not in VALUES[name])
