"""Cards that are damaged by chance, in every way in which a card is refused."""

from models import card, loads

SIZES = {field.name: field.size for field in card.FIELDS}

# numbers that each field may not hold; of the concrete, some within its bytes that are no grade
BEYOND = {name: card.beyond_of(name) for name in SIZES if name not in loads.LOADS} | {"concrete": (0, 179, 181, 300, 421, 65535)}
BEYOND_LOAD = (loads.GREATEST_LOAD + 1, -loads.GREATEST_LOAD - 1, 2**31 - 1, -(2**31))


def some_fields_absent(chance, beam):
    """The beam with some of its optional fields left out."""
    return {name: number for name, number in beam.items() if name in card.REQUIRED or chance.random() < 0.8}


def out_of_range(chance, beam):
    """One number out of its range, or two."""
    beam = dict(beam)
    for name in chance.sample(sorted(beam), chance.randint(1, 2)):
        if name in loads.LOADS:
            beam[name] = list(beam[name])
            beam[name][chance.randrange(6)] = chance.choice(BEYOND_LOAD)
        else:
            beam[name] = chance.choice(BEYOND[name])
    return card.write_card(beam)


def required_field_absent(chance, beam):
    absent = chance.choice(card.REQUIRED)
    return card.write_card({name: number for name, number in beam.items() if name != absent})


def bit_above_12(chance, beam):
    some = card.write_card(beam)
    return bytes((some[0] | 1 << chance.randrange(5, 8),)) + some[1:]


def too_short(chance, beam):
    some = card.write_card(beam)
    return some[: chance.choice((0, 1, 2, len(some) - 1, chance.randrange(len(some))))]


def too_long(chance, beam):
    return card.write_card(beam) + chance.randbytes(chance.choice((1, 1, 2, 24, 90)))


def wrong_map(chance, beam):
    """A bit of the map turned: the length no longer fits, or a required field is absent."""
    some = card.write_card(beam)
    turned = int.from_bytes(some[:2], "big") ^ 1 << chance.randrange(13)
    return turned.to_bytes(2, "big") + some[2:]


def turned_bit(chance, beam):
    some = bytearray(card.write_card(beam))
    some[chance.randrange(len(some))] ^= 1 << chance.randrange(8)
    return bytes(some)


def any_bytes(chance, _):
    return chance.randbytes(chance.randrange(256))


WAYS = (
    *(out_of_range, out_of_range, required_field_absent, bit_above_12),
    *(too_short, too_long, wrong_map, turned_bit, any_bytes),
)


def damaged(chance, beam):
    """The card of a beam, damaged in one way."""
    return chance.choice(WAYS)(chance, beam)
