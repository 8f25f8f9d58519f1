"""Beams and marks drawn at random (docs/RULES.md)."""

from models import loads, rebar

ALL_MARKS = tuple(rebar.MARKS[rebar.MAIN]), tuple(rebar.MARKS[rebar.TIE])


def frame_load(moment, shear, middle):
    """Moments and shears that bend both faces: at the left face, at midspan, at the right face."""
    return [-moment, shear, round(middle * moment), 0, -moment, -shear]


def sway_load(moment, shear):
    """Moments and shears of a sideways load."""
    return [moment, shear, 0, shear, -moment, shear]


def draw_loads(chance, moment, span):
    """Loads whose factored moment is about this one, in kg·m."""
    live = chance.choice((0, 0.2, 0.4))
    sway = chance.choice((0, 0, 0.2, 0.4))
    shear = chance.uniform(2, 5) * moment / span * 1000
    middle = chance.uniform(0.3, 1)
    part = (1 - live - sway) / 1.3
    drawn = {"dead": frame_load(round(part * moment), round(part * shear), middle)}
    if live:
        drawn["live"] = frame_load(round(live * moment / 1.6), round(live * shear / 1.6), middle)
    if sway:
        which = chance.choice(("wind", "earthquake"))
        drawn[which] = sway_load(round(sway * moment / 1.6), round(sway * shear / 4))
    return drawn


def draw_beam(chance, most=1.2):
    """A beam of a low frame building; its moments are up to `most` times what a fair share of steel bears."""
    beam = {
        "width": chance.randrange(250, 601, 50),
        "height": chance.randrange(300, 801, 50),
        "cover": chance.choice((20, 25, 30, 40, 50)),
        "concrete": chance.choice(rebar.VALUES["concrete"]),
        "steel": chance.choice(rebar.VALUES["steel"]),
        "aggregate": chance.choice((10, 20, 25, 40)),
        "frame": chance.choice(rebar.VALUES["frame"]),
        "span": chance.randrange(2000, 9001, 250),
        "factor": chance.choice(rebar.VALUES["factor"]),
    }
    fair = 21_000 * beam["width"] * beam["height"] ** 2 * beam["steel"] / (300 * 500**2 * 4200)
    moment = min(chance.uniform(0.05, most) * fair, 60_000)
    return beam | draw_loads(chance, moment, beam["span"])


def any_load(chance, moment, shear):
    """Six numbers up to these, of both signs or of one, some of them 0."""
    sign = chance.choice((-1, 0, 1))
    load = [chance.randint(-most, most) * chance.choice((0, 1, 1, 1)) for most in (moment, shear) * 3]
    return [sign * abs(number) if sign and place % 2 == 0 else number for place, number in enumerate(load)]


def any_beam(chance):
    """A beam with any numbers that a card may have; small loads as often as large ones."""
    beam = {name: chance.choice(values) for name, values in rebar.VALUES.items()}
    moment, shear = (round(10 ** chance.uniform(2, 5)) for _ in range(2))
    some = [name for name in loads.LOADS[1:] if chance.random() < 0.4]
    return beam | {name: any_load(chance, moment, shear) for name in ("dead", *some)}


def draw_marks(chance, mains, ties):
    """Some main marks and some tie marks, up to so many of each."""
    some = (chance.sample(rebar.MARKS[kind], chance.randint(1, most)) for kind, most in ((rebar.MAIN, mains), (rebar.TIE, ties)))
    return tuple(tuple(sorted(marks)) for marks in some)
