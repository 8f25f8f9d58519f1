"""Orders as bytes, as docs/FORMATS.md has them."""
from rebar import MAIN, TIE


def stock(kind, mark, value=1):
    return bytes((ord("S"), kind, mark, value))


def stocks(mains, ties):
    """These marks come in."""
    return b"".join(stock(MAIN, mark) for mark in mains) + b"".join(stock(TIE, mark) for mark in ties)


def enter(place, card):
    return bytes((ord("E"), place, len(card))) + card


def correct(place, card):
    return bytes((ord("K"), place, len(card))) + card


def strike(place):
    return bytes((ord("X"), place))


def design(place):
    return bytes((ord("D"), place))
