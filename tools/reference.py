"""The reference beam and its worked cage, whose figures are worked by hand."""
from card import short_card
from rebar import Beam, Cage

DEAD = (-4000, 5000, 3000, 0, -4000, -5000)
LIVE = (-3000, 4000, 2000, 0, -3000, -4000)
REFERENCE = Beam(
    width=300, height=500, cover=40, concrete=210, steel=4200, aggregate=20, frame=0, span=5000, factor=75, dead=DEAD, live=LIVE
)
REFERENCE_CARD = short_card(REFERENCE)
WORKED = Cage(bottom=5, bottoms=3, top=5, tops=4, tie=3, spacing=200)
