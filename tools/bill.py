"""The bending bill of docs/FORMATS.md."""

HEAD = "CAGES\n"
MOST_LINES = 64


def line(place, cage, steel):
    bottom, bottoms, top, tops, tie, spacing = cage
    return f"{place:02} B {bottoms}#{bottom} T {tops}#{top} S #{tie}@{spacing} {steel}\n"


def total(steels):
    return f"TOTAL {len(steels)} {sum(steels)}\n"


def bill(chosen):
    """The bill of the chosen places, each with its cage and steel."""
    lines = (line(place, cage, steel) for place, cage, steel in chosen)
    return HEAD + "".join(lines) + total([steel for _, _, steel in chosen])
