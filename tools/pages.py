#!/usr/bin/env python3
"""Writes crates/pages/stdin and crates/pages/stdout: steps of a bill on pages of every length, and what becomes of them.

    python3 tools/pages.py            writes both files
    python3 tools/pages.py --check    ends with status 1 where a file would change

The wanted lines are worked out from the rules of docs/FORMATS.md; nothing here comes from the crates. Each case is a step of
a bill on a page of a given length, after some lines of one cage; the bill is then totalled on a page that is long enough. A
page is 2,600 dots at first, a byte that no bill has, so that the dots that are left tell how many bytes were written.
"""
from bill import HEAD, MOST_LINES, line, total
from rebar import Cage
from reference import WORKED
from stored import arguments, store

WHOLE = 2600
# a cage with its steel
LIGHT = Cage(3, 2, 3, 2, 3, 50), 0
USUAL = WORKED, 9604780
HEAVY = Cage(11, 12, 11, 12, 5, 100), 452957352


def why(step, text, new, page, lines, shown):
    """The first refusal of the step, judged in the order of FORMATS.md, or None."""
    if step == "line" and shown != "chosen":
        return 12
    if step == "line" and lines == MOST_LINES:
        return 13
    return 11 if page < len(text) + len(new) else None


def question(lines, step, page, place, cage, steel, shown):
    """The line that the program reads."""
    bottom, bottoms, top, tops, tie, spacing = cage
    words = lines, step, page, place, bottoms, bottom, tops, top, tie, spacing, steel, shown
    return " ".join(map(str, words)) + "\n"


def case(lines, step, page, place=7, usual=USUAL, shown="chosen"):
    """The line of a step, and what becomes of it."""
    cage, steel = usual
    steels = [steel] * lines
    text = "" if step == "begin" else HEAD + line(place, cage, steel) * lines
    new = {"begin": HEAD, "line": line(place, cage, steel), "total": total(steels)}[step]
    refusal = why(step, text, new, page, lines, shown)
    if refusal is None:
        text += new
        steels += [steel] * (step == "line")
    outcome = "OK" if refusal is None else f"REFUSED {refusal}"
    said = f"{outcome} {len(text)} {WHOLE - len(text)}\n"
    if text and not (step == "total" and refusal is None):
        text += total(steels)
    return question(lines, step, page, place, cage, steel, shown), said + text


def around_the_ends(lines, place, some):
    """A line and a total after some lines, on pages around where they begin and end."""
    cage, steel = some
    size = len(line(place, cage, steel))
    before = len(HEAD) + lines * size
    after, ends = before + size, before + len(total([steel] * lines))
    pages = (0, size, before - 1, before, before + 1, after - 1, after, after + 1)
    yield from (case(lines, "line", page, place, some) for page in pages)
    pages = (0, ends - before, before, ends - 1, ends, ends + 1)
    yield from (case(lines, "total", page, place, some) for page in pages)


def cases():
    yield from (case(0, "begin", page) for page in (0, 5, 6, 7, WHOLE))
    for place, some in ((0, LIGHT), (7, USUAL), (63, HEAVY)):
        for lines in (0, 1, 2):
            yield from around_the_ends(lines, place, some)
    for shown in ("empty", "open", "impossible"):
        pages = ((0, WHOLE), (0, 6), (1, WHOLE), (64, WHOLE), (64, 0))
        yield from (case(lines, "line", page, shown=shown) for lines, page in pages)
    for lines in (62, 63, 64):
        yield from (case(lines, "line", page, 63, HEAVY) for page in (0, WHOLE))
    # the longest bill: 64 lines of 38 bytes, and a sum of steel beyond 4,294,967,295
    ends = len(HEAD) + 64 * len(line(63, *HEAVY)) + len(total([HEAVY[1]] * 64))
    yield from (case(64, "total", page, 63, HEAVY) for page in (ends - 1, ends))
    # the sum passes 4,294,967,295 with the tenth line
    yield from (case(lines, "total", WHOLE, 63, HEAVY) for lines in (9, 10))


def check_by_hand():
    """Cases worked by hand."""
    assert case(0, "begin", 5)[1] == "REFUSED 11 0 2600\n"
    assert case(0, "line", 37)[1] == "REFUSED 11 6 2594\nCAGES\nTOTAL 0 0\n"
    assert case(0, "line", 38)[1] == "OK 38 2562\nCAGES\n07 B 3#5 T 4#5 S #3@200 9604780\nTOTAL 1 9604780\n"
    assert case(64, "total", 2459, 63, HEAVY)[1].startswith("OK 2459 141\n")
    assert case(64, "total", 2458, 63, HEAVY)[1].startswith("REFUSED 11 2438 162\n")
    assert case(64, "total", 2459, 63, HEAVY)[1].endswith("TOTAL 64 28989270528\n")


def main():
    said = arguments(__doc__).parse_args()
    check_by_hand()
    asked, answers = zip(*cases())
    store("pages", "".join(asked).encode(), "".join(answers).encode(), said.check)
    print(f"{len(asked)} cases")


if __name__ == "__main__":
    main()
