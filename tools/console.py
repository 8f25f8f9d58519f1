"""What is printed of an order stream: a line of each order, and the bill (docs/FORMATS.md)."""
from bill import bill
from card import Refusal
from search import Chosen
from sheet import Sheet

HEAD_SIZES = {"S": 4, "E": 3, "K": 3, "X": 2, "D": 2}  # the bytes of an order without its card


def first_order(stream):
    """The first order of a stream; nothing where its letter is unknown or its bytes run out."""
    letter = chr(stream[0])
    size = HEAD_SIZES.get(letter)
    if size is None or len(stream) < size:
        return None
    size += stream[2] if letter in "EK" else 0
    return stream[:size] if len(stream) >= size else None


def decision_words(decision):
    return "CAGE" if isinstance(decision, Chosen) else f"NONE {decision.number}"


def carry_out(sheet, order):
    """Carries out an order; its words."""
    match chr(order[0]):
        case "S":
            sheet.stock(*order[1:])
        case "E":
            sheet.enter(order[1], order[3:])
        case "K":
            sheet.correct(order[1], order[3:])
        case "X":
            sheet.strike(order[1])
        case "D":
            return decision_words(sheet.design(order[1]))
    return "OK"


def order_line(sheet, order):
    """Carries out an order; its line."""
    letter = chr(order[0])
    number = order[2] if letter == "S" else order[1]
    try:
        words = carry_out(sheet, order)
    except Refusal as refusal:
        words = f"REFUSED {refusal.number} {refusal.place}"
    return f"{letter} {number} {words}"


def answer(stream, book):
    """The lines that are printed of a stream on a book."""
    sheet, lines = Sheet(book), []
    while stream:
        order = first_order(stream)
        if order is None:
            lines.append("STOP")
            break
        lines.append(order_line(sheet, order))
        stream = stream[len(order) :]
    return lines + bill(sheet.chosen()).splitlines()
