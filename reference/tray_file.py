"""Tray files, straight from the format's rules: the lines that a file gives, and the records that values make."""

from code import read_by_choice
from field import LARGEST_MODULUS, PRIMES, Binary, Prime, irreducible

LARGEST_NUMBER, LONGEST_NOTE, LONGEST_FILE = 65535, 200, 60000
LAYERS = [(10, 12, "FIELD"), (13, 16, "CARD"), (22, 22, "TAG"), (31, 37, "FILE")]


class Fault(Exception):
    """A refusal's number, and its place where that is not the record's."""

    def __init__(self, number, place=None):
        self.number, self.place = number, place


def number_bytes(value):
    groups = []
    while value >= 128:
        groups.append(128 + value % 128)
        value //= 128
    return bytes(groups + [value])


def number(data, place, end, cut):
    """The number at a place and the place after it; `cut` is the refusal where the data end inside it."""
    value, at = 0, place
    while True:
        if at - place == 3:
            raise Fault(32, place)
        if at == end:
            raise Fault(cut)
        byte = data[at]
        value += byte % 128 << 7 * (at - place)
        at += 1
        if byte < 128:
            break
    if value > LARGEST_NUMBER or byte == 0 and at - place > 1:
        raise Fault(32, place)
    return value, at


def numbers(data, place, end, count):
    values = []
    for _ in range(count):
        value, place = number(data, place, end, 35)
        values.append(value)
    return values, place


class Card:
    def __init__(self, data, place, end):
        (kind, origin, letters, cells, rows), place = numbers(data, place, end, 5)
        if kind not in (1, 2):
            raise Fault(10)
        if kind == 1 and origin not in PRIMES:
            raise Fault(11)
        if kind == 2 and not (2 <= origin <= LARGEST_MODULUS and irreducible(origin)):
            raise Fault(12)
        self.field = Prime(origin) if kind == 1 else Binary(origin)
        if not (2 <= cells <= 256 and 1 <= rows <= 64 and rows < cells):
            raise Fault(13)
        if not self.field.admits(letters):
            raise Fault(14)
        self.letters, self.rows = letters, rows
        self.locators, place = numbers(data, place, end, cells)
        self.multipliers, place = numbers(data, place, end, cells)
        if place != end:
            raise Fault(35)
        if any(a >= self.field.size for a in self.locators) or len(set(self.locators)) < cells:
            raise Fault(15)
        if any(h == 0 or h >= self.field.size for h in self.multipliers):
            raise Fault(16)

    def cells(self, data, place, end):
        values, place = numbers(data, place, end, len(self.locators))
        if place != end:
            raise Fault(35)
        if any(v > self.letters for v in values):
            raise Fault(22)
        return [v - 1 if v else None for v in values]

    def read(self, cells):
        """The near codeword with its two counts, or a refusal's number."""
        return read_by_choice(self.field, self.letters, self.rows, self.locators, self.multipliers, cells)


def lines(data):
    """The lines that the program prints for a file."""
    result, counts, card, after_note, place = [], [0, 0], None, False, 0
    try:
        if len(data) > LONGEST_FILE:
            raise Fault(37, 0)
        while place < len(data):
            kind, at = number(data, place, len(data), 31)
            if kind not in (1, 2, 3):
                raise Fault(33)
            if kind != 1 and card is None or kind == 3 and after_note:
                raise Fault(34)
            size, at = number(data, at, len(data), 31)
            end = at + size
            if end > len(data):
                raise Fault(31)
            if kind == 1:
                card = Card(data, at, end)
            elif kind == 2:
                answer = card.read(card.cells(data, at, end))
                if isinstance(answer, int):
                    counts[1] += 1
                    result.append(f"LOST {place} {answer}")
                else:
                    counts[0] += 1
                    wrong, blank, word = answer
                    result.append(f"READ {place} {wrong} {blank} " + " ".join(map(str, word)))
            elif size > LONGEST_NOTE or any(b < 32 or b > 126 for b in data[at:end]):
                raise Fault(36)
            after_note = kind == 3
            place = end
        result.append(f"END {counts[0]} {counts[1]}")
    except Fault as fault:
        layer = next(name for low, high, name in LAYERS if low <= fault.number <= high)
        result.append(f"FAULT {place if fault.place is None else fault.place} {layer} {fault.number}")
    return result


def record(kind, body):
    return number_bytes(kind) + number_bytes(len(body)) + bytes(body)


def card_record(field, letters, rows, locators, multipliers):
    values = [field.kind, field.origin, letters, len(locators), rows] + list(locators) + list(multipliers)
    return record(1, b"".join(map(number_bytes, values)))


def cells_record(cells):
    return record(2, b"".join(number_bytes(0 if c is None else c + 1) for c in cells))


def note_record(text):
    return record(3, text)
