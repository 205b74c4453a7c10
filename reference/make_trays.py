#!/usr/bin/env python3
"""Writes the tray files of crates/tray_cases, in hexadecimal, and the lines that each gives.

    python3 reference/make_trays.py

Files are right, or damaged: bytes changed, cut off, left out or doubled. Each run writes the same files.
"""

import random
from pathlib import Path

from code import encode
from field import Binary, Prime
from tray_file import card_record, cells_record, lines, note_record, number_bytes, record

FOLDER = Path(__file__).resolve().parent.parent / "crates" / "tray_cases"
SAMPLE = bytes.fromhex("0111010707060400010203040501010101010102060206040501070206000000000007")
CARDS = [
    (Prime(7), 7, 4, list(range(6)), [1] * 6),
    (Prime(2), 2, 1, [0, 1], [1, 1]),
    (Prime(5), 5, 3, [4, 0, 1, 2], [1, 2, 3, 4]),
    (Prime(37), 37, 4, list(range(8)), [1] * 8),
    (Prime(251), 251, 2, [250, 200, 3, 7, 128], [250, 1, 2, 128, 127]),
    (Binary(11), 8, 2, list(range(1, 8)), list(range(1, 8))),
    (Binary(11), 2, 2, list(range(1, 8)), list(range(1, 8))),
    (Binary(7), 4, 2, [0, 1, 2, 3], [3, 2, 1, 1]),
    (Binary(285), 256, 4, [0, 1, 255, 128, 127, 2], [1, 255, 128, 127, 1, 9]),
]
files = []


def word(rng, card):
    field, letters, rows, locators, multipliers = card
    if letters < field.size:
        return [0] * len(locators)
    data = [rng.randrange(letters) for _ in range(len(locators) - rows)]
    return encode(field, letters, rows, locators, multipliers, data)


def spoilt(rng, card, cells):
    cells = list(cells)
    for _ in range(rng.randrange(card[2] + 2)):
        j = rng.randrange(len(cells))
        cells[j] = None if rng.randrange(2) else rng.randrange(card[1])
    return cells


def right(rng):
    """A file that is right from end to end."""
    parts, noted = [], True
    for _ in range(rng.randrange(1, 3)):
        card = rng.choice(CARDS)
        parts.append(card_record(*card))
        noted = False
        for _ in range(rng.randrange(4)):
            if not noted and rng.randrange(3) == 0:
                parts.append(note_record(bytes(rng.randrange(32, 127) for _ in range(rng.randrange(12)))))
                noted = True
            else:
                parts.append(cells_record(spoilt(rng, card, word(rng, card))))
                noted = False
    return parts


def damaged(rng):
    """The same with one or two places spoilt."""
    parts = right(rng)
    for _ in range(rng.randrange(1, 3)):
        way = rng.randrange(7)
        i = rng.randrange(len(parts))
        if way == 0:
            parts[i:i] = [parts[i]]
        elif way == 1:
            parts.pop(i)
            parts = parts or [b""]
        else:
            data = bytearray(b"".join(parts))
            if not data:
                continue
            j = rng.randrange(len(data))
            if way == 2:
                del data[j:]
            elif way == 3:
                data[j:j] = data[j : j + 1]
            elif way == 4:
                del data[j]
            else:
                data[j] = rng.choice([0, 1, 2, 3, 127, 128, 129, 255, data[j] ^ 1, data[j] ^ 128, rng.randrange(256)])
            parts = [bytes(data)]
    return parts


def special():
    """Files at the edges of the rules."""
    card = card_record(*CARDS[0])
    body = card[2:]
    yield b""
    yield SAMPLE
    for start in (b"\x00", b"\x04", b"\x02", b"\x03", b"\x80", b"\x80\x80", b"\x80\x80\x80", b"\x80\x00", b"\x80\x80\x04", b"\xff\xff\x03", b"\x81\x00", b"\x01", b"\x01\x80", b"\x01\x80\x00", b"\x01\x05"):
        yield start
        yield card + start
    for kind, origin, letters, cells, rows in [(0, 7, 7, 6, 4), (3, 7, 7, 6, 4), (1, 91, 7, 6, 4), (2, 5, 4, 6, 4), (2, 512, 2, 6, 4), (1, 7, 7, 1, 1), (1, 7, 7, 257, 4), (1, 7, 7, 6, 0), (1, 7, 7, 6, 65), (1, 7, 7, 6, 6), (1, 7, 6, 6, 4), (1, 65535, 7, 6, 4), (1, 7, 7, 6, 7)]:
        head = b"".join(map(number_bytes, (kind, origin, letters, cells, rows)))
        yield record(1, head)
        yield record(1, head + bytes([0, 1, 2, 3, 4, 5] + [1] * 6))
    for lists in ([0, 1, 2, 3, 4, 4] + [1] * 6, [0, 1, 2, 3, 4, 7] + [1] * 6, [0, 1, 2, 3, 4, 5] + [1] * 5 + [0], [0, 1, 2, 3, 4, 5] + [1] * 5 + [7], [0, 1, 2, 3, 4, 4] + [0] * 6, [0, 1, 2, 3, 4, 4] + [1] * 7, [0, 1, 2, 3, 4, 4] + [1] * 5):
        yield record(1, body[:5] + bytes(lists))
    for cells in ([0] * 6, [8] * 6, [7] * 6, [8] * 7, [8] * 5, [1, 2, 3, 4, 5, 128], [1, 2, 3, 4, 5, 128, 0], [8, 2, 3, 4, 5, 255, 255, 4]):
        yield card + record(2, bytes(cells))
    for text in (b"", b" " * 200, b"~" * 201, b"a\x1fb", b"a\x7fb", b"\x00"):
        yield card + note_record(text)
        yield card + note_record(text) + note_record(b"two")
        yield card + note_record(text) + cells_record([1, 5, 3, 4, 0, 6]) + note_record(b"two")
        yield card + note_record(text) + card + note_record(b"two")
    pair = card + note_record(b"x" * 200)
    long = pair * (60000 // len(pair))
    left = 60000 - len(long) - len(card)
    long += card + (note_record(b"y" * (left - 2 if left < 130 else left - 3)))
    assert len(long) == 60000
    yield long
    yield long + b"\x01"
    yield b"\x00" * 60001


def main():
    rng = random.Random(2012)
    files.extend(special())
    files.extend(b"".join(right(rng)) for _ in range(150))
    files.extend(b"".join(damaged(rng)) for _ in range(450))
    (FOLDER / "stdin").write_text("".join(data.hex() + "\n" for data in files))
    (FOLDER / "stdout").write_text("".join(line + "\n" for data in files for line in lines(data)))


if __name__ == "__main__":
    main()
