#!/usr/bin/env python3
"""Writes the cases of crates/vectors and their expected answers.

    python3 reference/make_vectors.py

The answers are worked out here, apart from the library, in some minutes. Each run writes the same files.
"""

import random
from pathlib import Path

from code import MARKS, codewords, encode, line, read, read_by_choice, sums
from field import LARGEST_MODULUS, PRIMES, Binary, Prime, irreducible
from linear import realise

FOLDER = Path(__file__).resolve().parent.parent / "crates" / "vectors"
MODULI = [f for f in range(LARGEST_MODULUS + 1) if irreducible(f)]
ALL_FIELDS = [Prime(p) for p in PRIMES] + [Binary(f) for f in MODULI]
SOME_FIELDS = [Prime(p) for p in PRIMES] + [Binary(f) for f in (2, 3, 7, 11, 13, 19, 37, 67, 131, 283, 285)]
REFUSAL_WORDS = {
    10: "no such field",
    11: "no prime",
    12: "bad modulus",
    13: "bad shape",
    14: "no alphabet",
    15: "bad locator",
    16: "bad multiplier",
    17: "no element",
    18: "no house card",
    21: "no such cell",
    22: "no letter",
    23: "too blank",
    24: "lost",
    25: "wrong length",
    26: "part alphabet",
    28: "bad mark",
    31: "cut off",
    32: "bad number",
    33: "strange record",
    34: "out of turn",
    35: "bad body",
    36: "bad note",
    37: "long file",
    38: "too small",
}
# The cases of each type of refusal, by their numbers, in the order in which the program shows them.
BODY = (32, 35, 36, 10, 11, 12, 13, 14, 15, 16, 22)
READ = (25, 23, 24)
REFUSAL_TYPES = (
    ("NoSuchField", (10,)),
    ("FieldCause", (11, 12)),
    ("RealiseRefusal", (25, 17)),
    ("CardCause", (13, 14, 15, 16)),
    ("SumsRefusal", (25,)),
    ("HouseRefusal", (18,)),
    ("FillRefusal", (25, 23)),
    ("EncodeRefusal", (26, 25, 22)),
    ("ReadRefusal", READ),
    ("MarkRefusal", (28,)),
    # an alphabet with too many letters, and a bad mark
    ("LineRefusal", (25, 28, 28)),
    ("NoteRefusal", (21, 22)),
    ("WipeRefusal", (21,)),
    ("NoSuchKind", (33,)),
    ("FieldFault", (10, 11, 12)),
    ("TagCause", (22,)),
    ("FileCause", (31, 32, 33, 34, 35, 36, 37)),
    ("Layer", (10, 11, 12, 13, 14, 15, 16, 22, 31, 32, 33, 34, 35, 36, 37)),
    ("BodyFault", BODY),
    ("CellsRefusal", (25, *BODY)),
    ("WriteRefusal", (22, 25, 36, 38)),
)
cases, answers = [], []


def case(question, answer):
    cases.append(question)
    answers.append(answer)


def words(numbers):
    return " ".join("?" if x is None else str(x) for x in numbers)


def named(field):
    return f"{field.kind} {field.origin}"


def fields():
    for n in list(range(60)) + [91, 250, 251, 252, 253, 255, 256, 257, 1009, 65521, 4294967295]:
        case(f"field 1 {n}", f"taken, {n} elements" if n in PRIMES else "refused 11 no prime")
    for n in list(range(LARGEST_MODULUS + 1)) + [512, 515, 517, 1033, 4294967295]:
        case(f"field 2 {n}", f"taken, {Binary(n).size} elements" if n in MODULI else "refused 12 bad modulus")
    for kind in (0, 3, 4294967295):
        for origin in (7, 11, 4294967295):
            case(f"field {kind} {origin}", "refused 10 no such field")


def arithmetic_case(field, a, b):
    case(f"arithmetic {named(field)} {a} {b}", f"{field.add(a, b)} {field.sub(a, b)} {field.mul(a, b)}")


def inverses_case(field):
    inverses = [field.invert(a) for a in range(field.size + 1)]
    case(f"inverses {named(field)}", "inverses " + " ".join("-" if b is None else str(b) for b in inverses))


def products_case(field):
    """For each element a one number, made of its products with every element."""
    folded = []
    for a in range(field.size):
        h = 1
        for b in range(field.size):
            h = (h * 257 + field.mul(a, b)) % 65521
        folded.append(h)
    case(f"products {named(field)}", f"products {words(folded)}")


def arithmetic(rng):
    for field in SOME_FIELDS:
        q = field.size
        pairs = [(0, 0), (q - 1, q - 1), (q, 0), (0, q), (q, q), (4294967295, 1), (1, 4294967295)]
        pairs += [(rng.randrange(q), rng.randrange(q)) for _ in range(12)]
        for a, b in pairs:
            arithmetic_case(field, a, b)
        if field.size <= 64:
            case(f"admits {named(field)}", "admits " + words(n for n in range(q + 2) if field.admits(n)))
    for field in ALL_FIELDS:
        arithmetic_case(field, rng.randrange(field.size), rng.randrange(field.size))
        inverses_case(field)
        products_case(field)
    # two products and an inverse that the Advanced Encryption Standard prints
    for a, b, product in ((0x57, 0x83, 0xC1), (0x57, 0x13, 0xFE), (0x53, 0xCA, 0x01)):
        assert Binary(283).mul(a, b) == product
        arithmetic_case(Binary(283), a, b)
    assert Binary(283).invert(0x53) == 0xCA


def sums_case(field, rows, locators, multipliers, cells):
    question = f"sums {named(field)} {rows};{words(locators)};{words(multipliers)};{words(cells)}"
    if not len(locators) == len(multipliers) == len(cells):
        case(question, "refused 25 wrong length")
    else:
        case(question, " ".join(["sums"] + [str(s) for s in sums(field, rows, locators, multipliers, cells)]))


# the example that the standard of the QR code works out for version 1-M: sixteen data bytes and ten check bytes
QR_WORD = bytes.fromhex("10200C566180EC11EC11EC11EC11EC11A524D4C1ED36C7872C55")


def qr_locators():
    field, powers = Binary(285), [1]
    for _ in range(25):
        powers.append(field.mul(powers[-1], 2))
    return powers[::-1]


def all_sums(rng):
    # a worked example, and the check digit of a book number: ten digits weighted 10 down to 1 modulo 11
    sums_case(Prime(7), 4, range(6), [1] * 6, [1, 5, 3, 4, 0, 6])
    sums_case(Prime(11), 1, range(10), range(10, 0, -1), [0, 3, 0, 6, 4, 0, 6, 1, 5, 2])
    assert sums(Binary(285), 10, qr_locators(), [1] * 26, list(QR_WORD)) == [0] * 10
    sums_case(Binary(285), 10, qr_locators(), [1] * 26, list(QR_WORD))
    sums_case(Prime(7), 3, [], [], [])
    sums_case(Prime(7), 3, [1, 2], [1], [1, 2])
    sums_case(Prime(7), 3, [1, 2], [1, 1], [1, 2, 3])
    for field in SOME_FIELDS:
        for _ in range(6):
            n = rng.randrange(1, min(field.size, 40) + 1)
            rows = rng.randrange(0, 9)
            beyond = field.size + (2 if rng.random() < 0.2 else 0)
            locators = [rng.randrange(beyond) for _ in range(n)]
            multipliers = [rng.randrange(beyond) for _ in range(n)]
            cells = [None if rng.random() < 0.2 else rng.randrange(beyond) for _ in range(n)]
            sums_case(field, rows, locators, multipliers, cells)


def realise_case(field, sequence):
    question = f"realise {named(field)};{words(sequence)}"
    if len(sequence) > 64:
        case(question, "refused 25 wrong length")
    elif not field.element(*sequence):
        case(question, "refused 17 no element")
    else:
        degree, f, w = realise(field, sequence)
        case(question, f"degree {degree}, f {words(f)}, w {words(w or [0])}")


def pairs(rng):
    realise_case(Prime(7), [5, 4, 0, 5])
    realise_case(Prime(7), [1, 7])
    realise_case(Prime(7), [7] + [0] * 64)
    for field in SOME_FIELDS:
        q = field.size
        realise_case(field, [])
        realise_case(field, [0] * rng.randrange(1, 65))
        realise_case(field, [0] * 63 + [1])
        for length in (1, 2, 3, 5, 8, 13, 21, 34, 64):
            realise_case(field, [rng.randrange(q) for _ in range(length)])
        # sequences with a short recurrence, some of them with a change near the end
        for length in (16, 40, 64):
            order = rng.randrange(1, 6)
            taps = [rng.randrange(q) for _ in range(order)]
            sequence = [rng.randrange(q) for _ in range(order)]
            while len(sequence) < length:
                term = 0
                for t, x in zip(taps, sequence[-order:]):
                    term = field.add(term, field.mul(t, x))
                sequence.append(term)
            realise_case(field, sequence)
            sequence[-rng.randrange(1, 8)] = rng.randrange(q)
            realise_case(field, sequence)
    # every length, each over two primes and two binary fields
    for length in range(65):
        for field in rng.sample(SOME_FIELDS[: len(PRIMES)], 2) + rng.sample(SOME_FIELDS[len(PRIMES) :], 2):
            realise_case(field, [rng.randrange(field.size) for _ in range(length)])


def card_case(field, letters, rows, locators, multipliers):
    n = len(locators)
    if not (2 <= n <= 256 and 1 <= rows <= 64 and rows < n and len(multipliers) == n):
        answer = "refused 13 bad shape"
    elif letters > field.size or not field.admits(letters):
        answer = "refused 14 no alphabet"
    elif not field.element(*locators) or len(set(locators)) < n:
        answer = "refused 15 bad locator"
    elif not field.element(*multipliers) or 0 in multipliers:
        answer = "refused 16 bad multiplier"
    else:
        answer = "card granted"
    case(f"card {named(field)} {letters} {rows};{words(locators)};{words(multipliers)}", answer)


def cards(rng):
    seven, eight, engraved = Prime(7), Binary(11), Binary(285)
    card_case(seven, 7, 4, range(6), [1] * 6)
    card_case(seven, 7, 6, range(7), [1] * 7)
    card_case(seven, 7, 7, range(7), [1] * 7)
    card_case(seven, 7, 0, range(7), [1] * 7)
    card_case(seven, 7, 1, range(1), [1])
    card_case(seven, 7, 1, range(2), [1, 1])
    card_case(seven, 7, 4, range(6), [1] * 5)
    card_case(seven, 6, 4, range(6), [1] * 6)
    card_case(seven, 8, 4, range(6), [1] * 6)
    card_case(seven, 2, 4, range(6), [1] * 6)
    card_case(seven, 7, 4, [0, 1, 2, 3, 4, 7], [1] * 6)
    card_case(seven, 7, 4, [0, 1, 2, 3, 4, 0], [1] * 6)
    card_case(seven, 7, 4, range(6), [1, 1, 1, 1, 1, 0])
    card_case(seven, 7, 4, range(6), [1, 1, 1, 1, 1, 7])
    card_case(seven, 7, 4, [0, 0, 2, 3, 4, 5], [0] * 6)
    card_case(eight, 8, 2, range(1, 8), range(1, 8))
    card_case(eight, 2, 2, range(1, 8), range(1, 8))
    card_case(eight, 4, 2, range(1, 8), range(1, 8))
    card_case(engraved, 256, 16, range(64), [1] * 64)
    card_case(engraved, 256, 64, range(256), [1] * 256)
    card_case(engraved, 256, 65, range(256), [1] * 256)
    card_case(engraved, 256, 64, list(range(256)) + [0], [1] * 257)
    for _ in range(30):
        n = rng.randrange(2, 9)
        q = rng.choice((7, 8))
        field = seven if q == 7 else eight
        locators = rng.sample(range(9), min(n, 9))
        multipliers = [rng.randrange(0 if rng.random() < 0.1 else 1, 9 if rng.random() < 0.1 else 7) for _ in range(n)]
        card_case(field, rng.choice((q, q, 2)), rng.randrange(1, n + 1), locators, multipliers)


# book numbers that are printed elsewhere, and two more; the last letter of each is the check letter, and X is 10
BOOK_NUMBERS = ("0306406152", "0198526636", "080442957X", "0000000000", "9999999999")


def encode_case(field, letters, rows, locators, multipliers, data):
    got = encode(field, letters, rows, list(locators), list(multipliers), list(data))
    answer = f"word {words(got)}" if isinstance(got, list) else f"refused {got} {REFUSAL_WORDS[got]}"
    case(f"encode {named(field)} {letters} {rows};{words(locators)};{words(multipliers)};{words(data)}", answer)


def encodings(rng):
    seven, eight, engraved = Prime(7), Binary(11), Binary(285)
    encode_case(seven, 7, 4, range(6), [1] * 6, [0, 2])
    encode_case(seven, 7, 4, range(6), [1] * 6, [0, 7])
    encode_case(seven, 7, 4, range(6), [1] * 6, [0, 2, 6])
    encode_case(eight, 2, 2, range(1, 8), range(1, 8), [1])
    assert encode(engraved, 256, 10, qr_locators(), [1] * 26, list(QR_WORD[:16])) == list(QR_WORD)
    encode_case(engraved, 256, 10, qr_locators(), [1] * 26, QR_WORD[:16])
    # one row, weights 10 down to 1 modulo 11
    for book in BOOK_NUMBERS:
        letters = [10 if c == "X" else int(c) for c in book]
        assert encode(Prime(11), 11, 1, list(range(10)), list(range(10, 0, -1)), letters[:9]) == letters
        encode_case(Prime(11), 11, 1, range(10), range(10, 0, -1), letters[:9])
    encode_case(Prime(37), 37, 8, range(20), [1] * 20, [MARKS.index(c) for c in "HOARD2041TRA"])
    encode_case(engraved, 256, 16, range(64), [1] * 64, [rng.randrange(256) for _ in range(48)])
    encode_case(engraved, 256, 64, range(256), [1] * 256, [rng.randrange(256) for _ in range(192)])
    for field in SOME_FIELDS:
        q = field.size
        if q < 3:
            continue
        for _ in range(4):
            n = rng.randrange(2, min(q, 40) + 1)
            rows = rng.randrange(1, n)
            locators = rng.sample(range(q), n)
            multipliers = [rng.randrange(1, q) for _ in range(n)]
            encode_case(field, q, rows, locators, multipliers, [rng.randrange(q) for _ in range(n - rows)])




def read_case(field, letters, rows, locators, multipliers, cells, got):
    if isinstance(got, int):
        answer = f"refused {got} {REFUSAL_WORDS[got]}"
    else:
        answer = f"{got[0]} wrong, {got[1]} blank, word {words(got[2])}"
    case(f"read {named(field)} {letters} {rows};{words(locators)};{words(multipliers)};{words(cells)}", answer)


def small_readings(rng):
    # codes so small that every codeword can be tried
    seven, eight = Prime(7), Binary(11)
    codes = [
        (seven, 7, 4, list(range(6)), [1] * 6),
        (eight, 8, 2, [1, 2, 3, 4, 5], [1, 2, 3, 4, 5]),
        (eight, 2, 2, list(range(1, 8)), list(range(1, 8))),
        (Prime(5), 5, 3, [0, 1, 2, 3, 4], [4, 3, 2, 1, 1]),
        (Prime(3), 3, 1, [0, 1, 2], [1, 2, 1]),
        (Binary(7), 4, 2, [0, 1, 2, 3], [3, 1, 2, 1]),
        (Binary(19), 2, 4, list(range(1, 16)), list(range(1, 16))),
    ]
    fixed = {
        0: ["123456", "153406", "??3406", "???406", "????06", "?????6", "153400"],
        1: [],
        2: ["1?0?000"],
    }
    for i, (field, letters, rows, locators, multipliers) in enumerate(codes):
        every = codewords(field, letters, rows, locators, multipliers)
        tags = [[None if c == "?" else int(c) for c in text] for text in fixed.get(i, [])]
        for _ in range(60):
            word = list(rng.choice(every))
            for j in rng.sample(range(len(word)), rng.randrange(0, min(rows + 2, len(word)) + 1)):
                word[j] = None if rng.random() < 0.5 else rng.randrange(letters)
            tags.append(word)
        for cells in tags:
            read_case(field, letters, rows, locators, multipliers, cells, read(every, rows, cells))


def large_readings(rng):
    # planted errors and blanks up to the bound; one blank more than rows is too blank
    for field, letters, rows, n in ((Prime(37), 37, 8, 20), (Binary(285), 256, 16, 64), (Prime(251), 251, 64, 128)):
        locators, multipliers = list(range(n)), [1] * n
        for _ in range(12):
            word = encode(field, letters, rows, locators, multipliers, [rng.randrange(letters) for _ in range(n - rows)])
            blank = rng.randrange(rows + 1)
            wrong = rng.randrange((rows - blank) // 2 + 1) if rng.random() < 0.5 else (rows - blank) // 2
            places = rng.sample(range(n), wrong + blank)
            cells = list(word)
            for j in places[:wrong]:
                cells[j] = field.add(word[j], rng.randrange(1, letters))
            for j in places[wrong:]:
                cells[j] = None
            read_case(field, letters, rows, locators, multipliers, cells, (wrong, blank, word))
        read_case(field, letters, rows, locators, multipliers, [None] * (rows + 1) + [0] * (n - rows - 1), 23)


def readings_past_the_bound(rng):
    # wrong and blank cells around the bound and past it: mended, lost, or mended into another codeword
    for field, letters, rows, n in ((Prime(37), 37, 6, 12), (Prime(13), 13, 5, 13), (Binary(285), 256, 6, 14), (Binary(19), 16, 4, 15)):
        card = (field, letters, rows, list(range(n)), [rng.randrange(1, field.size) for _ in range(n)])
        for _ in range(25):
            cells = encode(*card, [rng.randrange(letters) for _ in range(n - rows)])
            blank = rng.randrange(rows + 1)
            wrong = min(n - blank, (rows - blank) // 2 + rng.randrange(3))
            places = rng.sample(range(n), wrong + blank)
            for j in places[:wrong]:
                cells[j] = field.add(cells[j], rng.randrange(1, letters))
            for j in places[wrong:]:
                cells[j] = None
            read_case(*card, cells, read_by_choice(*card, cells))


def line_case(letters, cells, text):
    got = line(letters, cells, text)
    if isinstance(got, list):
        answer = " ".join(["line"] + ([words(got)] if got else []))
    elif got[1] is None:
        answer = "refused 25 wrong length" if got[0] == 25 else "refused 28 bad mark"
    else:
        answer = f"refused 28 bad mark at {got[1]}"
    case(f"line {letters} {cells};{text}", answer)


def lines(rng):
    for mark in MARKS + "?" + "a/:@[`{!é€😀":
        line_case(37, 1, mark)
    line_case(38, 2, "00")
    line_case(37, 2, "0")
    line_case(37, 2, "é")
    line_case(37, 3, "0é0")
    line_case(10, 3, "9?A")
    for _ in range(40):
        letters = rng.randrange(2, 40)
        n = rng.randrange(1, 30)
        alphabet = MARKS[: min(letters, 37)] + "?"
        text = "".join(rng.choice(alphabet) for _ in range(n))
        if rng.random() < 0.3:
            place = rng.randrange(n)
            text = text[:place] + rng.choice("az~é" + MARKS[letters - 1 :]) + text[place + 1 :]
        line_case(letters, n if rng.random() < 0.9 else n + 1, text)


def eight_letters():
    # seven cells and all eight letters of the field
    places = list(range(1, 8))
    for cells in ([1, None, 0, None, 0, 0, 0], [1, 2, 0, 6, 0, 0, 5], [None] * 3 + [6, 0, 0, 0]):
        card = (Binary(11), 8, 2, places, places)
        read_case(*card, cells, read_by_choice(*card, cells))


def refusals():
    for number, word in REFUSAL_WORDS.items():
        case(f"refusal {number}", f"refused {number} {word}")
    case("refusal 19", "no refusal has this number")


def white_space():
    """Numbers may stand apart by any white space; among marks it is a bad mark."""
    case("arithmetic 1 7\t3 5", "1 5 1")
    case("inverses 1\u00a05\t", "inverses - 1 3 2 4 -")
    line_case(37, 3, "0\t1")
    line_case(37, 4, "0\t\t1")
    case("line  37\t 1;0", "line 0")


def refusals_by_type():
    """What the program writes after the answers: the type, the number and the word of each case."""
    lines = ["refusals, case by case:"]
    for name, numbers in REFUSAL_TYPES:
        lines += [f"{name} {number} {REFUSAL_WORDS[number]}" for number in numbers]
    return lines


def main():
    rng = random.Random(37)
    fields()
    arithmetic(rng)
    all_sums(rng)
    pairs(rng)
    cards(rng)
    encodings(rng)
    small_readings(rng)
    large_readings(rng)
    readings_past_the_bound(rng)
    lines(rng)
    eight_letters()
    refusals()
    white_space()
    (FOLDER / "stdin").write_text("\n".join(cases) + "\n", encoding="utf-8")
    proved = ["proved: [5, 4, 0, 5] [0]"]
    (FOLDER / "stdout").write_text("\n".join(proved + answers + refusals_by_type()) + "\n", encoding="utf-8")


main()
