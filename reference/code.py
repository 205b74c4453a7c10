"""Sums of a code's rows and lines of marks, straight from their definitions."""

from itertools import combinations, product

from field import power
from linear import eliminated, solution

MARKS = "0123456789ABCDEFGHIJKLMNOPQRSTUVWXYZ-"


def sums(field, rows, locators, multipliers, cells):
    """The sum of each row over the noted cells; a blank is None."""
    result = []
    for k in range(rows):
        total = 0
        for a, h, c in zip(locators, multipliers, cells):
            if c is not None:
                total = field.add(total, field.mul(field.mul(c, h), power(field, a, k)))
        result.append(total)
    return result


def line(letters, cells, text):
    """The cells of a line of marks, or the refusal's number and the place of a bad mark."""
    if len(text) != cells:
        return 25, None
    if letters > len(MARKS):
        return 28, None
    result = []
    for place, mark in enumerate(text):
        if mark == "?":
            result.append(None)
        elif mark in MARKS and MARKS.index(mark) < letters:
            result.append(MARKS.index(mark))
        else:
            return 28, place
    return result


def encode(field, letters, rows, locators, multipliers, data):
    """The codeword that begins with the data, by solving the linear system of its check letters; or a refusal's number."""
    n = len(locators)
    if letters < field.size:
        return 26
    if len(data) != n - rows:
        return 25
    if any(x >= letters for x in data):
        return 22
    given = sums(field, rows, locators, multipliers, list(data) + [None] * rows)
    system = [
        [field.mul(multipliers[j], power(field, locators[j], k)) for j in range(n - rows, n)] + [field.sub(0, given[k])]
        for k in range(rows)
    ]
    return list(data) + solution(field, system)


def codewords(field, letters, rows, locators, multipliers):
    """All codewords of a small code, by trying every word."""
    n = len(locators)
    return [w for w in product(range(letters), repeat=n) if not any(sums(field, rows, locators, multipliers, w))]


def read(words, rows, cells):
    """The near one among all codewords, with its two counts; or a refusal's number."""
    blank = cells.count(None)
    if blank > rows:
        return 23
    for word in words:
        wrong = sum(c is not None and c != x for c, x in zip(cells, word))
        if 2 * wrong + blank <= rows:
            return wrong, blank, list(word)
    return 24


def filled(field, letters, rows, locators, multipliers, cells):
    """The codeword that agrees with the noted cells, of which at most `rows` are blank, by its linear system; or nothing."""
    blank = [j for j, c in enumerate(cells) if c is None]
    given = sums(field, rows, locators, multipliers, cells)
    system = [
        [field.mul(multipliers[j], power(field, locators[j], k)) for j in blank] + [field.sub(0, given[k])]
        for k in range(rows)
    ]
    solved, done = eliminated(field, system)
    if any(row[-1] for row in solved[done:]):
        return None
    word = list(cells)
    for j, row in zip(blank, solved):
        word[j] = row[-1]
    return word if all(x < letters for x in word) else None


def read_by_choice(field, letters, rows, locators, multipliers, cells):
    """What `read` answers, by trying every choice of cells that may be wrong and solving for what should stand there."""
    noted = [j for j, c in enumerate(cells) if c is not None]
    blank = len(cells) - len(noted)
    if blank > rows:
        return 23
    for wrong in range((rows - blank) // 2 + 1):
        for places in combinations(noted, wrong):
            word = filled(field, letters, rows, locators, multipliers, [None if j in places else c for j, c in enumerate(cells)])
            if word is not None:
                return sum(c is not None and c != x for c, x in zip(cells, word)), blank, word
    return 24
