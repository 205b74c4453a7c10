"""Linear systems over a field, and minimal pairs: the pair of the division-free algorithm, held to the least degree that
linear algebra finds."""


def fits(field, f, s):
    m = len(f) - 1
    for k in range(len(s) - m):
        total = 0
        for j, c in enumerate(f):
            total = field.add(total, field.mul(c, s[k + j]))
        if total:
            return False
    return True


def partner(field, f, s):
    w = []
    for i in range(len(f) - 1):
        total = 0
        for j in range(i + 1, len(f)):
            total = field.add(total, field.mul(f[j], s[j - 1 - i]))
        w.append(total)
    return w


def eliminated(field, rows):
    """The rows of a linear system, each with its right side last, with the pivots' columns cleared; and how many pivots."""
    rows = [list(row) for row in rows]
    width = len(rows[0]) - 1 if rows else 0
    done = 0
    for column in range(width):
        pivot = next((i for i in range(done, len(rows)) if rows[i][column]), None)
        if pivot is None:
            continue
        rows[done], rows[pivot] = rows[pivot], rows[done]
        inverse = field.invert(rows[done][column])
        rows[done] = [field.mul(x, inverse) for x in rows[done]]
        for i in range(len(rows)):
            if i != done and rows[i][column]:
                factor = rows[i][column]
                rows[i] = [field.sub(x, field.mul(factor, y)) for x, y in zip(rows[i], rows[done])]
        done += 1
    return rows, done


def solvable(field, rows):
    rows, done = eliminated(field, rows)
    return all(row[-1] == 0 for row in rows[done:])


def solution(field, rows):
    """The solution of a system with as many rows as unknowns and only one."""
    rows, done = eliminated(field, rows)
    assert done == len(rows)
    return [row[-1] for row in rows]


def least_degree(field, s):
    """The least m such that some f with f_m = 1 fits: one linear equation for each k with k + m below the length."""
    for m in range(len(s) + 1):
        if solvable(field, [[s[k + j] for j in range(m)] + [field.sub(0, s[k + m])] for k in range(len(s) - m)]):
            return m


def combine(field, a, p, b, d, q):
    """a p − b X^d q"""
    result = [field.mul(a, x) for x in p] + [0] * max(0, d + len(q) - len(p))
    for i, x in enumerate(q):
        result[i + d] = field.sub(result[i + d], field.mul(b, x))
    while result and result[-1] == 0:
        result.pop()
    return result


def realise(field, s):
    pair, kept = ([1], []), ([], [field.sub(0, 1)])
    kept_discrepancy, d = 1, -1
    for i in range(len(s)):
        f = pair[0]
        m = len(f) - 1
        discrepancy = 0
        for j in range(m + 1):
            discrepancy = field.add(discrepancy, field.mul(f[j], s[i - m + j]))
        if discrepancy:
            if d < 0:
                pair, kept = kept, pair
                discrepancy, kept_discrepancy = kept_discrepancy, discrepancy
                d = -d
            pair = tuple(combine(field, kept_discrepancy, p, discrepancy, d, q) for p, q in zip(pair, kept))
        d -= 1
    f, w = pair
    expected = partner(field, f, s)
    while expected and expected[-1] == 0:
        expected.pop()
    assert fits(field, f, s) and w == expected and len(f) - 1 == least_degree(field, s)
    return len(f) - 1, f, w
