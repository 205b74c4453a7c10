"""Fields, written apart from the library: whole numbers modulo a prime, and polynomials over two elements modulo an
irreducible one. A polynomial is the list of the exponents of its terms here, not a number with bits."""

PRIMES = [2, 3, 5, 7, 11, 13, 17, 19, 23, 29, 31, 37, 251]
LARGEST_MODULUS = 511


class Field:
    def element(self, *numbers):
        return all(0 <= x < self.size for x in numbers)

    def invert(self, a):
        found = [b for b in range(self.size) if self.mul(a, b) == 1]
        return found[0] if found else None

    def admits(self, letters):
        below = range(letters)
        return 2 <= letters <= self.size and all(
            self.add(a, b) < letters and self.sub(a, b) < letters and self.mul(a, b) < letters for a in below for b in below
        )


class Prime(Field):
    kind = 1

    def __init__(self, p):
        self.origin = self.size = p

    def add(self, a, b):
        return (a + b) % self.size if self.element(a, b) else 0

    def sub(self, a, b):
        return (a - b) % self.size if self.element(a, b) else 0

    def mul(self, a, b):
        return a * b % self.size if self.element(a, b) else 0


def terms(number):
    return {i for i in range(number.bit_length()) if number >> i & 1}


def number(exponents):
    return sum(2**i for i in exponents)


def product(a, b):
    result = set()
    for i in a:
        result ^= {i + j for j in b}
    return result


def rest(a, modulus):
    a = set(a)
    while a and max(a) >= max(modulus):
        shift = max(a) - max(modulus)
        a ^= {i + shift for i in modulus}
    return a


class Binary(Field):
    kind = 2

    def __init__(self, modulus):
        self.origin = modulus
        self.modulus = terms(modulus)
        self.size = 2 ** max(self.modulus)
        self.products = {}

    def add(self, a, b):
        return number(terms(a) ^ terms(b)) if self.element(a, b) else 0

    sub = add

    def mul(self, a, b):
        return self.products_with(a)[b] if self.element(a, b) else 0

    def products_with(self, a):
        """The products of a with 0, 1, 2 ..: with a power of X term by term, and with any other element the sum of two before it."""
        if a not in self.products:
            row = [0]
            for i in range(max(self.modulus)):
                with_power = number(rest(product(terms(a), {i}), self.modulus))
                row += [with_power ^ x for x in row]
            self.products[a] = row
        return self.products[a]


def irreducible(modulus):
    """No product of two polynomials of degree 1 or more, found by trying all products."""
    if modulus < 2:
        return False
    degree = modulus.bit_length() - 1
    small = [terms(f) for f in range(2, 2**degree)]
    return all(number(product(f, g)) != modulus for f in small for g in small if max(f) + max(g) == degree)


def power(field, a, k):
    result = 1
    for _ in range(k):
        result = field.mul(result, a)
    return result
