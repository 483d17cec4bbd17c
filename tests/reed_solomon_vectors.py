#!/usr/bin/env python3
"""Writes the tables of the Reed-Solomon decoder's tests: received words and syndromes, with what has to come out of them.

    tests/reed_solomon_vectors.py words > crates/tm_outer_code_tests/src/rs_solve/words.rt
    tests/reed_solomon_vectors.py locators > crates/tm_outer_code_tests/src/rs_locator/locators.rt

It shares nothing with the crates. The field and the generator polynomial are made from F(x) = x^8 + x^7 + x^2 + x + 1 and the
roots alpha^(11 j), j = 128-E .. 127+E. Words are encoded by division, and decoded by Gauss elimination, where the crates
run a recurrence. It needs Python 3.9 and writes the same each time.
"""
import re
import sys

# The powers of alpha, a root of F, and the logarithms.
POWERS = [1]
while len(POWERS) < 255:
    doubled = POWERS[-1] << 1
    POWERS.append(doubled ^ 0x187 if doubled > 255 else doubled)
LOGARITHMS = {number: i for i, number in enumerate(POWERS)}


def power(i):
    return POWERS[i % 255]


def times(a, b):
    return power(LOGARITHMS[a] + LOGARITHMS[b]) if a and b else 0


def inverse(a):
    return power(-LOGARITHMS[a])


def element(octet):
    """The element that is sent as this octet in the dual basis: bit i from the left is Tr(u alpha^(117 i))."""
    def trace(v):
        total = 0
        for _ in range(8):
            total ^= v
            v = times(v, v)
        return total
    return next(u for u in range(256)
                if octet == sum(trace(times(u, power(117 * i))) << (7 - i) for i in range(8)))


# Polynomials and words are lists, the coefficient of the highest power first.

def product(a, b):
    out = [0] * (len(a) + len(b) - 1)
    for i, x in enumerate(a):
        for j, y in enumerate(b):
            out[i + j] ^= times(x, y)
    return out


def value(poly, x):
    total = 0
    for c in poly:
        total = times(total, x) ^ c
    return total


def roots(e):
    return [power(11 * j) for j in range(128 - e, 128 + e)]


def generator(e):
    poly = [1]
    for root in roots(e):
        poly = product(poly, [1, root])
    return poly


def remainder(e, word):
    """What is left of a word when it is divided by the generator polynomial."""
    divisor, rest = generator(e), list(word)
    for i in range(len(rest) - 2 * e):
        for j, c in reversed(list(enumerate(divisor))):
            rest[i + j] ^= times(rest[i], c)
    return rest[-2 * e:]


def encode(e, data):
    return data + remainder(e, data + [0] * (2 * e))


def syndromes(e, word):
    return [value(word, root) for root in roots(e)]


def reduce(rows, width):
    """Brings rows to reduced echelon form in the first `width` columns. Answers the row of each pivot column."""
    pivots = {}
    for column in range(width):
        top = len(pivots)
        found = next((r for r in range(top, len(rows)) if rows[r][column]), None)
        if found is None:
            continue
        rows[top], rows[found] = rows[found], rows[top]
        scale = inverse(rows[top][column])
        rows[top] = [times(scale, x) for x in rows[top]]
        for r, row in enumerate(rows):
            if r != top and row[column]:
                rows[r] = [x ^ times(row[column], y) for x, y in zip(row, rows[top])]
        pivots[column] = top
    return pivots


def null_vector(rows, width):
    """A solution, not all 0, of fewer homogeneous equations than there are unknowns."""
    pivots = reduce(rows, width)
    free = next(column for column in range(width) if column not in pivots)
    return [1 if column == free else rows[pivots[column]][free] if column in pivots else 0
            for column in range(width)]


def locator(n, indices):
    """The product of 1 + X z over the elements X of these places, the power 0 of z first. Places are told by
    their index in the word, as everywhere here."""
    poly = [1]
    for i in indices:
        poly = product(poly, [1, power(11 * (n - 1 - i))])
    return poly


def symbols_at(e, n, places, wanted):
    """The symbols at these places, at most 2e, of the word that is 0 elsewhere and has these syndromes, if one has."""
    rows = [[power(11 * (n - 1 - i) * (128 - e + k)) for i in places] + [wanted[k]] for k in range(2 * e)]
    pivots = reduce(rows, len(places))
    return [rows[pivots[column]][-1] for column in range(len(places))]


def nearest(e, repair, erased, word):
    """The codeword that differs from the word in a places that are not erased, a at most `repair`, where 2a and the number
    of erased places are at most 2e together; with it a, and in how many erased places it differs. None where there is none.

    The syndromes, modified by the locator of the erased places, are a sequence to which each wrong place adds a
    multiple of the powers of its element. Let at most t be wrong, and take any polynomial of degree t, not 0, whose sums
    with t + t successive terms are 0: t linear equations in t + 1 unknowns. They are a Vandermonde system in its values at
    the wrong places, so these are 0, and its roots and the erased places are at most 2e places that hold all errors. A
    second Vandermonde system gives their symbols. What comes out is tested by the definition: where it fails, there was no
    such codeword.
    """
    n, left = len(word), 2 * e - len(erased)
    if left < 0:
        return None
    known, erasures, t = syndromes(e, word), locator(n, erased), left // 2
    modified = [sum_of(times(erasures[i], known[m + len(erased) - i]) for i in range(len(erasures)))
                for m in range(left)]
    poly = null_vector([[modified[m - i] for i in range(t + 1)] for m in range(t, 2 * t)], t + 1)
    places = [i for i in range(n) if i in erased or value(poly[::-1], power(-11 * (n - 1 - i))) == 0]
    codeword = list(word)
    for i, error in zip(places, symbols_at(e, n, places, known)):
        codeword[i] ^= error
    changed = [i for i in range(n) if codeword[i] != word[i]]
    a = sum(i not in erased for i in changed)
    if any(remainder(e, codeword)) or a > repair or 2 * a + len(erased) > 2 * e:
        return None
    return codeword, a, len(changed) - a


def sum_of(elements):
    total = 0
    for x in elements:
        total ^= x
    return total


class Draws:
    """Numbers of a seeded generator (the multiplier and increment of MMIX)."""

    def __init__(self, seed):
        self.state = seed

    def below(self, bound):
        self.state = (self.state * 6364136223846793005 + 1442695040888963407) % 2**64
        return (self.state >> 33) % bound

    def places(self, n, count):
        rest = list(range(n))
        return [rest.pop(self.below(len(rest))) for _ in range(count)]


def named_words(e):
    """Words of 2e + 1 symbols beside the codewords 0 and g, the generator polynomial, which differ in each place."""
    zeros, g, size = [0] * (2 * e + 1), generator(e), 2 * e + 1
    assert all(g)
    one = element(1)
    wrong = [c ^ one if i < e - 1 or i == 2 * e else c for i, c in enumerate(g)]
    half = zeros[:e + 1] + g[e + 1:]
    yield "zeros", e, [], zeros
    yield "a codeword", 0, [], g
    yield f"{e} wrong symbols", e, [], wrong
    yield f"{e} wrong symbols and a bound of {e - 1}", e - 1, [], wrong
    yield f"{e + 1} wrong symbols, but another codeword nearer", e, [], half
    yield f"{e + 1} from two codewords", e, [], zeros[:e] + g[e:-1] + [one]
    yield "one error from a longer codeword, in the fill", e, [], g[1:] + [0]
    yield f"{2 * e} erased places", 0, list(range(1, size)), [1] + zeros[1:]
    yield f"a codeword with {2 * e} erased places", 0, list(range(2 * e)), g
    yield f"a codeword with {2 * e + 1} erased places", e, list(range(size)), g
    yield f"{e - 1} wrong and 2 erased", e, [0, 1], half
    yield f"{e - 1} wrong, 2 erased and a bound of {e - 2}", e - 2, [0, 1], half
    yield f"{e} wrong and 1 erased", e, [0], half
    # Its syndromes k X^k, X being the element of the first place, are those of no word with one wrong symbol: with that
    # place taken out they become powers of X again.
    twice = [power(11 * 2 * e * k) if k % 2 else 0 for k in range(2 * e)]
    yield "an erased place that the recurrence names", e, [0], [0] + symbols_at(e, size, list(range(1, size)), twice)


def drawn_word(draws, e, n, wrong, erased):
    """A codeword with that many wrong symbols outside its erased places, of which about half have other symbols too."""
    word = encode(e, [draws.below(256) for _ in range(n - 2 * e)])
    places = draws.places(n, wrong + erased)
    for i in places[:wrong]:
        word[i] ^= 1 + draws.below(255)
    for i in places[wrong:]:
        word[i] = draws.below(256) if draws.below(2) else word[i]
    return word, sorted(places[wrong:])


def drawn_words(e):
    """Up to e + 3 wrong symbols without erased places, with as many as can be borne, and with one more."""
    draws = Draws(e)
    lengths = [2 * e + 1, 255, 100, 254, 2 * e + 2]
    cases = [(wrong, 0, e) for wrong in (0, 1, 2, 3, e // 2, e - 1, e, e + 1, e + 2, e + 3)]
    cases += [(wrong, 2 * (e - wrong) + more, e) for wrong in range(0, e, e // 4) for more in (0, 1)]
    cases += [(0, 5, 0), (1, 0, 0), (1, 4, 0), (5, 3, 5), (5, 3, 4), (e + 3, 3, e)]
    for k, (wrong, erased, repair) in enumerate(cases):
        n = lengths[k % len(lengths)]
        if wrong + erased > n:
            n = 255
        word, places = drawn_word(draws, e, n, wrong, erased)
        yield f"{wrong} wrong of {n}, {erased} erased, bound {repair}", repair, places, word


def all_words():
    return [(name, e, *rest) for e in (16, 8) for words in (named_words(e), drawn_words(e)) for name, *rest in words]


def hex_of(numbers):
    return bytes(numbers).hex() or "-"


def print_table(about, name, lines):
    """A static text with these lines. No line of the file begins with a space, which would be lost after a backslash."""
    print(f"// Written by tests/reed_solomon_vectors.py. {about}\npub static {name}: &str = \"\\")
    for line in lines:
        print("\\\n".join(re.findall(r"\S.{0,118} ?", line)) + "\\n\\")
    print("\";")


def print_words():
    lines = []
    for name, e, repair, erased, word in all_words():
        codeword, a, b = nearest(e, repair, erased, word) or (word, "-", "-")
        changes = [x for i, c in enumerate(codeword) if c != word[i] for x in (i, c)]
        lines.append(f"{name}: {e} {repair} {hex_of(erased)} {a} {b} {hex_of(changes)} {hex_of(word)}")
    print_table("""Each line has a name, E, the repair bound, the
// indices of the erased symbols, how many others and how many of these are wrong (- where the word
// is beyond the bound), index and right symbol of each, and the received word. Two hexadecimal
// digits are a symbol or an index, the first being 0.""", "WORDS", lines)


def print_locators():
    lines = []
    for name, e, repair, erased, word in all_words():
        if repair < e:
            continue
        n, known = len(word), syndromes(e, word)
        found = nearest(e, e, erased, word)
        wrong = [i for i in range(n) if i not in erased and found[0][i] != word[i]] if found else None
        coefficients = "-" if wrong is None else hex_of(locator(n, wrong))
        lines.append(f"{name}: {e} {n} {hex_of(erased)} {hex_of(known)} {coefficients}")
    print_table("""Each line has a name, E, the length of a word, the
// indices of its erased symbols, its 2E syndromes, and the coefficients of the locator of the wrong
// symbols that are not erased (- where there is none). Two hexadecimal digits are an element or an
// index, the first being 0.""", "LOCATORS", lines)


if __name__ == "__main__":
    tables = {"words": print_words, "locators": print_locators}
    if len(sys.argv) != 2 or sys.argv[1] not in tables:
        sys.exit(__doc__)
    tables[sys.argv[1]]()
