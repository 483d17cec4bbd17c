"""The outer code: attached sync marker, field, basis, codewords, codeblock, pseudo-randomizer."""
from functools import reduce
from operator import xor

MARKER = bytes.fromhex("1ACFFC1D")  # CCSDS 131.0-B, "Frame synchronization"

def bits_of(octets):
    """The bits of octets, from the most significant one of each."""
    return [octet >> k & 1 for octet in octets for k in range(7, -1, -1)]
def octets_of(bits):
    return bytes(int("".join(map(str, bits[at:at + 8])), 2) for at in range(0, len(bits), 8))

# The field of CCSDS 131.0-B, "Reed-Solomon coding". POWER[k] is alpha^k, and alpha is a root of
# F(x) = x^8+x^7+x^2+x+1. A polynomial is a list, the leading coefficient first; of the locator
# and what is made of it the constant one.
POWER = [1]
while len(POWER) < 255:
    POWER.append(POWER[-1] << 1 if POWER[-1] < 128 else POWER[-1] << 1 ^ 0b110000111)
LOG = {element: k for k, element in enumerate(POWER)}

def product(a, b):
    return POWER[(LOG[a] + LOG[b]) % 255] if a and b else 0
def inverse(a):
    return POWER[-LOG[a] % 255]
def value(polynomial, x):
    return reduce(lambda total, coefficient: product(total, x) ^ coefficient, polynomial, 0)

def polynomial_product(a, b):
    result = [0] * (len(a) + len(b) - 1)
    for i, x in enumerate(a):
        for k, y in enumerate(b):
            result[i + k] ^= product(x, y)
    return result

# The dual basis ("Reed-Solomon coding", symbol representation): z_i = Tr(u alpha^(117 i)), where
# Tr(v) is the sum of v raised to the powers 1, 2, 4, .., 128: 0 or 1.
def trace(v):
    return reduce(xor, (POWER[LOG[v] * 2 ** k % 255] for k in range(8))) if v else 0
DUAL = bytes(sum(trace(product(u, POWER[117 * i % 255])) << (7 - i) for i in range(8))
             for u in range(256))

def elements(octets, c):
    return [DUAL.index(octet) for octet in octets] if c.dual else list(octets)
def octets_from(symbols, c):
    return bytes(symbols).translate(DUAL) if c.dual else bytes(symbols)

# The codes ("Reed-Solomon coding", code generator polynomial), by E.
ROOTS = {E: [POWER[11 * j % 255] for j in range(128 - E, 128 + E)] for E in (8, 16)}
GENERATOR = {E: reduce(polynomial_product, ([1, root] for root in ROOTS[E])) for E in (8, 16)}

def check_symbols(data, E):
    """The remainder of data(x) x^(2E) by the generator polynomial."""
    rest = [0] * (2 * E)
    for symbol in data:
        factor, rest = symbol ^ rest[0], rest[1:] + [0]
        rest = [x ^ product(factor, y) for x, y in zip(rest, GENERATOR[E][1:])]
    return rest

def error_locator(syndrome, erased):
    """Berlekamp-Massey, begun with the locator of the erased places, and the length reached."""
    locator = reduce(polynomial_product, ([1, place] for place in erased), [1])
    locator += [0] * (len(syndrome) + 1 - len(locator))
    length, before = len(erased), locator
    for r in range(len(erased), len(syndrome)):
        discrepancy = reduce(xor, (product(locator[k], syndrome[r - k]) for k in range(r + 1)))
        before, old = [0] + before[:-1], locator
        locator = [x ^ product(discrepancy, y) for x, y in zip(old, before)]
        if discrepancy and 2 * length <= r + len(erased):
            length = r + len(erased) + 1 - length
            before = [product(x, inverse(discrepancy)) for x in old]
    return locator, length

def nearest_codeword(word, erased, E, repair):
    """The one codeword that differs from the word in at most `repair` places that are not erased,
    where twice their number and that of the erased ones is at most 2E; with it how many places
    differ that are not erased, and how many that are. None where there is no such codeword."""
    place = [POWER[11 * (len(word) - 1 - i) % 255] for i in range(len(word))]
    syndrome = [value(word, root) for root in ROOTS[E]]
    locator, length = error_locator(syndrome, [place[i] for i in erased])
    wrong = [i for i in range(len(word)) if value(locator[::-1], inverse(place[i])) == 0]
    if len(wrong) != length:
        return None
    evaluator = polynomial_product(syndrome, locator)[:2 * E]
    derivative = [x if k % 2 else 0 for k, x in enumerate(locator)][1:]
    codeword = list(word)
    for i in wrong:  # Forney's rule
        x = inverse(place[i])
        error = product(value(evaluator[::-1], x), inverse(value(derivative[::-1], x)))
        codeword[i] ^= product(error, POWER[LOG[x] * (127 - E) % 255])
    differ = [i in erased for i in range(len(word)) if codeword[i] != word[i]]
    elsewhere = differ.count(False)
    is_near = elsewhere <= repair and 2 * elsewhere + len(erased) <= 2 * E
    is_codeword = not any(value(codeword, root) for root in ROOTS[E])
    return (codeword, elsewhere, differ.count(True)) if is_near and is_codeword else None

def codeblock(frame, c):
    """Symbol interleaving: octet m belongs to column m mod I, each column is a codeword. Virtual
    fill need not be computed with: leading zeros leave a remainder as it is."""
    block = bytearray(c.codeblock)
    for i in range(c.depth):
        data = elements(frame[i::c.depth], c)
        block[i::c.depth] = octets_from(data + (check_symbols(data, c.E) if c.E else []), c)
    return bytes(block)

def randomized(block, c):
    """The codeblock with the randomizer of CCSDS 131.0-B, "Pseudo-randomizer", added or taken
    off: h(x) = x^8+x^7+x^5+x^3+1, begun with eight ones."""
    s = [1] * 8
    while len(s) < 8 * len(block):
        s.append(s[-1] ^ s[-3] ^ s[-5] ^ s[-8])
    return bytes(x ^ y for x, y in zip(block, octets_of(s))) if c.randomize else block

def cadu(frame, c):
    """The channel access data unit of a frame."""
    return MARKER + randomized(codeblock(frame, c), c)
