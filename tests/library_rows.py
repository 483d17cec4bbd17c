#!/usr/bin/env python3
"""Writes rows for the tests of the C library: what each call is given, and what has to come out.

    tests/library_rows.py > rows.txt

A row is a word for the call and its numbers, in decimal, and octets, in hexadecimal ("-": none), in the order of the header; the last ones
are the answer and what is left. It shares nothing with the crates: words come from tests/reed_solomon_vectors.py, which decodes by
elimination, and the rest is written here from its rules.
"""
import random

import reed_solomon_vectors as vectors

MARKER = bytes.fromhex("1ACFFC1D")
ELEMENTS = [list(range(256)), list(range(256))]      # by basis, the element of each octet
ELEMENTS[0] = [vectors.element(octet) for octet in range(256)]
OCTETS = [[elements.index(u) for u in range(256)] for elements in ELEMENTS]


def octets(basis, word):
    return bytes(OCTETS[basis][u] for u in word)


def elements(basis, word):
    return [ELEMENTS[basis][z] for z in word]


def sequence(count):
    """The pseudo-random sequence by h(x) = x^8 + x^7 + x^5 + x^3 + 1, from eight ones."""
    bits = [1] * 8
    while len(bits) < 8 * count:
        bits.append(bits[-1] ^ bits[-3] ^ bits[-5] ^ bits[-8])
    return bytes(int("".join(map(str, bits[8 * k:8 * k + 8])), 2) for k in range(count))


def masked(block):
    return bytes(a ^ b for a, b in zip(block, sequence(len(block))))


def row(*parts):
    print(*(part if isinstance(part, (str, int)) else part.hex() or "-" for part in parts))


def decodings():
    for _, e, repair, erased, word in vectors.all_words():
        found = vectors.nearest(e, repair, erased, word)
        for basis in (0, 1):
            left, answer = (octets(basis, found[0]), found[1] + found[2]) if found else (octets(basis, word), -1)
            if not erased:
                row("decode", e, basis, repair, octets(basis, word), answer, left)
            flags = bytes(37 * (i in erased) for i in range(len(word)))
            row("decode_erased", e, basis, repair, octets(basis, word), flags, answer, left)


def encodings(draws):
    for e in (16, 8):
        for size in (1, 2, 100, 254 - 2 * e, 255 - 2 * e):
            for basis in (0, 1):
                data = draws.randbytes(size)
                row("encode", e, basis, data, 0, octets(basis, vectors.encode(e, elements(basis, data))[size:]))


def codeblocks(draws):
    for size in (0, 1, 8, 254, 255, 256, 510, 2040):
        block = draws.randbytes(size)
        row("randomize", block, masked(block))
    for depth, size in ((1, 1), (1, 255), (2, 33), (5, 255), (8, 100), (3, 0)):
        for index in range(depth):
            block, word = draws.randbytes(depth * size), draws.randbytes(size)
            after = bytearray(block)
            after[index::depth] = word
            row("take_column", depth, index, block, 0, block[index::depth])
            row("put_column", depth, index, block, word, 0, bytes(after))


def units(draws):
    for code, depth, size in ((16, 1, 1), (16, 1, 223), (16, 5, 223), (16, 8, 10), (16, 4, 200), (8, 3, 239), (8, 2, 1), (0, 1, 1), (0, 1, 2040)):
        for basis in (0, 1):
            for randomize in (0, 1):
                frame = draws.randbytes(depth * size)
                words = [octets(basis, vectors.encode(code, elements(basis, frame[i::depth]))) if code else frame for i in range(depth)]
                block = bytes(word[m] for m in range(len(words[0])) for word in words)
                row("cadu", code, depth, basis, randomize, frame, 0, MARKER + (masked(block) if randomize else block))


if __name__ == "__main__":
    source = random.Random(131)
    encodings(source)
    decodings()
    codeblocks(source)
    units(source)
