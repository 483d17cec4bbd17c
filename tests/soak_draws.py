#!/usr/bin/env python3
"""What `soak` draws, by a generator written again (PCG-XSH-RR with 64 bits of state): the tables of its tests.

    tests/soak_draws.py SEED LENGTH DEPTH CHECKS HITS FRAMES      a line for each frame: its octets, then the octets of its
                                                                  codeblock that are changed, each as PLACE:CHANGE
LENGTH is that of a frame in octets, CHECKS the check symbols of a codeword, HITS how many symbols of each codeword are changed.
"""
import itertools
import sys

MASK = 2**64 - 1
MULTIPLIER = 6364136223846793005


def draws(seed):
    state = ((seed + 1) * MULTIPLIER + 1) & MASK
    while True:
        word, turn = (((state >> 18) ^ state) >> 27) & 0xFFFFFFFF, state >> 59
        yield (word >> turn | word << (32 - turn)) & 0xFFFFFFFF
        state = (state * MULTIPLIER + 1) & MASK


def main():
    seed, length, depth, checks, hits, frames = map(int, sys.argv[1:])
    size = length // depth + checks
    draw = draws(seed)
    for _ in range(frames):
        frame = bytes(word & 0xFF for word in itertools.islice(draw, length))
        changes = {}
        for column in range(depth):
            first = next(draw)
            for k in range(hits):
                place = column + depth * ((first + k) % size)
                changes[place] = changes.get(place, 0) ^ (1 + next(draw) % 255)
        print(frame.hex(" "), *(f"{place}:{change:02x}" for place, change in sorted(changes.items())), sep="  ")


main()
