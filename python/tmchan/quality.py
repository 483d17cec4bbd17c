"""How good symbols were, by what the library counts of windows of its soft decoder.

The octets are taken for levels from the middle, 127.5, towards the symbols of the best path: of a signal and white
noise, cut at 127.5 on either side. Es/N0 follows from their mean and their power; where noise is so great that the best
path is not the one that was sent it comes out too great, by as much as was measured over drawn noise."""
from __future__ import annotations

import math
from statistics import NormalDist
from typing import Any, Iterable, NamedTuple, Optional

MIDDLE = 127.5
# By how many deviations of the noise the best path is nearer in the mean than the one that was sent, at an Es/N0 of -2,
# -1 .. 3 dB, at each rate by how many symbols a bit has. Above it is as near.
FIRST = -2
NEARER = {
    2: (0.0042, 0.0005, 0.0, 0.0, 0.0, 0.0),
    1.5: (0.0466, 0.0165, 0.0029, 0.0004, 0.0, 0.0),
    4 / 3: (0.0791, 0.0421, 0.0143, 0.0029, 0.0001, 0.0),
    1.2: (0.1067, 0.0707, 0.0386, 0.0139, 0.0024, 0.0),
    8 / 7: (0.117, 0.0824, 0.0514, 0.0248, 0.0071, 0.001),
}
# The share of wrong symbols by the best path at -2, -1 .. 5 dB, where all symbols are cut.
WRONG = {
    2: (0.11297, 0.09825, 0.0776, 0.0561, 0.03746, 0.02272, 0.01242, 0.00591),
    1.5: (0.07095, 0.06883, 0.06322, 0.05166, 0.03684, 0.02278, 0.01255, 0.00599),
    4 / 3: (0.0503, 0.04983, 0.04814, 0.04338, 0.03386, 0.02221, 0.01241, 0.00597),
    1.2: (0.03147, 0.03145, 0.03118, 0.03018, 0.02699, 0.02024, 0.01215, 0.00598),
    8 / 7: (0.02252, 0.02252, 0.0225, 0.02222, 0.02102, 0.01736, 0.01138, 0.00588),
}


class Counts(NamedTuple):
    """Sums over windows, with the names of tmchan_window."""

    kept: int = 0
    octets: int = 0
    wrong: int = 0
    distance: int = 0
    squares: int = 0

    def plus(self, windows: Iterable[Any]) -> "Counts":
        """With those of further windows, or of other counts."""
        kept, octets, wrong, distance, squares = self
        for it in windows:
            kept += it.kept
            octets += it.octets
            wrong += it.wrong
            distance += it.distance
            squares += it.squares
        return Counts(kept, octets, wrong, distance, squares)


class Quality(NamedTuple):
    """What windows say of the symbols."""

    symbol_error_rate: float  #: the share of symbols that were received nearer to the other one; nan of no symbol
    es_n0: float  #: Es/N0 in dB; -inf where it is below -2 dB or nothing is known of it, nan where there is no symbol
    at_least: bool  #: most symbols are cut at 00 and FF, or have no noise: Es/N0 is es_n0 or greater


def quality(windows: Iterable[Any]) -> Quality:
    """How good the symbols of windows were, all together."""
    return quality_of(Counts().plus(windows))


def quality_of(counts: Counts) -> Quality:
    if not counts.octets:
        return Quality(math.nan, math.nan, False)
    share = counts.wrong / counts.octets
    rate = min(NEARER, key=lambda it: abs(counts.octets / max(1, counts.kept) - it))
    mean = MIDDLE - counts.distance / counts.octets
    power = (counts.squares - 2 * MIDDLE * counts.distance) / counts.octets + MIDDLE**2
    es_n0 = sent(mean, power, NEARER[rate]) if mean > 0 else -math.inf
    if es_n0 is None:
        return Quality(share, least(counts.wrong, counts.octets, WRONG[rate]), True)
    return Quality(share, es_n0 if es_n0 >= FIRST else -math.inf, False)


def above(level: float) -> float:
    """The share of a normal distribution above a level."""
    return math.erfc(level / math.sqrt(2)) / 2


def density(level: float) -> float:
    return math.exp(-level * level / 2) / math.sqrt(2 * math.pi)


def cut(signal: float, deviation: float) -> tuple[float, float, float]:
    """Of a signal and noise, cut at MIDDLE on either side: the mean, the power, and the share that is cut."""
    low, high = (MIDDLE + signal) / deviation, (MIDDLE - signal) / deviation
    below, beyond = above(low), above(high)
    kept = 1 - below - beyond
    mean = signal * kept + deviation * (density(low) - density(high)) + MIDDLE * (beyond - below)
    power = (
        (signal**2 + deviation**2) * kept
        + 2 * signal * deviation * (density(low) - density(high))
        - deviation**2 * (low * density(low) + high * density(high))
        + MIDDLE**2 * (beyond + below)
    )
    return mean, power, beyond + below


def nearer(decibels: float, measured: tuple[float, ...]) -> float:
    """What is measured at an Es/N0, between those that are in the table; below it goes on as it begins."""
    index = max(0, math.floor(decibels) - FIRST)
    if index + 1 >= len(measured):
        return 0.0
    return measured[index] + (decibels - FIRST - index) * (measured[index + 1] - measured[index])


def sent(mean: float, power: float, measured: tuple[float, ...]) -> Optional[float]:
    """The Es/N0 of the signal and the noise that have this mean, by the best path, and this power once they are cut;
    None where more than half of them are cut, or there is no noise."""
    signal, variance, decibels = mean, power - mean**2, math.inf
    for _ in range(200):
        if variance <= 0 or signal >= MIDDLE:
            return None
        deviation, before = math.sqrt(variance), decibels
        decibels = 20 * math.log10(signal / deviation) - 10 * math.log10(2)
        found, its_power, share = cut(signal, deviation)
        if share > 0.5:
            return None
        if abs(decibels - before) < 1e-4 or decibels < 2 * FIRST:
            break
        found += deviation * nearer(decibels, measured)
        signal += mean - found
        variance += power - mean**2 - (its_power - found**2)
        if signal <= 0:
            return -math.inf
    return decibels


def least(wrong: int, octets: int, measured: tuple[float, ...]) -> float:
    """The Es/N0 that white noise has at least where `wrong` of `octets` symbols are wrong, 39 of 40 times: by what was
    measured of symbols that are all cut, where more are wrong than at the end of the table."""
    share = (wrong + 2 * math.sqrt(wrong + 1) + 2) / octets
    if share > measured[0]:
        return -math.inf
    for index, (first, second) in enumerate(zip(measured, measured[1:])):
        if share > second:
            return FIRST + index + (first - share) / (first - second)
    return 10 * math.log10(NormalDist().inv_cdf(1 - share) ** 2 / 2)
