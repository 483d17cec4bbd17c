"""How good symbols are, by windows of the soft decoder."""
import math

import pytest
from links import frames, levels, tmchan, windows_of

RATES = ("1/2", "2/3", "3/4", "5/6", "7/8")
# Windows are the default, 8,192 steps: the frames have more than ten of them.
SIZE = 12_000


def octets_of(floats):
    """Floats that are levels from the middle, as soft octets."""
    numpy = pytest.importorskip("numpy")
    return numpy.clip(numpy.floor(floats + 128), 0, 255).astype("u1").tobytes()


def counted(inner, decibels, level, seed):
    """The windows of symbols at an Es/N0, so far from the middle without noise; at "mean", scaled as a recording is."""
    link = tmchan.Link(code="none", length=2000, inner=inner)
    floats = levels(link.send(b"".join(frames(SIZE // 2000, 2000, seed))), decibels, seed)
    if level == "mean":
        level = 64 / abs(floats).mean()
    # (the last window is short)
    return windows_of(link.decoder, [octets_of(floats * level)])[:-1]


@pytest.mark.parametrize("level", [32, "mean", 100])
@pytest.mark.parametrize("inner", ["1/2", "7/8"])
def test_es_n0_is_right_from_0_to_10_decibels(inner, level):
    for decibels in range(0, 11, 2):
        windows = counted(inner, decibels, level, seed=decibels + 1)
        found = tmchan.quality(windows)
        assert not found.at_least and abs(found.es_n0 - decibels) < 0.2, (decibels, found)
        # A window by itself strays as the Cramer-Rao bound has it: by 0.07 dB, and at 7/8 and 0 dB by 0.13; where much
        # is cut by more.
        each = [it.quality.es_n0 for it in windows]
        assert len(each) >= 10 and max(abs(it - decibels) for it in each) < 0.6, (decibels, each)
        if level != 100:
            some = 1 if inner == "1/2" else 4
            for at in range(len(windows) - some + 1):
                assert abs(tmchan.quality(windows[at : at + some]).es_n0 - decibels) < 0.2, (decibels, at)


@pytest.mark.long
@pytest.mark.parametrize("inner", RATES)
def test_es_n0_is_right_at_each_rate(inner):
    for decibels in (0, 0.5, 1, 1.5, 2, 3, 4.5, 7, 10):
        for level in (20, 64, 100):
            found = tmchan.quality(counted(inner, decibels, level, seed=7))
            assert not found.at_least and abs(found.es_n0 - decibels) < 0.2, (decibels, level, found)


@pytest.mark.parametrize("inner", ["1/2", "7/8"])
def test_symbols_that_are_cut_say_at_least(inner):
    told = 0
    for decibels in range(0, 11, 2):
        for level in (160, 1e6):
            found = tmchan.quality(counted(inner, decibels, level, seed=decibels + 3))
            assert found.at_least and found.es_n0 < decibels + 0.1, (decibels, level, found)
            told += found.es_n0 > decibels - 1
    assert told >= 3


def test_no_noise_no_signal_and_no_symbols():
    link = tmchan.Link(code="none", length=2000)
    symbols = link.send(b"".join(frames(6, 2000)))
    for given in (symbols, bytes(103 + 49 * (it > 0) for it in symbols)):
        found = tmchan.quality(windows_of(link.decoder, [given]))
        assert found.symbol_error_rate == 0 and found.at_least and 6 < found.es_n0 < 10
    numpy = pytest.importorskip("numpy")
    for inner in RATES:
        noise = octets_of(numpy.random.default_rng(5).normal(0, 50, 200_000))
        found = tmchan.quality(windows_of(tmchan.Link(inner=inner, start="any").decoder, [noise])[:-1])
        assert found.es_n0 == -math.inf and not found.at_least
    nothing = tmchan.quality([])
    assert math.isnan(nothing.symbol_error_rate) and math.isnan(nothing.es_n0) and not nothing.at_least
