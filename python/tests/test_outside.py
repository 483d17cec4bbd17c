"""What is done around a link, and outside of what is proved."""
import random

import pytest

from tmchan.outside import Counters, Differential


@pytest.mark.parametrize("kind, channels", [("aos", (0, 31, 32, 62, 63)), ("tm", (0, 3, 4, 7))])
def test_virtual_channels(kind, channels):
    """Each channel has a counter of its own, whatever stands beside its number."""
    counters = Counters(kind)
    for count in (7, 9):
        for channel in channels:
            number = 0xC0 | channel if kind == "aos" else 0xF1 | channel << 1
            rest = count.to_bytes(3, "big") if kind == "aos" else bytes([0, count])
            assert counters.push(bytes([0x5A, number]) + rest) == (channel, count - 8 if count > 7 else 0)
    assert counters.channels == {channel: (2, 1) for channel in channels}


@pytest.mark.parametrize("size", [1, 7, 500])
def test_differences_over_pieces(size):
    draw, level, sent = random.Random(size), 0, []
    bits = bytes(draw.randrange(2) for _ in range(500))
    for bit in bits:
        level ^= bit
        sent.append(level)
    receiver = Differential()
    pieces = [receiver.push(bytes(sent[at : at + size])) for at in range(0, len(sent), size)]
    assert b"".join([receiver.push(b""), *pieces]) == bits
