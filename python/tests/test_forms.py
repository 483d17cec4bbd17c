"""Forms of recordings over pieces, and headers of WAV files."""
import struct

import pytest

from tmchan.recordings import Symbols, Wave, wave_header

# What follows the number of a kind in the extension of a header (WAVE_FORMAT_EXTENSIBLE).
KIND = bytes.fromhex("000000001000800000AA00389B71")


@pytest.mark.parametrize("size", [1, 3, 7, 101])
def test_pairs_are_exchanged_over_pieces(size):
    symbols, given = Symbols("u8", swap=True), bytes(range(101))
    came = b"".join(symbols.push(given[at : at + size]) for at in range(0, len(given), size)) + symbols.finish()
    assert came == bytes(it ^ 1 for it in range(100)) and symbols.left == (0, 1)


def extensible(kind, bits):
    """A header in whose extension the kind of the samples stands, with some octets of them."""
    fields = 0xFFFE, 1, 8000, 8000 * bits // 8, bits // 8, bits, 22, bits, 0, kind
    head = struct.pack("<HHIIHHHHIH", *fields) + KIND
    return b"RIFF\0\0\0\0WAVEfmt " + struct.pack("<I", len(head)) + head + b"data\x10\0\0\0" + bytes(16)


@pytest.mark.parametrize("kind, bits, form", [(1, 8, "u8"), (1, 16, "i16"), (3, 32, "f32"), (3, 64, "f64")])
def test_the_kind_of_samples_in_an_extension(kind, bits, form):
    octets = extensible(kind, bits)
    assert wave_header(octets) == Wave(form, len(octets) - 16, 16, 1)


def test_other_kinds_in_an_extension():
    for kind, bits in ((6, 8), (1, 24), (0xFFFE, 16)):
        with pytest.raises(ValueError, match=f"kind {kind} with {bits} bits"):
            wave_header(extensible(kind, bits))
