"""Words of the Reed-Solomon codes, and the pseudo-randomizer, without a link around them."""
from __future__ import annotations

from typing import Any, Iterable, NamedTuple, Optional

from . import library


class Decoded(NamedTuple):
    """A word that was repaired."""

    word: bytes  #: the codeword
    wrong: int  #: how many octets were wrong, erased or not


def _numbers(code: str, basis: str) -> tuple[int, int]:
    # A word that is none is refused by the library, in its order.
    return library.CODES.get(code) or 1, library.BASES.get(basis, 2)


def rs_encode(data: Any, *, code: str = "rs16", basis: str = "dual") -> bytes:
    """The codeword of data, 1 to 223 octets (rs16) or 239 (rs8): the data, and 32 or 16 check symbols.
    CCSDS 131.0-B, "Reed-Solomon coding". Raises Refused: code, length, basis."""
    octets = memoryview(data).tobytes()
    number, form = _numbers(code, basis)
    checks = bytearray(2 * number)
    library.call("rs_encode", number, form, octets, len(octets), library.address(checks), len(checks))
    return octets + checks


def rs_decode(
    word: Any, *, erased: Iterable[int] = (), code: str = "rs16", basis: str = "dual", repair: Optional[int] = None
) -> Decoded:
    """Repairs a word, 33 to 255 octets (rs16) or 17 to 255 (rs8). It becomes the one codeword that differs from it in
    at most `repair` octets (16, or 8, where None) besides the erased ones, where twice their number and the number of
    erased ones are at most 32, or 16. `erased` has the places, from 0, of octets that are known to be lost: what stands
    there does not matter. CCSDS 131.0-B, "Reed-Solomon coding".

    Raises Uncorrectable where there is no such codeword; IndexError for a place outside the word; Refused: code,
    length, basis, repair."""
    octets = bytearray(memoryview(word).tobytes())
    number, form = _numbers(code, basis)
    bound = number if repair is None else min(library.number("repair", repair), 2**32 - 1)
    flags = bytearray(len(octets))
    for place in erased:
        if not 0 <= place < len(octets):
            raise IndexError(f"the word has {len(octets)} octets, and none is at {place}")
        flags[place] = 1
    arrays = library.address(octets), len(octets), library.address(flags), len(flags)
    wrong = library.call("rs_decode_erased", number, form, bound, *arrays)
    return Decoded(bytes(octets), wrong)


def randomize(block: Any) -> bytes:
    """A codeblock with the pseudo-random sequence added modulo 2, from the sequence's start. A second time takes it off
    again. CCSDS 131.0-B, "Pseudo-randomizer"."""
    octets = bytearray(memoryview(block).tobytes())
    library.call_plain("randomize", library.address(octets), len(octets))
    return bytes(octets)
