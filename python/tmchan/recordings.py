"""Recordings: in which form their symbols stand, and WAV files. A form turns the octets of a file into soft octets, 0
the surest 0 and 255 the surest 1, a symbol each."""
from __future__ import annotations

import struct
from typing import Any, NamedTuple, Optional, Union

from .samples import SIGNED, Octets, numpy, view_of


class Form(NamedTuple):
    name: str
    size: int  #: octets of an element
    dtype: str  #: numpy's name for it; "" for octets
    table: Optional[list[bytes]]  #: the symbols of each octet, where that is all there is to it
    text: str


def _table(of_octet):
    return [bytes(of_octet(octet)) for octet in range(256)]


FORMS = {
    it.name: it
    for it in (
        Form("u8", 1, "", None, "octets, 00 the surest 0 and FF the surest 1"),
        Form("i8", 1, "i1", None, "signed octets, below 0 for a symbol 0"),
        Form("i16", 2, "<i2", None, "signed numbers of 16 bits"),
        Form("i16be", 2, ">i2", None, "the same, the most significant octet first"),
        Form("f32", 4, "<f4", None, "floats of 32 bits, below 0 for a symbol 0"),
        Form("f32be", 4, ">f4", None, "the same, the most significant octet first"),
        Form("f64", 8, "<f8", None, "floats of 64 bits"),
        Form("f64be", 8, ">f8", None, "the same, the most significant octet first"),
        Form("unpacked", 1, "", _table(lambda octet: [255 if octet else 0]), "octets 00 and 01, a symbol each"),
        Form(
            "packed",
            1,
            "",
            _table(lambda octet: (255 * (octet >> k & 1) for k in range(7, -1, -1))),
            "eight symbols an octet, the most significant bit first",
        ),
        Form(
            "packed-lsb",
            1,
            "",
            _table(lambda octet: (255 * (octet >> k & 1) for k in range(8))),
            "eight symbols an octet, the least significant bit first",
        ),
    )
}


class Symbols:
    """Turns the octets of a recording, a piece after another, into soft octets. `swap` exchanges the two of each
    pair. `scale` is as of tmchan.Link.receive."""

    def __init__(self, form: str, scale: Union[None, float, str] = None, swap: bool = False) -> None:
        self.form = FORMS[form]
        if self.form.size > 1 and numpy is None:
            raise ImportError(f"numpy is needed for symbols of the form {form}")
        self._octets, self._swap = Octets(scale=scale if self.form.size > 1 else None), swap
        self._unread, self._unpaired = b"", b""

    def push(self, samples: Any) -> bytes:
        """The soft octets of the next octets of a recording, or of the next elements of an array."""
        view, letter = view_of(samples)
        if letter != "B":
            return self._paired(self._octets.push(samples))
        octets = self._unread + view.tobytes()
        whole = len(octets) - len(octets) % self.form.size
        octets, self._unread = octets[:whole], octets[whole:]
        if self.form.table:
            one = len(self.form.table[0]) == 1
            symbols = (
                octets.translate(b"".join(self.form.table))
                if one
                else b"".join(map(self.form.table.__getitem__, octets))
            )
        elif self.form.size == 1:
            symbols = octets.translate(SIGNED) if self.form.dtype else octets
        else:
            symbols = self._octets.push(numpy.frombuffer(octets, self.form.dtype))
        return self._paired(symbols)

    def finish(self) -> bytes:
        """The soft octets that are left. What is no whole element, and with swap no whole pair, is dropped."""
        return self._paired(self._octets.finish())

    @property
    def left(self) -> tuple[int, int]:
        """How many octets wait for a whole element, and how many symbols for a whole pair."""
        return len(self._unread), len(self._unpaired)

    def _paired(self, symbols: bytes) -> bytes:
        if not self._swap:
            return symbols
        symbols = self._unpaired + symbols
        whole = len(symbols) - len(symbols) % 2
        pairs, self._unpaired = bytearray(symbols[:whole]), symbols[whole:]
        pairs[0::2], pairs[1::2] = pairs[1::2], pairs[0::2]
        return bytes(pairs)


class Wave(NamedTuple):
    """What the header of a WAV file says."""

    form: str
    start: int  #: how many octets stand before the samples
    length: int  #: how many octets of samples there are; of a stream that was never ended, all that come
    channels: int


def wave_header(octets: bytes) -> Optional[Wave]:
    """The header of a WAV file that begins with these octets; None where they are none. Raises ValueError for samples
    of a kind that is not read. Samples of several channels stand one after the other, as symbols."""
    if octets[:4] not in (b"RIFF", b"RF64") or octets[8:12] != b"WAVE":
        return None
    at, form, channels = 12, "", 0
    while at + 8 <= len(octets):
        name, size = octets[at : at + 4], struct.unpack_from("<I", octets, at + 4)[0]
        if name == b"fmt " and at + 24 <= len(octets):
            kind, channels, bits = (
                *struct.unpack_from("<HH", octets, at + 8),
                struct.unpack_from("<H", octets, at + 22)[0],
            )
            if kind == 0xFFFE and at + 34 <= len(octets):
                kind = struct.unpack_from("<H", octets, at + 32)[0]
            form = {(1, 8): "u8", (1, 16): "i16", (3, 32): "f32", (3, 64): "f64"}.get((kind, bits), "")
            if not form:
                raise ValueError(f"a WAV file of kind {kind} with {bits} bits a sample is not read")
        if name == b"data" and form:
            return Wave(form, at + 8, 2**63 if size in (0, 2**32 - 1) else size, channels)
        at += 8 + size + size % 2
    raise ValueError("a WAV file without samples")
