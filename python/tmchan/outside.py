"""What stands around a link, and outside of what is proved: NRZ-M behind the soft decoder, the frame error control
field, and the counters of virtual channels. Each is done only where it is asked for."""
from __future__ import annotations

import binascii
from typing import Optional

# Bits as symbols, and symbols as bits.
BITS = bytes([0] + [255] * 255)
HARD = bytes([0] * 128 + [1] * 128)


class Differential:
    """NRZ-M: a bit is 1 where the signal changes. Takes bits, an octet of 0 or 1 each, and gives, for each, 1 where it
    differs from the one before, and else 0. Before the first one a 0 is taken."""

    def __init__(self) -> None:
        self._last = 0

    def push(self, bits: bytes) -> bytes:
        if not bits:
            return b""
        before = bytes([self._last]) + bits[:-1]
        self._last = bits[-1]
        changed = int.from_bytes(bits, "big") ^ int.from_bytes(before, "big")
        return changed.to_bytes(len(bits), "big")


def frame_check(frame: bytes) -> bool:
    """Whether the frame error control field fits: the last two octets are the CRC of those before (CCSDS 132.0-B and
    732.0-B: x^16 + x^12 + x^5 + 1, begun with ones)."""
    return binascii.crc_hqx(frame, 0xFFFF) == 0


# Of a kind of transfer frame: the virtual channel and the counter of a frame, and how many values the counter has.
def _telemetry(frame: bytes) -> tuple[int, int]:
    return frame[1] >> 1 & 7, frame[3]


def _orbiting(frame: bytes) -> tuple[int, int]:
    return frame[1] & 63, int.from_bytes(frame[2:5], "big")


COUNTERS = {"tm": (_telemetry, 1 << 8, 4), "aos": (_orbiting, 1 << 24, 5)}


class Counters:
    """Gaps in the frame counters of virtual channels, of TM frames (CCSDS 132.0-B) or of AOS frames (732.0-B)."""

    def __init__(self, kind: str) -> None:
        self._read, self._values, self._least = COUNTERS[kind]
        self._next: dict[int, int] = {}
        #: of each virtual channel how many frames came, and how many are missing by the counter
        self.channels: dict[int, tuple[int, int]] = {}

    def push(self, frame: bytes) -> Optional[tuple[int, int]]:
        """The frame's virtual channel, and how many frames of it are missing before; None where it is too short."""
        if len(frame) < self._least:
            return None
        channel, counter = self._read(frame)
        missing = (counter - self._next.get(channel, counter)) % self._values
        self._next[channel] = (counter + 1) % self._values
        came, all_missing = self.channels.get(channel, (0, 0))
        self.channels[channel] = came + 1, all_missing + missing
        return channel, missing


def kiss(frame: bytes) -> bytes:
    """A frame as a KISS frame of port 0."""
    return b"\xc0\x00" + frame.replace(b"\xdb", b"\xdb\xdd").replace(b"\xc0", b"\xdb\xdc") + b"\xc0"
