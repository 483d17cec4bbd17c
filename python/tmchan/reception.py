"""The receiver of a recording: a link's, with the form of its symbols before it, and NRZ-M where that is asked for."""
from __future__ import annotations

from typing import Any, Optional, Union

from .link import Link, Received, Totals, Window
from .outside import BITS, HARD, Differential
from .recordings import Symbols


class Reception:
    """Takes the octets of a recording as they stand in its file, or arrays of int8, int16, float32 or float64, in
    pieces of any length, and gives the codeblocks that are found. With `nrz_m` it is the soft decoder, then NRZ-M, and
    then a receiver without an inner code; NRZ-M is outside of what is proved."""

    def __init__(
        self,
        link: Link,
        form: str,
        swap: bool = False,
        nrz_m: bool = False,
        scale: Union[None, float, str] = None,
        windows: bool = False,
    ) -> None:
        self._symbols = Symbols(form, scale, swap)
        self._differential = Differential() if nrz_m else None
        self._decoder = link.decoder(windows=windows) if nrz_m and link.options["inner"] != "none" else None
        if nrz_m:
            behind = {"inner": "none", "invert": None, "pack": "off", "start": "zero", "phase": "given"}
            # (what is skipped the decoder skips, where there is one)
            link = Link(**{**link.options, **behind, **({"skip": 0} if self._decoder else {})})
        self._receiver = link.receiver(windows=windows and not self._decoder)
        #: the windows of the soft decoder that the last push, or the finish, has decoded, where they are counted
        self.windows: list[Window] = []

    def __enter__(self) -> "Reception":
        return self

    def __exit__(self, *_: object) -> None:
        if self._decoder:
            self._decoder.close()
        self._receiver.close()

    def push(self, samples: Any) -> Received:
        return self._pushed(self._symbols.push(samples))

    def _pushed(self, symbols: bytes) -> Received:
        if not self._differential:
            found = self._receiver.push(symbols)
        else:
            bits = self._decoder.push(symbols) if self._decoder else symbols.translate(HARD)
            found = self._receiver.push(self._differential.push(bits).translate(BITS))
        self.windows = (self._decoder or self._receiver).windows
        return found

    def finish(self) -> Received:
        """Closes it. Returns the codeblocks that are left."""
        found = self._pushed(self._symbols.finish())
        windows = self.windows
        if self._decoder and self._differential:
            found += self._receiver.push(self._differential.push(self._decoder.finish()).translate(BITS))
        found += self._receiver.finish()
        self.windows = windows + (self._decoder or self._receiver).windows
        return found

    @property
    def has_symbols(self) -> bool:
        """Whether the items' symbols are those of the recording: behind NRZ-M they are bits of the soft decoder."""
        return self._decoder is None

    @property
    def is_open(self) -> bool:
        return self._receiver.is_open

    @property
    def totals(self) -> Optional[Totals]:
        return self._receiver.totals
