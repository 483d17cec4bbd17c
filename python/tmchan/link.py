"""A link's options, and its streams: a sender, a soft decoder and a receiver."""
from __future__ import annotations

from typing import Any, Iterable, Iterator, NamedTuple, Optional, Sequence, Union, overload

from . import library
from .quality import Quality, quality
from .samples import Octets

Switch = Union[bool, str]
# Any object with a buffer: bytes, bytearray, memoryview, array.array, an array of numpy. Python's own name for these
# is younger than what this runs on.
Buffer = Any

# How many octets go to the library at once; the memory of a stream is for as many.
PIECE = 1 << 20


class Item(NamedTuple):
    """A codeblock that the receiver found."""

    place: int  #: how many received bits stand before its marker
    frame: Optional[bytes]  #: its transfer frame; None where a column is uncorrectable, but with bad="pass"
    distance: int  #: how many of the marker's 32 bits are wrong, in the codeblock's polarity
    bridged: bool  #: no marker stands there: its place was taken since it directly follows a codeblock
    inverted: bool  #: it was received inverted
    repaired: tuple[Optional[int], ...]  #: for each column how many symbols were wrong, None where it is uncorrectable
    symbol: int  #: the number of its marker's first symbol among all octets given, those skipped or dropped counted

    @property
    def good(self) -> bool:
        """Whether each column was repaired. Without an outer code that says nothing of the frame."""
        return None not in self.repaired

    @property
    def fixed(self) -> int:
        """How many symbols were repaired."""
        return sum(count or 0 for count in self.repaired)


class Phase(NamedTuple):
    """The symbol phase that was chosen for the soft decoder."""

    skip: int  #: how many soft octets stand before the first step's symbols
    cost: int  #: what the best path after them costs, over the first window


class Totals(NamedTuple):
    """What all octets came to."""

    bits: int  #: how many bits were received
    slips: int  #: before how many windows octets were dropped; 0 where the phase is not followed


class Window(NamedTuple):
    """What is counted of a window of the soft decoder: of the octets of the steps that it keeps, beside the symbols of
    its best path."""

    symbol: int  #: the number of its first step's first symbol among all octets that were given
    dropped: int  #: how many octets were dropped before it
    steps: int  #: how many steps it has
    kept: int  #: how many of them it keeps, an information bit each
    metric: int  #: what its best path costs, over all steps
    octets: int  #: how many octets the kept steps have
    wrong: int  #: how many of them are nearer to the other symbol
    distance: int  #: the sum of their distances from the symbols, 0 to 255 each
    squares: int  #: the sum of the squares of these

    @property
    def quality(self) -> Quality:
        """How good its symbols were. Of several windows together tmchan.quality says it."""
        return quality([self])


def _counted(stream: Any) -> list[Window]:
    return [tuple.__new__(Window, it) for it in library.WINDOW.iter_unpack(stream.windows)]


class Received(Sequence):
    """What came out of a piece: a sequence of Item, each made when it is asked for.

    `frames` has the frames that there are, one after the other, as bytes: all are of the link's frame length. What is
    done with frames alone needs no items, and is faster so."""

    def __init__(self, frames: bytes = b"", reports: bytes = b"") -> None:
        self.frames = frames
        self._reports = reports

    def __len__(self) -> int:
        return len(self._reports) // library.REPORT.size

    def __iter__(self) -> Iterator[Item]:
        # (what NamedTuple's own call does besides takes as long as all the rest)
        at, frames, make = 0, self.frames, tuple.__new__
        reports = library.REPORT.iter_unpack(self._reports)
        for place, symbol, _frame, length, distance, bridged, inverted, columns, bad, repaired in reports:
            counts = tuple(repaired[:columns])
            frame: Optional[bytes] = frames[at : at + length] if length else None
            at += length
            if bad:
                counts = tuple(None if count == 255 else count for count in counts)
            yield make(Item, (place, frame, distance, bridged == 1, inverted == 1, counts, symbol))

    def __add__(self, other: "Received") -> "Received":
        return Received(self.frames + other.frames, self._reports + other._reports)

    @overload
    def __getitem__(self, index: int) -> Item:
        ...

    @overload
    def __getitem__(self, index: slice) -> list[Item]:
        ...

    def __getitem__(self, index):
        return list(self)[index]

    @property
    def table(self):
        """The reports as a structured array of numpy, with the fields of the header's tmchan_report: place, symbol,
        frame (where it begins among the frames of its push), frame_length (0: it has no frame), distance, bridged,
        inverted, columns, bad (1: a column is uncorrectable), repaired (255: uncorrectable)."""
        import numpy

        return numpy.frombuffer(self._reports, numpy.dtype(library.REPORT_FIELDS, align=True))


def buffers(data: Union[Buffer, Iterable[Buffer]]) -> Iterable[Buffer]:
    """One buffer as a list of it, and an iterable of buffers as it is."""
    try:
        memoryview(data)
    except TypeError:
        if isinstance(data, str) or not hasattr(data, "__iter__"):
            raise TypeError(
                f"a buffer is wanted, or an iterable of buffers, and this is {type(data).__name__}"
            ) from None
        return data
    return [data]


def pieces(octets: bytes) -> Iterator[bytes]:
    if len(octets) <= PIECE:
        return iter([octets] if octets else [])
    view = memoryview(octets)
    return (bytes(view[at : at + PIECE]) for at in range(0, len(octets), PIECE))


class _Stream:
    """What the streams of a link have in common. As a context it is closed at the end."""

    def __init__(self, stream: Any) -> None:
        self._stream = stream

    def __enter__(self):
        return self

    def __exit__(self, *_: object) -> None:
        self.close()

    @property
    def is_open(self) -> bool:
        return self._stream.is_open

    def close(self) -> None:
        """Gives the memory back, and drops what was not given out yet."""
        self._stream.close()


class Sender(_Stream):
    """Takes the octets of transfer frames in pieces of any length, and gives the symbols of each frame's CADU once it
    is whole: with an inner code an octet for each symbol, 00 and FF (or 80 and 7F with soft="i8"), and else the octets
    of the CADU, or with pack="off" such an octet for each of its bits. CCSDS 131.0-B, "Frame synchronization".

    Raises Closed after finish() or close()."""

    def push(self, octets: Buffer) -> bytes:
        """The symbols of the frames that are whole with these octets."""
        return b"".join(map(self._stream.push, pieces(memoryview(octets).tobytes())))

    def finish(self) -> int:
        """Closes the sender. Returns how many octets follow the last whole frame; they were not sent."""
        return self._stream.finish()


class Decoder(_Stream):
    """The soft decoder of the convolutional code alone: takes samples in pieces of any length, and gives the decoded
    bits, an octet of 0 or 1 for each. They come a window at a time. Without an inner code there are none.
    CCSDS 131.0-B, "Convolutional coding".

    `phase` is None until it is chosen, or where it is given. `windows` are those that the last push, or the finish,
    has decoded: none unless windows=True was asked for. Raises Closed after finish() or close()."""

    def __init__(self, stream: Any, octets: Octets) -> None:
        super().__init__(stream)
        self._octets, self._phase, self.windows = octets, None, []  # type: ignore[var-annotated]

    def push(self, samples: Buffer) -> bytes:
        """The bits that are decided with these samples (docs/PYTHON.md, "Samples")."""
        return b"".join(self._bits(self._octets.push(samples)))

    def _bits(self, octets: bytes) -> list[bytes]:
        self.windows, found = [], []
        for piece in pieces(octets):
            found.append(self._stream.push(piece))
            self.windows += _counted(self._stream)
        return found

    def finish(self) -> bytes:
        """Closes the decoder. Returns the bits that are left."""
        bits = self._bits(self._octets.finish())
        last, self._phase = self._stream.finish()
        self.windows += _counted(self._stream)
        return b"".join([*bits, last])

    @property
    def phase(self) -> Optional[Phase]:
        return _phase(self._stream.phase() if self.is_open else self._phase)


def _phase(fields: Any) -> Optional[Phase]:
    return Phase(fields.skip, fields.cost) if fields is not None and fields.is_chosen else None


class Receiver(_Stream):
    """Takes samples in pieces of any length, and gives the codeblocks that are found: whole batches, of as many as
    `batch` says, and what is left at the finish. CCSDS 131.0-B, "Frame synchronization", "Reed-Solomon coding".

    `totals` is None until the finish, `phase` until it is chosen. `windows` are those of the soft decoder that the last
    push, or the finish, has decoded: none unless windows=True was asked for. Raises Closed after finish() or
    close()."""

    def __init__(self, stream: Any, octets: Octets) -> None:
        super().__init__(stream)
        self._octets, self._phase, self.totals = octets, None, None  # type: ignore[var-annotated]
        self.windows: list[Window] = []

    def push(self, samples: Buffer) -> Received:
        """The codeblocks that are handed over with these samples (docs/PYTHON.md, "Samples")."""
        return self._received(self._octets.push(samples))

    def _received(self, octets: bytes) -> Received:
        self.windows, found = [], []
        for piece in pieces(octets):
            found.append(self._stream.push(piece))
            self.windows += _counted(self._stream)
        return Received(*found[0]) if len(found) == 1 else Received(*(b"".join(it) for it in zip(*found)))

    def finish(self) -> Received:
        """Closes the receiver. Returns the codeblocks that are left."""
        found = self._received(self._octets.finish())
        frames, reports, totals, self._phase = self._stream.finish()
        self.windows += _counted(self._stream)
        self.totals = Totals(totals.bits, totals.slips)
        return found + Received(frames, reports)

    @property
    def phase(self) -> Optional[Phase]:
        return _phase(self._stream.phase() if self.is_open else self._phase)

    @property
    def slips(self) -> int:
        """Before how many windows octets were dropped so far; 0 where the phase is not followed."""
        if self.totals is not None:
            return self.totals.slips
        return self._stream.slips()


def words_of(options: dict[str, Any], usual: dict[str, Any]) -> list[str]:
    """The words of the options that differ from the usual ones."""
    found = []
    for name, value in options.items():
        value = {True: "on", False: "off"}[value] if isinstance(value, bool) else value
        if value != usual[name]:
            found += [f"--{name}", str(value)]
    return found


class Link:
    """The options of a link: those of the command line (docs/OPTIONS.md), with its names, words and defaults.

    A value that is outside raises Refused, a ValueError with the reason's name, in the order in which the program
    tests; a number that is none raises TypeError. on and off may be True and False. None stands for the default of
    length, invert and repair. A link is never changed, and threads may share one."""

    def __init__(
        self,
        *,
        code: str = "rs16",
        depth: int = 1,
        length: Optional[int] = None,
        inner: str = "1/2",
        invert: Optional[Switch] = None,
        randomize: Switch = "on",
        basis: str = "dual",
        tolerance: int = 0,
        repair: Optional[int] = None,
        soft: str = "u8",
        start: str = "zero",
        skip: int = 0,
        fly: int = 0,
        keep: int = 8192,
        ahead: int = 256,
        phase: str = "given",
        polarity: str = "given",
        batch: int = 32,
        pack: Switch = "on",
        verify: int = 0,
        rescan: Switch = "off",
        bad: str = "drop",
    ) -> None:
        given = dict(
            code=code,
            depth=depth,
            length=length,
            inner=inner,
            invert=invert,
            randomize=randomize,
            basis=basis,
            tolerance=tolerance,
            repair=repair,
            soft=soft,
            start=start,
            skip=skip,
            fly=fly,
            keep=keep,
            ahead=ahead,
            phase=phase,
            polarity=polarity,
            batch=batch,
            pack=pack,
            verify=verify,
            rescan=rescan,
            bad=bad,
        )
        self._config = library.configuration({name: value for name, value in given.items() if value is not None})
        #: the options that were given, or have a default, by name; None where the library chooses it
        self.options = given
        #: the octets of a transfer frame
        self.frame_length: int = library.frame_length(self._config)

    @classmethod
    def recording(cls, **options: Any) -> "Link":
        """A link with the settings for a recording, which begins anywhere, has noise before it and may slip or be
        inverted: tolerance 3, fly 1, start any, phase follow, polarity find, rescan on, and at rate 1/2 keep 128 and
        ahead 64. What is given besides comes first."""
        return cls(**{**recording(options.get("inner", DEFAULTS["inner"])), **options})

    def __repr__(self) -> str:
        return (
            f"Link({', '.join(f'{name}={value!r}' for name, value in self.options.items() if value != DEFAULTS[name])})"
        )

    def words(self) -> list[str]:
        """The words of the command line that say the same: those that differ from the defaults."""
        return words_of(self.options, DEFAULTS)

    @property
    def _is_packed(self) -> bool:
        return self.options["inner"] == "none" and self.options["pack"] in ("on", True)

    def _octets(self, scale: Union[None, float, str]) -> Octets:
        return Octets(self.options["soft"], self._is_packed, scale)

    def sender(self) -> Sender:
        """Opens a sender. Raises MemoryError."""
        return Sender(library.SenderStream(self._config))

    def decoder(self, scale: Union[None, float, str] = None, windows: bool = False) -> Decoder:
        """Opens a soft decoder. `scale` is what signed samples are multiplied by, or "mean"; with `windows` its windows
        are counted, which takes time. Raises MemoryError."""
        return Decoder(library.DecoderStream(self._config, windows), self._octets(scale))

    def receiver(self, scale: Union[None, float, str] = None, windows: bool = False) -> Receiver:
        """Opens a receiver. `scale` is what signed samples are multiplied by, or "mean"; with `windows` those of its
        soft decoder are counted, which takes time. Raises MemoryError."""
        return Receiver(library.ReceiverStream(self._config, PIECE, windows), self._octets(scale))

    def receive(self, chunks: Union[Buffer, Iterable[Buffer]], scale: Union[None, float, str] = None) -> Iterator[Item]:
        """The codeblocks that are found in the samples of a buffer, or of one buffer after another, in constant
        memory."""
        with self.receiver(scale) as receiver:
            for chunk in buffers(chunks):
                yield from receiver.push(chunk)
            yield from receiver.finish()

    def decode(self, chunks: Union[Buffer, Iterable[Buffer]], scale: Union[None, float, str] = None) -> bytes:
        """The decoded bits of all samples, an octet of 0 or 1 for each."""
        with self.decoder(scale) as decoder:
            return b"".join([*map(decoder.push, buffers(chunks)), decoder.finish()])

    def send(self, frames: Union[Buffer, Iterable[Buffer]]) -> bytes:
        """The symbols of all frames, which stand one after the other in a buffer, or in one after another. Raises
        ValueError where octets follow the last whole frame."""
        with self.sender() as sender:
            symbols = b"".join(map(sender.push, buffers(frames)))
            left = sender.finish()
        if left:
            raise ValueError(f"the frames have {self.frame_length} octets, and {left} are left over")
        return symbols

    def cadu(self, frame: Buffer) -> bytes:
        """The channel access data unit of a frame: the attached sync marker and the codeblock. Raises Refused (length)
        where it has not the frame length."""
        octets = memoryview(frame).tobytes()
        if len(octets) != self.frame_length:
            raise library.Refused(-18)
        return library.cadu(self._config, octets)


DEFAULTS = dict(Link.__init__.__kwdefaults__)  # type: ignore[arg-type]
recording = library.recording
