"""Looks for the form and the options of a recording."""
from __future__ import annotations

import collections
import math
import random
import struct
from typing import Any, Callable, Iterator, NamedTuple, Optional, Union

from . import library
from .link import DEFAULTS, Item, Link, buffers, words_of
from .outside import BITS, HARD, Differential
from .reception import Reception
from .recordings import FORMS, Symbols
from .samples import numpy, view_of

# How many symbols tell the inner code. They are one window of the soft decoder.
SAMPLE = 40_000
# Above this share of what drawn symbols cost there is no code.
NO_CODE = 0.75
# Fewer codeblocks say too little.
FEW = 2
# How many inner codes of a place are looked at further, those that fit best.
MOST = 4
# At how many places a code may be seen that leads no further.
PLACES = 3
# The share of wrong bits behind the soft decoder with which a Reed-Solomon code may fail; below, it would not.
NOISY = 0.005
# A form for each letter of a buffer's elements.
TYPED = {"b": "i8", "h": "i16", "f": "f32", "d": "f64"}
# What may be known of a link.
LINK = ("code", "depth", "length", "inner", "invert", "randomize", "basis")
# The receiver with which a part is looked at.
LOOKING = dict(tolerance=2, fly=1, start="any", phase="follow", polarity="find")
# Steps of the decoder's window, by default.
WINDOW = 8192 + 256
# Symbols of a period of each rate's puncture pattern.
PERIODS = {"1/2": 2, "2/3": 3, "3/4": 4, "5/6": 6, "7/8": 8}
DEPTHS = (1, 2, 3, 4, 5, 8)

WEIGHTS = bytes(abs(2 * octet - 255) for octet in range(256))
LEAST = bytes(min(octet, 255 - octet) for octet in range(256))


class Found(NamedTuple):
    """What a recording seems to be.

    `link` has the options with which it is received, and is None where none were found; then `reason` says how far it
    came. `good` and `bad` count the codeblocks of the part that was looked at. Without an outer code nothing bears the
    options out: see whether the frames make sense."""

    link: Optional[Link]
    form: str = ""  #: a word of tmchan.recordings.FORMS
    swap: bool = False  #: the two symbols of each pair stand in the other order
    nrz_m: bool = False  #: the bits are differentially encoded before the inner code
    place: int = 0  #: at which symbol the part begins in which the link was found
    good: int = 0
    bad: int = 0
    reason: str = ""
    given: tuple[str, ...] = ()  #: the options of the receiver that the user gave

    @property
    def is_coded(self) -> bool:
        """Whether there is an outer code."""
        return self.link is not None and self.link.options["code"] != "none"

    def receiver(self, scale: Union[None, float, str] = "mean", windows: bool = False) -> Reception:
        """A receiver of the recording: octets as they stand in its file, or arrays, go in, and codeblocks come out.
        With `windows` those of its soft decoder are counted."""
        if self.link is None:
            raise ValueError(self.reason)
        scale = scale if FORMS[self.form].size > 1 else None
        return Reception(self.link, self.form, self.swap, self.nrz_m, scale, windows)

    def receive(self, chunks: Any, scale: Union[None, float, str] = "mean") -> Iterator[Item]:
        """The codeblocks of the recording, in a buffer, or in one after another."""
        with self.receiver(scale) as receiver:
            for chunk in buffers(chunks):
                yield from receiver.push(chunk)
            yield from receiver.finish()

    def words(self) -> list[str]:
        """The words for tmchan-receive: the form and the options, without those that it takes by itself."""
        if self.link is None:
            return []
        words = ["--input", self.form] + ["--swap"] * self.swap + ["--nrz-m"] * self.nrz_m
        options, usual = self.link.options, {**DEFAULTS, **library.recording(self.link.options["inner"])}
        # (an option of the link has tmchan-receive look for nothing)
        link = words_of({name: options[name] for name in LINK}, DEFAULTS) or ["--code", "rs16"]
        by_itself = {*LINK, *library.RECORDED, "pack"} - {*self.given}
        return words + link + words_of({name: it for name, it in options.items() if name not in by_itself}, usual)


class _Form(NamedTuple):
    name: str
    swap: bool

    def __str__(self) -> str:
        return self.name + ", pairs swapped" * self.swap


class _Inner(NamedTuple):
    form: _Form
    inner: str
    invert: str
    cost: float = 0.0
    drawn: float = 1.0

    def __str__(self) -> str:
        return f"{self.form}, " + (
            "no inner code" if self.inner == "none" else f"--inner {self.inner} --invert {self.invert}"
        )


class _Recording:
    """A recording as it is looked at: symbols of any part of it, in any form."""

    def __init__(self, samples: Any, start: int) -> None:
        view, self.letter = view_of(samples)
        self._view = view if view.ndim == 1 else view.cast("B").cast(view.format)
        self._samples, self._start = samples, start

    def octets(self, first: int, count: int) -> bytes:
        return bytes(self._view[self._start + first : self._start + first + count])

    def count(self, form: str) -> int:
        """How many symbols there are."""
        each = len(FORMS[form].table[0]) if FORMS[form].table else 1  # type: ignore[index]
        elements = max(0, len(self._view) - self._start)
        return elements * each if self.letter != "B" else elements // FORMS[form].size * each

    def symbols(self, form: _Form, first: int, count: int) -> bytes:
        """`count` soft octets from symbol `first` on, or those that there are; `first` is a multiple of 16."""
        kind = FORMS[form.name]
        turn = Symbols(form.name, "mean" if kind.size > 1 else None, form.swap)
        if self.letter != "B":
            part = self._view[self._start + first : self._start + first + count]
        else:
            each = len(kind.table[0]) if kind.table else 1
            part = self.octets(first // each * kind.size, -(-count // each) * kind.size)
        return turn.push(part) + turn.finish()


def _places(recording: _Recording, form: _Form) -> int:
    """At how many places, of those of _along, all of a recording is looked at in this form."""
    return 1 + -(-2 * max(0, recording.count(form.name) - SAMPLE) // SAMPLE)


def _plain_floats(octets: bytes, letter: str, size: int) -> bool:
    values = [it[0] for it in struct.iter_unpack("<" + letter, octets[: len(octets) // size * size]) if it[0]]
    plain = sum(1e-9 < abs(it) < 1e9 for it in values)
    return len(values) >= 100 and plain > 0.95 * len(values)


def _forms(recording: _Recording, form: Optional[str], places: list[float], say: Callable[[str], None]) -> list[_Form]:
    """The forms that the octets may have, and says which those are."""
    if recording.letter != "B":
        names = [TYPED[recording.letter]]
    elif form:
        names = [form]
    else:
        size = recording.count("u8")
        parts = [recording.octets(int(it * max(0, size - SAMPLE)) // 8 * 8, SAMPLE) for it in places[:8]]
        if any(_plain_floats(it, "f", 4) for it in parts):
            names = ["f32"]
        elif any(_plain_floats(it, "d", 8) for it in parts):
            names = ["f64"]
        elif set(b"".join(parts)) <= {0, 1}:
            names = ["unpacked"]
        else:
            names = ["u8", "i8", "packed", "packed-lsb"] + ["i16"] * (numpy is not None)
    say("form: " + (f"{names[0]} ({FORMS[names[0]].text})" if len(names) == 1 else f"one of {', '.join(names)}"))
    return [_Form(name, swap) for name in names for swap in (False, True)]


def _share(symbols: bytes, rate: str, invert: str) -> tuple[float, int]:
    """The share of all symbols' weight that lies on the wrong side of the best path of the code, and at which symbol
    that begins."""
    period = PERIODS[rate]
    used = (len(symbols) - (period - 1)) // period * period
    if used <= 0:
        return 1.0, 0
    with Link(inner=rate, invert=invert, keep=65536, ahead=0, start="any", phase="find").decoder() as decoder:
        decoder.push(symbols[: used + period - 1])
        decoder.finish()
        phase = decoder.phase
    assert phase is not None
    path = symbols[phase.skip : phase.skip + used]
    weight = sum(path.translate(WEIGHTS))
    return (phase.cost - sum(path.translate(LEAST))) / weight if weight else 1.0, phase.skip


def _inner_codes(recording: _Recording, forms: list[_Form], place: float, given: dict[str, Any]) -> list[_Inner]:
    """Tries each inner code on each form, at a place. The best ones come first."""
    tried = []
    for form in forms:
        size = recording.count(form.name)
        first = int(place * max(0, size - SAMPLE)) // 16 * 16
        symbols = recording.symbols(form, first, SAMPLE)
        order = bytearray(symbols)
        random.Random(1).shuffle(order)
        for rate in PERIODS:
            if given.get("inner", rate) != rate or (form.swap and rate != "1/2"):
                continue
            drawn: Optional[float] = None
            for invert in ("on", "off"):
                if _word(given.get("invert", invert)) != invert:
                    continue
                cost = _share(symbols, rate, invert)[0]
                # To invert each second sum changes nothing where there is no code, unless symbols of one kind are more,
                # as of a carrier alone.
                if drawn is None or cost < NO_CODE * drawn:
                    drawn = _share(bytes(order), rate, invert)[0]
                # (symbols that are all the same are a codeword in any order)
                tried.append(_Inner(form, rate, invert, cost or 1e-9, drawn or 1e-9))
    return sorted(tried, key=lambda it: (it.cost / it.drawn, it.cost))


def _word(value: Any) -> Any:
    return {True: "on", False: "off"}[value] if isinstance(value, bool) else value


def _bits(symbols: bytes, way: _Inner, phase: str = "follow") -> bytes:
    """The bits of symbols, an octet of 0 or 255 for each."""
    if way.inner == "none":
        return symbols.translate(HARD).translate(BITS)
    return Link(inner=way.inner, invert=way.invert, start="any", phase=phase).decode(symbols).translate(BITS)


def _codeblock(bits: bytes) -> tuple[int, int, int, int]:
    """The codeblock's octets, by the distance of which most distances of markers are multiples, since some markers are
    missed; how many these are; how many markers there are; and how many of those are inverted."""
    best = (0, 0, 0, 0)
    for tolerance in (0, 3):
        link = Link(code="none", length=1, inner="none", pack="off", tolerance=tolerance, polarity="find")
        found = list(link.receive(bits))
        apart = collections.Counter(b.place - a.place for a, b in zip(found, found[1:]))
        for size, _ in apart.most_common(8):
            number = sum(it for distance, it in apart.items() if distance % size == 0)
            if number > best[1] and size % 8 == 0 and size >= 40:
                best = (size // 8 - 4, number, len(found), sum(it.inverted for it in found))
    return best


def _entropy(octets: bytes) -> float:
    """The bits of entropy an octet, by how often each octet stands there: about 8 where they look random."""
    return -sum(it / len(octets) * math.log2(it / len(octets)) for it in collections.Counter(octets).values())


def _outer_codes(octets: int, given: dict[str, Any]) -> tuple[list[dict[str, Any]], list[dict[str, Any]]]:
    """The options of each Reed-Solomon code whose codeblock has that many octets, and then those of none."""
    coded = [
        dict(code=code, depth=depth, length=octets - checks * depth, basis=basis, randomize=randomize)
        for code, checks in (("rs16", 32), ("rs8", 16))
        for depth in DEPTHS
        if octets % depth == 0 and checks < octets // depth <= 255
        for basis in ("dual", "poly")
        for randomize in ("on", "off")
    ]
    uncoded = [dict(code="none", depth=1, length=octets, randomize=it) for it in ("on", "off") if octets <= 2040]

    def fitting(options):
        return [it for it in options if all(_word(given[name]) == it.get(name, _word(given[name])) for name in given)]

    return fitting(coded), fitting(uncoded)


def _wrong_bits(bits: bytes, octets: int) -> float:
    """The share of wrong bits behind the inner code, by markers and by the places where they should stand."""
    link = Link(code="none", length=min(octets, 2040), inner="none", pack="off", tolerance=3, fly=3, polarity="find")
    found = list(link.receive(bits))
    # (at a place that no longer holds a marker is not noisy, but missing: some sixteen of its bits differ)
    near = [it.distance for it in found if it.distance <= 8]
    return sum(near) / (32 * len(near)) if near else 1.0


class _Reason(NamedTuple):
    """Why nothing was found in one way: the higher its rank, the further it came."""

    rank: int
    text: str


TOO_NOISY = 3
NOTHING = "no inner code is seen, and no sync markers stand at even distances"


class _Row(NamedTuple):
    good: int
    bad: int
    entropy: float
    options: dict[str, Any]


def _rows(
    bits: bytes, codes: list[dict[str, Any]], receiving: dict[str, Any], say: Callable[[str], None]
) -> list[_Row]:
    rows = []
    for options in codes:
        link = Link(**options, **{**receiving, "inner": "none", "pack": "off"})
        found = list(link.receive(bits))
        frames = b"".join(it.frame for it in found if it.frame is not None)
        good = sum(it.good for it in found)
        if good >= FEW:
            rows.append(_Row(good, len(found) - good, _entropy(frames), options))
            say(
                f"  {good:5} {len(found) - good:5} {sum(it.fixed for it in found):6} {rows[-1].entropy:5.1f}  "
                + " ".join(link_words(options))
            )
    return rows


def link_words(options: dict[str, Any]) -> list[str]:
    return [word for name, value in options.items() for word in (f"--{name}", str(value))]


def _along() -> Iterator[float]:
    """Places along a recording, from 0 to 1: its head, its end, and then what lies between, ever closer."""
    yield from (0.0, 1.0)
    for number in range(1, 2**20):
        place, part = 0.0, 0.5
        while number:
            place, number, part = place + part * (number & 1), number >> 1, part / 2
        yield place


def find(
    samples: Any,
    *,
    form: Optional[str] = None,
    start: int = 0,
    symbols: int = 2_000_000,
    places: int = 32,
    say: Callable[[str], None] = lambda line: None,
    progress: Callable[[int, int], None] = lambda done, most: None,
    **given: Any,
) -> Found:
    """Looks for the form, the inner code, the codeblock and the outer code of a recording.

    `samples` is a buffer: octets as they stand in a file, or an array of int8, int16, float32 or float64. `form` is a
    word of tmchan.recordings.FORMS where it is known, and what is known of the link's options may be given by their
    names. It looks at the head, from element `start` on, and then at up to `places` places along the whole, each of
    40,000 symbols; and where a code is seen, or where there may be none, at up to `symbols` symbols. `say` is called
    with a line of text for each thing that was tried, and `progress` before each place, with how many were looked at
    and how many there are at most.

    It tries the forms, the five rates, both inversions, either order of a pair, NRZ-M behind the inner code, every
    depth and length of both Reed-Solomon codes, both bases, and the randomizer. Raises TypeError where samples are no
    buffer, and Refused where an option that is given is outside."""
    unknown = set(given) - set(LINK)
    if unknown:
        raise TypeError(f"find takes no option {', '.join(sorted(unknown))}")
    Link(**given)
    recording = _Recording(samples, start)
    along = [place for place, _ in zip(_along(), range(max(1, places)))]
    forms = _forms(recording, form, along, say)
    if recording.count(forms[0].name) < 1000:
        return Found(None, reason="there are fewer than 1000 symbols to look at")
    along = along[: max(_places(recording, it) for it in forms)]
    reason = _Reason(0, NOTHING)
    # How often a code was seen and led no further. (A look without an inner code is at fewer places, since it takes
    # more symbols.)
    seen = 0
    for number, place in enumerate(along):
        progress(number, len(along))
        here = [it for it in forms if number < _places(recording, it)]
        tried = _inner_codes(recording, here, place, given) if given.get("inner") != "none" else []
        fitting = [it for it in tried if it.cost < NO_CODE * it.drawn][:MOST]
        if fitting or number == 0:
            say(
                f"\nat {100 * place:.0f} % of the recording: share of the weight on the wrong side of the best path; "
                "and in a drawn order"
            )
            for it in tried[:6]:
                say(f"  {100 * it.cost:6.2f} %  {100 * it.drawn:6.2f} %  {it}")
        ways = fitting
        if not fitting and number < 8 and given.get("inner", "none") == "none":
            ways = [_Inner(it, "none", "off") for it in here if not it.swap]
        best = None
        for way in ways:
            found = _way(recording, way, place, symbols, given, say if fitting or number == 0 else lambda line: None)
            if isinstance(found, _Reason):
                reason = found if found.rank > reason.rank else reason
                continue
            if best is None or found.good > best.good:
                best = found
            if found.is_coded:
                break
        # (where a code is too noisy in one way, it is not absent in another)
        if best is not None and (best.is_coded or reason.rank < TOO_NOISY):
            return best
        seen += bool(fitting)
        # (what was looked at is all there is)
        is_all = ways and max(recording.count(it.form.name) for it in ways) <= symbols
        if seen == PLACES or (is_all and (fitting or reason.rank == TOO_NOISY)):
            break
    return Found(None, reason=reason.text)


def _way(
    recording: _Recording, way: _Inner, place: float, count: int, given: dict[str, Any], say: Callable[[str], None]
) -> Union[Found, _Reason]:
    """What a part of the recording is, decoded in one way: from a place on, and where the recording ends before, of
    what stands before it."""
    size = recording.count(way.form.name)
    first = max(0, min(int(place * max(0, size - SAMPLE)), size - count)) // 16 * 16
    symbols = recording.symbols(way.form, first, count)
    bits = _bits(symbols, way)
    octets, number, markers, inverted = _codeblock(bits)
    nrz_m = False
    if number < FEW:
        changed = Differential().push(bits)
        again = _codeblock(changed)
        if again[1] >= FEW:
            (octets, number, markers, inverted), bits, nrz_m = again, changed, True
    say(
        f"\n{way}{', NRZ-M' * nrz_m}: "
        + (
            f"{markers} sync markers, {number} times {octets} octets of codeblock between two"
            if markers
            else "no two sync markers"
        )
    )
    if number < FEW:
        rank = int(way.inner != "none")
        return _Reason(rank, f"there is a code ({way}), and no sync markers stand at even distances")
    receiving = {**LOOKING, "inner": way.inner}
    if way.inner == "none":
        receiving.update(start="zero", phase="given", pack="off")
    else:
        # (what the rate has by itself is not said)
        receiving.update({} if (way.invert == "on") == (way.inner == "1/2") else {"invert": way.invert})
        receiving["phase"] = "follow" if _needs_follow(recording, way) else "find"
    if not inverted:
        receiving["polarity"] = "find" if _is_inverted_later(recording, way, octets, nrz_m) else "given"
    coded, uncoded = _outer_codes(octets, given)
    say("   good   bad  fixed  bits of entropy an octet")
    rows = _rows(bits, coded, {**receiving, "start": "zero", "phase": "given"}, say)
    if not rows:
        say("  no Reed-Solomon code fits")
        wrong = _wrong_bits(bits, octets)
        if coded and wrong > NOISY:
            codes = sorted({f"{it['code']} at depth {it['depth']}" for it in coded})
            return _Reason(
                TOO_NOISY,
                f"it is too noisy for its code: codeblocks have {octets} octets, as of {' or '.join(codes)}, and "
                f"{100 * wrong:.1f} % of the bits{' behind the inner code' * (way.inner != 'none')} are wrong",
            )
        rows = _rows(bits, uncoded, {**receiving, "start": "zero", "phase": "given"}, say)
    if not rows:
        return _Reason(2, f"codeblocks have {octets} octets, and no code fits")
    # Each codeword of rs16 is one of rs8 too: of codes with as many good codeblocks the first is taken. Where the
    # randomizer fits both on and off, as it can with codewords that are not shortened, the frames tell.
    most = max(it.good for it in rows)
    one = next(it for it in rows if it.good == most)
    best = min(
        (it for it in rows if it.good == most and it.options["code"] == one.options["code"]),
        key=lambda it: round(it.entropy, 1),
    )
    options = {**receiving, **best.options}
    if options["phase"] == "find" and not nrz_m:
        # (there may be slips between two of the places that were looked at)
        good = [
            sum(it.good for it in Link(**{**options, "phase": phase}).receive(symbols)) for phase in ("find", "follow")
        ]
        options["phase"] = "follow" if good[1] > good[0] else "find"
    if Link(**{**options, "length": None}).frame_length == options["length"]:
        del options["length"]
    return Found(Link(**options), way.form.name, way.form.swap, nrz_m, first, best.good, best.bad)


def _looks(recording: _Recording, way: _Inner) -> Iterator[tuple[int, bytes]]:
    """Parts of the whole recording, from its head to its end."""
    size = recording.count(way.form.name)
    for number in range(9):
        first = number * max(0, size - SAMPLE) // 8 // 16 * 16
        yield first, recording.symbols(way.form, first, SAMPLE)


def _needs_follow(recording: _Recording, way: _Inner) -> bool:
    """Whether the symbol phase can't be chosen once, on the head: since the code is not seen there, or since the phase
    is another later on."""
    phases, period = set(), PERIODS[way.inner]
    for first, symbols in _looks(recording, way):
        if first == 0:
            # (the program chooses it on its first window, which may have noise alone)
            symbols = symbols[: WINDOW * period // (period - 1)]
        cost, skip = _share(symbols, way.inner, way.invert)
        if cost < NO_CODE * way.drawn:
            phases.add((first + skip) % period)
        elif first == 0:
            return True
    return len(phases) > 1


def _is_inverted_later(recording: _Recording, way: _Inner, octets: int, nrz_m: bool) -> bool:
    """Whether inverted markers stand somewhere along the recording."""
    link = Link(code="none", length=min(octets, 2040), inner="none", pack="off", polarity="find")
    return not nrz_m and any(
        it.inverted for _, symbols in _looks(recording, way) for it in link.receive(_bits(symbols, way))
    )
