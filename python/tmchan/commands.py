"""The commands: tmchan-receive, tmchan-send and tmchan-find, or python3 -m tmchan receive, send and find."""
from __future__ import annotations

import argparse
import contextlib
import importlib.util
import json
import math
import mmap
import os
import select
import shlex
import sys
from typing import Any, BinaryIO, Iterator, Optional

from . import library
from .link import DEFAULTS, PIECE, Link, Received, Window, recording
from .outside import COUNTERS, Counters, frame_check, kiss
from .page import Pass, empty_page, page
from .reception import Reception
from .recordings import FORMS, wave_header
from .search import LINK, NOTHING, Found, find

# The version of the lines that --json writes.
JSON = 1
# How many octets of a pipe are looked at for its options, before any of them is received.
HEAD = 4_000_000
HELP = {
    "code": "the outer code: rs16 (255,223), rs8 (255,239) or none",
    "depth": "the interleaving depth: 1, 2, 3, 4, 5 or 8",
    "length": "the octets of a transfer frame",
    "inner": "the convolutional code: 1/2, 2/3, 3/4, 5/6, 7/8 or none",
    "invert": "whether each second sum of it is inverted: on or off",
    "randomize": "the pseudo-randomizer: on or off",
    "basis": "the basis of the outer code's symbols: dual or poly",
    "tolerance": "how many of a marker's bits may be wrong, 0 to 8",
    "repair": "the most wrong symbols of a codeword that are repaired",
    "start": "the decoder's first register: zero or any",
    "fly": "how many markers in a row may be missing, 0 to 15",
    "keep": "steps of a decoder's window that are kept",
    "ahead": "steps after these",
    "phase": "the symbol phase: given, find or follow",
    "polarity": "the polarity: given or find",
    "batch": "how many codeblocks are handed over at once, 1 to 4096",
    "verify": "how many further markers must match, 0 to 7",
    "rescan": "markers are looked for inside codeblocks too: on or off",
    "skip": "how many symbols are dropped first, 0 to 15",
    "soft": "the octets of a symbol: u8 or i8",
    "pack": "without an inner code, whether eight bits make an octet: on or off",
}


class Usage(Exception):
    """The words are refused: status 2."""


class Fault(Exception):
    """Reading or writing failed: status 3 or 4."""

    def __init__(self, status: int, text: str) -> None:
        super().__init__(text)
        self.status = status


def say(*lines: str) -> None:
    # (a standard error that is closed is None, for which print takes standard output)
    if sys.stderr is not None:
        print(*lines, sep="\n", file=sys.stderr)


def tell(*lines: str) -> None:
    """Writes lines of text to standard output."""
    text = "".join(f"{line}\n" for line in lines)
    output = Output("-")
    output.write(text.encode(standard_output().encoding, standard_output().errors))
    output.close()


@contextlib.contextmanager
def faults(name: str) -> Iterator[None]:
    """Where writing fails, the fault with its sentence."""
    try:
        yield
    except OSError as error:
        raise Fault(4, f"{name} can't be written: {error.strerror}") from error


def standard_output() -> Any:
    if sys.stdout is None:
        raise Fault(4, "standard output is closed")
    return sys.stdout


def is_terminal(stream: Any) -> bool:
    return stream is not None and stream.isatty()


def is_recording(name: Optional[str], files: list[str]) -> bool:
    """Whether a file that would be written is one of those that are read."""
    if name is None or not os.path.isfile(name):
        return False
    for it in files:
        with contextlib.suppress(OSError):
            if os.path.samestat(os.stat(name), os.fstat(0) if it == "-" else os.stat(it)):
                return True
    return False


class Version(argparse.Action):
    def __init__(self, option_strings: Any, dest: str) -> None:
        super().__init__(option_strings, dest, nargs=0, help="show the version and exit")

    def __call__(self, parser: Any, *_: Any) -> None:
        tell(f"{parser.prog} {library.version()}")
        parser.exit()


def options_of(parser: argparse.ArgumentParser, names: tuple[str, ...], title: str, about: str) -> None:
    group = parser.add_argument_group(title, about)
    for name in names:
        kind = str if library.OPTIONS[name] is not None else int
        words = library.OPTIONS[name]
        group.add_argument(
            f"--{name}",
            type=kind,
            metavar="|".join(words) if words and len(words) < 4 else "N" if kind is int else "WORD",
            help=HELP[name],
        )


def given_of(arguments: argparse.Namespace, names: Any) -> dict[str, Any]:
    return {name: getattr(arguments, name) for name in names if getattr(arguments, name, None) is not None}


# What is read


class Source:
    """A recording: its octets from where its samples begin, in pieces. Of a file the octets are mapped into memory."""

    def __init__(self, name: str, start: int) -> None:
        self.name = "standard input" if name == "-" else name
        self.form, self.channels, self._left = "", 1, 2**63
        self._map: Any = None
        try:
            # (without a buffer, so that a pipe gives what there is)
            self._file: BinaryIO = open(0 if name == "-" else name, "rb", buffering=0, closefd=name != "-")
            self.is_file = name != "-" and os.path.isfile(name)
            whole = os.stat(name).st_size if self.is_file else None
            self._head = b""
            while len(self._head) < 4096 and (piece := self._read(4096 - len(self._head))):
                self._head += piece
            header = wave_header(self._head)
        except OSError as error:
            raise self._fault(error) from error
        except ValueError as error:
            raise Fault(3, f"{self.name}: {error}") from error
        if header:
            self.form, self.channels, self._left = header.form, header.channels, header.length
            start += header.start
        self._start, self._size = start, None if whole is None else max(0, whole - start)
        while start > len(self._head) and self._head:
            start -= len(self._head)
            self._head = self._read(PIECE)
        self._head = self._head[start:]

    def _fault(self, error: OSError) -> Fault:
        return Fault(3, f"{self.name} can't be read: {error.strerror}")

    def _read(self, most: int) -> bytes:
        """What there is, at most `most` octets; nothing at the end."""
        try:
            # (None where a stream that does not block has nothing yet)
            while (octets := self._file.read(most)) is None:
                select.select([self._file], [], [])
            return octets
        except OSError as error:
            raise self._fault(error) from error

    @property
    def size(self) -> Optional[int]:
        """How many octets of samples there are, where that is known."""
        return None if self._size is None else min(self._size, self._left)

    def view(self) -> Any:
        """The octets of a file; of a pipe those of its head, which stay to be read."""
        if self.is_file:
            if not self.size:
                return b""
            if self._map is None:
                self._map = mmap.mmap(self._file.fileno(), 0, access=mmap.ACCESS_READ)
            return memoryview(self._map)[self._start : self._start + self.size]
        while len(self._head) < HEAD and (piece := self._read(HEAD - len(self._head))):
            self._head += piece
        return self._head[: self._left]

    def pieces(self) -> Iterator[bytes]:
        while self._left > 0:
            piece, self._head = self._head or self._read(PIECE), b""
            if not piece:
                return
            piece = piece[: self._left]
            self._left -= len(piece)
            yield piece

    def close(self) -> None:
        if self._map is not None:
            with contextlib.suppress(BufferError):
                self._map.close()
        self._file.close()


# What is written


class Output:
    """Where frames go: a file, standard output, or nowhere. All is written at once, and nothing waits in a buffer."""

    def __init__(self, name: Optional[str]) -> None:
        self.name, self._said = name, "standard output" if name == "-" else str(name)
        self._file: Any = None
        with faults(self._said):
            if name is not None:
                target = standard_output().fileno() if name == "-" else name
                self._file = open(target, "wb", buffering=0, closefd=name != "-")

    def write(self, octets: bytes) -> None:
        left = memoryview(octets)
        while self._file is not None and left:
            with faults(self._said):
                # (fewer than all where there is no room for more, and None where a stream that does not block has none)
                count = self._file.write(left)
                if count is None:
                    select.select([], [self._file], [])
                left = left[count or 0 :]

    def close(self) -> None:
        """Closes it: only then may a file system say that what was written is lost. Standard output stays open."""
        if self._file is not None:
            with faults(self._said):
                os.close(os.dup(self._file.fileno()))
                self._file.close()


class Progress:
    """A bar on a terminal: that of tqdm where it is installed."""

    def __init__(self, size: Optional[int], name: str) -> None:
        self._bar: Any = None
        self._size, self._done, self._shown, self._is_shown = size, 0, -1, is_terminal(sys.stderr)
        if self._is_shown:
            with contextlib.suppress(ImportError):
                from tqdm import tqdm

                self._bar = tqdm(
                    total=size, unit="B", unit_scale=True, desc=os.path.basename(name), leave=False, file=sys.stderr
                )

    def push(self, octets: int) -> None:
        self._done += octets
        if self._bar is not None:
            self._bar.update(octets)
        elif self._is_shown and self._size and self._shown != 100 * self._done // self._size:
            self._shown = 100 * self._done // self._size
            print(f"\r{self._shown:3} %", end="", file=sys.stderr, flush=True)

    def close(self) -> None:
        if self._bar is not None:
            self._bar.close()
        elif self._shown >= 0:
            print("\r     \r", end="", file=sys.stderr)


# receive

RECEIVING = (
    "tolerance",
    "fly",
    "polarity",
    "verify",
    "rescan",
    "repair",
    "start",
    "skip",
    "phase",
    "keep",
    "ahead",
    "batch",
)


def receive_arguments() -> argparse.ArgumentParser:
    parser = argparse.ArgumentParser(
        prog="tmchan-receive",
        formatter_class=argparse.RawDescriptionHelpFormatter,
        description="Receives the transfer frames of recordings: finds the form and the options of the link,\n"
        "unless they are given, and writes the frames. Files are octets, or WAV; - is standard input.\n\n"
        "    tmchan-receive pass.f32 --output frames\n"
        "    tmchan-receive --input u8 --depth 5 pass.u8 --output frames --json",
        epilog="Status 0: frames came, and all codeblocks are good. 1: no frame came, or some codeblock is\n"
        "uncorrectable. 2: the words are refused. 3: reading failed. 4: writing failed.\n\n"
        "What --nrz-m, --check and --counters do is outside of what is proved. docs/PYTHON.md has all of it.",
    )
    parser.add_argument("--version", action=Version)
    parser.add_argument("files", nargs="+", metavar="FILE")
    parser.add_argument(
        "-o",
        "--output",
        metavar="FILE",
        help="where frames go; - is standard output, which it is where that is no terminal",
    )
    parser.add_argument(
        "--form", choices=["frames", "cadu", "kiss"], default="frames", help="how they are written (default frames)"
    )
    parser.add_argument(
        "--json",
        action="store_true",
        help="write a line of JSON for each codeblock and window, and a last one, to standard output",
    )
    parser.add_argument(
        "--page", metavar="FILE", help="draw what came of one recording, as an HTML file; matplotlib is needed"
    )
    parser.add_argument("-q", "--quiet", action="store_true", help="no summary and no progress")
    group = parser.add_argument_group(
        "the recording", "The form, --swap and --nrz-m are found unless --input and an option of the link are given."
    )
    group.add_argument(
        "--input", choices=list(FORMS), metavar="FORM", help="how its symbols stand there: " + ", ".join(FORMS)
    )
    group.add_argument("--swap", action="store_true", help="exchange the two symbols of each pair")
    group.add_argument(
        "--scale", type=float, metavar="S", help="what signed symbols are multiplied by (default: by their own mean)"
    )
    group.add_argument(
        "--from", type=int, default=0, dest="begin", metavar="N", help="how many octets are left out first"
    )
    group.add_argument("--nrz-m", action="store_true", help="undo NRZ-M behind the soft decoder")
    options_of(
        parser,
        LINK,
        "the link",
        "Found unless --input is given and one of them; then the others have their defaults. What is given of them\n"
        "without --input is taken as known.",
    )
    options_of(
        parser,
        RECEIVING,
        "the receiver",
        "By default --tolerance 3 --fly 1 --rescan on --start any --phase follow --polarity find, and at rate 1/2\n"
        "--keep 128 --ahead 64.",
    )
    group = parser.add_argument_group("of each frame")
    group.add_argument(
        "--check", action="store_true", help="test the frame error control field, the CRC in the last two octets"
    )
    group.add_argument(
        "--counters", choices=list(COUNTERS), help="count frames that are missing by the virtual channels' counters"
    )
    return parser


def looked_for(source: Source, say: Any, is_quiet: bool = False, **words: Any) -> Found:
    """What is found of a recording. On a terminal it is shown how far that is."""
    if is_quiet or not is_terminal(sys.stderr):
        return find(source.view(), say=say, **words)

    def show(text: str) -> None:
        print(f"\r{text:48}\r", end="", file=sys.stderr, flush=True)

    def say_below(line: str) -> None:
        show("")
        say(line)

    try:
        return find(
            source.view(),
            say=say_below,
            progress=lambda done, most: show(f"looking for the options: place {done + 1} of {most}"),
            **words,
        )
    finally:
        show("")


def chosen(arguments: argparse.Namespace, source: Source) -> Found:
    """The form and the link: what was given, and else what is found."""
    given = given_of(arguments, LINK)
    receiving = given_of(arguments, RECEIVING)
    form = arguments.input or source.form or None
    Link.recording(**given, **receiving)
    if not (form and given):
        found = looked_for(source, lambda line: None, arguments.quiet, form=form, **given)
        if found.link is None:
            return found
        # Recordings may slip, or be inverted, where nothing was looked at.
        options = {**found.link.options, **recording(found.link.options["inner"]), **receiving}
        return found._replace(link=Link(**options), given=(*receiving,))
    inner = given.get("inner", DEFAULTS["inner"])
    options = {**recording(inner), **given, **receiving}
    if inner == "none":
        options["pack"] = "off"
    return Found(Link(**options), form, arguments.swap, arguments.nrz_m, given=(*receiving,))


def hint(found: Found) -> list[str]:
    """What may be the matter where nothing is seen."""
    return [
        "It may have a radio's samples, and no symbols of a demodulator; or a code that is not looked for: "
        'docs/GUIDE.md, "No frames?".'
    ] * (found.reason == NOTHING)


def batches_of(source: Source, receiver: Reception, progress: Progress) -> Iterator[Received]:
    with receiver:
        for piece in source.pieces():
            yield receiver.push(piece)
            progress.push(len(piece))
        yield receiver.finish()


class Tally:
    """What came of a recording."""

    def __init__(self, counters: Optional[str]) -> None:
        self.good = self.bad = self.fixed = self.bridged = self.bad_bridged = 0
        self.inverted = self.checked = self.failed = 0
        self.counters = Counters(counters) if counters else None

    def push(self, item: Any, is_checked: bool) -> dict[str, Any]:
        """Counts a codeblock. Returns what the tests of its frame say, outside of what is proved."""
        self.good += item.good
        self.bad += not item.good
        self.fixed += item.fixed
        self.bridged += item.bridged
        self.bad_bridged += item.bridged and not item.good
        self.inverted += item.inverted
        said: dict[str, Any] = {}
        if item.frame is not None and is_checked:
            said["check"] = frame_check(item.frame)
            self.checked += 1
            self.failed += not said["check"]
        if item.frame is not None and self.counters:
            told = self.counters.push(item.frame)
            said["channel"], said["missing"] = told if told else (None, None)
        return said


def number_of(count: int, one: str, many: str = "") -> str:
    return f"{count:,} {one if count == 1 else many or one + 's'}"


def summary(tally: Tally, totals: Any, link: Link) -> list[str]:
    lines = []
    other = ["Other options may fit: without --input they are looked for, and by tmchan-find."] * (not tally.good)
    if not tally.good and not tally.bad:
        return [f"No sync marker was found in {number_of(totals.bits, 'bit')}.", *other]
    uncoded = link.options["code"] == "none"
    came = f"{number_of(tally.good, 'frame')} of {number_of(link.frame_length, 'octet')}"
    if uncoded:
        lines.append(f"{came}; there is no outer code, so nothing says whether they are right.")
    else:
        worse = "; every codeblock that was found is good"
        if tally.bad:
            worse = f"; {number_of(tally.bad, 'codeblock is', 'codeblocks are')} uncorrectable"
        if tally.bad_bridged:
            some = f"{tally.bad_bridged:,} of them " * (tally.bad_bridged < tally.bad)
            worse += f", {some}where no marker stands, as after the end of a pass"
        lines.append(f"{came}, with {number_of(tally.fixed, 'symbol')} repaired{worse}.")
    more = [f"{number_of(totals.slips, 'slip')} of the symbol phase made good"] * (totals.slips > 0)
    bridged = tally.bridged - tally.bad_bridged
    more += [f"{number_of(bridged, 'frame')} taken where no marker stands"] * (bridged > 0)
    more += [f"{number_of(tally.inverted, 'codeblock')} received inverted"] * (tally.inverted > 0)
    if more:
        lines.append("; ".join(more) + ".")
    if tally.checked:
        lines.append(
            f"Frame check (outside of what is proved): {tally.failed:,} of {number_of(tally.checked, 'frame')} fail."
        )
    if tally.counters:
        for channel, (came_there, missing) in sorted(tally.counters.channels.items()):
            lines.append(
                f"Virtual channel {channel} (outside of what is proved): {number_of(came_there, 'frame')}, "
                f"{missing:,} missing by the counter."
            )
    return lines + other


def written(batch: Received, form: str, link: Link) -> bytes:
    if form == "frames":
        return batch.frames
    return b"".join(kiss(it.frame) if form == "kiss" else link.cadu(it.frame) for it in batch if it.frame is not None)


def json_line(**fields: Any) -> bytes:
    return (json.dumps({"version": JSON, **fields}, separators=(",", ":")) + "\n").encode()


def window_line(name: str, window: Window) -> bytes:
    rate, es_n0, at_least = window.quality
    return json_line(
        kind="window",
        file=name,
        **window._asdict(),
        symbol_error_rate=rate if math.isfinite(rate) else None,
        es_n0=es_n0 if math.isfinite(es_n0) else None,
        at_least=at_least,
    )


def page_of(given: Pass, name: str, found: Found, totals: Any, tally: Tally) -> bytes:
    more = [("frame checks that fail (outside of what is proved)", f"{tally.failed:,} of {tally.checked:,}")]
    more = more if tally.checked else []
    for channel, (came, missing) in sorted(tally.counters.channels.items() if tally.counters else []):
        counted = f"{came:,} frames, {missing:,} missing by the counter"
        more.append((f"virtual channel {channel} (outside of what is proved)", counted))
    return page(given, name, totals, shlex.join(found.words()), more).encode()


def receive_file(arguments: argparse.Namespace, name: str, output: Output, lines: Output, pages: Output) -> bool:
    """Receives a recording. Returns whether frames came, and no codeblock was bad."""
    source = Source(name, arguments.begin)
    try:
        found = chosen(arguments, source)
        if found.link is None:
            lines.write(json_line(kind="end", file=name, good=0, bad=0, fixed=0, bits=0, slips=0, reason=found.reason))
            pages.write(empty_page(source.name, found.reason).encode())
            say(f"{source.name}: no options were found: {found.reason}.", *hint(found))
            return False
        link, tally = found.link, Tally(arguments.counters)
        if not arguments.quiet:
            say(f"{source.name}: {shlex.join(found.words()) }")
        progress = Progress(None if arguments.quiet else source.size, name)
        counts = arguments.json or pages.name is not None
        receiver = found.receiver("mean" if arguments.scale is None else arguments.scale, windows=counts)
        given = Pass(link, receiver.has_symbols)
        try:
            for batch in batches_of(source, receiver, progress):
                shown = b""
                if pages.name is not None:
                    given.push(batch, receiver.windows)
                if arguments.json:
                    shown = b"".join(window_line(name, window) for window in receiver.windows)
                for item in batch:
                    said = tally.push(item, arguments.check)
                    if arguments.json:
                        shown += json_line(
                            kind="codeblock",
                            file=name,
                            number=tally.good + tally.bad - 1,
                            place=item.place,
                            symbol=item.symbol if receiver.has_symbols else None,
                            good=item.good,
                            length=len(item.frame or b""),
                            fixed=item.fixed,
                            repaired=item.repaired,
                            distance=item.distance,
                            bridged=item.bridged,
                            inverted=item.inverted,
                            **said,
                        )
                output.write(written(batch, arguments.form, link))
                lines.write(shown)
        finally:
            progress.close()
        totals = receiver.totals
        if arguments.json:
            more = {"checks_failed": tally.failed} if arguments.check else {}
            if tally.counters:
                more["channels"] = {
                    str(channel): {"frames": came, "missing": missing}
                    for channel, (came, missing) in sorted(tally.counters.channels.items())
                }
            lines.write(
                json_line(
                    kind="end",
                    file=name,
                    good=tally.good,
                    bad=tally.bad,
                    fixed=tally.fixed,
                    bits=totals.bits,
                    slips=totals.slips,
                    words=found.words(),
                    **more,
                )
            )
        if pages.name is not None:
            pages.write(page_of(given, source.name, found, totals, tally))
        if not arguments.quiet:
            say(*summary(tally, totals, link))
            if output.name is None and not arguments.json:
                say("The frames were not written: --output names a file for them.")
        return tally.good > 0 and tally.bad == 0
    finally:
        source.close()


def receive(words: list[str]) -> int:
    arguments = receive_arguments().parse_args(words)
    if arguments.json and arguments.output == "-":
        raise Usage("--json and the frames can't both go to standard output")
    if arguments.begin < 0:
        raise Usage("--from: the number is below 0")
    if arguments.scale is not None and not 0 < arguments.scale < math.inf:
        raise Usage("--scale: a number above 0 is wanted")
    for it in (arguments.output, arguments.page):
        if is_recording(it, arguments.files):
            raise Usage(f"{it} is the recording, and would be written over")
    if arguments.output is None and not arguments.json and not is_terminal(sys.stdout):
        arguments.output = "-"
    if arguments.page is not None:
        if len(arguments.files) > 1 or arguments.page == "-":
            raise Usage("--page takes one recording, and the name of a file")
        if importlib.util.find_spec("matplotlib") is None:
            raise Usage("--page: matplotlib is needed")
    output, lines = Output(arguments.output), Output("-" if arguments.json else None)
    pages = Output(arguments.page)
    try:
        return 0 if all([receive_file(arguments, name, output, lines, pages) for name in arguments.files]) else 1
    finally:
        for it in (output, lines, pages):
            it.close()


# send

SENDING = ("code", "depth", "length", "inner", "invert", "randomize", "basis", "soft", "pack")


def send_arguments() -> argparse.ArgumentParser:
    parser = argparse.ArgumentParser(
        prog="tmchan-send",
        formatter_class=argparse.RawDescriptionHelpFormatter,
        description="Sends transfer frames, one after the other in a file: writes the symbols of their CADUs,\n"
        "an octet each, or without an inner code the CADUs. - is standard input.\n\n"
        "    tmchan-send --depth 5 frames --output symbols",
        epilog="Status 0: all was sent. 1: octets are left over that are no whole frame. 2: the words are refused.\n"
        "3: reading failed. 4: writing failed.",
    )
    parser.add_argument("--version", action=Version)
    parser.add_argument("files", nargs="+", metavar="FILE")
    parser.add_argument(
        "-o", "--output", metavar="FILE", default="-", help="where symbols go (default -, standard output)"
    )
    options_of(parser, SENDING, "the link", "With the defaults of docs/OPTIONS.md.")
    return parser


def send(words: list[str]) -> int:
    arguments = send_arguments().parse_args(words)
    link = Link(**given_of(arguments, SENDING))
    if arguments.output == "-" and is_terminal(sys.stdout):
        raise Usage("symbols are no text: --output names a file for them")
    if is_recording(arguments.output, arguments.files):
        raise Usage(f"{arguments.output} has the frames, and would be written over")
    output = Output(arguments.output)
    with link.sender() as sender:
        for name in arguments.files:
            source = Source(name, 0)
            for piece in source.pieces():
                output.write(sender.push(piece))
            source.close()
        left = sender.finish()
    output.close()
    if left:
        say(f"{number_of(left, 'octet is', 'octets are')} left over: frames have {link.frame_length:,}.")
    return 1 if left else 0


# find


def find_arguments() -> argparse.ArgumentParser:
    parser = argparse.ArgumentParser(
        prog="tmchan-find",
        formatter_class=argparse.RawDescriptionHelpFormatter,
        description="Looks for the form and the options of a recording, along the whole of it, and prints the\n"
        "command that receives it, with what speaks for it.\n\n"
        "    tmchan-find pass.f32",
        epilog="Status 0: options were found. 1: none were. 2: the words are refused. 3: reading failed.\n"
        "4: writing failed.",
    )
    parser.add_argument("--version", action=Version)
    parser.add_argument("file", metavar="FILE")
    parser.add_argument(
        "--input", choices=list(FORMS), metavar="FORM", help="how its symbols stand there: " + ", ".join(FORMS)
    )
    parser.add_argument(
        "--from", type=int, default=0, dest="begin", metavar="N", help="how many octets are left out first"
    )
    parser.add_argument(
        "--symbols",
        type=int,
        default=2_000_000,
        metavar="N",
        help="how many are looked at once a code is seen (default 2000000)",
    )
    parser.add_argument(
        "--places", type=int, default=32, metavar="N", help="at how many places a code is looked for (default 32)"
    )
    options_of(parser, LINK, "the link", "What is known of it.")
    return parser


def program_line(found: Found, name: str, start: int) -> str:
    """The program's command line, where it reads this form by itself, else no text."""
    link = found.link
    if link is None or found.swap or found.nrz_m or found.form not in ("u8", "i8", "packed"):
        return ""
    options = dict(link.options)
    if found.form == "packed":
        if options["inner"] != "none":
            return ""
        options["pack"] = "on"
    options["soft"] = "i8" if found.form == "i8" else "u8"
    words = shlex.join(["tmchan", "decode", *Link(**options).words()])
    file = "" if name == "-" else shlex.quote(name)
    if start:
        return f"tail -c +{start + 1} {file}".rstrip() + f" | {words} > frames"
    return words + f" < {file}" * bool(file) + " > frames"


def look(words: list[str]) -> int:
    arguments = find_arguments().parse_args(words)
    if arguments.begin < 0:
        raise Usage("--from: the number is below 0")
    source = Source(arguments.file, arguments.begin)
    try:
        found = looked_for(
            source,
            tell,
            form=arguments.input or source.form or None,
            symbols=arguments.symbols,
            places=arguments.places,
            **given_of(arguments, LINK),
        )
    finally:
        source.close()
    if found.link is None:
        tell(f"\nNo options were found: {found.reason}.", *hint(found))
        return 1
    start = ["--from", str(arguments.begin)] if arguments.begin else []
    tell("\nThe command that receives it:\n")
    tell("    " + shlex.join(["tmchan-receive", *found.words(), *start, arguments.file, "--output", "frames"]))
    line = "" if source.channels > 1 or source.form else program_line(found, arguments.file, arguments.begin)
    if line:
        tell(f"\nor by the program:\n\n    {line}")
    if found.link.options["code"] == "none":
        tell("\nThere is no outer code to bear this out: see whether the frames make sense.")
    return 0


COMMANDS = {"receive": receive, "send": send, "find": look}


def run(command: Any, words: list[str]) -> int:
    name = f"tmchan-{'find' if command is look else command.__name__}"
    try:
        return command(words)
    except (Usage, library.Refused, ImportError) as error:
        say(f"{name}: {error}")
        return 2
    except Fault as error:
        say(f"{name}: {error}")
        if error.status == 4:
            # (no complaint when the interpreter closes its output)
            with contextlib.suppress(AttributeError, OSError, ValueError):
                os.dup2(os.open(os.devnull, os.O_WRONLY), sys.stdout.fileno())
        return error.status
    except KeyboardInterrupt:
        say(f"{name}: ended")
        return 130


def main_receive() -> int:
    return run(receive, sys.argv[1:])


def main_send() -> int:
    return run(send, sys.argv[1:])


def main_find() -> int:
    return run(look, sys.argv[1:])


def main() -> int:
    if len(sys.argv) < 2 or sys.argv[1] not in COMMANDS:
        say(f"usage: python3 -m tmchan {'|'.join(COMMANDS)} ..; each has --help")
        return 0 if sys.argv[1:] in (["-h"], ["--help"]) else 2
    return run(COMMANDS[sys.argv[1]], sys.argv[2:])
