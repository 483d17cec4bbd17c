"""The page of a pass: what came of a recording, as one HTML file that needs no other. It is of at most 2 MB however
long the recording is, since all is counted in at most 512 stretches of it. matplotlib draws it."""
from __future__ import annotations

import html
import io
import math
import re
from typing import Any, Callable, Iterator, Optional

from .link import Item, Link, Totals, Window
from .quality import Counts, quality_of

# The most stretches; on a telephone a quarter of them is drawn.
MOST = 512
# Symbols of a stretch at first.
FINEST = 256
# How many gaps, slips and flips are listed one by one.
LISTED = 50


class Stretch:
    """What came of a stretch of a recording."""

    def __init__(self) -> None:
        self.clean = self.repaired = self.bad = 0
        self.fixed = self.words = self.most_fixed = 0
        self.markers = self.wrong_bits = self.most_wrong_bits = self.bridged = 0
        self.slips = self.flips = self.gaps = 0
        self.missing = 0.0
        self.counts = Counts()

    def take(self, other: "Stretch") -> None:
        """Counts what came of another one too."""
        for name, value in vars(other).items():
            own = getattr(self, name)
            if name == "counts":
                value = own.plus([value])
            elif name.startswith("most_"):
                value = max(own, value)
            else:
                value = own + value
            setattr(self, name, value)

    @property
    def codeblocks(self) -> int:
        return self.clean + self.repaired + self.bad


class Stretches:
    """A recording in stretches of one length, which doubles when there are too many."""

    def __init__(self) -> None:
        self.size, self.all, self.end = FINEST, [Stretch()], 1

    def at(self, symbol: int) -> Stretch:
        self.end = max(self.end, symbol + 1)
        while symbol // self.size >= MOST:
            self.double()
        while symbol // self.size >= len(self.all):
            self.all.append(Stretch())
        return self.all[symbol // self.size]

    def double(self) -> None:
        for first, second in zip(self.all[::2], self.all[1::2]):
            first.take(second)
        self.size, self.all = 2 * self.size, self.all[::2]

    def coarse(self, size: int, most: int) -> "Stretches":
        """These in stretches of at least `size` symbols, and at most `most` of them."""
        made = Stretches()
        made.size = self.size
        while made.size < size or (len(self.all) - 1) * self.size // made.size >= most:
            made.size *= 2
        for index, it in enumerate(self.all):
            made.at(index * self.size).take(it)
        made.end = self.end
        return made


class Pass:
    """What came of a recording: codeblocks and windows go in as they come, and the page comes out."""

    def __init__(self, link: Link, has_symbols: bool = True) -> None:
        self.link, self._has_symbols = link, has_symbols
        self.stretches, self.windows, self.window_symbols = Stretches(), 0, 0
        self.gaps: list[tuple[int, int]] = []
        self.slips: list[tuple[int, int]] = []
        self.flips: list[tuple[int, bool]] = []
        self.number_of_flips = self.number_of_gaps = 0
        self.missing = 0.0
        # Where the codeblocks so far end, in bits, and the last good one, in symbols; and how many bits since then are in
        # no codeblock.
        self._end = self._good_end = self._uncovered = 0
        self._is_inverted: Optional[bool] = None
        self._bits = self._octets = 0
        checks = {"rs16": 32, "rs8": 16}.get(link.options["code"], 0) * link.options["depth"]
        #: bits of a codeblock with its marker
        self.unit = 32 + 8 * (link.frame_length + checks)

    def _symbol(self, item: Item) -> int:
        """Where a codeblock begins. Behind NRZ-M it is told by the mean number of symbols of a bit."""
        return item.symbol if self._has_symbols else round(item.place * self._rate)

    @property
    def _rate(self) -> float:
        return self._octets / self._bits if self._bits else 1.0

    def push(self, items: Any, windows: list[Window]) -> None:
        for window in windows:
            self._take_window(window)
        for item in items:
            self._take_item(item)

    def _take_window(self, window: Window) -> None:
        stretch = self.stretches.at(window.symbol)
        stretch.counts = stretch.counts.plus([window])
        self.windows += 1
        self.window_symbols = max(self.window_symbols, window.octets)
        self._bits += window.kept
        self._octets += window.octets
        if window.dropped and self.windows > 1:
            stretch.slips += 1
            if len(self.slips) < LISTED:
                self.slips.append((window.symbol, window.dropped))

    def _take_item(self, item: Item) -> None:
        symbol = self._symbol(item)
        stretch = self.stretches.at(symbol)
        self._uncovered += max(0, item.place - self._end)
        self._end = max(self._end, item.place + self.unit)
        if item.good:
            if self._uncovered and self._is_inverted is not None:
                self._take_gap(symbol, self._uncovered)
            self._uncovered, self._good_end = 0, symbol + round(self.unit * self._rate)
            if self._is_inverted not in (None, item.inverted):
                stretch.flips += 1
                self.number_of_flips += 1
                if len(self.flips) < LISTED:
                    self.flips.append((symbol, item.inverted))
            self._is_inverted = item.inverted
        stretch.clean += item.good and item.fixed == 0
        stretch.repaired += item.good and item.fixed > 0
        stretch.bad += not item.good
        counts = [count for count in item.repaired if count is not None]
        stretch.fixed += sum(counts)
        stretch.words += len(counts)
        stretch.most_fixed = max([stretch.most_fixed, *counts])
        stretch.bridged += item.bridged
        if not item.bridged:
            stretch.markers += 1
            stretch.wrong_bits += item.distance
            stretch.most_wrong_bits = max(stretch.most_wrong_bits, item.distance)

    def _take_gap(self, symbol: int, bits: int) -> None:
        """Counts what is missing between two good codeblocks, in each stretch between them as much as it has of it."""
        self.number_of_gaps += 1
        self.missing += bits / self.unit
        if len(self.gaps) < LISTED:
            self.gaps.append((symbol, bits))
        self.stretches.at(symbol).gaps += 1
        begin, size = min(self._good_end, symbol - 1), self.stretches.size
        for index in range(begin // size, symbol // size + 1):
            part = min(symbol, (index + 1) * size) - max(begin, index * size)
            self.stretches.all[index].missing += bits / self.unit * part / (symbol - begin)


# What is drawn. A colour stands for one of the page's own, which hang on whether it is light or dark.

COLOURS = {
    "#010101": "ink",
    "#020202": "faint",
    "#030303": "good",
    "#040404": "repaired",
    "#050505": "bad",
    "#060606": "missing",
}
INK, FAINT, GOOD, REPAIRED, BAD, MISSING = COLOURS
SIZES = (("wide", 9.6, 2.3, MOST), ("narrow", 3.4, 2.0, MOST // 4))


def drawn(draw: Callable[[Any, Stretches], None], stretches: Stretches, width: float, height: float, about: str) -> str:
    """An SVG of a chart, in inches at 96 a unit."""
    import matplotlib
    from matplotlib.backends.backend_svg import FigureCanvasSVG
    from matplotlib.figure import Figure
    from matplotlib.ticker import FuncFormatter, MaxNLocator

    with matplotlib.rc_context({**matplotlib.rcParamsDefault, "svg.fonttype": "none", "svg.hashsalt": about}):
        figure = Figure(figsize=(width, height))
        FigureCanvasSVG(figure)
        axes = figure.add_axes((0.55 / width, 0.45 / height, 1 - 0.65 / width, 1 - 0.6 / height))
        axes.patch.set_alpha(0)
        for side in axes.spines.values():
            side.set_visible(False)
        axes.grid(True, axis="y", color=FAINT, linewidth=0.7)
        axes.set_axisbelow(True)
        axes.tick_params(colors=INK, labelsize=8, length=0)
        draw(axes, stretches)
        axes.set_xlim(0, stretches.end)
        axes.xaxis.set_major_locator(MaxNLocator(8 if width > 5 else 4, integer=True))
        axes.xaxis.set_major_formatter(FuncFormatter(lambda value, _: rounded(value)))
        axes.set_xlabel(f"symbols, in stretches of {stretches.size:,}", color=INK, fontsize=8)
        file = io.StringIO()
        figure.savefig(file, format="svg", transparent=True, metadata={"Date": None, "Creator": None})
    text = file.getvalue()
    text = text[text.index("<svg") :]
    text = re.sub(r"<metadata>.*?</metadata>", "", text, flags=re.S)
    text = re.sub(r"font: ([\d.]+)px [^;\"]*", r"font: \1px sans-serif", text)
    for colour, name in COLOURS.items():
        text = text.replace(colour, f"var(--{name})")
    return re.sub(r"<svg ", f'<svg role="img" aria-label="{html.escape(about)}" ', text, count=1)


def rounded(value: float) -> str:
    """A number of symbols, for an axis."""
    for size, letter in ((1e9, " G"), (1e6, " M"), (1e3, " k")):
        if value >= size:
            return f"{value / size:.4g}{letter}"
    return f"{value:.4g}"


def edges_of(stretches: Stretches) -> list[int]:
    return [stretches.size * index for index in range(len(stretches.all) + 1)]


def lines_of(stretches: Stretches, values: list[Optional[float]]) -> tuple[list[float], list[float]]:
    """The middles of the stretches that have a value, and the values; no number where several in a row have none."""
    xs: list[float] = []
    ys: list[float] = []
    for index, value in enumerate(values):
        if value is not None:
            if xs and (index + 0.5) * stretches.size - xs[-1] > 2.5 * stretches.size:
                xs.append(xs[-1])
                ys.append(math.nan)
            xs.append((index + 0.5) * stretches.size)
            ys.append(value)
    return xs, ys


def whole_numbers(axes: Any) -> None:
    from matplotlib.ticker import MaxNLocator

    axes.yaxis.set_major_locator(MaxNLocator(5, integer=True))


def draw_frames(axes: Any, stretches: Stretches) -> None:
    import numpy

    below, edges = numpy.zeros(len(stretches.all)), edges_of(stretches)
    for name, colour in (("clean", GOOD), ("repaired", REPAIRED), ("bad", BAD), ("missing", MISSING)):
        values = numpy.array([getattr(it, name) for it in stretches.all], float)
        if values.any():
            axes.stairs(below + values, edges, baseline=below, fill=True, color=colour, linewidth=0)
        below = below + values
    axes.set_ylim(0, max(1, 1.05 * below.max()))
    whole_numbers(axes)


def draw_repaired(strength: int) -> Callable[[Any, Stretches], None]:
    def draw(axes: Any, stretches: Stretches) -> None:
        means = [it.fixed / it.words if it.words else None for it in stretches.all]
        axes.plot(*lines_of(stretches, means), color=REPAIRED, linewidth=1.2, marker=".", markersize=2.5)
        most = [float(it.most_fixed) if it.words else None for it in stretches.all]
        axes.plot(*lines_of(stretches, most), color=INK, linestyle="", marker="_", markersize=3)
        axes.axhline(strength, color=BAD, linewidth=0.8, linestyle=(0, (4, 3)))
        axes.set_ylim(0, max(1, strength * 1.08))
        whole_numbers(axes)

    return draw


def draw_es_n0(axes: Any, stretches: Stretches) -> None:
    found = [quality_of(it.counts) for it in stretches.all]
    told = [it.es_n0 if math.isfinite(it.es_n0) and not it.at_least else None for it in found]
    least = [it.es_n0 if math.isfinite(it.es_n0) and it.at_least else None for it in found]
    axes.plot(*lines_of(stretches, told), color=GOOD, linewidth=1.2, marker=".", markersize=2.5)
    axes.plot(*lines_of(stretches, least), color=GOOD, linestyle="", marker="^", markersize=3)
    values = [it for it in told + least if it is not None]
    axes.set_ylim(min([0, *map(math.floor, values)]), max([10, *(math.ceil(it) + 1 for it in values)]))


def draw_errors(axes: Any, stretches: Stretches) -> None:
    with_octets = [it.counts if it.counts.octets else None for it in stretches.all]
    rates = [it.wrong / it.octets if it and it.wrong else None for it in with_octets]
    below = [1 / it.octets if it and not it.wrong else None for it in with_octets]
    axes.set_yscale("log")
    axes.plot(*lines_of(stretches, rates), color=GOOD, linewidth=1.2, marker=".", markersize=2.5)
    axes.plot(*lines_of(stretches, below), color=GOOD, linestyle="", marker="v", markersize=3)
    values = [it for it in rates + below if it is not None]
    axes.set_ylim(10 ** math.floor(math.log10(min([1e-3, *values]))), 0.5)
    axes.minorticks_off()


def draw_events(axes: Any, stretches: Stretches) -> None:
    names = ("gaps", "flips", "slips")
    for row, (name, colour) in enumerate(zip(names, (MISSING, REPAIRED, BAD))):
        places = [(index + 0.5) * stretches.size for index, it in enumerate(stretches.all) if getattr(it, name)]
        axes.vlines(places, row - 0.35, row + 0.35, color=colour, linewidth=1.6)
    axes.set_yticks(range(len(names)), names)
    axes.set_ylim(-0.6, len(names) - 0.4)


def draw_markers(axes: Any, stretches: Stretches) -> None:
    means = [it.wrong_bits / it.markers if it.markers else None for it in stretches.all]
    axes.plot(*lines_of(stretches, means), color=GOOD, linewidth=1.2, marker=".", markersize=2.5)
    most = [float(it.most_wrong_bits) if it.markers else None for it in stretches.all]
    axes.plot(*lines_of(stretches, most), color=INK, linestyle="", marker="_", markersize=3)
    axes.set_ylim(0, max([2, *(it + 0.5 for it in most if it is not None)]))
    whole_numbers(axes)


STYLE = """
:root { color-scheme: light dark; --paper: #fcfcfb; --ink: #24292e; --faint: #d9dcdf; --good: #1f7a9c;
  --repaired: #c98a12; --bad: #bf2f2a; --missing: #b3b8bd; }
@media (prefers-color-scheme: dark) { :root { --paper: #15181b; --ink: #dde2e6; --faint: #343a40; --good: #53b4d6;
  --repaired: #e6b04a; --bad: #f0706a; --missing: #5b636b; } }
body { margin: 0 auto; padding: 1rem; max-width: 60rem; background: var(--paper); color: var(--ink);
  font: 1rem/1.45 system-ui, sans-serif; }
h1 { font-size: 1.4rem; overflow-wrap: anywhere; } h2 { font-size: 1.05rem; margin: 2rem 0 0.2rem; }
p { margin: 0.2rem 0 0.6rem; max-width: 46rem; } code { overflow-wrap: anywhere; }
svg { width: 100%; height: auto; display: block; } .narrow { display: none; }
@media (max-width: 40rem) { .narrow { display: block; } .wide { display: none; } }
table { border-collapse: collapse; } td, th { padding: 0.15rem 1.2rem 0.15rem 0; text-align: left; vertical-align: top;
  font-weight: normal; } td { font-variant-numeric: tabular-nums; } tr { border-bottom: 1px solid var(--faint); }
.key { white-space: nowrap; margin-right: 0.9em; }
.key i { display: inline-block; width: 0.8em; height: 0.8em; margin-right: 0.3em; border-radius: 2px; }
"""


def table(rows: list[tuple[str, str]]) -> str:
    lines = (f"<tr><th scope=row>{html.escape(name)}</th><td>{html.escape(value)}</td></tr>" for name, value in rows)
    return "<table>" + "\n".join(lines) + "</table>"


def keys(*named: tuple[str, str]) -> str:
    shown = (f'<span class=key><i style="background: var(--{it})"></i>{name}</span>' for it, name in named)
    return f"<p>{' '.join(shown)}</p>"


def decibels(found: Any) -> str:
    return ("at least " if found.at_least else "") + f"{found.es_n0:.1f} dB"


def quality_rows(stretches: Stretches) -> Iterator[tuple[str, str]]:
    """Es/N0 and the rate of wrong symbols of those stretches in which good codeblocks begin."""
    counts = [it.counts for it in stretches.all if it.clean + it.repaired and it.counts.octets]
    found = sorted((it for it in map(quality_of, counts) if math.isfinite(it.es_n0)), key=lambda it: it.es_n0)
    if found:
        middle, last = found[len(found) // 2], found[-1]
        shown = f"{decibels(middle)} in the median of stretches, {decibels(found[0])} to {decibels(last)}"
        yield "Es/N0 where good codeblocks begin", shown
    if counts:
        yield "wrong symbols there", f"{quality_of(Counts().plus(counts)).symbol_error_rate:.2g} of all"


def totals_rows(given: Pass, totals: Totals) -> list[tuple[str, str]]:
    every = Stretch()
    for it in given.stretches.all:
        every.take(it)
    is_coded = given.link.options["code"] != "none"
    name = "good codeblocks" if is_coded else "codeblocks, which no outer code tests"
    rows = [(name, f"{every.clean + every.repaired:,}")]
    if is_coded:
        rows += [
            ("of these with symbols repaired", f"{every.repaired:,}"),
            ("uncorrectable codeblocks", f"{every.bad:,}"),
            ("symbols repaired", f"{every.fixed:,}"),
        ]
    gaps = f"{given.number_of_gaps:,}, with room for {round(given.missing):,} codeblocks"
    return [
        *rows,
        ("gaps between good codeblocks", gaps),
        ("slips of the symbol phase", f"{totals.slips:,}"),
        ("flips of the polarity", f"{given.number_of_flips:,}"),
        ("places taken without a marker", f"{every.bridged:,}"),
        ("wrong bits of markers", f"{every.wrong_bits:,} in {every.markers:,}"),
        ("bits received", f"{totals.bits:,}"),
    ]


def listed(given: Pass) -> str:
    """Where gaps, slips and flips are, the first ones of each."""
    rows = [(symbol, f"gap of {bits:,} bits before") for symbol, bits in given.gaps]
    rows += [(symbol, f"slip: {count:,} symbols dropped before") for symbol, count in given.slips]
    rows += [(symbol, f"flip: {'inverted' if to else 'upright'} from here on") for symbol, to in given.flips]
    if not rows:
        return ""
    shown = table([(f"{symbol:,}", text) for symbol, text in sorted(rows)])
    return f"<details><summary>Where they are, by symbol: the first {LISTED} of each</summary>{shown}</details>"


def charts(given: Pass) -> Iterator[tuple[str, str, Callable[[Any, Stretches], None]]]:
    """The heading, what is below it, and what draws it."""
    options = given.link.options
    is_coded = options["code"] != "none"
    named = [("good", "good" if is_coded else "found")]
    named += [("repaired", "good, symbols repaired"), ("bad", "uncorrectable")] * is_coded
    yield "Codeblocks", keys(*named, ("missing", "missing, by the room in gaps")), draw_frames
    if is_coded:
        strength = int(options["repair"] if options["repair"] is not None else options["code"][2:])
        yield (
            "Repaired symbols",
            f"<p>Of a codeword, in the mean (line) and at most (dashes). Up to {strength} are repaired.</p>",
            draw_repaired(strength),
        )
    if given.windows:
        yield (
            "Es/N0",
            "<p>In dB, as for white noise, by the windows of the soft decoder. A triangle: at least so much, since "
            "most symbols are cut at 0 and 255. Where there is no point, there was no signal that tells it.</p>",
            draw_es_n0,
        )
        yield (
            "Symbol error rate",
            "<p>The share of symbols that were received nearer to the other one, before decoding. A triangle: none, "
            "that is fewer than one of as many.</p>",
            draw_errors,
        )
    yield (
        "Slips, flips and gaps",
        "<p>Symbols lost or doubled, the polarity turned over, and no codeblock where one would follow.</p>",
        draw_events,
    )
    yield "Wrong bits of markers", "<p>Of 32, in the mean (line) and at most (dashes).</p>", draw_markers


def page(given: Pass, name: str, totals: Totals, words: str, more: list[tuple[str, str]]) -> str:
    """The whole page. `words` is the command that received the recording; `more` are further totals."""
    unit = round(given.unit * given._rate)
    stretches = given.stretches.coarse(max(unit, given.window_symbols), MOST)
    options = [(option, str(value)) for option, value in given.link.options.items() if value is not None]
    parts = [
        "<!doctype html>\n<html lang=en>\n<meta charset=utf-8>",
        '<meta name=viewport content="width=device-width, initial-scale=1">',
        f"<title>{html.escape(name)}: a pass</title>\n<style>{STYLE}</style>",
        f"<h1>{html.escape(name)}</h1>",
        table([*totals_rows(given, totals), *quality_rows(stretches), *more]),
    ]
    if not any(it.codeblocks for it in stretches.all):
        parts.append("<p>No sync marker was found.</p>")
    for heading, below, draw in charts(given):
        parts.append(f"<h2>{heading}</h2>\n{below}")
        for size, width, height, most in SIZES:
            # Codeblocks are counted in stretches of some, where there are many.
            least = min(8 * unit, stretches.size * len(stretches.all) // 48) if draw is draw_frames else 0
            shown = stretches.coarse(max(stretches.size, least), most)
            svg = drawn(draw, shown, width, height, f"{heading} ({size})")
            parts.append(f"<div class={size}>{svg}</div>")
        if draw is draw_events:
            parts.append(listed(given))
    parts += [
        f"<h2>Options</h2>\n<p><code>tmchan-receive {html.escape(words)}</code></p>",
        f"<details><summary>All of them</summary>{table(options)}</details>",
        "<p>A codeblock is good where the proved library says so. Es/N0 is worked out of what it counts.</p>",
    ]
    return "\n".join(parts) + "\n"


def empty_page(name: str, reason: str) -> str:
    """The page of a recording of which no options were found."""
    return (
        "<!doctype html>\n<html lang=en>\n<meta charset=utf-8>\n"
        '<meta name=viewport content="width=device-width, initial-scale=1">\n'
        f"<title>{html.escape(name)}: a pass</title>\n<style>{STYLE}</style>\n<h1>{html.escape(name)}</h1>\n"
        f"<p>No options were found: {html.escape(reason)}.</p>\n"
    )
