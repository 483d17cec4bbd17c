"""The page of a pass: what is counted for it, and that it is one small file by itself."""
import html.parser
import os
import random
import re
import xml.etree.ElementTree

import pytest
from links import frames, levels, noise, run, tmchan

from tmchan import commands
from tmchan.link import Item, Totals, Window
from tmchan.page import LISTED, MOST, Pass, Stretch, page

pytest.importorskip("matplotlib")
VOID = {"meta", "link", "br"}


class Balanced(html.parser.HTMLParser):
    """Opens and closes each element that is not left open by HTML's own rules."""

    def __init__(self, text):
        super().__init__()
        self.open, self.words = [], []
        self.feed(text)
        self.close()
        assert self.open == ["html"]

    def handle_starttag(self, tag, attributes):
        if tag not in VOID:
            self.open.append(tag)
        for name, value in attributes:
            assert name not in ("src", "srcset") and not name.startswith("on")
            assert name not in ("href", "xlink:href") or value.startswith("#")

    def handle_endtag(self, tag):
        assert self.open.pop() == tag

    def handle_data(self, data):
        assert "@import" not in data and "url(http" not in data
        self.words += data.split()


def checked(text):
    """What every page has to be. Returns its rows of totals."""
    assert len(text.encode()) < 2_000_000
    Balanced(text)
    assert "<script" not in text and "prefers-color-scheme: dark" in text and "width=device-width" in text
    drawings = re.findall(r"<svg .*?</svg>", text, re.S)
    for it in drawings:
        xml.etree.ElementTree.fromstring(it)
        # (each colour is one of the page's own)
        assert set(re.findall(r"(?:fill|stroke): ?([^;\"]+)", it)) <= {"none"} | {
            f"var(--{name})" for name in ("ink", "faint", "good", "repaired", "bad", "missing")
        }
    assert len(drawings) == text.count("<div class=wide>") + text.count("<div class=narrow>")
    return dict(re.findall(r"<th scope=row>(.*?)</th><td>(.*?)</td>", text))


def item(symbol, place, **more):
    words = dict(frame=b"", distance=0, bridged=False, inverted=False, repaired=(0,), symbol=symbol, place=place)
    return Item(**{**words, **more})


def window(symbol, octets=200, **more):
    words = dict(symbol=symbol, dropped=0, steps=octets // 2, kept=octets // 2, metric=0, octets=octets)
    return Window(**{**words, **dict(wrong=3, distance=95 * octets, squares=9400 * octets), **more})


def sums(given):
    every = Stretch()
    for it in given.stretches.all:
        every.take(it)
    return every


def test_gaps_slips_and_flips():
    given = Pass(tmchan.Link(length=100))
    unit = given.unit
    assert unit == 32 + 8 * 132
    given.push([], [window(0, dropped=1), window(201), window(401, dropped=3), window(604)])
    # (before the first good one, and behind the last one, nothing is missing)
    given.push([item(1, 0, repaired=(None,))], [])
    start = 10 * unit
    places = [start, start + unit, start + 4 * unit, start + 5 * unit, start + 5 * unit + 9]
    found = [item(2 * place + 1, place) for place in places]
    found[1] = found[1]._replace(repaired=(None,), inverted=True)
    found[2] = found[2]._replace(inverted=True, repaired=(5,), distance=2)
    found[3] = found[3]._replace(bridged=True, distance=11, inverted=True, repaired=(2,))
    given.push(found, [])
    given.push([item(100 * unit, 50 * unit, repaired=(None,), distance=1)], [])
    every = sums(given)
    assert (every.clean, every.repaired, every.bad, every.fixed, every.most_fixed) == (2, 2, 3, 7, 5)
    # (what lies inside the codeblock before it is behind no gap; an uncorrectable one says nothing of the polarity)
    assert given.gaps == [(2 * places[2] + 1, 2 * unit)] and given.number_of_gaps == every.gaps == 1
    assert given.missing == pytest.approx(2) and every.missing == pytest.approx(2)
    assert given.flips == [(2 * places[2] + 1, True), (2 * places[4] + 1, False)]
    assert given.number_of_flips == every.flips == 2
    # (what is dropped before the first window is where the phase was found)
    assert given.slips == [(401, 3)] and every.slips == 1
    assert (every.markers, every.wrong_bits, every.most_wrong_bits, every.bridged) == (6, 3, 2, 1)
    assert every.counts == (400, 800, 12, 95 * 800, 9400 * 800)


def long_pass(count, draw):
    """Codeblocks and windows over the symbols of a very long recording."""
    given, wanted, place = Pass(tmchan.Link(depth=5)), Stretch(), 0
    for number in range(count):
        place += given.unit * (1 if draw.random() < 0.9 else draw.randint(2, 1000))
        repaired = tuple(draw.choice((0, 0, 0, 1, 16)) for _ in range(5)) if draw.random() < 0.9 else (None, 3, 0, 0, 0)
        found = item(2 * place, place, repaired=repaired, inverted=draw.random() < 0.1, distance=draw.randint(0, 3))
        counted = window(2 * place, dropped=draw.random() < 0.1, wrong=draw.randint(0, 20))
        given.push([found], [counted])
        wanted.counts = wanted.counts.plus([counted])
        wanted.fixed += found.fixed
        wanted.bad += not found.good
        wanted.wrong_bits += found.distance
    return given, wanted


def test_a_long_recording_has_as_small_a_page():
    given, wanted = long_pass(20_000, random.Random(5))
    every = sums(given)
    assert MOST // 2 <= len(given.stretches.all) <= MOST
    assert all(getattr(every, name) == getattr(wanted, name) for name in ("fixed", "bad", "wrong_bits", "counts"))
    assert every.codeblocks == 20_000 and every.missing == pytest.approx(given.missing)
    assert every.gaps == given.number_of_gaps and every.flips == given.number_of_flips > LISTED
    assert max(map(len, (given.gaps, given.slips, given.flips))) == LISTED
    coarse = given.stretches.coarse(0, 100)
    assert len(coarse.all) <= 100 and sum(it.fixed for it in coarse.all) == wanted.fixed
    text, again = (page(given, "it's <long> & 'odd'", Totals(10**12, 3), "--depth 5", [("<more>", "&")]) for _ in "ab")
    assert text == again
    rows = checked(text)
    assert rows["slips of the symbol phase"] == "3" and rows["bits received"] == "1,000,000,000,000"
    assert rows["uncorrectable codeblocks"] == f"{wanted.bad:,}" and rows["&lt;more&gt;"] == "&amp;"
    assert "<h1>it&#x27;s &lt;long&gt; &amp; &#x27;odd&#x27;</h1>" in text


def test_a_pass_with_all_of_it(tmp_path):
    """Noise before, a symbol lost, a fade, and the polarity turned over."""
    numpy = pytest.importorskip("numpy")
    sent = frames(80, 200)
    floats = levels(tmchan.Link(depth=2, length=200).send(sent), 3)
    floats[120_000:] *= -1
    floats[200_000:230_000] = noise(30_000, 9)
    path = tmp_path / "a <pass>"
    path.write_bytes(numpy.concatenate([noise(50_000), numpy.delete(floats, 60_000)]).astype("<f4").tobytes())
    words = ["--input", "f32", "--depth", "2", "--length", "200", str(path), "-o", str(tmp_path / "frames")]
    status, written, said = run("receive", *words, "--page", str(tmp_path / "page.html"))
    assert (status, written) in ((0, b""), (1, b"")) and "Traceback" not in said
    text = (tmp_path / "page.html").read_text()
    rows = checked(text)
    good = len((tmp_path / "frames").read_bytes()) // 200
    assert good >= 60 and rows["good codeblocks"] == str(good) and rows["flips of the polarity"] == "1"
    assert int(rows["slips of the symbol phase"]) >= 1
    assert re.fullmatch(r"[1-9]\d*, with room for [4-9] codeblocks", rows["gaps between good codeblocks"])
    median = float(re.match(r"(-?\d+\.\d) dB in the median", rows["Es/N0 where good codeblocks begin"])[1])
    assert abs(median - 3) <= 0.3
    assert "tmchan-receive --input f32 --depth 2 --length 200" in text and rows["tolerance"] == "3"
    for heading in ("Codeblocks", "Repaired symbols", "Es/N0", "Symbol error rate", "Slips, flips and gaps", "Options"):
        assert f"<h2>{heading}</h2>" in text
    assert "a &lt;pass&gt;" in text and "flip: inverted from here on" in text


@pytest.mark.long
def test_links_without_a_code(tmp_path):
    sent = frames(12, 100)
    for words, link, shown, kept_out in (
        (["--inner", "none"], tmchan.Link(length=100, inner="none", pack="off"), "Repaired symbols", "Es/N0"),
        (["--code", "none"], tmchan.Link(length=100, code="none"), "Es/N0", "Repaired symbols"),
    ):
        (tmp_path / "symbols").write_bytes(link.send(sent))
        out = str(tmp_path / "page.html")
        known = ["--input", "u8", "--length", "100", *words, str(tmp_path / "symbols"), "-o", os.devnull]
        assert run("receive", *known, "--page", out)[0] == 0
        rows = checked((tmp_path / "page.html").read_text())
        assert rows.get("good codeblocks" if "--inner" in words else "codeblocks, which no outer code tests") == "12"
        text = (tmp_path / "page.html").read_text()
        assert f"<h2>{shown}</h2>" in text and f"<h2>{kept_out}</h2>" not in text
        if "--code" in words:
            assert "at least" in rows["Es/N0 where good codeblocks begin"]


def test_pages_that_are_refused(tmp_path, monkeypatch, capsys):
    (tmp_path / "symbols").write_bytes(bytes(5000))
    known, out = ["--input", "u8", "--depth", "2", str(tmp_path / "symbols")], str(tmp_path / "page.html")
    for words, status, sentence in (
        ([*known, str(tmp_path / "symbols"), "--page", out], 2, "one recording"),
        ([*known, "--page", "-"], 2, "the name of a file"),
        ([*known, "--page", str(tmp_path / "no" / "folder")], 4, "can't be written"),
    ):
        found, _, said = run("receive", *words)
        assert found == status and sentence in said
    assert not (tmp_path / "page.html").exists()
    assert run("receive", *known, "--page", out)[0] == 1
    text = (tmp_path / "page.html").read_text()
    assert "No sync marker was found." in text and checked(text)["good codeblocks"] == "0"
    (tmp_path / "empty").write_bytes(b"")
    assert run("receive", str(tmp_path / "empty"), "--page", out)[0] == 1
    text = (tmp_path / "page.html").read_text()
    assert "No options were found" in text and checked(text) == {}
    monkeypatch.setitem(__import__("sys").modules, "matplotlib", None)
    assert commands.run(commands.receive, [*known, "--page", out]) == 2
    assert "matplotlib is needed" in capsys.readouterr().err
