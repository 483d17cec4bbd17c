"""Recordings of all that happens to one, made anew, through `tmchan-receive`, which finds form and options itself."""
import importlib.machinery
import importlib.util
import os

import pytest
from links import PROGRAM, TOP, frames, levels, run, soft, tmchan

numpy = pytest.importorskip("numpy")
pytestmark = pytest.mark.long
sends = pytest.mark.skipif(not PROGRAM, reason="the program, which sends, is not built")


def script(path):
    """A script of the repository as a module."""
    loader = importlib.machinery.SourceFileLoader(os.path.basename(path).replace("-", "_"), os.path.join(TOP, path))
    module = importlib.util.module_from_spec(importlib.util.spec_from_loader(loader.name, loader))
    loader.exec_module(module)
    return module


def received(octets, size, folder, *words):
    """The frames that come of a recording, and what is said."""
    (folder / "recording").write_bytes(octets)
    _, written, said = run("receive", *words, str(folder / "recording"))
    assert "Traceback" not in said
    return [written[at : at + size] for at in range(0, len(written), size)], said


LINKS = script("tests/links")


@sends
@pytest.mark.parametrize("name", LINKS.links())
def test_links(name, tmp_path):
    """Heads of noise, slips, passes and a flip: every whole frame comes, and none that nobody sent."""
    link = LINKS.links()[name](PROGRAM)
    came, _ = received(link.symbols, link.link.length, tmp_path)
    assert link.wanted <= set(came) <= link.sent


@pytest.mark.parametrize("form", ["packed", "unpacked", "f32"])
def test_no_inner_code(form, tmp_path):
    """200 frames, the first without its head."""
    sent = frames(200, 1115)
    floats = levels(tmchan.Link(depth=5, inner="none", pack="off").send(sent)[1003:], 8)
    given = {"packed": numpy.packbits(floats > 0), "unpacked": (floats > 0).astype("u1"), "f32": floats * 0.0031}[form]
    came, said = received(given.tobytes(), 1115, tmp_path)
    assert came == sent[1:] and f"--input {form} --depth 5 --inner none" in said


def test_forms_are_as_octets(tmp_path):
    sent = frames(60, 446)
    floats = levels(tmchan.Link(depth=2).send(sent)[999:], 3)
    hard = floats > 0
    # (a length of 0: samples go on to the end)
    wave = b"RIFF\0\0\0\0WAVEfmt \x10\0\0\0\1\0\1\0\x40\x1f\0\0\x80\x3e\0\0\2\0\x10\0data\0\0\0\0"
    wanted, _ = received(soft(floats).tobytes(), 446, tmp_path)
    assert wanted == sent[1:]
    for given in (
        (floats * 2000).astype("<i2").tobytes(),
        wave + (floats * 2000).astype("<i2").tobytes(),
        (floats * 12000).astype("<f8").tobytes(),
        numpy.packbits(hard).tobytes(),
        numpy.packbits(hard, bitorder="little").tobytes(),
    ):
        assert received(given, 446, tmp_path)[0] == wanted


@pytest.mark.parametrize("inner, decibels", [("1/2", 1.5), ("7/8", 3.5)])
def test_too_noisy(inner, decibels, tmp_path):
    """At an Eb/N0 at which no codeblock decodes; no line is printed that takes them for frames without a code."""
    link, symbols_a_bit = tmchan.Link(depth=5, inner=inner), {"1/2": 2, "7/8": 8 / 7}[inner]
    es = decibels + 10 * numpy.log10(1115 / 1279 / symbols_a_bit)
    (tmp_path / "recording").write_bytes(soft(levels(link.send(frames(60, 1115)), es)).tobytes())
    for name in ("find", "receive"):
        status, written, said = run(name, str(tmp_path / "recording"))
        assert status == 1 and "too noisy for its code" in written.decode() + said
        assert "--code none" not in written.decode() + said and (name == "find" or not written)


@sends
@pytest.mark.filterwarnings("ignore")
def test_the_demodulator_of_gr_satellites(tmp_path):
    """Its symbols at 5 dB, with a clock and a carrier that are off: it loses and doubles some."""
    pytest.importorskip("satellites")
    radio, right = script("examples/interop/gr-satellites"), []
    for seed in range(1, 5):
        sent, floats = radio.recorded(PROGRAM, 5, False, numpy.random.default_rng(seed))
        came, _ = received(floats.tobytes(), radio.SIZE, tmp_path)
        assert set(came) <= set(sent)
        right.append(len(set(came)))
    assert sum(right) >= radio.WANTED * len(right), right
