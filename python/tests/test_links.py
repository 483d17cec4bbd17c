"""Links, their streams and their errors."""
import array
import ctypes
import gc
import os
import random
import threading

import pytest
from links import NAMES, frames, levels, pieces, received, right, run_program, soft, tmchan, windows_of

from tmchan import library
from tmchan.samples import Octets

REFUSED = {
    "code": "rs17",
    "depth": 6,
    "length": 0,
    "inner": "4/5",
    "basis": "both",
    "tolerance": 9,
    "repair": 17,
    "soft": "f32",
    "start": "one",
    "skip": 16,
    "fly": 16,
    "keep": 63,
    "ahead": 4097,
    "phase": "lost",
    "polarity": "up",
    "batch": 0,
    "verify": 8,
    "rescan": "once",
    "bad": "keep",
}


@pytest.mark.parametrize("name", REFUSED)
def test_refusals(name):
    with pytest.raises(tmchan.Refused) as refused:
        tmchan.Link(**{name: REFUSED[name]})
    assert refused.value.reason == name and str(refused.value).startswith(name + ": ")


@pytest.mark.parametrize("name", ["invert", "randomize"])
def test_refused_switches(name):
    for value in ("yes", "", 1):
        with pytest.raises(tmchan.Refused, match="switch"):
            tmchan.Link(**{name: value})
    assert tmchan.Link(**{name: True}).words() == tmchan.Link(**{name: "on"}).words()


def test_what_is_no_number():
    for value in ("5", 5.0, None, True, []):
        with pytest.raises(TypeError):
            tmchan.Link(depth=value) if value is not None else tmchan.Link(no_such_option=1)
    for value in (-1, 2**63, 2**64 - 1, 2**200):
        with pytest.raises(tmchan.Refused):
            tmchan.Link(length=value)


def test_the_first_reason_comes_first():
    with pytest.raises(tmchan.Refused, match="depth"):
        tmchan.Link(verify=8, depth=6, tolerance=9)


def test_the_struct_is_the_header():
    assert list(library.OPTIONS) == NAMES
    assert ctypes.sizeof(library.Config) == 8 * 24 and library.REPORT.size == 48 and library.WINDOW.size == 72


def test_words_and_repr():
    link = tmchan.Link.recording(depth=5, randomize=False)
    assert (
        link.words()
        == (
            "--depth 5 --randomize off --tolerance 3 --start any --fly 1 --keep 128 --ahead 64 --phase follow "
            "--polarity find --rescan on"
        ).split()
    )
    assert eval(repr(link), {"Link": tmchan.Link}).words() == link.words()
    assert tmchan.Link().words() == [] and repr(tmchan.Link()) == "Link()"
    assert tmchan.Link(code="none", length=7).frame_length == 7 and link.frame_length == 1115


RECORDED = dict(
    tolerance=5, start="zero", fly=4, keep=1000, ahead=100, phase="find", polarity="given", verify=2, rescan="off"
)


def test_what_is_given_for_a_recording_comes_first():
    assert set(RECORDED) == set(library.RECORDED)
    for name, value in RECORDED.items():
        link, usual = tmchan.Link.recording(**{name: value}), tmchan.Link.recording()
        assert usual.options[name] != value and link.options == {**usual.options, name: value}
        words = link.words()
        told = words[words.index("--" + name) + 1] if "--" + name in words else tmchan.link.DEFAULTS[name]
        assert str(told) == str(value)


@pytest.mark.parametrize("version", [(library.ABI - 1 << 8) + 9, library.ABI + 1 << 8, (library.ABI | 0x100) << 8])
def test_libraries_of_other_versions(version, monkeypatch):
    class Library:
        def __init__(self, found):
            self.found = found

        def __getattr__(self, name):
            made = lambda: self.found  # noqa: E731
            setattr(self, name, made)
            return made

    monkeypatch.setattr(library.ctypes, "CDLL", lambda _: Library((library.ABI << 8) + 255))
    assert library._load()
    monkeypatch.setattr(library.ctypes, "CDLL", lambda _: Library(version))
    told = f"{version >> 16}.{version >> 8 & 255}.{version & 255}"
    with pytest.raises(ImportError, match=f"is of version {told}; this package is for 0.3"):
        library._load()


OPTIONS = [
    dict(length=9),
    dict(length=9, inner="3/4"),
    dict(code="rs8", depth=2, length=10, inner="7/8", soft="i8"),
    dict(inner="none", length=5),
    dict(inner="none", length=5, pack="off"),
    dict(code="none", length=12, inner="2/3"),
]


@pytest.mark.parametrize("number", range(len(OPTIONS)))
def test_streams_cut_anywhere_are_as_the_program_has_them(number):
    draw, options = random.Random(number), OPTIONS[number]
    sent = frames(6, options["length"], number)
    symbols = tmchan.Link(**options).send(b"".join(sent))
    assert run_program(["encode", *tmchan.Link(**options).words()], b"".join(sent)) == (symbols, "", 0)
    given = bytearray(symbols[number:])
    for place in draw.sample(range(len(given)), len(given) // 60):
        given[place] ^= draw.randrange(256)
    for more in (
        dict(),
        dict(tolerance=2, fly=1, start="any", phase="find", keep=64, ahead=40),
        dict(tmchan.link.recording("1/2"), batch=1),
    ):
        link = tmchan.Link(**options, **more)
        output, notes, status = run_program(["decode", *link.words()], bytes(given))
        for most in (1, 50, 1000):
            items, lines = received(link, pieces(bytes(given), draw, most))
            assert lines == notes.splitlines() and b"".join(it.frame for it in items if it.good) == output
            assert status == (0 if all(it.good for it in items) else 1)


def test_buffers_of_all_kinds():
    link, sent = tmchan.Link(length=20), frames(8, 20)
    symbols = link.send(sent)
    assert (
        symbols
        == link.send(bytearray(b"".join(sent)))
        == link.send(memoryview(b"".join(sent)))
        == link.send(iter(sent))
    )
    for given in (
        symbols,
        bytearray(symbols),
        memoryview(symbols),
        array.array("B", symbols),
        memoryview(symbols * 2)[: len(symbols)],
        memoryview(bytes(b for it in symbols for b in (it, 7)))[::2],
        (ctypes.c_uint8 * len(symbols))(*symbols),
        memoryview(symbols).cast("c"),
    ):
        assert [it.frame for it in link.receive(given)] == sent
    signed = array.array("b", (it - 128 for it in symbols))
    assert [it.frame for it in link.receive(signed)] == sent
    other = tmchan.Link(length=20, soft="i8")
    assert other.send(sent) == signed.tobytes()
    assert [it.frame for it in other.receive(signed)] == [it.frame for it in other.receive(signed.tobytes())] == sent
    for wrong in (5, "text", None, [1, 2], array.array("Q", [1]), array.array("u", "a")):
        with pytest.raises(TypeError):
            list(link.receive(wrong))


def test_nothing_and_garbage():
    for inner in ("1/2", "7/8", "none"):
        for link in (tmchan.Link(inner=inner), tmchan.Link.recording(inner=inner)):
            assert list(link.receive(b"")) == list(link.receive([])) == list(link.receive([b"", b""])) == []
            assert link.decode(b"") == b"" and link.send(b"") == b""
            draw = random.Random(3)
            assert list(link.receive(draw.randbytes(50_000))) == []
            assert list(link.receive(bytes(50_000))) == []


def test_left_over_octets():
    with pytest.raises(ValueError, match="3 are left over"):
        tmchan.Link(length=10).send(bytes(23))
    with tmchan.Link(length=10).sender() as sender:
        sender.push(bytes(23))
        assert sender.finish() == 3
    with pytest.raises(tmchan.Refused, match="length"):
        tmchan.Link(length=10).cadu(bytes(9))


def test_closed_streams():
    link = tmchan.Link()
    for stream in (link.sender(), link.decoder(), link.receiver()):
        with stream:
            assert stream.is_open
        assert not stream.is_open
        stream.close()
        for use in (stream.finish, lambda: stream.push(b"x")):
            with pytest.raises(tmchan.Closed):
                use()
    for stream in (link.sender(), link.decoder(), link.receiver()):
        stream.finish()
        assert not stream.is_open
    receiver = link.receiver()
    receiver.finish()
    assert receiver.totals == (0, 0) and receiver.phase is None and receiver.slips == 0
    with pytest.raises(tmchan.Closed):
        list(receiver.push(bytes(9)))


def test_what_a_receiver_says():
    link, sent = tmchan.Link.recording(length=40), frames(30, 40)
    symbols = bytearray(link.send(sent)[1:])
    symbols[3000:3400] = bytes(400)
    with link.receiver() as receiver:
        found = receiver.push(bytes(symbols)) + receiver.finish()
        assert (
            receiver.phase.skip == 1
            and receiver.totals.bits == len(symbols) // 2
            and receiver.slips == receiver.totals.slips == 0
        )
    assert (
        len(found) == len(list(found))
        and found[0] == list(found)[0]
        and found[-1] == list(found)[-1]
        and found[1:3] == list(found)[1:3]
    )
    bad = [it for it in found if not it.good]
    assert bad and all(it.frame is None and None in it.repaired for it in bad)
    assert found.frames == b"".join(it.frame for it in found if it.good)
    assert right(found, sent)[1] == 0 and right(found, sent)[0] >= 26
    passed = list(tmchan.Link(**{**link.options, "bad": "pass"}).receive(bytes(symbols)))
    assert [(it.place, it.good, it.repaired) for it in passed] == [(it.place, it.good, it.repaired) for it in found]
    assert all(len(it.frame) == link.frame_length and was.frame in (None, it.frame) for it, was in zip(passed, found))
    numpy = pytest.importorskip("numpy")
    table = found.table
    assert [it.place for it in found] == table["place"].tolist()
    # (the phase is 1, and nothing was dropped)
    assert [it.symbol for it in found] == table["symbol"].tolist() == (2 * table["place"] + 1).tolist()
    assert [it.good for it in found] == (table["frame_length"] > 0).tolist() == (table["bad"] == 0).tolist()
    assert table["repaired"].shape == (len(found), 8) and table["distance"].dtype == numpy.uint8


@pytest.mark.parametrize("decibels", [1, 4, 8])
def test_windows_tell_how_good_symbols_are(decibels):
    link = tmchan.Link(keep=256, ahead=64)
    symbols = link.send(frames(40, link.frame_length))
    noisy = soft(levels(symbols, decibels)).tobytes()
    for opened in (link.decoder, link.receiver):
        with opened() as plain:
            plain.push(noisy)
            assert plain.windows == []
    windows = windows_of(link.decoder, pieces(noisy, random.Random(5), 5000))
    assert windows == windows_of(link.receiver, [noisy]) and sum(it.kept for it in windows) == len(symbols) // 2
    assert [it.symbol for it in windows] == list(range(0, len(symbols), 512))
    # (the path is the sent one, but where noise is so great that some bits are wrong)
    wrong = sum((sent ^ came) >> 7 for sent, came in zip(symbols, noisy))
    assert abs(sum(it.wrong for it in windows) - wrong) <= wrong // 50
    assert abs(tmchan.quality(windows).es_n0 - decibels) < 0.2
    first = windows[0].quality
    assert first.symbol_error_rate == windows[0].wrong / 512 and abs(first.es_n0 - decibels) < 2 and not first.at_least


def test_long_pieces_are_the_same():
    link, sent = tmchan.Link(inner="none", length=50), frames(20_000, 50)
    symbols = link.send(b"".join(sent))
    assert len(symbols) > 1.5 * tmchan.link.PIECE
    assert [it.frame for it in link.receive(symbols)] == sent


def test_a_forked_child_closes_nothing():
    """What it inherits is its parent's."""
    receiver = tmchan.Link().receiver()
    handle = receiver._stream._handle
    child = os.fork()
    if not child:
        del receiver
        gc.collect()
        os._exit(0 if handle.is_open else 1)
    assert os.waitpid(child, 0)[1] == 0 and handle.is_open
    del receiver
    gc.collect()
    assert not handle.is_open


def test_windows_of_long_pieces():
    """Of a push that goes to the library in three pieces all windows are told."""
    link = tmchan.Link(keep=65536)
    given = random.Random(7).randbytes(2 * tmchan.link.PIECE + 1)
    windows = windows_of(link.receiver, [given])
    assert windows == windows_of(link.receiver, tmchan.link.pieces(given)) == windows_of(link.decoder, [given])
    assert sum(it.kept for it in windows) == len(given) // 2
    with link.receiver(windows=True) as receiver:
        receiver.push(given)
        assert receiver.windows == windows[: len(receiver.windows)] and len(receiver.windows) >= 15


def test_words_of_the_outer_code():
    word = tmchan.rs_encode(b"hello")
    assert len(word) == 37 and tmchan.rs_decode(word) == (word, 0)
    broken = bytearray(word)
    for place in range(16):
        broken[2 * place] ^= 1 + place
    assert tmchan.rs_decode(broken) == (word, 16)
    with pytest.raises(tmchan.Uncorrectable):
        tmchan.rs_decode(broken, repair=15)
    assert tmchan.rs_decode(bytes(32) + word[32:], erased=range(32)) == (word, sum(it != 0 for it in word[:32]))
    for wrong in (-1, 37):
        with pytest.raises(IndexError):
            tmchan.rs_decode(word, erased=[wrong])
    for options, reason in (
        (dict(code="rs17"), "code"),
        (dict(code="none"), "code"),
        (dict(basis="x"), "basis"),
        (dict(repair=17), "repair"),
        (dict(repair=2**70), "repair"),
    ):
        with pytest.raises(tmchan.Refused, match=reason):
            tmchan.rs_decode(word, **options)
    for call, given in (
        (tmchan.rs_encode, b""),
        (tmchan.rs_encode, bytes(224)),
        (tmchan.rs_decode, bytes(32)),
        (tmchan.rs_decode, bytes(256)),
    ):
        with pytest.raises(tmchan.Refused, match="length"):
            call(given)
    assert tmchan.randomize(b"") == b"" and tmchan.randomize(bytes(4)) == bytes.fromhex("ff480ec0")


def test_threads_with_a_receiver_each():
    link, sent, came = tmchan.Link(length=100), frames(60, 100), {}
    symbols = link.send(sent)

    def receive(number):
        draw = random.Random(number)
        came[number] = [it.frame for it in link.receive(pieces(symbols, draw, 20_000))]

    threads = [threading.Thread(target=receive, args=(number,)) for number in range(8)]
    for it in threads:
        it.start()
    for it in threads:
        it.join()
    assert all(came[number] == sent for number in range(8))


def test_a_stream_is_one_threads_at_a_time():
    receiver = tmchan.Link().receiver()
    with receiver._stream._alone():
        for use in (lambda: receiver.push(b"x"), receiver.finish, receiver.close, lambda: receiver.phase):
            with pytest.raises(RuntimeError, match="another thread"):
                use()
    assert len(receiver.push(b"x")) == 0


class Heap(ctypes.Structure):
    """mallinfo2 of the C library."""

    NAMES = "arena ordblks smblks hblks hblkhd usmblks fsmblks uordblks fordblks keepcost"
    _fields_ = [(name, ctypes.c_size_t) for name in NAMES.split()]


def heap_octets():
    """How many octets of the C library's heap are taken."""
    told = getattr(ctypes.CDLL(None), "mallinfo2", None)
    if told is None:
        pytest.skip("this C library does not count its heap")
    told.restype = Heap
    gc.collect()
    heap = told()
    return heap.uordblks + heap.hblkhd


def test_memory_is_given_back():
    """Streams that are dropped leave nothing behind."""
    link, symbols = tmchan.Link(), bytes(1000)
    for opened in (link.sender, link.decoder, link.receiver):
        for _ in range(5):
            opened().push(symbols)
        before = heap_octets()
        for _ in range(50):
            opened().push(symbols)
        assert heap_octets() - before < 65536


def test_floats_and_integers():
    numpy = pytest.importorskip("numpy")
    link, sent = tmchan.Link.recording(length=60), frames(60, 60)
    floats = levels(link.send(sent), 1)
    for given, scale in (
        (floats, None),
        (floats.astype(numpy.float64), None),
        (floats.astype(">f4"), None),
        (floats * 0.003, "mean"),
        (floats * 12000, "mean"),
        ((floats * 8000).astype(numpy.int16), None),
        ((floats * 90).astype(">i2"), "mean"),
        (floats.astype("<f8"), 32),
        ((floats * 32).clip(-128, 127).astype(numpy.int8), None),
        ((floats * 20).clip(-128, 127).astype(numpy.int8), "mean"),
        (numpy.repeat(floats, 3)[::3], None),
        (floats.reshape(2, -1), None),
        (soft(floats), None),
        (soft(floats).reshape(-1, 2), None),
    ):
        given = numpy.array(given) if given.flags["C_CONTIGUOUS"] else given
        given.flags.writeable = False
        assert right(link.receive(given, scale), sent) == (60, 0)
        draw = random.Random(1)
        assert right(link.receive(list(pieces(given.reshape(-1), draw, 9000)), scale), sent) == (60, 0)
    for wrong in (
        floats.astype(complex),
        floats.astype(numpy.float16),
        floats > 0,
        numpy.arange(3),
        numpy.array(["a"]),
    ):
        with pytest.raises((TypeError, ValueError)):
            list(link.receive(wrong))
    with pytest.raises(TypeError, match="pack"):
        list(tmchan.Link(inner="none").receive(floats))
    for wrong in (0, -1, "most", True):
        with pytest.raises(ValueError, match="scale"):
            link.receiver(wrong)


def test_octets_of_samples():
    numpy = pytest.importorskip("numpy")
    values = [-9.0, -2, -1, -0.5, 0, 0.25, 1, 1.9921875, 2, 9, float("nan"), float("inf"), -float("inf")]
    wanted = [0, 0, 64, 96, 128, 144, 192, 255, 255, 255, 128, 255, 0]
    for kind in (numpy.float32, numpy.float64):
        assert list(Octets().push(numpy.array(values, kind))) == wanted
        assert list(Octets("i8").push(numpy.array(values, kind))) == [it ^ 128 for it in wanted]
    assert list(Octets().push(numpy.array([-32768, -257, -1, 0, 255, 256, 32767], numpy.int16))) == [
        0,
        126,
        127,
        128,
        128,
        129,
        255,
    ]
    assert list(Octets().push(numpy.arange(-128, 128).astype(numpy.int8))) == list(range(256))
    # Cut anywhere, what is scaled by its own mean is the same.
    floats, draw = levels(bytes(200_000), 3), random.Random(5)
    whole, cut = Octets(scale="mean"), Octets(scale="mean")
    first = whole.push(floats) + whole.finish()
    assert first == b"".join(map(cut.push, pieces(floats, draw, 30_000))) + cut.finish() and len(first) == 200_000
    assert abs(numpy.abs(numpy.frombuffer(first, numpy.uint8).astype(float) - 127.5).mean() - 64) < 4
    empty = Octets(scale="mean")
    assert empty.push(numpy.zeros(70_000, numpy.float32)) + empty.finish() == bytes([128]) * 70_000
