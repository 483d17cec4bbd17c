"""What is found of recordings, made anew for each condition, and whether the options that are found get the frames."""
import pytest
from links import coded, frames, levels, noise, right, soft, tmchan

numpy = pytest.importorskip("numpy")
long = pytest.mark.long


def recording(link, sent, decibels, change=lambda floats: floats, seed=1):
    return change(levels(link.send(b"".join(sent)), decibels, seed))


def check(given, sent, least, words, **known):
    """Finds the options of octets or an array, receives with them, and compares."""
    found = tmchan.find(given, **known)
    assert found.link is not None, found.reason
    assert " ".join(found.words()) == words
    came, strange = right(found.receive(given), sent)
    assert came >= least and strange == 0
    return found


HALF, SENT = tmchan.Link(depth=2), frames(40, 446)


def test_soft_octets_in_mid_stream():
    floats = recording(HALF, SENT, 0, lambda it: it[999:])
    found = check(soft(floats).tobytes(), SENT, 39, "--input u8 --depth 2")
    assert (
        found.link.options["phase"] == "find"
        and found.link.options["polarity"] == "given"
        and found.good == 39
        and found.bad == 0
    )
    assert tmchan.find(soft(floats), form="u8", depth=2).words() == found.words()
    assert tmchan.find(soft(floats), form="u8", depth=3).link is None


@pytest.mark.parametrize(
    "form, make",
    [
        ("i8", lambda it: (it * 30).clip(-128, 127).astype(numpy.int8)),
        pytest.param("i16", lambda it: (it * 2000).clip(-32768, 32767).astype("<i2"), marks=long),
        ("f32", lambda it: (it * 0.0031).astype("<f4")),
        pytest.param("f64", lambda it: (it * 12000).astype("<f8"), marks=long),
        pytest.param("unpacked", lambda it: (it > 0).astype(numpy.uint8), marks=long),
        pytest.param("packed", lambda it: numpy.packbits(it > 0), marks=long),
        ("packed-lsb", lambda it: numpy.packbits(it > 0, bitorder="little")),
    ],
)
def test_forms(form, make):
    given = make(recording(HALF, SENT, 3, lambda it: it[998:]))
    check(given.tobytes(), SENT, 39, f"--input {form} --depth 2")
    if form in ("i8", "i16", "f32", "f64"):
        check(given, SENT, 39, f"--input {form} --depth 2")
        check(given.astype(given.dtype.newbyteorder(">")), SENT, 39, f"--input {form} --depth 2")


@long
@pytest.mark.parametrize(
    "form, make",
    [
        ("u8", lambda it: soft(it)),
        ("packed", lambda it: numpy.packbits(it > 0)),
        ("unpacked", lambda it: (it > 0).astype(numpy.uint8)),
        ("f32", lambda it: it),
    ],
)
def test_no_inner_code(form, make):
    link, sent = tmchan.Link(inner="none", pack="off"), frames(60, 223)
    given = make(recording(link, sent, 8, lambda it: it[1000:] if form != "packed" else it[1003:]))
    check(given.tobytes(), sent, 59, f"--input {form} --inner none")


@long
@pytest.mark.parametrize(
    "options, words",
    [
        (dict(inner="7/8"), "--inner 7/8"),
        (
            dict(inner="3/4", code="rs8", depth=4, length=800, basis="poly"),
            "--code rs8 --depth 4 --length 800 --inner 3/4 --basis poly",
        ),
        (
            dict(inner="2/3", invert="on", randomize="off", length=100),
            "--length 100 --inner 2/3 --invert on --randomize off",
        ),
        (dict(code="none", length=128), "--code none --length 128"),
    ],
)
def test_links(options, words):
    link = tmchan.Link(**options)
    sent = frames(60, link.frame_length)
    check(soft(recording(link, sent, 6, lambda it: it[1001:])).tobytes(), sent, 59, "--input u8 " + words)


@long
def test_pairs_swapped():
    floats = recording(HALF, SENT, 2)
    check(soft(floats.reshape(-1, 2)[:, ::-1].reshape(-1)).tobytes(), SENT, 40, "--input u8 --swap --depth 2")


def test_a_head_of_noise():
    floats = recording(HALF, SENT, 3, lambda it: numpy.concatenate([noise(300_001), it, noise(50_000, 3)]))
    found = check(soft(floats).tobytes(), SENT, 39, "--input u8 --depth 2")
    assert found.link.options["phase"] == "follow"


@long
def test_a_short_pass_in_much_noise():
    floats = recording(HALF, SENT, 3, lambda it: numpy.concatenate([noise(3_000_001), it, noise(1_000_000, 3)]))
    check(soft(floats).tobytes(), SENT, 39, "--input u8 --depth 2")


@long
def test_two_passes_with_the_second_inverted():
    floats = recording(
        HALF,
        SENT,
        3,
        lambda it: numpy.concatenate([noise(100_000), it[: len(it) // 2], noise(200_001, 3), -it[len(it) // 2 :]]),
    )
    # (of each a window of the decoder is lost, in which it begins, and that is two frames)
    found = check(soft(floats).tobytes(), SENT, 36, "--input u8 --depth 2")
    assert (found.link.options["phase"], found.link.options["polarity"]) == ("follow", "find")


def test_a_flip_in_the_middle():
    floats = recording(HALF, SENT, 3, lambda it: numpy.concatenate([it[:100_000], -it[100_000:]]))
    found = check(soft(floats).tobytes(), SENT, 38, "--input u8 --depth 2")
    assert found.link.options["polarity"] == "find"


@long
def test_slips():
    floats = recording(HALF, SENT, 4, lambda it: numpy.delete(it, [120_000, 250_000]))
    found = check(soft(floats).tobytes(), SENT, 28, "--input u8 --depth 2")
    assert found.link.options["phase"] == "follow"


@long
def test_slips_between_the_places_that_are_looked_at():
    """Two of them, so that the phase is the same before and after."""
    sent = frames(120, 446)
    floats = recording(HALF, sent, 4, lambda it: numpy.delete(it, [45_001, 115_000]))
    # (each costs a window of the decoder, and that is up to three frames; between them there are eight)
    found = check(soft(floats).tobytes(), sent, 114, "--input u8 --depth 2")
    assert found.link.options["phase"] == "follow"


@long
def test_a_carrier_before_and_after():
    """Its symbols are all of one kind, and the convolutional code has a path of these."""
    carrier = noise(200_001) / 2 - 1
    for head in (carrier, 0 * carrier - 1):
        floats = recording(HALF, SENT, 3, lambda it: numpy.concatenate([head, it, head, head]))
        found = check(soft(floats).tobytes(), SENT, 38, "--input u8 --depth 2")
        assert found.link.options["phase"] == "follow"
    assert "no inner code is seen" in tmchan.find(soft(carrier).tobytes(), places=2).reason


@long
def test_marks_of_change():
    """NRZ-M before the inner code."""
    bits, changed, last = tmchan.Link(depth=2, inner="none", pack="off").send(b"".join(SENT)), [], 0
    for bit in bits:
        last ^= bit & 1
        changed.append(last)
    encoded = bytes(255 * it for it in coded(changed))
    check(soft(levels(encoded, 3)).tobytes(), SENT, 39, "--input u8 --nrz-m --depth 2")


@pytest.mark.parametrize(
    "options, decibels", [pytest.param(dict(depth=5), -2.3, marks=long), (dict(depth=5, inner="7/8"), 2.2)]
)
def test_too_noisy(options, decibels):
    link = tmchan.Link(**options)
    found = tmchan.find(soft(recording(link, frames(60, 1115), decibels)).tobytes())
    assert (
        found.link is None
        and "too noisy for its code" in found.reason
        and "rs16 at depth 5" in found.reason
        and found.words() == []
    )
    with pytest.raises(ValueError, match="too noisy"):
        list(found.receive(b""))


@long
@pytest.mark.parametrize("form", ["f32", "packed"])
def test_too_noisy_without_an_inner_code(form):
    """A codeword has 80 wrong symbols, and a marker one or two wrong bits."""
    floats = recording(tmchan.Link(depth=5, inner="none", pack="off"), frames(40, 1115), 1.5, lambda it: it[1003:])
    given = floats if form == "f32" else numpy.packbits(floats > 0)
    found = tmchan.find(given.tobytes())
    assert found.link is None and found.words() == []
    assert "too noisy for its code" in found.reason and "of the bits are wrong" in found.reason


@long
def test_no_code_is_proposed_where_markers_alone_are_seen():
    """At each noise at which markers stand at even distances, and no codeblock decodes."""
    for decibels in (-3.5, -3):
        found = tmchan.find(soft(recording(tmchan.Link(depth=5), frames(40, 1115), decibels)).tobytes(), places=3)
        assert found.link is None and ("no sync markers" in found.reason or "too noisy" in found.reason)


def test_nothing_to_find():
    assert "fewer than 1000" in tmchan.find(b"").reason
    assert tmchan.find(soft(noise(100_000)), places=2).link is None
    assert tmchan.find(bytes(100_000), places=2).link is None
    with pytest.raises(TypeError):
        tmchan.find("text")
    with pytest.raises(TypeError, match="tolerance"):
        tmchan.find(b"", tolerance=2)
    with pytest.raises(tmchan.Refused, match="depth"):
        tmchan.find(b"", depth=7)
