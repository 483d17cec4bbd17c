"""The blocks for GNU Radio, in flowgraphs that run, and the files of gnuradio-companion."""
import argparse
import os
import subprocess
import sys
import time
import warnings

import pytest
from links import TOP, coded, frames, levels, noise, tmchan

numpy = pytest.importorskip("numpy")
with warnings.catch_warnings():
    warnings.simplefilter("ignore")
    pytest.importorskip("gnuradio.gr")
    import pmt
    from gnuradio import blocks, gr

    from tmchan import gnuradio

pytestmark = pytest.mark.filterwarnings("ignore")
LINK, SENT = tmchan.Link(length=100), frames(200, 100)


def run(*chain, messages=None):
    graph, store = gr.top_block(), blocks.message_debug()
    graph.connect(*chain)
    if messages:
        graph.msg_connect((messages, "frames"), (store, "store"))
    graph.run()
    return [store.get_message(number) for number in range(store.num_messages())]


@pytest.mark.parametrize("kind", ["float", "i8", "u8"])
def test_receiver(kind):
    floats = levels(LINK.send(SENT)[31:], 2)
    source = {
        "float": lambda: blocks.vector_source_f(floats.tolist()),
        "i8": lambda: blocks.vector_source_b(
            (floats * 32).clip(-128, 127).astype(numpy.int8).view(numpy.uint8).tolist()
        ),
        "u8": lambda: blocks.vector_source_b((floats * 32 + 128).clip(0, 255).astype(numpy.uint8).tolist()),
    }[kind]()
    block = gnuradio.receiver(input=kind, length=100, keep=512)
    came = run(source, block, messages=block)
    octets = [bytes(pmt.u8vector_elements(pmt.cdr(it))) for it in came]
    assert octets + [it.frame for it in block.rest] == SENT[1:] and 0 < len(block.rest) < 5
    fields = [pmt.to_python(pmt.car(it)) for it in came]
    assert all(set(it) == {"place", "symbol", "fixed", "distance", "bridged", "inverted"} for it in fields)
    assert [b["symbol"] - a["symbol"] for a, b in zip(fields, fields[1:])] == [16 * 136] * (len(fields) - 1)
    assert [b["place"] - a["place"] for a, b in zip(fields, fields[1:])] == [8 * 136] * (len(fields) - 1)
    assert not any(it["inverted"] or it["bridged"] for it in fields) and sum(it["fixed"] for it in fields) >= 0


@pytest.mark.parametrize("output", ["float", "i8", "u8"])
@pytest.mark.parametrize("source", ["bytes", "pdus"])
def test_sender(source, output):
    block = gnuradio.sender(source=source, output=output, length=100)
    store = blocks.vector_sink_f() if output == "float" else blocks.vector_sink_b()
    octets = b"".join(SENT)
    if source == "bytes":
        run(blocks.vector_source_b(list(octets + b"left over")), block, store)
    else:
        port = pmt.intern("frames")
        for at in range(0, len(octets), 1000):
            piece = octets[at : at + 1000]
            block.to_basic_block()._post(port, pmt.cons(pmt.PMT_NIL, pmt.init_u8vector(len(piece), list(piece))))
        block.to_basic_block()._post(port, pmt.cons(pmt.PMT_NIL, pmt.init_u8vector(3, [1, 2, 3])))
        block.to_basic_block()._post(port, pmt.PMT_EOF)
        run(block, store)
    wanted = numpy.frombuffer(LINK.send(SENT), numpy.uint8)
    got = numpy.array(store.data())
    assert len(got) == len(wanted)
    if output == "float":
        assert numpy.array_equal(got, wanted / 127.5 - 1)
    else:
        assert numpy.array_equal(got.astype(numpy.uint8), wanted ^ (128 if output == "i8" else 0))


def test_options_are_checked():
    for make in (gnuradio.receiver, gnuradio.sender):
        with pytest.raises(tmchan.Refused, match="depth"):
            make(depth=7)
        with pytest.raises(KeyError):
            make("float64") if make is gnuradio.receiver else make(output="float64")


def test_without_an_inner_code():
    link = tmchan.Link(length=100, inner="none")
    packed = link.send(SENT)
    bits = numpy.unpackbits(numpy.frombuffer(packed, numpy.uint8))
    for source, options in (
        (blocks.vector_source_f((bits * 2.0 - 1).tolist()), dict(input="float")),
        (blocks.vector_source_b((bits * 255).tolist()), dict(input="u8")),
        (blocks.vector_source_b(list(packed)), dict(input="u8", pack="on")),
    ):
        block = gnuradio.receiver(length=100, inner="none", **options)
        came = run(source, block, messages=block)
        assert [bytes(pmt.u8vector_elements(pmt.cdr(it))) for it in came] + [it.frame for it in block.rest] == SENT
    for options in (dict(input="i8"), dict(input="u8", nrz_m=True), dict(input="u8", swap=True)):
        with pytest.raises(ValueError, match="pack"):
            gnuradio.receiver(inner="none", pack="on", **options)


def numbers(floats, every, **options):
    """What comes out of a receiver's two streams, and its PDUs."""
    block, rate, lock, store = (
        gnuradio.receiver(every=every, **options),
        blocks.vector_sink_f(),
        blocks.vector_sink_f(),
        blocks.message_debug(),
    )
    graph = gr.top_block()
    graph.connect(blocks.vector_source_f(floats.tolist()), block)
    graph.connect((block, 0), rate)
    graph.connect((block, 1), lock)
    graph.msg_connect((block, "frames"), (store, "store"))
    graph.run()
    count = store.num_messages() + sum(it.good for it in block.rest)
    return numpy.array(rate.data()), numpy.array(lock.data()), count


@pytest.mark.parametrize("inner", ["1/2", "7/8", "none"])
def test_rate_and_lock(inner):
    """Frames, noise, frames: in lock over each, and out of it before and between."""
    link = tmchan.Link(length=100, inner=inner, pack="off")
    sent = SENT[:80]
    floats = levels(link.send(sent), 8 if inner != "none" else 20)
    # (of one in four codeblocks five symbols are wrong)
    size = len(floats) // len(sent)
    if inner == "none":
        for at in range(0, len(floats), 4 * size):
            floats[at + 100 : at + 140 : 8] *= -1
    gap = noise(30 * size, 3)
    every = 500
    options = dict(length=100, inner=inner, keep=512, ahead=64)
    rate, lock, count = numbers(numpy.concatenate([gap, floats, gap, floats]), every, **options)
    total = 2 * len(gap) + 2 * len(floats)
    assert len(rate) == len(lock) == total // every and set(lock) == {0, 1} and count >= 2 * len(sent) - 4
    # How late it may be: by two codeblocks and a window.
    late = 2 * size + 3 * 576 * 2
    parts = {True: [], False: []}
    begin = 0
    for is_signal, length in ((False, len(gap)), (True, len(floats))) * 2:
        parts[is_signal].append(lock[(begin + late) // every + 1 : (begin + length) // every])
        begin += length
    assert all((it == 1).all() and len(it) > 20 for it in parts[True])
    assert all((it == 0).all() and len(it) > 20 for it in parts[False])
    before = numpy.isnan(rate)
    assert before[: len(gap) // every].all() and not before[(len(gap) + late) // every + 1 :].any()
    if inner == "none":
        # (behind the last frame a place is taken without a marker, and that is uncorrectable)
        assert set(numpy.round(rate[~before] * 132).astype(int)) == {0, 5, 17}
    # The same, however the stream is cut: a number says what was known when its symbols had come.
    again = numbers(numpy.concatenate([gap, floats, gap, floats]), every, **options)
    assert numpy.array_equal(again[0], rate, equal_nan=True) and numpy.array_equal(again[1], lock)


def test_rate_of_uncorrectable_codewords():
    floats = levels(tmchan.Link(length=100, inner="none", pack="off").send(SENT[:40]), 20)
    size = len(floats) // 40
    for at in range(20 * size, 30 * size, size):
        floats[at + 200 : at + 800] *= -1
    rate, lock, count = numbers(floats, size, length=100, inner="none")
    assert count == 30 and (lock[1:] == 1).all() and len(lock) == 40
    assert numpy.array_equal(numpy.round(rate[1:] * 132), [0] * 19 + [17] * 10 + [0] * 10)
    rate, lock, count = numbers(floats, size, length=132, inner="none", code="none")
    assert count == 40 and numpy.isnan(rate).all() and (lock[1:] == 1).all()
    with pytest.raises(ValueError, match="every"):
        gnuradio.receiver(every=-1)


@pytest.mark.parametrize("name", ["receiver", "sender"])
def test_the_blocks_have_the_defaults_of_their_classes(name):
    """What gnuradio-companion makes of a block that nobody changed."""
    yaml = pytest.importorskip("yaml")
    with open(f"{gnuradio.GRC}/tmchan_{name}.block.yml", encoding="utf-8") as file:
        block = yaml.safe_load(file)
    line = block["templates"]["make"]
    for it in block["parameters"]:
        line = line.replace("${%s}" % it["id"], str(it["default"]))
    assert "$" not in line
    made, own = eval(line, {"tmchan": tmchan}), getattr(gnuradio, name)()
    assert vars(made.link)["options"] == vars(own.link)["options"]


def environment():
    return {**os.environ, "PYTHONPATH": os.pathsep.join(sys.path), "GRC_BLOCKS_PATH": gnuradio.GRC}


def test_the_example():
    ran = subprocess.run(
        [sys.executable, f"{TOP}/examples/gnuradio/receive.py", "20"],
        env=environment(),
        stdout=subprocess.PIPE,
        text=True,
    )
    assert ran.returncode == 0 and ran.stdout.startswith("20 of 20 frames are right, 0 came that nobody sent")


def compiled(file, folder):
    grcc = next((it for it in ("/usr/bin/grcc", "/usr/local/bin/grcc") if os.path.exists(it)), None)
    if not grcc:
        pytest.skip("there is no grcc")
    subprocess.run([grcc, "-o", str(folder), str(file)], env=environment(), check=True, stdout=subprocess.DEVNULL)


def test_a_flowgraph_with_rate_and_lock(tmp_path):
    """The example, with the receiver's numbers in two files."""
    with open(f"{TOP}/examples/gnuradio/link.grc", encoding="utf-8") as file:
        graph = file.read()
    sinks = "".join(
        f"- name: {it}\n  id: blocks_file_sink\n  parameters: {{file: '{tmp_path}/{it}', type: float, vlen: '1'}}\n"
        "  states: {coordinate: [0, 0], rotation: 0, state: enabled}\n"
        for it in ("rate", "lock")
    )
    graph = graph.replace("input: float, invert", "every: '1000', input: float, invert")
    begin = "\nconnections:\n"
    graph = graph.replace(begin, sinks + begin + "- [receiver, '0', rate, '0']\n- [receiver, '1', lock, '0']\n")
    (tmp_path / "measured.grc").write_text(graph.replace("id: link", "id: measured"))
    compiled(tmp_path / "measured.grc", tmp_path)
    subprocess.run(
        [sys.executable, str(next(tmp_path.glob("*.py"))), "--frames", "30"],
        env=environment(),
        stdin=subprocess.DEVNULL,
        stdout=subprocess.DEVNULL,
        check=True,
        timeout=100,
    )
    rate, lock = (numpy.fromfile(tmp_path / it, numpy.float32) for it in ("rate", "lock"))
    assert len(rate) == len(lock) > 100 and set(lock) <= {0, 1} and 0 <= numpy.nanmax(rate) < 0.1
    assert lock[len(lock) // 2 :].all()


def test_the_flowgraph(tmp_path):
    compiled(f"{TOP}/examples/gnuradio/link.grc", tmp_path)
    ran = subprocess.run(
        [sys.executable, str(tmp_path / "link.py"), "--frames", "30"],
        env=environment(),
        stdin=subprocess.DEVNULL,
        stdout=subprocess.PIPE,
        text=True,
        timeout=100,
    )
    assert ran.stdout.count("pdu length =       1115 bytes") in (28, 29, 30)


SATYAML = [
    {"framing": "CCSDS Concatenated", "RS basis": "dual"},
    {"framing": "CCSDS Concatenated", "frame size": 114, "RS basis": "conventional", "precoding": "differential"},
    {"framing": "CCSDS Concatenated", "frame size": 892, "RS basis": "dual", "RS interleaving": 4, "scrambler": "none"},
    {"framing": "CCSDS Concatenated", "RS basis": "dual", "convolutional": "NASA-DSN"},
    {"framing": "CCSDS Concatenated", "RS basis": "conventional", "convolutional": "CCSDS uninverted"},
    {"framing": "CCSDS Concatenated", "RS basis": "dual", "convolutional": "NASA-DSN uninverted", "scrambler": "CCSDS"},
    {"framing": "CCSDS Concatenated", "RS basis": "dual", "convolutional": "CCSDS"},
    {"framing": "CCSDS Reed-Solomon", "frame size": 1115, "RS basis": "dual", "RS interleaving": 5},
    {"framing": "CCSDS Reed-Solomon", "frame size": 114, "RS basis": "conventional"},
    {"framing": "CCSDS Reed-Solomon", "RS basis": "dual", "precoding": "differential", "scrambler": "none"},
    {"framing": "CCSDS Uncoded", "frame size": 300},
    {"framing": "CCSDS Uncoded", "frame size": 300, "scrambler": "none", "precoding": "differential"},
]


def options_of(transmitter):
    """The receiver's options of a SatYAML file's transmitter, by the table of docs/GUIDE.md."""
    with open(os.path.join(TOP, "docs", "GUIDE.md"), encoding="utf-8") as file:
        table = file.read().split("<!-- satyaml -->")[1].split("<!-- -->")[0]
    rows = [[cell.strip().strip("`") for cell in line.split("|")[1:-1]] for line in table.strip().splitlines()[2:]]
    found, used = {}, set()
    for word, options, default in rows:
        key, value = word.split(": ")
        if key not in transmitter and default:
            found.update(eval(f"dict({default})"))
        elif key in transmitter and value in (str(transmitter[key]), "N"):
            used.add(key)
            found.update(eval(f"dict({options.replace('=N', f'={transmitter[key]}')})"))
    assert used == set(transmitter)
    return found


def sent_by(options, octets):
    """The symbols of frames, as floats."""
    link = {name: value for name, value in options.items() if name not in ("swap", "nrz_m")}
    if options["nrz_m"]:
        # 1 where the signal changes, before the inner code
        bits = numpy.frombuffer(tmchan.Link(**{**link, "inner": "none", "invert": None}, pack="off").send(octets), "u1")
        changed = numpy.bitwise_xor.accumulate(bits & 1)
        symbols = coded(changed.tolist(), options["invert"] == "on") if link["inner"] == "1/2" else changed
        symbols = 255 * numpy.array(symbols, "u1")
    else:
        symbols = numpy.frombuffer(tmchan.Link(**link, pack="off").send(octets), "u1")
    if options.get("swap"):
        symbols = symbols.reshape(-1, 2)[:, ::-1].reshape(-1)
    return symbols


class Waiting(gr.sync_block):
    """Gives floats, and then waits for the word to end, since a flowgraph that ends drops messages on their way."""

    def __init__(self, floats):
        gr.sync_block.__init__(self, "waiting", None, [numpy.float32])
        self.left, self.may_end = floats.astype(numpy.float32), False

    def work(self, _, outputs):
        number = min(len(self.left), len(outputs[0]))
        outputs[0][:number], self.left = self.left[:number], self.left[number:]
        if not number:
            time.sleep(0.01)
        return number or (-1 if self.may_end else 0)


def by_gr_satellites(floats, transmitter):
    """The frames of the deframer that gr-satellites chooses, with the words passed on as it does."""
    pytest.importorskip("satellites")
    blocks.byte_t = getattr(blocks, "byte_t", gr.types.byte_t)
    from satellites.core.gr_satellites_flowgraph import gr_satellites_flowgraph

    names = {"frame size": "frame_size", "RS basis": "rs_basis", "RS interleaving": "rs_interleaving"}
    words = {names.get(key, key): value for key, value in transmitter.items() if key != "framing"}
    options = argparse.Namespace(syncword_threshold=4, verbose_rs=False)
    deframer = gr_satellites_flowgraph._deframer_hooks[transmitter["framing"]](options=options, **words)
    graph, source, store = gr.top_block(), Waiting(floats), blocks.message_debug()
    graph.connect(source, deframer)
    graph.msg_connect((deframer, "out"), (store, "store"))
    graph.start()
    seen, still = 0, 0
    while len(source.left) or still < 20:
        time.sleep(0.1)
        seen, still = store.num_messages(), still + 1 if store.num_messages() == seen else 0
    source.may_end = True
    graph.wait()
    return [bytes(pmt.u8vector_elements(pmt.cdr(store.get_message(it)))) for it in range(store.num_messages())]


@pytest.mark.long
@pytest.mark.parametrize("transmitter", SATYAML, ids=lambda it: ", ".join(map(str, it.values())))
def test_words_of_satyaml(transmitter):
    options = options_of(transmitter)
    # (gr-satellites keeps its last symbols, so that the last forty are not counted there)
    sent = frames(100, options["length"])
    floats = levels(sent_by(options, b"".join(sent)).tobytes(), 12)
    theirs = by_gr_satellites(floats, transmitter)
    block = gnuradio.receiver(**options)
    came = run(blocks.vector_source_f(floats.tolist()), block, messages=block)
    ours = [bytes(pmt.u8vector_elements(pmt.cdr(it))) for it in came] + [it.frame for it in block.rest]
    # (before the first bit of NRZ-M it takes a 0, as was sent)
    assert ours == sent
    assert len(set(theirs) & set(sent[:60])) >= 58


@pytest.mark.long
def test_a_data_sink_of_gr_satellites(tmp_path):
    """It takes the receiver's PDUs as those of a deframer."""
    pytest.importorskip("satellites")
    blocks.byte_t = getattr(blocks, "byte_t", gr.types.byte_t)
    from satellites.components import datasinks

    block, sink = gnuradio.receiver(length=100, keep=512), datasinks.kiss_file_sink(str(tmp_path / "frames.kss"))
    graph, source = gr.top_block(), Waiting(levels(LINK.send(SENT), 8))
    graph.connect(source, block)
    graph.msg_connect((block, "frames"), (sink, "in"))
    graph.start()
    while len(source.left):
        time.sleep(0.1)
    time.sleep(1)
    source.may_end = True
    graph.wait()
    del graph, sink
    written = (tmp_path / "frames.kss").read_bytes()
    assert all(b"\xc0\x00" + kiss(it) + b"\xc0" in written for it in SENT[:190])


def kiss(frame):
    return frame.replace(b"\xdb", b"\xdb\xdd").replace(b"\xc0", b"\xdb\xdc")
