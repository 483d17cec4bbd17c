"""Tests of the page."""
import json
import os
import random
import re
import resource
import struct
import subprocess
import time

from drive import (
    DRAWN,
    HALF,
    SETTINGS,
    count,
    frames_of,
    opened,
    press,
    processes,
    processor_time,
    received,
    set_options,
    slide,
    take,
    text,
    worker_time,
)
from passes import totals_of
from shared import LIBRARY, PAGE, PROGRAM, TOP, digest, program, test


# Frames of the first view that did not come back
LOST = "#stage-received .frames .bad, #stage-received .frames .missing"


@test
def page_loads(room):
    """The page loads, shows a first frame within a second, and breaks no policy."""
    browser = room.browser()
    browser.size(1400, 1000)
    browser.go(room.server.address + "#learn")
    browser.until(DRAWN)
    took = browser.run("performance.now()")
    asked = {it for it in room.server.asked}
    complaints = browser.complaints()
    assert not complaints, complaints
    # On a busy machine the clock counts others too: the best of some, and the processor's time of all the browser's
    # processes besides.
    times, used = [took], []
    for _ in range(4):
        before = processor_time(browser)
        browser.go(room.server.address + "#learn")
        browser.until(DRAWN)
        times.append(browser.run("performance.now()"))
        used.append(processor_time(browser) - before)
    assert min(times) < 1000 or min(used) < 1, (times, used)
    assert count(browser, LOST) == 0
    best = f"at best {min(times):.0f} ms, by {min(used):.2f} s of processors"
    return f"first frame after {took:.0f} ms, {best}; {len(asked)} paths asked for"


@test
def opened_as_a_file(room):
    """A page that is opened as a file says that it wants a server."""
    browser = room.browser()
    browser.go((PAGE / "index.html").as_uri())
    browser.until("/from a server alone/.test(document.getElementById('module').textContent)", 10)
    return text(browser, "module")


def compared(room, browser, path, words, octets=None):
    """Receives what is chosen, and compares the frames by SHA-256, and the last line, with those of the program.
    Returns what the page says."""
    said = received(browser)
    _, frames, notes = program(
        ["decode", *(SETTINGS if "--inner" in words else HALF), *words], path.read_bytes() if octets is None else octets
    )
    mine = frames_of(browser)
    assert digest(mine) == digest(frames), (path.name, len(mine), len(frames), said)
    report = browser.run(
        """(async () => {
            const { last } = await import('/use-view.mjs'), { good, bad, fixed, totals } = last().summary;
            return `frames ${good} bad ${bad} fixed ${fixed} bits ${totals.bits}`;
        })()"""
    )
    assert report == notes.decode().splitlines()[-1], (report, notes[-200:])
    return said


@test
def drops(room):
    """A file is dropped, with several options: frames, by SHA-256, and counts are the program's."""
    browser, done = opened(room, "use"), []
    for name, options in (
        ("plain.u8", {}),
        ("noisy.u8", {"decibels": 1.2, "head": 20001}),
        ("turned.u8", {"invert_from": 300_001}),
        ("deep.u8", {"depth": 5, "frames": 60}),
        ("fast.u8", {"inner": "7/8", "decibels": 6.0}),
    ):
        path = room.recording(name, **options)
        set_options(browser, depth=options.get("depth", 1), inner=options.get("inner", "1/2"))
        at = browser.run(
            "(() => { const it = document.getElementById('drop').getBoundingClientRect(); return [it.x + 20, it.y + 20]; })()"
        )
        browser.run("scrollTo(0, 0)")
        browser.drop(path, *at)
        browser.until(f"document.getElementById('use-said').textContent.startsWith({json.dumps(name)})")
        words = [it for name in ("depth", "inner") if name in options for it in (f"--{name}", str(options[name]))]
        said = compared(room, browser, path, words)
        done.append(f"{name}: {said.splitlines()[0]}")
    shown = count(browser, "#figures svg")
    rows = count(browser, "#report tbody tr")
    assert shown == 6 and rows == 100, (shown, rows)
    assert not browser.complaints(), browser.complaints()
    print(*(f"    {it}" for it in done), sep="\n")
    return f"{len(done)} recordings"


def downloaded(room, browser, ending):
    """What the browser keeps of a file that the page gives it."""
    folder = room.path("downloads")
    folder.mkdir(exist_ok=True)
    browser.ask("Browser.setDownloadBehavior", {"behavior": "allow", "downloadPath": str(folder)}, None)
    name = browser.run(
        f"""(() => {{
            const buttons = [...document.querySelectorAll('#downloads button')];
            const it = buttons.find((it) => it.textContent.endsWith({json.dumps(ending)}));
            it.click();
            return it.textContent;
        }})()"""
    )
    end = time.monotonic() + 20
    while not (folder / name).exists():
        assert time.monotonic() < end, f"{name} did not come"
        time.sleep(0.05)
    time.sleep(0.3)
    octets = (folder / name).read_bytes()
    (folder / name).unlink()
    return octets


@test
def examples(room):
    """Who has no recording has the page make one, and receives it: also of another link."""
    browser, said = opened(room, "use"), []
    for options in ({}, {"inner": "3/4", "depth": 4}, {"code": "none", "length": 100, "depth": 1}):
        set_options(browser, **{"code": "rs16", "inner": "1/2", "depth": 1, "length": "", **options})
        browser.run("document.getElementById('use-said').replaceChildren(); document.getElementById('example').click()")
        browser.until("document.getElementById('use-said').textContent.startsWith('example.u8')")
        said.append(received(browser))
        frames = int(re.match(r"(\d+) frames? of", said[-1])[1])
        assert 80 <= frames <= 100 and count(browser, "#figures svg") >= 3, said[-1]
    assert not browser.complaints(), browser.complaints()
    return "; ".join(it.splitlines()[0] for it in said)


@test
def downloads(room):
    """The files that the page gives: frames and report are the program's, and the page of the pass has the totals of the
    Python package."""
    browser, path = opened(room, "use"), room.recording("noisy.u8", decibels=1.2, head=20001)
    take(browser, path)
    received(browser)
    browser.until("!document.getElementById('results').hidden")
    _, frames, notes = program(["decode", *HALF], path.read_bytes())
    assert digest(downloaded(room, browser, ".frames")) == digest(frames)
    lines = notes.decode().splitlines()
    assert downloaded(room, browser, ".report.txt").decode().splitlines() == lines
    page = downloaded(room, browser, ".html").decode()
    assert page.startswith("<!doctype html>") and page.count("<svg") == 6
    said = f"{len(frames):,} octets of frames, {len(lines)} lines"
    if not LIBRARY.exists():
        return f"{said}; totals not compared with the Python package's: there is no out/libtmchan.so"
    shown = re.findall(r'<th scope="row" class="text">(.*?)</th><td>(.*?)</td>', page)
    right = totals_of(path.read_bytes())
    assert shown[: len(right)] == right and any("1.2 dB" in it for _, it in right), (shown, right)
    return f"{said}, {len(right)} totals"


@test
def json_lines(room):
    """The lines of JSON are those of tmchan-receive --json, window by window and in its order, Es/N0 to a millionth."""
    if not LIBRARY.exists():
        return "not compared with tmchan-receive: there is no out/libtmchan.so"
    browser, path, kinds = opened(room, "use"), room.recording("noisy.u8", decibels=1.2, head=20001), {}
    # (longer than what is read at once, of another form, for which Python needs numpy, and at another rate)
    floats, fast = room.path("lines.f32"), room.recording("lines.u8", inner="3/4", decibels=4.0, depth=2, frames=250)
    floats.write_bytes(struct.pack(f"<{path.stat().st_size}f", *((it - 127.5) / 50 for it in path.read_bytes())))
    python = "/usr/bin/python3"
    has_numpy = subprocess.run([python, "-c", "import numpy"], stderr=subprocess.DEVNULL, check=False).returncode == 0
    for it, form, options in (
        (path, "u8", {}),
        *([(floats, "f32", {})] if has_numpy else []),
        (fast, "u8", {"depth": 2, "inner": "3/4"}),
        (room.path("three.u8"), "u8", {}),
    ):
        if it.name == "three.u8":
            it.write_bytes(b"abc")
        set_options(browser, **{"depth": 1, "inner": "1/2", **options})
        take(browser, it)
        received(browser)
        rows = downloaded(room, browser, ".jsonl").decode().splitlines()
        words = ["--input", form, "--code", "rs16"] + [word for name in options for word in (f"--{name}", str(options[name]))]
        ran = subprocess.run(
            [python, "-m", "tmchan", "receive", *words, "--json", "-q", it.name],
            cwd=room.folder,
            env={**os.environ, "PYTHONPATH": str(TOP / "python")},
            stdout=subprocess.PIPE,
            check=False,
        )
        wanted = ran.stdout.decode().splitlines()
        assert len(rows) == len(wanted) > 0, (it.name, len(rows), len(wanted))
        for number, (mine, right) in enumerate(zip(map(json.loads, rows), map(json.loads, wanted))):
            kinds[right["kind"]] = kinds.get(right["kind"], 0) + 1
            if right.get("es_n0") is not None:
                assert abs(mine["es_n0"] - right["es_n0"]) < 1e-6, (it.name, number, mine, right)
                mine["es_n0"] = right["es_n0"]
            assert list(mine.items()) == list(right.items()), (it.name, number, mine, right)
    assert set(kinds) == {"window", "codeblock", "end"} and not browser.complaints(), (kinds, browser.complaints())
    counts = ", ".join(f"{count:,} of kind {kind}" for kind, count in kinds.items())
    return counts if has_numpy else f"{counts}; not of floats: /usr/bin/python3 has no numpy"


@test
def without_windows(room):
    """Without the windows of the soft decoder frames and totals are the same, and nothing is said of Es/N0 and of where
    slips are."""
    browser, path = opened(room, "use"), room.path("slipped.u8")
    octets = room.recording("plain.u8").read_bytes()
    path.write_bytes(octets[:200_001] + octets[200_002:])
    take(browser, path)
    with_windows = compared(room, browser, path, [])
    titles = "[...document.querySelectorAll('#figures figure h4')].map((it) => it.textContent)"
    marks = "document.querySelectorAll('#figures svg')[{}].querySelectorAll('.bad').length"
    seen = browser.run(titles)
    assert "Es/N0" in seen and "1 slip" in with_windows and browser.run(marks.format(4)) == 1, (seen, with_windows)
    press(browser, "quality")
    assert compared(room, browser, path, []) == with_windows
    left = browser.run(titles)
    assert [it for it in seen if it not in left] == ["Es/N0", "Symbol error rate"], left
    figure = browser.run(f"document.querySelectorAll('#figures figure')[{left.index('Slips, flips and gaps')}].textContent")
    assert "where was not looked for" in figure and browser.run(marks.format(2)) == 0, figure
    rows = browser.run("[...document.querySelectorAll('#figures .numbers thead th')].map((it) => it.textContent)")
    assert "slips" not in rows and "flips" in rows, rows
    assert not browser.complaints(), browser.complaints()
    return with_windows.replace("\n", " ")


def wave_file(kind, bits, data):
    """A WAV file of two channels with samples of this kind, 1 for integers and 3 for floats."""
    form = struct.pack("<IHHIIHH", 16, kind, 2, 48000, 0, 0, bits)
    return (
        b"RIFF" + struct.pack("<I", 36 + len(data)) + b"WAVEfmt " + form + b"data" + struct.pack("<I", len(data)) + data
    )


def octets_of(bits, places):
    """Octets of bits, the first of each at the first of these places."""
    return bytes(sum(bit << k for bit, k in zip(bits[at : at + 8], places)) for at in range(0, len(bits), 8))


@test
def forms(room):
    """Recordings of the other forms come to the frames of the one in u8, where the form holds it."""
    browser, path = opened(room, "use"), room.recording("forms.u8", decibels=5.0, frames=100)
    octets = path.read_bytes()
    _, sent, _ = program(["decode", *HALF], octets)
    assert len(sent) == 100 * 223
    floats = [(it - 127.5) / 50 for it in octets]
    hard, numbers, size = [it >> 7 for it in octets], [round(9000 * it) for it in floats], len(octets)
    made = {
        "a.i8": ("i8", bytes(it ^ 128 for it in octets)),
        "a.s16": ("i16", struct.pack(f"<{size}h", *numbers)),
        "a.f32": ("f32", struct.pack(f"<{size}f", *floats)),
        "a.f64": ("f64", struct.pack(f"<{size}d", *floats)),
        "be.f32": ("f32be", struct.pack(f">{size}f", *floats)),
        "be.s16": ("i16be", struct.pack(f">{size}h", *numbers)),
        "one.bin": ("unpacked", bytes(hard)),
        "a.bits": ("packed", octets_of(hard, range(7, -1, -1))),
        "lsb.bin": ("packed-lsb", octets_of(hard, range(8))),
        "sixteen.wav": (None, wave_file(1, 16, struct.pack(f"<{size}h", *numbers))),
        "floats.wav": (None, wave_file(3, 32, struct.pack(f"<{size}f", *floats))),
    }
    for name, (form, data) in made.items():
        room.path(name).write_bytes(data)
        take(browser, room.path(name))
        if form:
            set_options(browser, form=form)
        said = received(browser)
        assert digest(frames_of(browser)) == digest(sent), (name, said)
    # Without an inner code, bits packed; and the two symbols of each pair the other way round.
    cadus = subprocess.run(
        [PROGRAM, "encode", "--inner", "none"], input=sent, stdout=subprocess.PIPE, check=True
    ).stdout
    room.path("cadus.bits").write_bytes(cadus)
    take(browser, room.path("cadus.bits"))
    set_options(browser, inner="none", form="packed")
    received(browser)
    assert digest(frames_of(browser)) == digest(sent)
    pairs = bytearray(octets)
    pairs[0::2], pairs[1::2] = octets[1::2], octets[0::2]
    room.path("swapped.u8").write_bytes(pairs)
    take(browser, room.path("swapped.u8"))
    set_options(browser, inner="1/2", form="u8", swap=True)
    received(browser)
    assert digest(frames_of(browser)) == digest(sent)
    set_options(browser, swap=False)
    return f"{len(made) + 2} forms"


@test
def sliders(room):
    """Each slider of the first view changes what is shown, as it has to."""
    browser = opened(room, "learn")
    browser.until(DRAWN)
    frames = count(browser, "#stage-frames .frames li")

    def whole():
        return count(browser, "#stage-received .frames .good, #stage-received .frames .repaired")

    def bits():
        return int(re.search(r"([\d,]+) bits? w", text(browser, "stage-decoder"))[1].replace(",", ""))

    def column(number):
        return browser.run(
            f"[...document.querySelectorAll('#stage-markers td:nth-child({number})')].map((it) => it.textContent)"
        )

    clean = slide(browser, "noise", 12)
    assert clean.startswith(f"{frames} of {frames} frames") and "; 0 octets were repaired" in clean, clean
    sent = browser.run("document.getElementById('text').value")
    assert text(browser, "came") == sent
    some = slide(browser, "noise", 0.5)
    assert f"{frames} of {frames}" in some or "repaired" in some, some
    lost = slide(browser, "noise", -3)
    assert whole() < frames and count(browser, LOST) > 0, lost
    assert "is lost]" in text(browser, "came")
    slide(browser, "noise", 6)
    slipped = slide(browser, "slips", 2)
    assert int(re.search(r"(\d+) slips?", slipped)[1]) >= 1, slipped
    assert whole() >= frames - 2, slipped
    assert text(browser, "slips-said") == "2"
    slide(browser, "slips", 0)
    slide(browser, "flip", 50)
    assert set(column(5)) == {"inverted", "upright"} and whole() >= frames - 2, column(5)
    slide(browser, "flip", 100)
    before = bits()
    slide(browser, "gap", 2)
    assert bits() > before * 1.1 and whole() >= frames - 2, (before, bits())
    slide(browser, "gap", 0)
    # Bridged places, and repaired codewords, over draws of noise near the limit.
    seen = set()
    for value in (0, -1, -1.75, -2.25, -2.75):
        slide(browser, "noise", value)
        for _ in range(6):
            press(browser, "again")
            browser.until(DRAWN)
            seen |= set(column(3))
            for kind in (
                "#stage-received .frames .repaired",
                "#stage-received .frames .bad",
                "#stage-words .octets .wrong",
            ):
                seen |= {kind.rpartition(".")[2]} if count(browser, kind) else set()
    assert {"bridged", "found", "repaired", "bad", "wrong"} <= seen, seen
    # The buttons of channels set the sliders.
    for name, shown in (
        ("A gap", ("1 dB", "none", "never", "as long as 2 frames")),
        ("No noise", ("12 dB", "none", "never", "none")),
    ):
        browser.run(
            f"[...document.querySelectorAll('#channels button')].find((it) => it.textContent === '{name}').click()"
        )
        browser.until(DRAWN)
        found = tuple(text(browser, f"{it}-said") for it in ("noise", "slips", "flip", "gap"))
        assert found == shown, (name, found)
    # Options of the link, and another frame in detail.
    slide(browser, "noise", 4)
    for name, value in (
        ("learn-depth", 4),
        ("learn-code", '"rs8"'),
        ("learn-inner", '"3/4"'),
        ("learn-inner", '"7/8"'),
        ("learn-inner", '"1/2"'),
        ("learn-length", 60),
        ("learn-length", 1),
        ("learn-length", 60),
        ("text", '"Kurzer Text: \\u00e4\\u00f6\\u00fc"'),
        ("text", '""'),
    ):
        said = slide(browser, name, value)
        assert re.match(r"\d+ of \d+ frames?", said), (name, value, said)
    slide(browser, "learn-depth", 1)
    slide(browser, "text", '"Two frames, of which the second one is shown in detail, since it was chosen."')
    browser.run(
        "document.getElementById('shown').value = 1;"
        " document.getElementById('shown').dispatchEvent(new Event('change', { bubbles: true }))"
    )
    assert "Frame 2:" in text(browser, "stage-cadu") and "frame 2" in text(browser, "stage-words")
    assert not browser.complaints(), browser.complaints()
    return f"{frames} frames; seen {', '.join(sorted(seen))}"


@test
def metrics(room):
    """The path metrics of a window are those that the program writes, and its best path is drawn."""
    browser = opened(room, "learn")
    browser.until(DRAWN)
    slide(browser, "noise", 2)
    browser.run("document.getElementById('metrics').open = true")
    browser.until("document.querySelector('#metrics canvas')")
    first = browser.run("document.querySelector('#metrics .body p').textContent")
    # The same text by the page's scripts, and its symbols to the program: the first window of the certificate begins it.
    symbols, words = browser.run(
        """(async () => {
            const { learn } = await import('/learn.mjs'), { load } = await import('/tmchan.mjs');
            const channel = { decibels: 2, slips: 0, flip: 1, gap: 0, seed: 1 };
            const link = { code: 'rs16', depth: 1, length: 36, inner: '1/2' };
            const { soft, words } = learn(await load(), { text: document.getElementById('text').value, link, channel });
            return [Array.from(soft), words];
        })()"""
    )
    status, certificate, _ = program(["certify", *words], bytes(symbols))
    steps, kept, _, metric = struct.unpack(">IIBQ", certificate[:17])
    assert status == 0 and f"{steps} steps, of which {kept} are kept; the best path costs {metric:,}." in first, first
    browser.run("document.getElementById('window').value = 3")
    browser.run("document.getElementById('window').dispatchEvent(new Event('input', { bubbles: true }))")
    browser.until("/Window 3/.test(document.querySelector('#metrics .body p').textContent)")
    browser.until("document.querySelector('#metrics canvas')")
    # The path that is drawn has one register in each step.
    orange, wide = browser.run(
        """(() => {
            const it = document.querySelector('#metrics canvas');
            const { data } = it.getContext('2d').getImageData(0, 0, it.width, 64);
            let count = 0;
            for (let k = 0; k < data.length; k += 4) count += data[k] === 235 && data[k + 1] === 90;
            return [count, it.width];
        })()"""
    )
    assert orange == wide, (orange, wide)
    assert not browser.complaints(), browser.complaints()
    return first.split(";")[0]


@test
def bad_files(room):
    """An empty file, a PNG, three octets, WAV files that are none, and options that are refused: each is said in a sentence."""
    browser, said = opened(room, "use"), {}
    picture = bytes.fromhex("89504e470d0a1a0a0000000d4948445200000001000000010806000000") + random.Random(1).randbytes(
        5000
    )
    for name, octets, right in (
        ("empty.u8", b"", "No sync marker was found in 0 bits"),
        ("picture.png", picture, "No sync marker was found in"),
        ("three.u8", b"abc", "No sync marker was found in 1 bit."),
        ("cut.wav", b"RIFF\0\0\0\0WAVEfmt ", "a WAV file without samples"),
        (
            "a-law.wav",
            b"RIFF\0\0\0\0WAVEfmt \x10\0\0\0\x06\0\x01\0" + bytes(10) + b"\x08\0data\x04\0\0\0abcd",
            "is not read",
        ),
    ):
        room.path(name).write_bytes(octets)
        take(browser, room.path(name))
        said[name] = received(browser) if name[-3:] != "wav" else text(browser, "use-said")
        assert right in said[name], (name, said[name])
    take(browser, room.path("three.u8"))
    for options, right in (
        ({"depth": 6}, "depth: the depth is none of"),
        ({"depth": 1, "length": 224}, "length: no word"),
        ({"length": "", "fly": 16}, "fly: not from 0 to 15"),
        ({"fly": 1, "keep": 63}, "keep: not from 64"),
    ):
        set_options(browser, **options)
        browser.until(f"document.getElementById('command').textContent.startsWith('refused: {right.split(':')[0]}')")
        assert right in received(browser), options
    set_options(browser, keep=8192)
    browser.until("document.getElementById('command').textContent.startsWith('tmchan decode')")
    # No file at all
    browser.go(room.server.address + "#use")
    browser.until("/^Library/.test(document.getElementById('module').textContent)")
    press(browser, "receive")
    assert "There is no recording yet" in text(browser, "use-said")
    assert not browser.complaints(), browser.complaints()
    return "; ".join(said.values()).replace("\n", " ")


@test
def stops(room):
    """What is received up to a stop comes, and the page goes on."""
    browser, path = opened(room, "use"), room.path("long.u8")
    octets = room.recording("plain.u8").read_bytes() * 64
    path.write_bytes(octets)
    take(browser, path)
    press(browser, "receive")
    browser.until("document.getElementById('progress').value > 0.05")
    # The page answers while the worker works.
    began = time.monotonic()
    assert browser.run("document.title").startswith("tmchan") and time.monotonic() - began < 1
    press(browser, "stop")
    browser.until("!document.getElementById('receive').disabled")
    said = text(browser, "use-said")
    assert said.startswith("Stopped after"), said
    done = browser.run("(async () => (await import('/use-view.mjs')).last().done)()")
    assert 0 < done < len(octets)
    _, frames, _ = program(["decode", *HALF], octets[:done])
    assert digest(frames_of(browser)) == digest(frames)
    path = room.recording("plain.u8")
    take(browser, path)
    compared(room, browser, path, [])
    return said.splitlines()[0]


def trapping(octets, export):
    """The module with a trap as the first instruction of one of its calls."""
    octets, at, found = bytearray(octets), 8, {}

    def number(at):
        value = shift = 0
        while True:
            octet = octets[at]
            value |= (octet & 127) << shift
            at, shift = at + 1, shift + 7
            if octet < 128:
                return value, at

    while at < len(octets):
        kind = octets[at]
        size, begin = number(at + 1)
        found[kind] = begin
        at = begin + size
    assert 2 not in found, "the module imports something"
    count, at = number(found[7])
    for _ in range(count):
        length, at = number(at)
        name, at = octets[at : at + length].decode(), at + length
        kind, (index, at) = octets[at], number(at + 1)
        if name == export:
            break
    assert name == export
    _, at = number(found[10])
    for _ in range(index):
        size, at = number(at)
        at += size
    _, at = number(at)
    groups, at = number(at)
    for _ in range(groups):
        _, at = number(at)
        at += 1
    assert octets[at] in (0x20, 0x23), hex(octets[at])
    _, end = number(at + 1)
    octets[at:end] = b"\x00" + b"\x01" * (end - at - 1)
    return bytes(octets)


@test
def traps(room):
    """A module that traps is thrown away, and the page says so; with the next try it goes on."""
    whole = (PAGE / "tmchan.wasm").read_bytes()
    try:
        room.server.files["/tmchan.wasm"] = trapping(whole, "tmchan_receiver_push_windows")
        browser, path = opened(room, "use"), room.recording("plain.u8")
        take(browser, path)
        said = received(browser)
        assert "trapped" in said and "thrown away" in said, said
        again = received(browser)
        assert "trapped" in again, again
    finally:
        room.server.files.pop("/tmchan.wasm")
    compared(room, browser, path, [])
    browser.go(room.server.address + "#learn")
    browser.until(DRAWN)
    return said.splitlines()[0]


@test
def without_memory64(room):
    """Where memory of 64-bit addresses is missing the page says so, and uses the other module; files above 10 MB are refused."""
    browser = room.browser("--js-flags=--no-experimental-wasm-memory64")
    browser.size(1400, 1000)
    browser.go(room.server.address + "#use")
    browser.until("/^Library/.test(document.getElementById('module').textContent)")
    is_missing = browser.run("(async () => !(await import('/tmchan.mjs')).hasMemory64())()")
    if not is_missing:
        browser.go(room.server.address + "?module=32#use")
        browser.until("/^Library/.test(document.getElementById('module').textContent)")
    said = text(browser, "module")
    assert "no WebAssembly memory of 64-bit addresses" in said, said
    path = room.recording("plain.u8")
    take(browser, path)
    compared(room, browser, path, [])
    room.path("large.u8").write_bytes(bytes(10_000_001))
    take(browser, room.path("large.u8"))
    large = received(browser)
    assert "files up to 10 MB" in large, large
    browser.run("location.hash = '#learn'")
    browser.until(DRAWN)
    browser.run("document.getElementById('metrics').open = true")
    browser.until("document.querySelector('#metrics .problem')")
    assert not browser.complaints(), browser.complaints()
    how = "a browser without it" if is_missing else "by ?module=32, since this browser has no flag against it"
    return f"{how}: {large.splitlines()[0]}"


@test
def to_a_file(room):
    """Frames go to a file as they come, where the browser can: here to one of the page's own folder."""
    browser, path = opened(room, "use"), room.recording("plain.u8")
    take(browser, path)
    got = browser.run(
        """(async () => {
            const folder = await navigator.storage.getDirectory(), file = await folder.getFileHandle('frames', { create: true });
            await (await import('/use-view.mjs')).receive(file);
            const octets = await (await file.getFile()).arrayBuffer(), digest = await crypto.subtle.digest('SHA-256', octets);
            return [...new Uint8Array(digest)].map((it) => it.toString(16).padStart(2, '0')).join('');
        })()"""
    )
    _, frames, _ = program(["decode", *HALF], path.read_bytes())
    # There is no button for the frames.
    assert got == digest(frames) and count(browser, "#downloads button") == 3, got
    return f"{len(frames):,} octets"


@test
def large(room):
    """A file of 1 GB takes no memory that grows, but for its frames."""
    browser, path = opened(room, "use"), room.path("huge.u8")
    piece = subprocess.run(
        [PROGRAM, "encode", "--inner", "none", "--pack", "off"],
        input=random.Random(2).randbytes(223 * 200),
        stdout=subprocess.PIPE,
        check=True,
    ).stdout
    take(browser, room.recording("plain.u8"))
    received(browser)
    with open(path, "wb") as file:
        while file.tell() < 1_000_000_000:
            file.write(piece * 20)
    take(browser, path)
    set_options(browser, inner="none")
    most, first = 0, None
    press(browser, "receive")
    while browser.run("document.getElementById('receive').disabled"):
        most = max(most, *(size for _, size in processes(browser).values()))
        if first is None and browser.run("document.getElementById('progress').value") > 0.2:
            first = most
        time.sleep(0.3)
    said = text(browser, "use-said")
    frames = (path.stat().st_size // len(piece)) * 200
    path.unlink()
    assert f"{frames:,} frames of 223 octets" in said, said
    # The browser keeps the frames' parts where it wants: the process that serves files may hold some of them.
    pages = browser.run("(async () => (await import('/use-view.mjs')).last().pages)()")
    assert pages * 65536 < 10_000_000 and first and most - first < frames * 223 + 100_000_000, (pages, first, most)
    grown = f"the largest process {first / 1e6:.0f} MB at a fifth and at most {most / 1e6:.0f} MB"
    return f"{said.splitlines()[0]} The module has {pages * 65536 / 1e6:.1f} MB; {grown}"


@test
def speed(room):
    """Rate 1/2, clean: at least half of the program's frames by processor time, in the same run, by the strict defaults of
    both, and without the windows, which the program does not count either."""
    browser, path, count = opened(room, "use"), room.path("clean.u8-long"), 1800
    symbols = subprocess.run(
        [PROGRAM, "encode", "--depth", "5"],
        input=random.Random(3).randbytes(1115 * count),
        stdout=subprocess.PIPE,
        check=True,
    ).stdout
    path.write_bytes(symbols)
    press(browser, "strict")
    press(browser, "quality")
    set_options(browser, depth=5)
    take(browser, path)
    bits, loads = 8 * 1115 * count / 1e6, [os.getloadavg()[0]]

    def page_times():
        """The seconds that the worker, which reads and receives, takes for the recording, and all of the page's process,
        which draws too."""
        before, worker = processes(browser), worker_time(browser)
        # (without looking again and again whether it is done, which would be counted)
        browser.run("(async () => (await import('/use-view.mjs')).receive())()")
        whole = max(time - before[it][0] for it, (time, _) in processes(browser).items() if it in before)
        return worker_time(browser) - worker, whole

    def program_time():
        used = resource.getrusage(resource.RUSAGE_CHILDREN)
        program(["decode", "--depth", "5"], symbols)
        now = resource.getrusage(resource.RUSAGE_CHILDREN)
        return now.ru_utime + now.ru_stime - used.ru_utime - used.ru_stime

    # Of many short rounds the best, since a processor that others share takes longer for the same.
    rounds = [(*page_times(), program_time()) for _ in range(24)]
    worker, whole, programs = map(min, zip(*rounds))
    loads.append(os.getloadavg()[0])
    press(browser, "quality")
    counting = min(page_times() for _ in range(3))[0]
    said = (
        f"{bits / worker:.1f} Mbit/s of the worker, {bits / whole:.1f} of all of the page's process, the program"
        f" {bits / programs:.1f}; the worker with windows {bits / counting:.1f}; load {min(loads):.1f} to {max(loads):.1f}"
    )
    assert whole <= 2 * programs, (said, rounds)
    return said


@test
def keyboard(room):
    """All of it can be reached and used by keyboard, and each control has a name."""
    browser = room.browser()
    browser.size(1400, 1000)
    # (without a fragment, at which the first Tab would begin)
    browser.go(room.server.address)
    browser.until(DRAWN)
    seen = []
    for _ in range(40):
        browser.key("Tab")
        seen.append(
            browser.run(
                "document.activeElement.id || document.activeElement.className || document.activeElement.tagName"
            )
        )
        if seen[-1] == "noise" and seen.count("noise") == 1:
            before = browser.run("document.getElementById('noise').value")
            browser.key("ArrowRight")
            assert float(browser.run("document.getElementById('noise').value")) == float(before) + 0.25
            browser.until(f"document.getElementById('noise-said').textContent === '{float(before) + 0.25:g} dB'")
            assert browser.run("document.getElementById('noise').ariaValueText") == f"{float(before) + 0.25:g} dB"
    wanted = ["skip", "to-learn", "to-use", "text", "noise", "slips", "flip", "gap", "again", "shown"]
    assert (
        list(dict.fromkeys(it for it in seen if it in wanted)) == wanted
        and seen[: seen.index("noise")].count("BUTTON") == 7
    ), seen
    # The link of a stage, and the one to the content, leave the view.
    browser.run("location.hash = 'use'")
    browser.until("!document.getElementById('use').hidden")
    browser.run("location.hash = 'content'")
    browser.run("new Promise((done) => setTimeout(done, 100))")
    assert browser.run("document.getElementById('learn').hidden && !document.getElementById('use').hidden")
    browser.run("location.hash = 'learn'")
    browser.until("!document.getElementById('learn').hidden")
    browser.run("document.getElementById('to-use').focus()")
    browser.key("Enter", text="\r")
    browser.until("!document.getElementById('use').hidden && document.getElementById('learn').hidden")
    # The view that came is read from its head, and its first control is the next one.
    assert browser.run("document.activeElement.id") == "use-title"
    browser.key("Tab")
    assert browser.run("document.activeElement.id") == "file"
    # (with what came of a recording, too)
    for name, condition in (
        ("example", "document.getElementById('use-said').textContent.startsWith('example.u8')"),
        ("receive", "!document.getElementById('results').hidden && document.activeElement.id === 'receive'"),
    ):
        browser.run(f"document.getElementById('{name}').focus()")
        browser.key("Enter", text="\r")
        browser.until(condition)
    nameless = []
    for hash in ("learn", "use"):
        browser.run(f"location.hash = '{hash}'; for (const it of document.querySelectorAll('details')) it.open = true")
        browser.until(f"!document.getElementById('{hash}').hidden")
        for node in browser.ask("Accessibility.getFullAXTree")["nodes"]:
            role = node.get("role", {}).get("value")
            if (
                role
                in (
                    "slider",
                    "spinbutton",
                    "combobox",
                    "textbox",
                    "button",
                    "checkbox",
                    "link",
                    "progressbar",
                    "img",
                    "image",
                    "region",
                    "progressIndicator",
                )
                and not node.get("ignored")
                and not node.get("name", {}).get("value")
            ):
                nameless.append((hash, role, node.get("backendDOMNodeId")))
    assert not nameless, nameless
    heads = browser.run("[...document.querySelectorAll('h1,h2,h3')].map((it) => it.tagName).join('')")
    assert heads.startswith("H1H2") and "H1H1" not in heads
    return f"{len(set(seen))} stops"


# Colours of page.css that stand on one another
COLOURS = [
    ("text", "back"),
    ("text", "panel"),
    ("faint", "back"),
    ("faint", "panel"),
    ("accent", "back"),
    ("accent", "panel"),
    ("on-accent", "accent"),
    ("bad", "back"),
    ("bad", "panel"),
    ("marker", "panel"),
    ("good", "panel"),
]


def contrast(browser, *names):
    """The contrast of two of the page's colours, by WCAG's formula."""

    def light(name):
        found = browser.run(f"getComputedStyle(document.documentElement).getPropertyValue('--{name}')").strip()
        parts = [int(found[at : at + 2], 16) / 255 for at in (1, 3, 5)]
        parts = [it / 12.92 if it <= 0.03928 else ((it + 0.055) / 1.055) ** 2.4 for it in parts]
        return 0.2126 * parts[0] + 0.7152 * parts[1] + 0.0722 * parts[2]

    low, high = sorted(light(it) for it in names)
    return (high + 0.05) / (low + 0.05)


def looked_at(room, browser, width, name, place):
    """Looks whether nothing is wider than the page, and colours are far enough apart, and keeps pictures."""
    wide = browser.run("document.documentElement.scrollWidth")
    beyond = "[...document.querySelectorAll('body *')].find((it) => it.getBoundingClientRect().right > innerWidth + 1)"
    assert wide <= width, (name, wide, browser.run(f"({beyond})?.outerHTML.slice(0, 200)"))
    least = min((contrast(browser, *it), it) for it in COLOURS)
    assert least[0] >= 4.5, least
    if room.pictures:
        browser.picture(room.pictures / f"{name}-whole.png")
        browser.run(f"document.getElementById({json.dumps(place)})?.scrollIntoView()")
        browser.picture(room.pictures / f"{name}.png", False)


@test
def widths(room):
    """Both views at 360 and 1,400 pixels, light and dark: nothing is wider than the page, and colours are far enough
    apart; and so is the page of a pass, in one file that asks for nothing."""
    path = room.recording("pass.u8", decibels=1.1, head=50001, invert_from=500_001, frames=200)
    for width, is_dark in ((1400, False), (1400, True), (360, False), (360, True)):
        name = f"{width}{'-dark' if is_dark else ''}"
        browser = opened(room, "learn", width, 900 if width > 1000 else 740, is_dark)
        browser.until(DRAWN)
        slide(browser, "noise", -1.5)
        slide(browser, "slips", 1)
        browser.run("document.getElementById('metrics').open = true")
        browser.until("document.querySelector('#metrics canvas')")
        looked_at(room, browser, width, f"web-learn-{name}", "module")
        browser.run("location.hash = 'use'")
        take(browser, path)
        set_options(browser, keep=1024, ahead=128)
        received(browser)
        browser.until("!document.getElementById('results').hidden")
        # (also with all that can be opened)
        browser.run("for (const it of document.querySelectorAll('#figures details')) it.open = true")
        assert browser.run("document.documentElement.scrollWidth") <= width, name
        browser.run("for (const it of document.querySelectorAll('#figures details')) it.open = false")
        looked_at(room, browser, width, f"web-use-{name}", "use-said")
        assert not browser.complaints(), browser.complaints()
    saved = browser.run(
        """(async () => {
            const { last } = await import('/use-view.mjs'), { pageOf } = await import('/figures.mjs'), it = last();
            return pageOf(it.summary, it.said, await (await fetch('/page.css')).text());
        })()"""
    )
    assert len(saved) < 500_000 and "<script" not in saved, len(saved)
    assert "http" not in saved.replace("http://www.w3.org/2000/svg", "")
    room.path("saved.html").write_text(saved)
    for width in (1400, 360):
        browser.size(width, 900)
        browser.go(room.path("saved.html").as_uri())
        browser.until("document.querySelectorAll('svg').length === 6")
        looked_at(room, browser, width, f"web-pass-{width}", "")
    return f"the page of a pass has {len(saved.encode()):,} octets"
