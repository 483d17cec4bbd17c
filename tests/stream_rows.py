#!/usr/bin/env python3
"""Writes rows for the tests of the C library's streams: the worked rows of the program's `encode`, `decode`, `report` and `bits` in
crates/tm_rows/stdin. Where octets go through `encode` first it is that of docs/reference.

    tests/stream_rows.py > rows.txt

A row is a word, the numbers of a configuration in the order of tmchan_config, and fields in hexadecimal ("-": none):

    send NUMBERS FRAMES SYMBOLS            what is given, and what has to come
    receive NUMBERS OCTETS FRAMES NOTES    the notes are the lines of the program; "*" in place of the frames: they are not told
    bits NUMBERS OCTETS BITS NOTES         the decoder's bits, eight to an octet, or "*"; the line of the phase, and one of their number
    check NUMBERS ANSWER                   a configuration that is refused
    recording NUMBERS NUMBERS              a configuration, and what tmchan_config_recording makes of it: README's line for its rate
    windows NUMBERS OCTETS LINES PLACES    of each window of the soft decoder the numbers of tmchan_window, and of each
                                           codeblock its place and the number of its marker's first symbol, a line each
"""
import random
import re
import runpy
import sys
from pathlib import Path

NAMES = "code depth length inner invert randomize basis tolerance repair soft start skip workers limit fly keep ahead phase polarity batch pack verify rescan bad".split()
UNSET = 2**64 - 1
DEFAULTS = dict(code=16, depth=1, length=UNSET, inner=12, invert=UNSET, randomize=1, basis=0, tolerance=0, repair=UNSET, soft=0, start=0, skip=0,
                workers=1, limit=2**32, fly=0, keep=8192, ahead=256, phase=0, polarity=0, batch=32, pack=1, verify=0, rescan=0, bad=0)
WORDS = {"code": {"rs16": 16, "rs8": 8, "none": 0}, "inner": {"none": 0, "1/2": 12, "2/3": 23, "3/4": 34, "5/6": 56, "7/8": 78},
         "invert": {"on": 1, "off": 0}, "randomize": {"on": 1, "off": 0}, "basis": {"dual": 0, "poly": 1}, "soft": {"u8": 0, "i8": 1},
         "start": {"zero": 0, "any": 1}, "phase": {"given": 0, "find": 1, "follow": 2}, "polarity": {"given": 0, "find": 1}, "pack": {"on": 1, "off": 0},
         "rescan": {"on": 1, "off": 0}, "bad": {"drop": 0, "pass": 1}}
REFUSALS = {word: -16 - k for k, word in enumerate("code depth length inner switch basis tolerance repair soft start skip workers limit fly keep ahead "
                                                   "phase polarity batch pack verify rescan bad".split())}
COMMANDS = ("encode", "decode", "report", "bits")
TOP = Path(__file__).parent.parent
values = {}

sys.path.insert(0, str(TOP / "docs/reference"))
reference = runpy.run_path(str(TOP / "docs/reference/__main__.py"))
import inner  # noqa: E402  (of docs/reference, as the three below)
from options import read_words  # noqa: E402
from outer import bits_of, cadu  # noqa: E402
from receiver import places  # noqa: E402


def symbols(digits, high, low):
    return bytes(high if digit == "1" else low for octet in bytes.fromhex(digits) for digit in f"{octet:08b}")


def octets(text):
    made = b""
    for word in re.findall(r'"[^"]*"|\'[^\']*\'|\S+', text):
        if word[0] in "\"'":
            made += word[1:-1].encode() + b"\n" * (word[0] == '"')
            continue
        word, _, times = word.partition("*")
        part = (values[word[1:]] if word[0] == "$" else symbols(word[3:], 255, 0) if word.startswith("u8:")
                else symbols(word[3:], 127, 128) if word.startswith("i8:") else bytes.fromhex(word))
        made += part * int(times or 1)
    return made


def config(words):
    made = dict(DEFAULTS)
    for name, value in zip(words[::2], words[1::2]):
        name = name.removeprefix("--")
        if name not in made:
            return None
        if value in WORDS.get(name, {}):
            made[name] = WORDS[name][value]
        elif name in WORDS or not re.fullmatch(r"\d{1,20}", value) or int(value) >= UNSET:
            made[name] = 2**63                       # outside every list and range
        else:
            made[name] = int(value)
    return made


def rows():
    text = (TOP / "crates/tm_rows/stdin").read_text()
    for part in text.split("\n\n"):
        fields = {}
        for line in part.splitlines():
            name, found, value = line.partition(": ")
            if not found or line[0] == "#":
                continue
            if name.startswith("value "):
                values[name[6:]] = values.get(name[6:], b"") + octets(value)
            else:
                fields[name] = fields.get(name, "") + " " + value
        if "line" in fields:
            yield fields


def given_octets(fields):
    """What the call reads: None where another command than `encode` made it."""
    made, first = octets(fields.get("in", "")), fields.get("through", "").split()[1:]
    if not first:
        return made
    return reference["run"](first, lambda most: made[:most])[0] if first[0] == "encode" else None


def decoder_lines(notes):
    return "".join(re.findall(r"^phase .*\n", notes, re.M) + [line + "\n" for line in re.findall(r"bits \d+", notes)])


def rows_of(fields):
    """The rows, each as words; none where the library has no such call."""
    command, *words = fields["line"].split()[1:] or [""]
    made = config(words) if command in COMMANDS and len(words) % 2 == 0 else None
    if made is None or {"failing read", "failing write", "room of out", "room of notes"} & set(fields):
        return
    numbers = " ".join(str(made[name]) for name in NAMES)
    if "refused" in fields:
        reason = fields["refused"].strip()
        if reason in REFUSALS and command in ("encode", "decode"):
            yield "check", numbers, str(REFUSALS[reason])
        return
    given, out, notes = given_octets(fields), octets(fields.get("out", "")), octets(fields.get("notes", ""))
    if given is None or fields["status"].strip() not in "016":
        return
    if command == "encode":
        yield "send", numbers, hexadecimal(given), hexadecimal(out)
        return
    if command == "report":
        out, notes = None, out
    if command != "bits":
        yield "receive", numbers, hexadecimal(given), hexadecimal(out), hexadecimal(notes)
        out = None
    if made["inner"]:
        yield "bits", numbers, hexadecimal(given), hexadecimal(out), hexadecimal(decoder_lines(notes.decode()).encode())


def inside():
    """Codeblocks of which each second begins inside the one before it, by docs/reference: more than there are one after the other."""
    two = bytes.fromhex("1acffc1dff480ec09a0d70bc8e1acffc1ddd9faf41fd8e9a844714792ec036e71978")
    for batch in ("1", "32"):
        words = ["--code", "rs8", "--length", "1", "--inner", "none", "--fly", "1", "--rescan", "on", "--batch", batch]
        made, notes, _ = reference["run"](["decode", *words], lambda most: (20 * two)[:most])
        assert notes.count(b"frame ") > len(20 * two) // 21 + 1
        yield "receive", " ".join(str(config(words)[name]) for name in NAMES), (20 * two).hex(), hexadecimal(made), hexadecimal(notes)


def recordings():
    """README's lines for a recording, of which the first is for rate 1/2; the options that they leave have other numbers than the defaults."""
    text = (TOP / "README.md").read_text().replace("\\\n", "")
    lines = [line.split() for line in re.findall(r"tmchan decode (--start any [^<]*)<", text)]
    kept = dict(depth=5, basis=1, skip=3, batch=1)
    for inner in WORDS["inner"].values():
        wanted = config(lines[inner != 12]) | kept | {"inner": inner}
        given = DEFAULTS | kept | dict(inner=inner, keep=64, ahead=0, tolerance=1, fly=2, verify=7)
        yield "recording", *(str(numbers[name]) for numbers in (given, wanted) for name in NAMES)


def windows_row(words, given):
    """The windows of soft octets, and the symbols of the codeblocks in their bits, by docs/reference."""
    _, made = read_words(["decode", *words])
    received = inner.received(given, True, made)
    windows = [" ".join(map(str, inner.window_record(window, received.phase[0], made))) + "\n" for window in received.windows]
    found = [f"{place} {inner.symbol_at(place, received, made)}\n" for place, *_ in places(received.bits, made)]
    yield "windows", " ".join(str(config(words)[name]) for name in NAMES), hexadecimal(given), *(hexadecimal("".join(it).encode()) for it in (windows, found))


def drawn(words, rng, frames, noise=0, tail=12):
    """The symbols of drawn frames and of some bits after them, with noise."""
    _, made = read_words(["encode", *words])
    sent = bits_of(b"".join(cadu(rng.randbytes(4), made) for _ in range(frames))) + [rng.randrange(2) for _ in range(tail)]
    return bytearray(min(255, max(0, round(octet + rng.gauss(0, noise)))) for octet in inner.symbols(sent, made))


def counted():
    """Windows at each rate, after skipped octets, of a phase that is found, or followed with an octet lost or doubled before a window in the
    middle or the last one, of signed octets, of a stream that ends with a window, of no step, of windows of 65,536 steps, and none where there is no inner code."""
    rng = random.Random(41)
    small = "--code none --length 4 --keep 64 --ahead 8".split()
    followed = [*small, "--phase", "follow", "--start", "any"]
    yield from windows_row(small, b"")
    yield from windows_row(small, drawn(small, rng, 3, tail=32))
    for skip in ("1", "15"):
        yield from windows_row([*small, "--skip", skip], rng.randbytes(int(skip)) + drawn(small, rng, 3))
    for rate in ("1/2", "2/3", "3/4", "5/6", "7/8"):
        words = [*small, "--inner", rate]
        yield from windows_row(words, drawn(words, rng, 3, 70))
        yield from windows_row([*words, "--phase", "find", "--start", "any"], rng.randbytes(3) + drawn(words, rng, 6, 15))
    for at in (1, 150, 400):
        for times in (0, 2):
            given = drawn(followed, rng, 6, 30)
            given[at:at + 1] = times * given[at:at + 1]
            yield from windows_row([*followed, "--skip", "5"], bytes(5) + given)
    given = drawn(followed, rng, 6, 30)
    del given[-130]
    yield from windows_row([*followed, "--soft", "i8"], bytes(octet ^ 128 for octet in given))
    given = drawn(followed, rng, 6, 30, tail=6)
    del given[641]                                   # so that octets are dropped before the last window, which is not closed
    yield from windows_row(followed, given)
    plain = "--code none --length 4 --inner none".split()
    unit = b"\x1a\xcf\xfc\x1d" + rng.randbytes(4)
    yield from windows_row([*plain, "--skip", "5"], b"\xa8" + 2 * unit)
    yield from windows_row([*plain, "--pack", "off", "--skip", "3"], bytes([9, 200, 30]) + bytes(255 * bit for bit in bits_of(unit)))
    long = "--code none --length 4 --keep 65536 --ahead 8".split()
    yield from windows_row(long, drawn(long, rng, 1, 60, tail=65653))


def hexadecimal(octets):
    return "*" if octets is None else octets.hex() or "-"


found = [row for fields in rows() for row in rows_of(fields)] + [*inside(), *recordings(), *counted()]
for row in found:
    print(*row)
sys.exit({row[0] for row in found} != {"send", "receive", "bits", "check", "recording", "windows"})
