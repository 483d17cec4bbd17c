#!/usr/bin/env python3
"""Makes the calls of the streams of each row on standard input (tests/stream_rows.py writes them) by ctypes, and those of the decoder and of the
search over what each row receives: their places are to be those of the receiver. Reports, totals and phases are written as the program's lines,
and compared with those.

    tests/c/streams.py out/libtmchan.so < rows.txt
"""
import ctypes
import sys

LIBRARY = ctypes.CDLL(sys.argv[1])
OPTIONS = 24
SIZE, NUMBERS, COUNT = ctypes.c_size_t, ctypes.c_uint64 * OPTIONS, ctypes.c_uint64
PIECE, CLOSED = 3000, -5
CODE, DEPTH, INNER, TOLERANCE, SOFT, SKIP, FLY, PHASE, POLARITY, PACK, VERIFY, RESCAN, BAD = 0, 1, 3, 7, 9, 11, 14, 17, 18, 20, 21, 22, 23
for name in ("sender_room", "sender_push", "sender_finish", "decoder_room", "decoder_push", "decoder_finish", "receiver_room",
             "receiver_push", "receiver_finish", "window_room", "decoder_push_windows", "decoder_finish_windows", "receiver_push_windows",
             "receiver_finish_windows"):
    getattr(LIBRARY, "tmchan_" + name).restype = ctypes.c_int64


def call(name, *arguments):
    return getattr(LIBRARY, "tmchan_" + name)(*arguments)


def of(config):
    """A configuration as a call takes it."""
    return config, SIZE(len(config))


class Report(ctypes.Structure):
    _fields_ = ([(name, COUNT) for name in ("place", "symbol", "frame", "frame_length")]
                + [(name, ctypes.c_uint8) for name in ("distance", "bridged", "inverted", "columns", "bad")]
                + [("repaired", ctypes.c_uint8 * 8)])

    def counts(self):
        return ["x" if count == 255 else count for count in self.repaired[:self.columns]]

    def line(self, number):
        words = " ".join(["words", *map(str, self.counts())]) if self.columns else "uncoded"
        return f"frame {number} at {self.place} {'bridged' if self.bridged else 'marker'} {self.distance}{' inverted' * self.inverted} {words}"


class Phase(ctypes.Structure):
    _fields_ = [("is_chosen", ctypes.c_uint32), ("skip", ctypes.c_uint32), ("cost", COUNT)]

    def lines(self):
        return [f"phase {self.skip} cost {self.cost}"] if self.is_chosen else []


def pieces(octets):
    return [octets[at:at + PIECE] for at in range(0, len(octets), PIECE)]


def send(config, given):
    stream, sent, written = NUMBERS(), b"", (COUNT * 3)()
    assert call("sender_open", stream, *of(config)) == 0
    for piece in pieces(given):
        room = call("sender_room", *of(config), SIZE(len(piece)))
        symbols = ctypes.create_string_buffer(room)
        count = call("sender_push", stream, piece, SIZE(len(piece)), symbols, SIZE(room), written)
        assert list(written) == [0, count, 0]
        sent += symbols.raw[:count]
    assert call("sender_finish", stream, written) == len(given) % call("frame_length", *of(config)) and list(written) == [0, 0, 0]
    return sent


def receive(config, given):
    """The frames, the reports, the number of bits, and the lines."""
    stream, received, found, octets, slips, totals, phase = NUMBERS(), b"", [], COUNT(), COUNT(), (COUNT * 2)(), Phase()
    written = (COUNT * 3)()
    assert call("receiver_open", stream, *of(config)) == 0
    for piece in pieces(given) + [None]:
        room = call("receiver_room", *of(config), SIZE(len(piece or b"")), ctypes.byref(octets))
        frames, reports = ctypes.create_string_buffer(octets.value), (Report * room)()
        arrays = frames, SIZE(octets.value), reports, SIZE(room)
        count = (call("receiver_push", stream, piece, SIZE(len(piece)), *arrays, written) if piece is not None
                 else call("receiver_finish", stream, *arrays, totals, ctypes.byref(phase), written))
        assert list(written) == [count, sum(report.frame_length for report in reports[:count]), 0]
        received += frames.raw[:written[1]]
        found += reports[:count]
        if piece is not None:
            assert call("receiver_phase", stream, ctypes.byref(phase)) == call("receiver_slips", stream, ctypes.byref(slips)) == 0
    assert slips.value <= totals[1] and (config[PHASE] == 2 or totals[1] == 0)
    assert call("receiver_slips", stream, ctypes.byref(slips)) == CLOSED
    bad = sum("x" in report.counts() for report in found)
    assert sum(report.bad for report in found) == bad and sum(report.frame_length == 0 for report in found) == (0 if config[BAD] else bad)
    fixed = sum(count for report in found for count in report.counts() if count != "x")
    lines = phase.lines() + [report.line(number) for number, report in enumerate(found)] + [f"slips {totals[1]}"] * (config[PHASE] == 2)
    return received, found, totals[0], lines + [f"frames {len(found) - bad} bad {bad} fixed {fixed} bits {totals[0]}"]


def decode(config, given):
    """The bits, and the lines of the phase."""
    stream, bits, phase, written = NUMBERS(), b"", Phase(), (COUNT * 3)()
    assert call("decoder_open", stream, *of(config)) == 0
    for piece in pieces(given) + [None]:
        room = call("decoder_room", *of(config), SIZE(len(piece or b"")))
        made = ctypes.create_string_buffer(room)
        count = (call("decoder_push", stream, piece, SIZE(len(piece)), made, SIZE(room), written) if piece is not None
                 else call("decoder_finish", stream, made, SIZE(room), ctypes.byref(phase), written))
        assert list(written) == [0, count, 0] and (piece is None or call("decoder_phase", stream, ctypes.byref(phase)) == 0)
        bits += made.raw[:count]
    return bits, phase.lines()


def windows(config, given, receives):
    """The lines of the windows that a decoder or a receiver counts, and of the places that the receiver finds."""
    stream, octets, phase, written, lines, places = NUMBERS(), COUNT(), Phase(), (COUNT * 3)(), "", ""
    kind = "receiver" if receives else "decoder"
    assert call(kind + "_open", stream, *of(config)) == 0
    for piece in pieces(given) + [None]:
        size = SIZE(len(piece or b""))
        count = call("receiver_room", *of(config), size, ctypes.byref(octets)) if receives else 0
        room = octets.value if receives else call("decoder_room", *of(config), size)
        made, reports, found = ctypes.create_string_buffer(room), (Report * count)(), call("window_room", *of(config), size)
        array = (COUNT * (9 * found))()
        arrays = made, SIZE(room), *([reports, SIZE(count)] if receives else []), array, SIZE(found)
        answer = (call(kind + "_push_windows", stream, piece, size, *arrays, written) if piece is not None
                  else call(kind + "_finish_windows", stream, *arrays, *([(COUNT * 2)()] if receives else []), ctypes.byref(phase), written))
        assert answer == written[0 if receives else 1] and written[2] <= found
        lines += "".join(" ".join(map(str, array[9 * k:9 * k + 9])) + "\n" for k in range(written[2]))
        places += "".join(f"{report.place} {report.symbol}\n" for report in reports[:written[0]])
        assert [report.frame for report in reports[:written[0]]] == [sum(it.frame_length for it in reports[:k]) for k in range(written[0])]
    return lines, places


def plain_bits(config, given):
    """The bits where there is no inner code."""
    bits = [octet >> k & 1 for octet in given for k in range(7, -1, -1)] if config[PACK] else [octet >> 7 ^ config[SOFT] for octet in given]
    return bytes(bits[config[SKIP]:])


def search(config, name, array):
    """The places in bits, or in octets."""
    search, place, at, found = NUMBERS(), NUMBERS(), COUNT(), []
    size = 8 * (call("cadu_length", *config[CODE:DEPTH + 1], SIZE(call("frame_length", *of(config)))) - 4)
    room = ctypes.create_string_buffer(config[VERIFY] * (32 + size))
    assert call("search_open", search, *[config[option] for option in (TOLERANCE, FLY, POLARITY)], size, config[VERIFY]) == 0
    while call(name, search, room, SIZE(len(room)), array, SIZE(len(array)), ctypes.byref(at), place) == 1:
        found.append((place[0], place[1] & 0xFFFFFF))
    return found


def octets_of(bits):
    return bytes(int("".join(map(str, bits[at:at + 8])), 2) for at in range(0, len(bits), 8))


def receives(config, given, wanted, notes):
    frames, found, count, lines = receive(config, given)
    places = [(report.place, report.distance | report.bridged << 8 | report.inverted << 16) for report in found]
    bits, phase = decode(config, given)
    bits = bits if config[INNER] else plain_bits(config, given)
    whole = bits[:len(bits) // 8 * 8]
    return (wanted in (frames, None) and lines == notes and len(bits) == count and phase == [line for line in lines if line.startswith("phase")]
            and (config[RESCAN] or search(config, "search_bits", bits) == places)
            and search(config, "search_octets", octets_of(whole)) == search(config, "search_bits", whole))


def decodes(config, given, wanted, notes):
    bits, lines = decode(config, given)
    return wanted in (octets_of(bits + bytes(-len(bits) % 8)), None) and lines + [f"bits {len(bits)}"] == notes


def octets(digits):
    return None if digits == "*" else b"" if digits == "-" else bytes.fromhex(digits)


def has_defaults():
    """The version and the defaults; and a handle that is closed answers so."""
    config, stream = NUMBERS(), NUMBERS()
    call("config_defaults", *of(config))
    return (call("version") == 0x000300 and call("config_check", *of(config)) == 0 and call("frame_length", *of(config)) == 223
            and call("receiver_open", stream, *of(config)) == 0 and call("close", stream) == 0 and call("close", stream) == CLOSED)


rows = [line.split() for line in sys.stdin]
wrong = [] if has_defaults() and rows else [0]
for number, (kind, *words) in enumerate(rows, 1):
    config, words = NUMBERS(*map(int, words[:OPTIONS])), words[OPTIONS:]
    if kind == "check":
        right = call("config_check", *of(config)) == int(words[0])
    elif kind == "recording":
        call("config_recording", *of(config))
        right = list(config) == list(map(int, words))
    elif kind == "windows":
        given, *wanted = (octets(word) for word in words)
        wanted = [it.decode() for it in wanted]
        right = windows(config, given, False) == (wanted[0], "") and windows(config, given, True) == (*wanted,)
    elif kind == "send":
        right = send(config, octets(words[0])) == octets(words[1])
    else:
        given, wanted, notes = map(octets, words)
        right = (receives if kind == "receive" else decodes)(config, given, wanted, notes.decode().splitlines())
    wrong += [] if right else [number]
print(f"{len(rows)} rows of streams by ctypes, {len(wrong)} differ", *wrong[:9])
sys.exit(bool(wrong))
