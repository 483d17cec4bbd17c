#!/usr/bin/env python3
"""Certificates of the soft decoder, written and read by a plain program that shares nothing with the codec: the answers of its tests.

    tests/certificates.py draw COUNT                            COUNT soft octets (form u8) that are drawn, often some at which symbols tie
    tests/certificates.py write RATE INVERT START KEEP AHEAD    soft octets on standard input, their certificate on standard output
    tests/certificates.py check RATE INVERT START KEEP AHEAD    a certificate on standard input, what `check` says of it on standard output
    tests/certificates.py sweep RATE INVERT START KEEP AHEAD STEP   a certificate with the lowest bit of an octet changed in turn, of each one before the columns of a
                                                                window and each STEPth of the columns: how many changes there are and how many pass, and a
                                                                number that mixes what `check` says of each; with --show a line `PLACE ANSWER` for each
RATE is 1/2, 2/3, 3/4, 5/6 or 7/8, INVERT on or off, START zero or any. The test of changed certificates in tm_vectors has the answer of

    tests/certificates.py draw 301 | tests/certificates.py write 1/2 on zero 64 3 | tests/certificates.py sweep 1/2 on zero 64 3 97
"""
import functools
import struct
import sys

PATTERNS = {
    "1/2": ("1", "1"),
    "2/3": ("10", "11"),
    "3/4": ("101", "110"),
    "5/6": ("10101", "11010"),
    "7/8": ("1000101", "1111010"),
}
FIRST = (0, 1, 2, 3, 6)
SECOND = (0, 2, 3, 5, 6)


class Code:
    def __init__(self, rate, invert, start, keep, ahead):
        self.first, self.second = PATTERNS[rate]
        self.invert = invert == "on"
        self.starts = range(64) if start == "any" else [0]
        self.keep, self.ahead = int(keep), int(ahead)
        self.sent = [[[self.symbols(t, r, b) for b in (0, 1)] for r in range(64)] for t in range(len(self.first))]

    def size(self, t):
        place = t % len(self.first)
        return (self.first[place] == "1") + (self.second[place] == "1")

    def span(self, t, steps):
        return sum(self.size(t + k) for k in range(steps))

    def symbols(self, t, register, bit):
        past = [bit] + [register >> (5 - k) & 1 for k in range(6)]
        one = sum(past[k] for k in FIRST) % 2
        two = (sum(past[k] for k in SECOND) + self.invert) % 2
        place = t % len(self.first)
        return [one] * (self.first[place] == "1") + [two] * (self.second[place] == "1")

    @functools.lru_cache(None)
    def edges(self, t, octets):
        """What step t of the pattern costs from each register by each bit."""
        sent = self.sent[t]
        return [[sum(255 - o if s else o for o, s in zip(octets, sent[r][b])) for b in (0, 1)] for r in range(64)]


def after(register, bit):
    return register // 2 + 32 * bit


# the registers from which one comes to each
FROM = [[r for r in range(64) if after(r, s // 32) == s] for s in range(64)]


def window(code, t, starts, octets, steps):
    """The columns and the best path of a window's steps."""
    column = [0 if r in starts else 1 << 30 for r in range(64)]
    columns, ways, at = [column], [], 0
    for k in range(steps):
        size = code.size(t + k)
        edge = code.edges((t + k) % len(code.first), octets[at : at + size])
        at += size
        before, column, way = column, [0] * 64, [0] * 64
        for s in range(64):
            even = 2 * (s % 32)
            sums = [before[even + odd] + edge[even + odd][s // 32] for odd in (0, 1)]
            way[s] = int(sums[1] < sums[0])
            column[s] = sums[way[s]]
        columns.append(column)
        ways.append(way)
    register = min(range(64), key=lambda r: (column[r], r))
    metric, bits = column[register], []
    for way in reversed(ways):
        bits.append(register // 32)
        register = 2 * (register % 32) + way[register]
    return columns, register, bits[::-1], metric


def write(code, soft):
    steps, size = 0, 0
    while size + code.size(steps) <= len(soft):
        size += code.size(steps)
        steps += 1
    out, t, at, starts = b"", 0, 0, code.starts
    while t < steps:
        count = min(steps - t, code.keep + code.ahead)
        kept = code.keep if steps - t > code.keep + code.ahead else count
        octets = soft[at : at + code.span(t, count)]
        columns, start, bits, metric = window(code, t, starts, octets, count)
        out += struct.pack(">IIBQ", count, kept, start, metric) + bytes(bits) + octets
        out += b"".join(struct.pack(">64I", *column) for column in columns)
        register = start
        for bit in bits[:kept]:
            register = after(register, bit)
        at += code.span(t, kept)
        t += kept
        starts = [register]
    return out


def judge(code, t, starts, octets, columns, bits, start, metric):
    """None, or why a window's columns do not certify its path."""
    for r in starts:
        if columns[0][r] != 0:
            return "edge 0 %d" % r
    at, cost, register = 0, 0, start
    wrong = None
    for k, bit in enumerate(bits):
        size = code.size(t + k)
        edge = code.edges((t + k) % len(code.first), octets[at : at + size])
        at += size
        cost += edge[register][bit]
        register = after(register, bit)
        if wrong is None:
            undercut = (s for s in range(64) for r in FROM[s] if columns[k + 1][s] > columns[k][r] + edge[r][s // 32])
            first = next(undercut, None)
            wrong = None if first is None else "edge %d %d" % (k + 1, first)
    if wrong is not None:
        return wrong
    for s in range(64):
        if columns[-1][s] < metric:
            return "edge %d %d" % (len(bits), s)
    return None if cost == metric else "sum %d" % cost


class Place:
    """What the windows before leave to the next one, and what was written of them."""

    def __init__(self, code):
        self.at, self.t, self.number, self.kept = 0, 0, 0, 0
        self.starts, self.tail, self.may_follow, self.must_follow = code.starts, b"", True, False
        self.lines, self.out = [], b""


def check_window(code, text, place):
    """The place after the window that begins at a place, or what is reported where it fails or is cut."""
    at, t, most = place.at, place.t, code.keep + code.ahead
    bad = lambda reason: "bad %d %s" % (place.number, reason)
    cut = "cut at block %d" % place.number
    if not place.may_follow:
        return bad("shape")
    if len(text) - at < 17:
        return cut
    steps, kept, start, metric = struct.unpack_from(">IIBQ", text, at)
    is_right = 0 < steps <= most and (kept == steps or steps == most and kept == code.keep)
    if not is_right or start > 63 or place.must_follow and steps <= code.ahead:
        return bad("shape")
    at += 17
    bits = text[at : at + steps]
    if len(bits) < steps:
        return cut
    if any(bit > 1 for bit in bits):
        return bad("shape")
    at += steps
    octets = text[at : at + code.span(t, steps)]
    if len(octets) < code.span(t, steps):
        return cut
    if start not in place.starts or not octets.startswith(place.tail):
        return bad("joint")
    at += len(octets)
    if len(text) - at < 256 * (steps + 1):
        return cut
    columns = [struct.unpack_from(">64I", text, at + 256 * k) for k in range(steps + 1)]
    reason = judge(code, t, place.starts, octets, columns, bits, start, metric)
    if reason is not None:
        return bad(reason)
    register = start
    for bit in bits[:kept]:
        register = after(register, bit)
    so_far = code.span(t, kept)
    then = Place(code)
    then.at, then.t = at + 256 * (steps + 1), t + kept
    then.number, then.kept = place.number + 1, place.kept + kept
    then.starts, then.tail = [register], octets[so_far:]
    then.must_follow = kept < steps
    then.may_follow = then.must_follow or steps == most and code.ahead == 0
    then.lines = place.lines + ["block %d steps %d kept %d metric %d" % (place.number, steps, kept, metric)]
    then.out = place.out + octets[:so_far]
    return then


def check(code, text, place):
    """The lines that `check` writes on the notes from a place on, the octets that it writes, and the places before the windows."""
    places = []
    while place.at < len(text):
        places.append(place)
        then = check_window(code, text, place)
        if isinstance(then, str):
            return place.lines + [then], place.out, places
        place = then
    if place.must_follow:
        end = "cut at block %d" % place.number
    else:
        end = "blocks %d bits %d leftover 0" % (place.number, place.kept)
    return place.lines + [end], place.out, places


def sweep(code, text, step, show):
    """How many octets are changed, how many of the changes pass, and the mix of what is told of each."""
    count, passed, mix, places = 0, 0, 0, check(code, text, Place(code))[2]
    for place in places:
        (steps,) = struct.unpack_from(">I", text, place.at)
        columns = place.at + 17 + steps + code.span(place.t, steps)
        end = columns + 256 * (steps + 1)
        for at in [*range(place.at, columns), *range(columns, end, step)]:
            changed = text[:at] + bytes([text[at] ^ 1]) + text[at + 1 :]
            lines = check(code, changed, place)[0]
            count += 1
            passed += lines[-1].startswith("blocks")
            for octet in "".join(line + "\n" for line in lines).encode():
                mix = (mix ^ octet) * 0x100000001B3 % 2**64
            if show:
                print(at, lines[-1])
    return count, passed, mix


def draw(count):
    octets, now = [], 1
    for _ in range(count):
        now = (now * 6364136223846793005 + 1442695040888963407) % 2**64
        octets.append([0, 255, 128, now >> 56][(now >> 40) % 4])
    return bytes(octets)


def main():
    command = sys.argv[1]
    if command == "draw":
        sys.stdout.buffer.write(draw(int(sys.argv[2])))
        return
    code = Code(*sys.argv[2:7])
    given = sys.stdin.buffer.read()
    if command == "write":
        sys.stdout.buffer.write(write(code, given))
    elif command == "check":
        print("\n".join(check(code, given, Place(code))[0]))
    else:
        print("changes %d passed %d mix %#x" % sweep(code, given, int(sys.argv[7]), "--show" in sys.argv))


if __name__ == "__main__":
    main()
