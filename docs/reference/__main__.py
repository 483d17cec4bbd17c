"""tmchan again, to be read beside CCSDS 131.0-B and docs/FORMAT.md: plain, slow, the standard
library alone. `python3 docs/reference decode --depth 5 < symbols > frames` answers as the program
does. Faults of reading and writing (statuses 3 and 4) and out of memory (5) are left out.

Each command that reads answers output, notes and status for the octets of its input. Where the
input goes on after these, past the limit (`ended` is False), it answers what is due for them."""
import os
import sys
from certificate import certificate, checked_windows
from inner import on_the_link, received
from options import Refused, read_words
from outer import cadu, elements, nearest_codeword, octets_from, octets_of
from receiver import items, last_line

BLOCK = "block {} steps {} kept {} metric {}".format
def lines(texts):
    return "".join(text + "\n" for text in texts).encode()

def encode(data, ended, c):
    left = len(data) % c.length
    frames = [data[at:at + c.length] for at in range(0, len(data) - left, c.length)]
    units = b"".join(cadu(frame, c) for frame in frames)
    notes = [f"left over {left}"] if ended and left else []
    return on_the_link(units, c), lines(notes), 6 if left else 0

def decode(data, ended, c):
    r = received(data, ended, c)
    found = list(items(r.bits, c))
    found = found if ended else found[:len(found) // c.batch * c.batch]
    last = r.slips + [last_line(found, r.bits)] if ended else []
    shown = r.head + [line for _, line, _ in found] + last
    bad = ["x" in counts for _, _, counts in found]
    frames = [frame for (frame, _, _), is_bad in zip(found, bad) if c.pass_bad or not is_bad]
    return b"".join(frames), lines(shown), 1 if any(bad) else 0

def report(data, ended, c):
    _, notes, status = decode(data, ended, c)
    return notes, b"", status

def trace(data, ended, c):
    r = received(data, ended, c)
    shown, kept = r.head, 0
    for k, w in enumerate(r.windows):
        shown = shown + [f"slip {w.dropped} at {kept}"] * (w.dropped > 0)
        shown, kept = shown + [BLOCK(k, len(w.soft), w.kept, w.metric)], kept + w.kept
    return lines(shown + [r.end] * ended), b"", 0

def bits(data, ended, c):
    r = received(data, ended, c)
    whole = r.bits + [0] * (-len(r.bits) % 8) if ended else r.bits[:len(r.bits) // 8 * 8]
    return octets_of(whole), lines(r.head + (r.slips + [r.end]) * ended), 0

def certify(data, ended, c):
    c.follow = False  # a certificate has no place for a slip
    return b"".join(certificate(w) for w in received(data, ended, c).windows), b"", 0

def check(data, ended, c):
    output, shown, count, status = b"", [], 0, 0
    try:
        for steps, kept, metric, soft in checked_windows(data, c):
            output, count = output + soft, count + kept
            shown.append(BLOCK(len(shown), steps, kept, metric))
        last = f"blocks {len(shown)} bits {count} leftover 0"
    except Refused as reason:
        return output, lines(shown + [f"bad {len(shown)} {reason}"]), 1
    except EOFError:
        last, status = f"cut at block {len(shown)}", 6
    return output, lines(shown + [last] * ended), status

def nearest_line(octets, flags, c):
    lost = [i for i, flag in enumerate(flags) if flag]
    nearest = nearest_codeword(elements(octets, c), lost, c.E, c.repair)
    if not nearest:
        return "beyond"
    counts = f"{nearest[1]} {nearest[2]}" if flags else nearest[1]
    return f"fixed {counts} {octets_from(nearest[0], c).hex()}"

def erased(data, ended, c):
    n, left = c.codeword, len(data) % (2 * c.codeword)
    records = [data[at:at + 2 * n] for at in range(0, len(data) - left, 2 * n)]
    records = records if ended else records[:len(records) // 256 * 256]
    shown = [nearest_line(record[:n], record[n:], c) for record in records]
    notes = [f"left over {left}"] if ended and left else []
    return lines(shown), lines(notes), 6 if left else 1 if "beyond" in shown else 0

def word(c):
    line = nearest_line(c.word, b"", c)
    return lines([line]), b"", 1 if line == "beyond" else 0

def draws(seed):
    """PCG-XSH-RR of the seed, on stream 0: 64 bits of state, words of 32 bits."""
    state = seed + 1
    while True:
        state = (state * 6364136223846793005 + 1) % 2 ** 64
        x, turn = (state >> 18 ^ state) >> 27 & 0xFFFFFFFF, state >> 59
        yield (x >> turn | x << (32 - turn)) & 0xFFFFFFFF

def soak(c):
    draw, units = draws(c.seed), bytearray()
    for _ in range(c.frames):
        unit = bytearray(cadu(bytes(next(draw) & 255 for _ in range(c.length)), c))
        for i in range(c.depth):
            a = next(draw)
            for k in range(c.hits):
                unit[4 + (a + k) % c.codeword * c.depth + i] ^= 1 + next(draw) % 255
        units += unit
    _, notes, status = decode(on_the_link(units, c), True, c)
    return notes.splitlines(True)[-1], b"", status

def run(words, read):
    """Output, notes and status of a command line. `read(n)` gives the input, at most n octets."""
    try:
        command, c = read_words([os.fsencode(text).decode() for text in words])
    except UnicodeDecodeError:
        return b"", b"", 8
    except Refused as reason:
        return b"", lines([f"refused: {reason}"]), 2
    answer = globals()[command]
    if command in ("word", "soak"):
        return answer(c)
    data = read(c.limit + 1)
    output, notes, status = answer(data[:c.limit], len(data) <= c.limit, c)
    seen = command == "check" and status == 1
    return output, notes, status if seen or len(data) <= c.limit else 7

def read_standard_input(most, data=b""):
    os.set_blocking(0, True)  # one that does not block would be taken for one that has ended
    while len(data) < most and (piece := sys.stdin.buffer.read(min(4096, most - len(data)))):
        data += piece
    return data

if __name__ == "__main__":
    OUTPUT, NOTES, STATUS = run(sys.argv[1:], read_standard_input)
    with open(1, "wb", closefd=False) as output, open(2, "wb", closefd=False) as notes:
        output.write(OUTPUT)
        notes.write(NOTES)
    sys.exit(STATUS)
