"""What tests of the package share: the rows of the C tests, the program or the reference, and noisy recordings."""
import functools
import os
import random
import resource
import signal
import subprocess
import sys

import pytest

import tmchan

TOP = os.path.dirname(os.path.dirname(os.path.dirname(os.path.abspath(__file__))))
# Python buffers what the commands write, but where a test has it not.
os.environ.pop("PYTHONUNBUFFERED", None)
PROGRAM = next((it for it in (f"{TOP}/out/tmchan", f"{TOP}/crates/tmchan/out/tmchan") if os.access(it, os.X_OK)), None)

NAMES = (
    "code depth length inner invert randomize basis tolerance repair soft start skip workers limit fly keep ahead phase polarity batch pack "
    "verify rescan bad"
).split()
UNSET = 2**64 - 1


@functools.lru_cache(None)
def rows(script):
    """The rows that a script of tests/ writes, as lists of words."""
    ran = subprocess.run([sys.executable, f"{TOP}/tests/{script}"], stdout=subprocess.PIPE, check=True, text=True)
    return [line.split() for line in ran.stdout.splitlines()]


def octets(digits):
    return None if digits == "*" else b"" if digits == "-" else bytes.fromhex(digits)


def run_program(words, given):
    """Output, notes and status of the program; where it is not built, of docs/reference."""
    command = [PROGRAM] if PROGRAM else [sys.executable, f"{TOP}/docs/reference"]
    ran = subprocess.run([*command, *words], input=given, stdout=subprocess.PIPE, stderr=subprocess.PIPE)
    return ran.stdout, ran.stderr.decode(), ran.returncode


def run(*words, given=None, output=subprocess.PIPE):
    """Status of a command of the package in a process of its own, what it writes, and what it says."""
    environment = {**os.environ, "PYTHONPATH": os.pathsep.join(sys.path)}
    ran = subprocess.run(
        [sys.executable, "-m", "tmchan", *words], input=given, stdout=output, stderr=subprocess.PIPE, env=environment
    )
    return ran.returncode, ran.stdout, ran.stderr.decode()


def limited(words, size, path, more, given=b""):
    """Status of a command whose output is a file that may have so many octets, and what the file has. `more` is what
    its environment has besides."""

    def limit():
        signal.signal(signal.SIGXFSZ, signal.SIG_IGN)
        resource.setrlimit(resource.RLIMIT_FSIZE, (size, size))

    how = dict(input=given, stderr=subprocess.PIPE, env={**os.environ, **more}, preexec_fn=limit)
    with open(path, "wb") as file:
        ran = subprocess.run(words, stdout=file, **how)
    return ran.returncode, path.read_bytes()


def lines_of(items, link, totals, phase):
    """What the program reports of the items."""
    shown = [f"phase {phase.skip} cost {phase.cost}"] if phase else []
    for number, it in enumerate(items):
        words = "words " + " ".join("x" if count is None else str(count) for count in it.repaired)
        shown.append(
            f"frame {number} at {it.place} {'bridged' if it.bridged else 'marker'} {it.distance}{' inverted' * it.inverted} "
            + (words if it.repaired else "uncoded")
        )
    shown += [f"slips {totals.slips}"] * (link.options["phase"] == "follow")
    good = sum(it.good for it in items)
    return [*shown, f"frames {good} bad {len(items) - good} fixed {sum(it.fixed for it in items)} bits {totals.bits}"]


def pieces(data, draw, most):
    at = 0
    while at < len(data):
        size = draw.randint(1, most)
        yield data[at : at + size]
        at += size


def received(link, chunks, **words):
    """The items, and the program's lines of them."""
    with link.receiver(**words) as receiver:
        items = [it for chunk in chunks for it in receiver.push(chunk)]
        items += receiver.finish()
    return items, lines_of(items, link, receiver.totals, receiver.phase)


def windows_of(opened, chunks):
    """All windows that a decoder or a receiver of a link counts."""
    found = []
    with opened(windows=True) as stream:
        for chunk in chunks:
            stream.push(chunk)
            found += stream.windows
        stream.finish()
    return found + stream.windows


def frames(count, size, seed=1):
    """Frames whose octets are not equally often."""
    draw = random.Random(seed)
    return [
        number.to_bytes(4, "big")[-min(4, size) :]
        + bytes(draw.choices(range(256), range(1, 257), k=size - min(4, size)))
        for number in range(count)
    ]


def coded(bits, is_inverted=True):
    """The symbols of bits by the convolutional code at rate 1/2, the second ones inverted or not."""
    register, symbols = [0] * 6, []
    for bit in bits:
        u = [bit, *register]
        symbols += [u[0] ^ u[1] ^ u[2] ^ u[3] ^ u[6], u[0] ^ u[2] ^ u[3] ^ u[5] ^ u[6] ^ is_inverted]
        register = u[:6]
    return symbols


def levels(symbols, decibels, seed=1):
    """Symbols as floats, -1 and 1 without noise, at an Es/N0 in decibels."""
    numpy = pytest.importorskip("numpy")
    sent = numpy.frombuffer(symbols, numpy.uint8).astype(numpy.float32) / numpy.float32(127.5) - 1
    deviation = (10 ** (-decibels / 10) / 2) ** 0.5
    return sent + numpy.random.default_rng(seed).normal(0, deviation, len(sent)).astype(numpy.float32)


def noise(count, seed=2):
    numpy = pytest.importorskip("numpy")
    return numpy.random.default_rng(seed).normal(0, 1, count).astype(numpy.float32)


def soft(floats):
    """Floats as soft octets."""
    numpy = pytest.importorskip("numpy")
    return numpy.clip(floats * 32 + 128, 0, 255).astype(numpy.uint8)


def right(items, sent):
    """How many of the frames that were sent came back, each once; and how many came that nobody sent."""
    wanted, came = set(sent), [it.frame for it in items if it.good]
    return len(wanted & set(came)), sum(it not in wanted for it in came)


__all__ = [
    "NAMES",
    "PROGRAM",
    "TOP",
    "UNSET",
    "coded",
    "frames",
    "levels",
    "limited",
    "lines_of",
    "noise",
    "octets",
    "pieces",
    "received",
    "right",
    "rows",
    "run",
    "run_program",
    "soft",
    "tmchan",
    "windows_of",
]
