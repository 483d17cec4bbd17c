#!/usr/bin/env python3
"""What the package does with Python alone, without numpy and pytest: a link there and back, words, what is found, and
the commands."""
import array
import contextlib
import io
import os
import random
import sys
import tempfile

import tmchan
from tmchan import commands


def refused(error, call, *arguments, **words):
    try:
        call(*arguments, **words)
    except error as it:
        return str(it)
    raise AssertionError(f"{call} is not refused")


def main():
    draw = random.Random(1)
    frames = [draw.randbytes(100) for _ in range(40)]
    link = tmchan.Link(length=100)
    symbols = link.send(frames)
    noisy = bytes(max(0, min(255, round(127.5 + 32 * (it / 127.5 - 1 + draw.gauss(0, 0.4))))) for it in symbols)
    for given in (symbols, noisy, memoryview(noisy), array.array("b", (it - 128 for it in noisy))):
        assert [it.frame for it in link.receive(given)] == frames
    assert len(link.decode(noisy)) == len(symbols) // 2
    word = tmchan.rs_encode(b"hello", basis="poly")
    assert tmchan.rs_decode(b"\0\0" + word[2:], basis="poly") == (word, 2)
    refused(tmchan.Refused, tmchan.Link, depth=6)
    if "numpy" not in sys.modules or sys.modules["numpy"] is None:
        assert "numpy" in refused(TypeError, list, link.receive(array.array("f", [1.0])))
        assert "numpy" in refused(ImportError, tmchan.find(noisy[1:], form="u8")._replace(form="f32").receiver)
    found = tmchan.find(noisy[1:])
    assert (
        found.words() == ["--input", "u8", "--length", "100"]
        and [it.frame for it in found.receive(noisy[1:])] == frames[1:]
    )
    with tempfile.TemporaryDirectory() as room:
        name = os.path.join(room, "pass")
        with open(name, "wb") as file:
            file.write(noisy)
        for words, status in (
            (["--length", "100"], 0),
            (["--input", "u8", "--length", "100"], 0),
            (["--input", "u8", "--length", "99"], 1),
            (["--input", "f32", "--length", "100"], 2),
            (["--input", "packed-lsb", "--inner", "none"], 1),
        ):
            said = io.StringIO()
            with contextlib.redirect_stderr(said):
                if "f32" in words and sys.modules.get("numpy"):
                    continue
                assert (
                    commands.run(commands.receive, [*words, name, "--output", name + ".frames"]) == status
                ), said.getvalue()
            if status == 0:
                with open(name + ".frames", "rb") as file:
                    assert file.read() == b"".join(frames)
    print(f"Python {sys.version.split()[0]} alone: passed")


if __name__ == "__main__":
    main()
