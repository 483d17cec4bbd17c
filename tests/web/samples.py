#!/usr/bin/env python3
"""Writes recordings of each form, of drawn octets, and the symbols that the Python package makes of them, into a folder.
Status 77: there is no numpy."""
import json
import pathlib
import random
import struct
import sys

try:
    import numpy  # noqa: F401
except ImportError:
    sys.exit(77)
from tmchan.recordings import FORMS, Symbols

folder, jobs = pathlib.Path(sys.argv[1]), []
for form in FORMS:
    draw = random.Random(form)
    count = 150_001
    levels = [draw.gauss(0, 1) + draw.choice([-1, 1]) for _ in range(count)]
    if form in ("f32", "f32be", "f64", "f64be"):
        for place in range(0, count, 9001):
            levels[place] = draw.choice([float("nan"), float("inf"), -float("inf"), 0.0, 1e30])
        given = (
            struct.pack(f"{'>' if form.endswith('be') else '<'}{count}{'f' if '32' in form else 'd'}", *levels) + b"ab"
        )
    elif form.startswith("i16"):
        given = (
            struct.pack(
                f"{'>' if form.endswith('be') else '<'}{count}h",
                *(max(-32768, min(32767, round(it * 7000))) for it in levels),
            )
            + b"a"
        )
    else:
        given = draw.randbytes(count)
    (folder / f"{form}.given").write_bytes(given)
    for swap in (False, True):
        sizes, left = [], len(given)
        while left:
            sizes.append(min(left, draw.choice([1, 3, 1000, 65536, 300_000])))
            left -= sizes[-1]
        symbols, made, at = Symbols(form, "mean" if FORMS[form].size > 1 else None, swap), b"", 0
        for size in sizes:
            made += symbols.push(given[at : at + size])
            at += size
        (folder / f"{form}{'.swapped' if swap else ''}.right").write_bytes(made + symbols.finish())
        jobs.append([form, swap, sizes])
(folder / "forms.json").write_text(json.dumps(jobs))
