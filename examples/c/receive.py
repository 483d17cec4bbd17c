#!/usr/bin/env python3
"""Receives a recording at rate 1/2 with a depth by ctypes alone: soft octets from standard input, frames to standard output. The package of
python/ says the same in two lines; this shows how a language without it calls the library.

    examples/c/receive.py out/libtmchan.so 5 <symbols >frames
"""
import ctypes
import os
import sys
from ctypes import c_int32, c_int64, c_size_t, c_uint64

LIBRARY, DEPTH = ctypes.CDLL(sys.argv[1]), int(sys.argv[2])
PIECE, TEXT, REPORT, OPTION_DEPTH = 65536, 96, 48, 1  # TMCHAN_TEXT_LENGTH, the octets of a tmchan_report, and where depth stands


def call(name, *arguments):
    """The answer of a call; one below 0 is raised, with its text."""
    made = getattr(LIBRARY, "tmchan_" + name)
    made.restype = c_int64 if name.split("_")[-1] in ("push", "finish", "room") else c_int32
    answer = made(*arguments)
    if answer >= 0:
        return answer
    text = ctypes.create_string_buffer(TEXT)
    LIBRARY.tmchan_text(c_int64(answer), text, c_size_t(TEXT))
    raise ValueError(text.value.decode())


config = (c_uint64 * 24)()
options = config, c_size_t(len(config))
LIBRARY.tmchan_config_defaults(*options)
LIBRARY.tmchan_config_recording(*options)
config[OPTION_DEPTH] = DEPTH
receiver, octets, written, totals, phase = ((c_uint64 * n)() for n in (2, 1, 3, 2, 2))
call("receiver_open", receiver, *options)
room = call("receiver_room", *options, c_size_t(PIECE), octets)
frames, reports = ctypes.create_string_buffer(octets[0]), (c_uint64 * (room * REPORT // 8))()
arrays = frames, c_size_t(octets[0]), reports, c_size_t(room)
# (one that does not block would be taken for one that has ended)
os.set_blocking(0, True)
with open(1, "wb", closefd=False) as output:
    while piece := sys.stdin.buffer.read(PIECE):
        call("receiver_push", receiver, piece, c_size_t(len(piece)), *arrays, written)
        output.write(frames.raw[: written[1]])
    call("receiver_finish", receiver, *arrays, totals, phase, written)
    output.write(frames.raw[: written[1]])
