#!/usr/bin/env python3
"""Makes the call of each row on standard input (tests/library_rows.py writes them) by ctypes.

    tests/c/rows.py out/libtmchan.so < rows.txt
"""
import ctypes
import sys

LIBRARY = ctypes.CDLL(sys.argv[1])
NUMBER, SIZE, OCTETS = ctypes.c_uint32, ctypes.c_size_t, ctypes.c_char_p


def function(name, *arguments):
    found = getattr(LIBRARY, "tmchan_" + name)
    found.argtypes, found.restype = arguments, ctypes.c_int32
    return found


# By call: how many numbers come first, and of each array after them whether it is written.
CALLS = {
    "encode": ("rs_encode", 2, "rw"),
    "decode": ("rs_decode", 3, "w"),
    "decode_erased": ("rs_decode_erased", 3, "wr"),
    "take_column": ("take_column", 2, "rw"),
    "put_column": ("put_column", 2, "wr"),
    "cadu": ("cadu", 4, "rw"),
}


def octets(digits):
    return b"" if digits == "-" else bytes.fromhex(digits)


def differs(call, *words):
    if call == "randomize":
        block, right = map(octets, words)
        room = ctypes.create_string_buffer(block, len(block) or 1)
        LIBRARY.tmchan_randomize.argtypes, LIBRARY.tmchan_randomize.restype = (OCTETS, SIZE), None
        LIBRARY.tmchan_randomize(room, len(block))
        return room.raw[:len(block)] != right
    name, count, arrays = CALLS[call]
    numbers, right, wanted = list(map(int, words[:count])), octets(words[-1]), int(words[-2])
    given = list(map(octets, words[count:-2]))
    if len(given) < len(arrays):                     # what is written is not in the row
        given.append(bytes(len(right)))
    rooms = [ctypes.create_string_buffer(it, len(it) or 1) for it in given]
    made = function(name, *[NUMBER] * count, *[OCTETS, SIZE] * len(arrays))
    answer = made(*numbers, *(part for room, it in zip(rooms, given) for part in (room, len(it))))
    at = arrays.index("w")
    if call == "cadu" and function("cadu_length", NUMBER, NUMBER, SIZE)(numbers[0], numbers[1], len(given[0])) != len(right):
        return True
    return answer != wanted or rooms[at].raw[:len(given[at])] != right


rows = [line.split() for line in sys.stdin]
wrong = [number for number, row in enumerate(rows, 1) if differs(*row)]
print(f"{len(rows)} rows by ctypes, {len(wrong)} differ", *wrong[:9])
sys.exit(bool(wrong) or not rows)
