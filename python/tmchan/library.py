"""libtmchan by ctypes. All that the package knows of include/tmchan.h stands here: structs, numbers, names and answers.

The library is looked for in this order: the file that the environment's LIBTMCHAN names; libtmchan.so beside this file,
as in a wheel; out/libtmchan.so of the clone, or lib/libtmchan.so of the folder, in whose python/ this file stands; the
loader's libtmchan.so.0.3. It is loaded with the first call, so that what needs none needs no library.
"""
import contextlib
import ctypes
import os
import struct
import threading
from ctypes import POINTER, byref, c_int32, c_int64, c_size_t, c_uint8, c_uint32, c_uint64, c_void_p

# The first two numbers of the version: a program is made anew for each second number while the first is 0.
ABI = 0x0003
NAME = "libtmchan.so.0.3"

UNSET = 2**64 - 1
# Outside every list and range: what stands for a word that an option does not have.
OUTSIDE = 2**63

SWITCH = {"on": 1, "off": 0}
BASES = {"dual": 0, "poly": 1}
CODES = {"rs16": 16, "rs8": 8, "none": 0}
# The options in the order of tmchan_config, with the numbers of their words; None where the value is a number itself.
# `workers` and `limit` have no effect in the library, so no caller sets them.
OPTIONS = {
    "code": CODES,
    "depth": None,
    "length": None,
    "inner": {"none": 0, "1/2": 12, "2/3": 23, "3/4": 34, "5/6": 56, "7/8": 78},
    "invert": SWITCH,
    "randomize": SWITCH,
    "basis": BASES,
    "tolerance": None,
    "repair": None,
    "soft": {"u8": 0, "i8": 1},
    "start": {"zero": 0, "any": 1},
    "skip": None,
    "workers": None,
    "limit": None,
    "fly": None,
    "keep": None,
    "ahead": None,
    "phase": {"given": 0, "find": 1, "follow": 2},
    "polarity": {"given": 0, "find": 1},
    "batch": None,
    "pack": SWITCH,
    "verify": None,
    "rescan": SWITCH,
    "bad": {"drop": 0, "pass": 1},
}

# The options that tmchan_config_recording sets.
RECORDED = ("tolerance", "start", "fly", "keep", "ahead", "phase", "polarity", "verify", "rescan")

BEYOND, ROOM, FLAGS, CLOSED, OPEN, MEMORY = -1, -2, -3, -5, -6, -7
# Of each answer the reason's name; those of the options are numbered in their order, of which invert and randomize have
# one together.
REASONS = {ROOM: "room", FLAGS: "flags", OPEN: "open", -8: "config"}
REASONS.update(
    (-16 - k, name.replace("invert", "switch")) for k, name in enumerate(it for it in OPTIONS if it != "randomize")
)
# The octets in which each text has room.
TEXT_LENGTH = 96


def text(answer):
    """What an answer means."""
    made = bytearray(TEXT_LENGTH)
    return made[: _LIBRARY.tmchan_text(answer, address(made), len(made))].decode()


class Refused(ValueError):
    """The library refuses what it was given. `reason` is the reason's name, as in the program's line `refused: depth`,
    and `answer` the number of include/tmchan.h."""

    def __init__(self, answer):
        self.answer = answer
        self.reason = REASONS.get(answer, str(answer))
        super().__init__(f"{self.reason}: {text(answer)}")


class Uncorrectable(Exception):
    """No codeword lies within the repair bound of a word. It is no mistake of the caller."""

    def __init__(self):
        super().__init__("no codeword lies within the repair bound")


class Closed(ValueError):
    """The stream is closed: it was finished, or closed, before."""

    def __init__(self):
        super().__init__("the stream is closed")


class Config(ctypes.Structure):
    _fields_ = [(name, c_uint64) for name in OPTIONS]


class Handle(ctypes.Structure):
    _fields_ = [("is_open", c_uint64), ("at", c_void_p)]


class PhaseFields(ctypes.Structure):
    _fields_ = [("is_chosen", c_uint32), ("skip", c_uint32), ("cost", c_uint64)]


class TotalsFields(ctypes.Structure):
    _fields_ = [("bits", c_uint64), ("slips", c_uint64)]


class Written(ctypes.Structure):
    _fields_ = [("reports", c_uint64), ("octets", c_uint64), ("windows", c_uint64)]


# tmchan_report: place, symbol, frame, frame_length, distance, bridged, inverted, columns, bad, repaired; and the same
# for numpy.
REPORT = struct.Struct("=QQQQBBBBB8s3x")
REPORT_FIELDS = [
    ("place", "u8"),
    ("symbol", "u8"),
    ("frame", "u8"),
    ("frame_length", "u8"),
    ("distance", "u1"),
    ("bridged", "u1"),
    ("inverted", "u1"),
    ("columns", "u1"),
    ("bad", "u1"),
    ("repaired", "u1", 8),
]

# tmchan_window: numbers of 64 bits, and their names.
WINDOW = struct.Struct("=9Q")
WINDOW_FIELDS = ("symbol", "dropped", "steps", "kept", "metric", "octets", "wrong", "distance", "squares")

# Of each call what it answers, and what it is passed. An array is passed as its address and length.
_ARRAY, _CONFIG, _HANDLE = (c_void_p, c_size_t), (POINTER(Config), c_size_t), (POINTER(Handle),)
_PHASE, _TOTALS, _COUNT, _WRITTEN = (
    (POINTER(PhaseFields),),
    (POINTER(TotalsFields),),
    (POINTER(c_uint64),),
    (POINTER(Written),),
)
_CALLS = {
    "version": (c_uint32,),
    "text": (c_int32, c_int64, *_ARRAY),
    "rs_encode": (c_int32, c_uint32, c_uint32, *_ARRAY, *_ARRAY),
    "rs_decode": (c_int32, c_uint32, c_uint32, c_uint32, *_ARRAY),
    "rs_decode_erased": (c_int32, c_uint32, c_uint32, c_uint32, *_ARRAY, *_ARRAY),
    "randomize": (None, *_ARRAY),
    "cadu_length": (c_int32, c_uint32, c_uint32, c_size_t),
    "cadu": (c_int32, c_uint32, c_uint32, c_uint32, c_uint32, *_ARRAY, *_ARRAY),
    "config_defaults": (None, *_CONFIG),
    "config_recording": (None, *_CONFIG),
    "config_check": (c_int32, *_CONFIG),
    "frame_length": (c_int32, *_CONFIG),
    "close": (c_int32, *_HANDLE),
    "sender_room": (c_int64, *_CONFIG, c_size_t),
    "sender_open": (c_int32, *_HANDLE, *_CONFIG),
    "sender_push": (c_int64, *_HANDLE, *_ARRAY, *_ARRAY, *_WRITTEN),
    "sender_finish": (c_int64, *_HANDLE, *_WRITTEN),
    "window_room": (c_int64, *_CONFIG, c_size_t),
    "decoder_room": (c_int64, *_CONFIG, c_size_t),
    "decoder_open": (c_int32, *_HANDLE, *_CONFIG),
    "decoder_push": (c_int64, *_HANDLE, *_ARRAY, *_ARRAY, *_WRITTEN),
    "decoder_push_windows": (c_int64, *_HANDLE, *_ARRAY, *_ARRAY, *_ARRAY, *_WRITTEN),
    "decoder_phase": (c_int32, *_HANDLE, *_PHASE),
    "decoder_finish": (c_int64, *_HANDLE, *_ARRAY, *_PHASE, *_WRITTEN),
    "decoder_finish_windows": (c_int64, *_HANDLE, *_ARRAY, *_ARRAY, *_PHASE, *_WRITTEN),
    "receiver_room": (c_int64, *_CONFIG, c_size_t, *_COUNT),
    "receiver_open": (c_int32, *_HANDLE, *_CONFIG),
    "receiver_push": (c_int64, *_HANDLE, *_ARRAY, *_ARRAY, *_ARRAY, *_WRITTEN),
    "receiver_push_windows": (c_int64, *_HANDLE, *_ARRAY, *_ARRAY, *_ARRAY, *_ARRAY, *_WRITTEN),
    "receiver_phase": (c_int32, *_HANDLE, *_PHASE),
    "receiver_slips": (c_int32, *_HANDLE, *_COUNT),
    "receiver_finish": (c_int64, *_HANDLE, *_ARRAY, *_ARRAY, *_TOTALS, *_PHASE, *_WRITTEN),
    "receiver_finish_windows": (c_int64, *_HANDLE, *_ARRAY, *_ARRAY, *_ARRAY, *_TOTALS, *_PHASE, *_WRITTEN),
}


def _load():
    here = os.path.dirname(os.path.abspath(__file__))
    above = os.path.dirname(os.path.dirname(here))
    files = [os.path.join(folder, "libtmchan.so") for folder in (here, f"{above}/out", f"{above}/lib")]
    named = os.environ.get("LIBTMCHAN") or next((it for it in files if os.path.exists(it)), NAME)
    try:
        loaded = ctypes.CDLL(named)
    except OSError as error:
        raise ImportError(
            f"there is no library of tmchan: {error}. `make lib` builds it, and LIBTMCHAN names it"
        ) from error
    for name, (answer, *arguments) in _CALLS.items():
        call = getattr(loaded, "tmchan_" + name)
        call.restype, call.argtypes = answer, arguments
    found = loaded.tmchan_version()
    if found >> 8 != ABI:
        raise ImportError(f"{named} is of version {_text(found)}; this package is for {ABI >> 8}.{ABI & 255}")
    return loaded


def _text(version):
    return f"{version >> 16}.{version >> 8 & 255}.{version & 255}"


class _Calls:
    """The calls of the library."""

    def __getattr__(self, name):
        # (this is called where there is no such attribute yet)
        loaded = _load()
        self.__dict__.update({f"tmchan_{it}": getattr(loaded, f"tmchan_{it}") for it in _CALLS})
        return self.__dict__[name]


_LIBRARY = _Calls()


def version():
    """The version of the library that is loaded, as "0.3.0"."""
    return _text(_LIBRARY.tmchan_version())


def checked(answer):
    """Returns an answer from 0 on, and raises what stands for one below."""
    if answer >= 0:
        return answer
    if answer == BEYOND:
        raise Uncorrectable
    if answer == CLOSED:
        raise Closed
    if answer == MEMORY:
        raise MemoryError("tmchan: malloc gave no memory")
    raise Refused(answer)


def call(name, *arguments):
    return checked(call_plain(name, *arguments))


def call_plain(name, *arguments):
    return getattr(_LIBRARY, "tmchan_" + name)(*arguments)


def number(name, value):
    """The number of an option's value: of a word, of True and False where the words are on and off, or itself."""
    words = OPTIONS[name]
    if words is not None:
        if words is SWITCH and isinstance(value, bool):
            return int(value)
        return words.get(value, OUTSIDE) if isinstance(value, str) else OUTSIDE
    if isinstance(value, bool) or not hasattr(value, "__index__"):
        raise TypeError(f"{name}: a number is wanted, and this is {value!r}")
    value = value.__index__()
    return value if 0 <= value < UNSET else OUTSIDE


def configuration(options):
    """The tmchan_config of options by their names. Raises Refused for the first that is outside."""
    config = Config()
    _LIBRARY.tmchan_config_defaults(*numbers(config))
    for name, value in options.items():
        setattr(config, name, number(name, value))
    call("config_check", *numbers(config))
    return config


def recording(inner):
    """The options that a link of this inner code has for a recording, by their names."""
    config = configuration({"inner": inner})
    _LIBRARY.tmchan_config_recording(*numbers(config))
    return {name: _word(name, getattr(config, name)) for name in RECORDED}


def _word(name, value):
    words = OPTIONS[name]
    return value if words is None else next(word for word, number in words.items() if number == value)


def numbers(config):
    """A configuration as a call takes it: its address, and how many numbers it has."""
    return byref(config), len(OPTIONS)


def frame_length(config):
    return call("frame_length", *numbers(config))


def cadu(config, frame):
    made = bytearray(call("cadu_length", config.code, config.depth, len(frame)))
    call("cadu", config.code, config.depth, config.basis, config.randomize, frame, len(frame), address(made), len(made))
    return bytes(made)


def address(array):
    """The address of a bytearray, for a call that writes it. (Of one with no octets: of some octet.)"""
    return (c_uint8 * max(1, len(array))).from_buffer(array if array else bytearray(1))


class Stream:
    """A handle of the library, with its arrays. One thread at a time: a call while another is under way raises
    RuntimeError."""

    KIND = ""

    def __init__(self, config):
        self._config, self._handle, self._lock, self._wrote = config, Handle(), threading.Lock(), Written()
        self._process = os.getpid()
        call(self.KIND + "_open", byref(self._handle), *numbers(config))

    @contextlib.contextmanager
    def _alone(self):
        if not self._lock.acquire(blocking=False):
            raise RuntimeError("the stream is in use by another thread")
        try:
            yield
        finally:
            self._lock.release()

    def _call(self, name, *arguments):
        return call(f"{self.KIND}_{name}", byref(self._handle), *arguments)

    @property
    def is_open(self):
        return bool(self._handle.is_open)

    def close(self):
        """Closes the stream, and drops what was not given back yet. A stream that is closed stays so."""
        with self._alone():
            if self._handle.is_open:
                call("close", byref(self._handle))

    def __del__(self):
        handle = getattr(self, "_handle", None)
        # (in a forked child of a process with threads no call may be made)
        if handle is not None and handle.is_open and not self._lock.locked() and self._process == os.getpid():
            _LIBRARY.tmchan_close(byref(handle))


class SenderStream(Stream):
    KIND = "sender"

    def push(self, octets):
        with self._alone():
            symbols = bytearray(call("sender_room", *numbers(self._config), len(octets)))
            count = self._call("push", octets, len(octets), address(symbols), len(symbols), byref(self._wrote))
            return bytes(memoryview(symbols)[:count])

    def finish(self):
        with self._alone():
            return self._call("finish", byref(self._wrote))


class CountingStream(Stream):
    """A stream with windows of the soft decoder. `windows` has the octets of those that the last push or the finish
    wrote: none unless they are counted."""

    def __init__(self, config, counts):
        super().__init__(config)
        self._of, self._array, self.windows = "_windows" if counts else "", bytearray(), b""

    def _windows(self, length):
        """What a call of `length` octets is passed for its windows."""
        if not self._of:
            return ()
        room = call("window_room", *numbers(self._config), length)
        if len(self._array) < WINDOW.size * room:
            self._array = bytearray(WINDOW.size * room)
        return address(self._array), room

    def _counting(self, name, length, arrays, further):
        count = self._call(name + self._of, *arrays, *self._windows(length), *further, byref(self._wrote))
        self.windows = bytes(memoryview(self._array)[: WINDOW.size * self._wrote.windows])
        return count


class DecoderStream(CountingStream):
    KIND = "decoder"

    def _room(self, length):
        return bytearray(call("decoder_room", *numbers(self._config), length))

    def push(self, octets):
        with self._alone():
            bits = self._room(len(octets))
            arrays = octets, len(octets), address(bits), len(bits)
            count = self._counting("push", len(octets), arrays, ())
            return bytes(memoryview(bits)[:count])

    def finish(self):
        """The bits that are left, and the phase."""
        with self._alone():
            bits, phase = self._room(0), PhaseFields()
            count = self._counting("finish", 0, (address(bits), len(bits)), (byref(phase),))
            return bytes(memoryview(bits)[:count]), phase

    def phase(self):
        phase = PhaseFields()
        with self._alone():
            self._call("phase", byref(phase))
        return phase


class ReceiverStream(CountingStream):
    """Takes at most `most` octets at a push. That and the finish give the octets of the frames, one after the other,
    and those of the reports."""

    KIND = "receiver"

    def __init__(self, config, most, counts):
        super().__init__(config, counts)
        frames = c_uint64()
        reports = call("receiver_room", *numbers(config), most, byref(frames))
        self._frames, self._reports = bytearray(frames.value), bytearray(REPORT.size * reports)
        self._arrays = address(self._frames), len(self._frames), address(self._reports), reports

    def _written(self):
        """What the last call has written to both arrays."""
        octets, size = self._wrote.octets, REPORT.size * self._wrote.reports
        return bytes(memoryview(self._frames)[:octets]), bytes(memoryview(self._reports)[:size])

    def push(self, octets):
        with self._alone():
            self._counting("push", len(octets), (octets, len(octets), *self._arrays), ())
            return self._written()

    def finish(self):
        """What is left, the totals and the phase."""
        with self._alone():
            totals, phase = TotalsFields(), PhaseFields()
            self._counting("finish", 0, self._arrays, (byref(totals), byref(phase)))
            return (*self._written(), totals, phase)

    def phase(self):
        phase = PhaseFields()
        with self._alone():
            self._call("phase", byref(phase))
        return phase

    def slips(self):
        count = c_uint64()
        with self._alone():
            self._call("slips", byref(count))
        return count.value
