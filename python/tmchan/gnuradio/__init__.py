"""Blocks for GNU Radio 3.10: a receiver, symbols in and frames out as PDUs, and a sender, frames in and symbols out.

Symbols are floats, below 0 for a symbol 0, -1 and 1 without noise; or octets, signed as float_to_char makes them ("i8")
or not ("u8"). A PDU is a pair of metadata and the octets of one transfer frame. The folder grc/ beside this file has
the blocks for gnuradio-companion: GRC_BLOCKS_PATH names it.
"""
import math
import os
import time

import numpy
import pmt
from gnuradio import gr

from ..link import Link
from ..reception import Reception

TYPES = {"float": numpy.float32, "i8": numpy.int8, "u8": numpy.uint8}
FRAMES = pmt.intern("frames")
GRC = os.path.join(os.path.dirname(os.path.abspath(__file__)), "grc")
# Of the codes how many wrong symbols of a codeword are repaired, and of the rates bits and symbols.
REPAIRED = {"rs16": 16, "rs8": 8, "none": 0}
RATES = {"1/2": (1, 2), "2/3": (2, 3), "3/4": (3, 4), "5/6": (5, 6), "7/8": (7, 8), "none": (1, 1)}


def _options(options):
    return {name: value for name, value in options.items() if value is not None}


def _is_packed(link):
    return link.options["inner"] == "none" and link.options["pack"] in ("on", True)


def _codeblock(link):
    """How many octets a codeblock has."""
    return link.frame_length + 2 * REPAIRED[link.options["code"]] * link.options["depth"]


def _next(link):
    """How many input items after a codeblock has come the next one is there, at the latest, if it follows directly."""
    options, unit = link.options, 8 * (4 + _codeblock(link))
    bits, symbols = RATES[options["inner"]]
    if _is_packed(link):
        bits = 8
    # The codeblocks of a batch come at once, and only after the markers that verify them.
    wanted = options["batch"] * unit + options["verify"] * (unit + 32)
    if options["inner"] == "none":
        return -(-wanted * symbols // bits)
    # Bits come by windows, and before each fewer than 16 symbols are dropped.
    windows = wanted // options["keep"] + 2
    return -(-(wanted + options["keep"]) * symbols // bits) + 16 * windows


class receiver(gr.basic_block):
    """Symbols in; the frames of good codeblocks go out as PDUs at the message port `frames`, each with the metadata
    place (received bits before its marker), symbol (the number of its marker's first symbol among all input; not with
    nrz_m and an inner code), fixed (symbols that were repaired), distance (wrong bits of the marker), bridged and
    inverted.

    With `every` above 0 it has two outputs besides, of one float for each `every` input items: `rate`, the share of
    wrong symbols in the codewords of the last codeblock, where an uncorrectable one counts with one more than is
    repaired; it is no number before the first codeblock, and without an outer code. And `lock`, 1 from a codeblock on
    until the next would have come, were it to follow directly, and else 0.

    When a flowgraph ends, the blocks behind are gone before this one stops: what waits then, up to a window of the soft
    decoder, stands in `rest`, as items. A source that goes on for 2 (keep + ahead) steps brings all frames out as PDUs.

    Its options are those of tmchan.Link, by default with the settings for a recording, each frame at once, and without
    an inner code a symbol for each bit (pack="on" takes octets of eight bits as u8). Floats are multiplied by `scale`.
    `swap` exchanges the two symbols of each pair, and `nrz_m` undoes NRZ-M behind the inner code, outside of what is
    proved."""

    def __init__(self, input="float", scale=64.0, every=0, swap=False, nrz_m=False, **options):
        gr.basic_block.__init__(self, "tmchan receiver", [TYPES[input]], [numpy.float32] * (2 if every else 0))
        options = {"batch": 1, "pack": "off", **_options(options)}
        self.link = Link.recording(soft="u8", **options)
        if _is_packed(self.link) and (input != "u8" or swap or nrz_m):
            raise ValueError("pack: octets of eight bits are of the input u8, without swap and nrz_m")
        if every < 0:
            raise ValueError(f"every: a number from 0 on is wanted, and this is {every}")
        form = {"float": "f32", "i8": "i8", "u8": "u8"}[input]
        self._receiver = Reception(self.link, form, swap, nrz_m, scale if input == "float" else None)
        #: the items that were left when the flowgraph stopped
        self.rest = ()
        self._every, self._taken, self._rate = every, 0, math.nan
        self._next, self._until = _next(self.link), -1
        if every:
            self.set_relative_rate(1, every)
        self.message_port_register_out(FRAMES)

    def forecast(self, noutput_items, ninputs):
        return [1] * (ninputs if isinstance(ninputs, int) else len(ninputs))

    def general_work(self, input_items, output_items):
        left, made = input_items[0], 0
        while len(left) and (not self._every or made < len(output_items[0])):
            # (so that a number says the same however the stream was cut)
            piece = left[: self._every - self._taken % self._every] if self._every else left
            left, self._taken = left[len(piece) :], self._taken + len(piece)
            self._publish(self._receiver.push(piece))
            if self._every and self._taken % self._every == 0:
                output_items[0][made] = self._rate
                output_items[1][made] = self._taken <= self._until
                made += 1
        self.consume(0, len(input_items[0]) - len(left))
        return made

    def stop(self):
        if self._receiver.is_open:
            self.rest = self._receiver.finish()
        return True

    def _publish(self, items):
        for it in items:
            self._rate, self._until = self._rate_of(it), self._taken + self._next
            if it.frame is None or not it.good:
                continue
            fields = {
                "place": pmt.from_uint64(it.place),
                "fixed": pmt.from_long(it.fixed),
                "distance": pmt.from_long(it.distance),
                "bridged": pmt.from_bool(it.bridged),
                "inverted": pmt.from_bool(it.inverted),
            }
            if self._receiver.has_symbols:
                fields["symbol"] = pmt.from_uint64(it.symbol)
            metadata = pmt.make_dict()
            for name, value in fields.items():
                metadata = pmt.dict_add(metadata, pmt.intern(name), value)
            self.message_port_pub(FRAMES, pmt.cons(metadata, pmt.init_u8vector(len(it.frame), list(it.frame))))

    def _rate_of(self, item):
        if not item.repaired:
            return math.nan
        bound = self.link.options["repair"]
        beyond = 1 + (REPAIRED[self.link.options["code"]] if bound is None else bound)
        wrong = sum(beyond if count is None else count for count in item.repaired)
        return wrong / _codeblock(self.link)


class sender(gr.basic_block):
    """Frames in, symbols out. With source="bytes" the octets of frames, one after the other, are a stream; with
    source="pdus" each PDU at the message port `frames` is one frame or several, whole ones. PMT_EOF there ends it, once
    all symbols are out. What is no whole frame is not sent; a PDU of such a length is dropped, and a line of the log
    says so.

    Its options are those of tmchan.Link that a sender has. With pack="off" and no inner code each bit is a symbol;
    floats are symbols always."""

    # How many octets are taken at a time: few, so that a short flowgraph does not wait for a long one's memory.
    MOST = 4096

    def __init__(self, source="bytes", output="float", **options):
        gr.basic_block.__init__(self, "tmchan sender", [numpy.uint8] if source == "bytes" else None, [TYPES[output]])
        options = _options(options)
        if output == "float":
            options["pack"] = "off"
        self.link = Link(soft="i8" if output == "i8" else "u8", **options)
        self._sender, self._output, self._symbols, self._has_ended = self.link.sender(), output, b"", False
        if source == "pdus":
            self.message_port_register_in(FRAMES)
            self.set_msg_handler(FRAMES, self._take)

    def forecast(self, noutput_items, ninputs):
        return [0 if self._symbols else 1] * (ninputs if isinstance(ninputs, int) else len(ninputs))

    def _take(self, message):
        if pmt.is_eof_object(message):
            self._has_ended = True
            return
        octets = bytes(pmt.u8vector_elements(pmt.cdr(message)))
        if len(octets) % self.link.frame_length:
            self.logger.warn(f"a PDU of {len(octets)} octets is dropped: frames have {self.link.frame_length}")
        else:
            self._symbols += self._sender.push(octets)

    def general_work(self, input_items, output_items):
        if input_items and not self._symbols:
            octets = input_items[0][: self.MOST]
            self._symbols = self._sender.push(octets)
            self.consume(0, len(octets))
        out = output_items[0]
        symbols, self._symbols = self._symbols[: len(out)], self._symbols[len(out) :]
        if not symbols and not input_items:
            if self._has_ended:
                return -1
            # (nothing else wakes a block without a stream than its next message, which comes between two calls)
            time.sleep(0.001)
            return 0
        octets = numpy.frombuffer(symbols, numpy.uint8)
        out[: len(octets)] = octets / numpy.float32(127.5) - 1 if self._output == "float" else octets.view(out.dtype)
        return len(octets)
