#!/usr/bin/python3
"""A flowgraph of GNU Radio 3.10 that runs without a window: frames are sent as BPSK by the block `sender`, noise is
added, and the block `receiver` gives them back as PDUs.

    make lib                                     at the top of the repository
    examples/gnuradio/receive.py [FRAMES] [DECIBEL]     frames, 64 by default, and Eb/N0 of a frame's bits, 5 by default

It says how many frames came back as they were sent, wherever they stand, and how many came that nobody sent. Its status
is 0 where all came, and no other.
"""
import math
import os
import sys

import pmt
from gnuradio import analog, blocks, gr

sys.path.insert(0, os.path.join(os.path.dirname(os.path.abspath(__file__)), "../../python"))
from tmchan import gnuradio as tmchan  # noqa: E402


def main(count=64, decibel=5.0):
    sender, receiver = tmchan.sender(depth=5), tmchan.receiver(depth=5)
    size = sender.link.frame_length
    frames = [
        number.to_bytes(4, "big") + bytes((7 * number + 31 * k) % 256 for k in range(size - 4))
        for number in range(count)
    ]
    symbols_a_bit = len(sender.link.send(frames[0])) / (8 * size)
    amplitude = math.sqrt(symbols_a_bit / 2 * 10 ** (-decibel / 10))
    graph, channel, store = gr.top_block(), blocks.add_ff(), blocks.message_debug()
    graph.connect(blocks.vector_source_b(list(b"".join(frames))), sender, (channel, 0))
    graph.connect(analog.noise_source_f(analog.GR_GAUSSIAN, amplitude, 131), (channel, 1))
    # (half the range, so that noise has room)
    graph.connect(channel, blocks.multiply_const_ff(0.5), receiver)
    graph.msg_connect((receiver, "frames"), (store, "store"))
    graph.run()
    came = [store.get_message(number) for number in range(store.num_messages())]
    octets = [bytes(pmt.u8vector_elements(pmt.cdr(it))) for it in came] + [it.frame for it in receiver.rest if it.good]
    fixed = sum(pmt.to_long(pmt.dict_ref(pmt.car(it), pmt.intern("fixed"), pmt.PMT_NIL)) for it in came) + sum(
        it.fixed for it in receiver.rest
    )
    right, strange = len(set(frames) & set(octets)), sum(it not in set(frames) for it in octets)
    print(f"{right} of {count} frames are right, {strange} came that nobody sent; {fixed} symbols were repaired")
    return 0 if right == count and not strange else 1


if __name__ == "__main__":
    try:
        numbers = [convert(word) for convert, word in zip((int, float), sys.argv[1:])]
    except ValueError:
        sys.exit(__doc__.strip())
    sys.exit(main(*numbers))
