"""The rows of the C tests, through the package."""
import random

import pytest
from links import NAMES, UNSET, octets, pieces, received, rows, tmchan, windows_of

from tmchan import library

CODES = {16: "rs16", 8: "rs8", 0: "none"}
BASES = ["dual", "poly"]


def link_of(numbers):
    """The link with these numbers of tmchan_config; OUTSIDE stands for each number that is no word's."""
    options = {}
    for name, number in zip(NAMES, map(int, numbers)):
        words = library.OPTIONS[name]
        if name in ("workers", "limit") or number == UNSET:
            continue
        options[name] = (
            number if words is None else next((word for word, it in words.items() if it == number), "no such word")
        )
    return tmchan.Link(**options)


def test_words_and_codeblocks():
    count = 0
    for kind, *fields in rows("library_rows.py"):
        if kind == "encode":
            code, basis, data, answer, checks = fields
            assert tmchan.rs_encode(octets(data), code=CODES[int(code)], basis=BASES[int(basis)]) == octets(
                data
            ) + octets(checks)
        elif kind in ("decode", "decode_erased"):
            code, basis, repair, word, *flags, answer, left = fields
            erased = [place for place, flag in enumerate(octets(flags[0])) if flag] if flags else []
            options = dict(code=CODES[int(code)], basis=BASES[int(basis)], repair=int(repair), erased=erased)
            if int(answer) < 0:
                with pytest.raises(tmchan.Uncorrectable):
                    tmchan.rs_decode(octets(word), **options)
            else:
                assert tmchan.rs_decode(octets(word), **options) == (octets(left), int(answer))
        elif kind == "randomize":
            assert tmchan.randomize(octets(fields[0])) == octets(fields[1])
        elif kind == "cadu":
            code, depth, basis, randomize, frame, answer, unit = fields
            link = tmchan.Link(
                code=CODES[int(code)],
                depth=int(depth),
                basis=BASES[int(basis)],
                randomize=randomize == "1",
                length=len(octets(frame)),
            )
            assert link.cadu(octets(frame)) == octets(unit)
        else:
            continue
        count += 1
    assert count > 250


@pytest.mark.parametrize("most", [1, 7, 3000])
def test_streams(most):
    draw, kinds = random.Random(most), {}
    for kind, *fields in rows("stream_rows.py"):
        numbers, fields = fields[: len(NAMES)], fields[len(NAMES) :]
        if sum(map(len, fields)) > (2000 if most < 3000 else 10**6):
            continue
        if kind == "check":
            # (what the package has no word for is no number there either)
            if int(numbers[12]) in range(1, 65) and int(numbers[13]) in range(1, 2**40 + 1):
                with pytest.raises(tmchan.Refused) as refused:
                    link_of(numbers)
                assert refused.value.answer == int(fields[0])
        elif kind == "send":
            link = link_of(numbers)
            with link.sender() as sender:
                sent = b"".join(map(sender.push, pieces(octets(fields[0]), draw, most)))
                assert sender.finish() == len(octets(fields[0])) % link.frame_length
            assert sent == octets(fields[1])
        elif kind == "receive":
            link = link_of(numbers)
            items, lines = received(link, pieces(octets(fields[0]), draw, most))
            assert lines == octets(fields[2]).decode().splitlines()
            assert octets(fields[1]) in (None, b"".join(it.frame for it in items if it.frame))
        elif kind == "recording":
            made = library.recording(
                next(word for word, it in library.OPTIONS["inner"].items() if it == int(numbers[3]))
            )
            assert set(made.items()) <= set(link_of(fields).options.items())
        elif kind == "windows":
            wanted = [tuple(map(int, line.split())) for line in octets(fields[1]).decode().splitlines()]
            for opened in (link_of(numbers).decoder, link_of(numbers).receiver):
                assert windows_of(opened, pieces(octets(fields[0]), draw, most)) == wanted
            items, _ = received(link_of(numbers), pieces(octets(fields[0]), draw, most))
            assert "".join(f"{it.place} {it.symbol}\n" for it in items) == octets(fields[2]).decode()
        else:
            with link_of(numbers).decoder() as decoder:
                bits = b"".join([*map(decoder.push, pieces(octets(fields[0]), draw, most)), decoder.finish()])
                head = [f"phase {decoder.phase.skip} cost {decoder.phase.cost}"] if decoder.phase else []
            assert [*head, f"bits {len(bits)}"] == octets(fields[2]).decode().splitlines()
            whole = bits + bytes(-len(bits) % 8)
            assert octets(fields[1]) in (
                None,
                bytes(int("".join(map(str, whole[at : at + 8])), 2) for at in range(0, len(whole), 8)),
            )
        kinds[kind] = kinds.get(kind, 0) + 1
    assert min(kinds[it] for it in ("check", "send", "receive", "bits", "recording")) > 5
