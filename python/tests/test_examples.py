"""The examples that call the package: examples/soft and examples/find-options."""
import os
import pathlib
import subprocess
import sys

import pytest
from links import TOP, limited, tmchan

numpy = pytest.importorskip("numpy")


def run(script, *words, given=b"", folder=None, environment=None):
    ran = subprocess.run(
        [sys.executable, os.path.join(TOP, "examples", script), *words],
        input=given,
        stdout=subprocess.PIPE,
        stderr=subprocess.PIPE,
        cwd=folder,
        env={**os.environ, **(environment or {})},
    )
    return ran.returncode, ran.stdout, ran.stderr.decode()


def soft(*words, given, said=""):
    # (it needs no library)
    status, written, notes = run("soft", *words, given=given, environment={"LIBTMCHAN": "/no/such/library"})
    assert (status, notes) == (0, said)
    return numpy.frombuffer(written, numpy.uint8)


def test_soft():
    draw = numpy.random.default_rng(1)
    floats = numpy.concatenate([draw.normal(0, 1, 100_001), [numpy.nan, numpy.inf, -numpy.inf]]).astype("<f4")
    levels = numpy.clip(numpy.nan_to_num(floats, nan=0, posinf=9, neginf=-9) * numpy.float32(64) + 128, 0, 255)
    wanted = levels.astype(numpy.uint8)
    assert len(set(wanted)) == 256
    for form, dtype in (("f32", "<f4"), ("float32", "<f4"), ("f32be", ">f4"), ("f64", "<f8")):
        assert numpy.array_equal(soft(form, given=floats.astype(dtype).tobytes()), wanted)
    quiet = numpy.clip(numpy.nan_to_num(floats, nan=0, posinf=99, neginf=-99) * numpy.float32(5) + 128, 0, 255)
    assert numpy.array_equal(soft("f32", "--scale", "5", given=floats.tobytes()), quiet.astype(numpy.uint8))
    octets = draw.integers(0, 256, 100_000, numpy.uint8)
    assert numpy.array_equal(soft("u8", given=octets.tobytes()), octets)
    assert numpy.array_equal(soft("int8", given=octets.tobytes()), octets ^ 128)
    assert numpy.array_equal(soft("i16", given=octets.tobytes()), octets[1::2] ^ 128)
    assert numpy.array_equal(soft("i16be", given=octets.tobytes()), octets[0::2] ^ 128)
    assert numpy.array_equal(soft("unpacked", given=(octets & 1).tobytes()), 255 * (octets & 1))
    assert numpy.array_equal(soft("packed", given=octets.tobytes()), 255 * numpy.unpackbits(octets))
    assert numpy.array_equal(
        soft("packed-lsb", given=octets.tobytes()), 255 * numpy.unpackbits(octets, bitorder="little")
    )
    swapped = octets.reshape(-1, 2)[:, ::-1].reshape(-1)
    assert numpy.array_equal(soft("u8", "--swap", given=octets.tobytes()), swapped)
    assert numpy.array_equal(soft("u8", "--swap", "--invert", given=octets.tobytes()), 255 - swapped)
    assert numpy.array_equal(soft("u8", "--bits", given=octets.tobytes()), numpy.packbits(octets > 127))
    assert numpy.array_equal(soft("packed", "--bits", "--invert", given=octets.tobytes()), 255 - octets)


def test_soft_says_what_is_left():
    end = "soft: left out at the end, no whole "
    assert len(soft("f32", given=bytes(4003), said=end + "number: octets 3\n")) == 1000
    assert len(soft("u8", "--swap", given=bytes(4003), said=end + "pair: symbols 1\n")) == 4002
    assert len(soft("u8", "--bits", given=bytes(4003), said=end + "octet: symbols 3\n")) == 500
    assert run("soft")[0] == run("soft", "mp3")[0] == run("soft", "u8", "--scale", "x")[0] == 2
    assert run("soft", "f32", "--scale", "-1")[::2] == (
        1,
        "soft: scale: a number above 0 is wanted, or 'mean', and this is -1.0\n",
    )
    ran = subprocess.run(
        f"'{sys.executable}' '{TOP}/examples/soft' packed < /dev/zero | head -c 9",
        shell=True,
        stdout=subprocess.PIPE,
        stderr=subprocess.PIPE,
    )
    assert (ran.stdout, ran.stderr) == (bytes(9), b"")


LIBRARY = os.environ.get("LIBTMCHAN") or os.path.join(TOP, "out", "libtmchan.so")
SCRIPTS = [["examples/noise"], ["examples/soft", "u8"], ["docs/reference", "encode"]]
SCRIPTS += [["examples/c/receive.py", LIBRARY, "1"]] * os.path.exists(LIBRARY)


@pytest.mark.parametrize("script", SCRIPTS, ids=lambda it: it[0])
def test_a_file_that_takes_a_part(script, tmp_path):
    """Also where Python buffers nothing a write that takes fewer octets than it is given is gone on with."""
    command, more = [sys.executable, os.path.join(TOP, script[0]), *script[1:]], {"PYTHONUNBUFFERED": "1"}
    given = tmchan.Link().send(bytes(223 * 6))
    status, written = limited(command, 1 << 24, tmp_path / "written", more, given)
    assert len(written) > 1000
    found = limited(command, 1000, tmp_path / "written", more, given)
    assert found[0] not in (0, status) and found[1] == written[:1000]


def test_find_options_prints_what_the_guide_says(tmp_path):
    """On the recording that the guide makes."""
    sent = "".join(f"{number}\n" for number in range(1, 10001)).encode()[:17840]
    status, noisy, said = run("noise", "--decibels", "0", given=tmchan.Link().send(sent)[999:])
    assert (status, said) == (0, "26062 of 330521 symbols are on the wrong side\n")
    (tmp_path / "out").mkdir()
    (tmp_path / "out" / "recording").write_bytes(noisy)
    guide = pathlib.Path(TOP, "docs", "GUIDE.md").read_text()
    printed = guide.split("```text\n$ examples/find-options out/recording\n")[1].split("\n```")[0]
    status, written, said = run("find-options", "out/recording", folder=tmp_path)
    assert (status, said, written.decode()) == (0, "", printed + "\n")
