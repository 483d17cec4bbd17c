"""The commands as a user has them, in processes of their own."""
import contextlib
import json
import os
import pathlib
import random
import re
import select
import shutil
import signal
import subprocess
import sys
import time

import pytest
from links import PROGRAM, TOP, frames, levels, limited, noise, run, soft, tmchan

GUIDE = os.path.join(TOP, "docs", "GUIDE.md")
KNOWN = ["--input", "u8", "--depth", "2", "--length", "100"]
LINK, SENT = tmchan.Link(depth=2, length=100), frames(30, 100)


@pytest.fixture
def recording(tmp_path):
    path = tmp_path / "a recording"
    path.write_bytes(LINK.send(SENT))
    return str(path)


def test_frames_to_a_file_and_back(tmp_path):
    (tmp_path / "frames").write_bytes(b"".join(SENT))
    status, _, said = run(
        "send", "--depth", "2", "--length", "100", str(tmp_path / "frames"), "--output", str(tmp_path / "symbols")
    )
    assert (status, said) == (0, "") and (tmp_path / "symbols").read_bytes() == LINK.send(SENT)
    status, written, said = run("receive", *KNOWN, str(tmp_path / "symbols"), "-o", str(tmp_path / "came"))
    assert (status, written) == (0, b"") and (tmp_path / "came").read_bytes() == b"".join(SENT)
    assert "30 frames of 100 octets, with 0 symbols repaired; every codeblock that was found is good." in said


def test_pipes(recording):
    symbols = pathlib.Path(recording).read_bytes()
    assert run("receive", *KNOWN, "-", given=symbols)[:2] == (0, b"".join(SENT))
    assert run("receive", *KNOWN, "--from", "5", "-", given=b"12345" + symbols)[:2] == (0, b"".join(SENT))
    assert run("receive", *KNOWN, "--from", "5", recording)[:2] == (0, b"".join(SENT[1:]))
    assert run("send", "--depth", "2", "--length", "100", "-", given=b"".join(SENT))[:2] == (0, symbols)
    assert run("receive", *KNOWN, recording, recording)[:2] == (0, b"".join(SENT + SENT))
    assert run("receive", "--quiet", *KNOWN, recording) == (0, b"".join(SENT), "")


def test_forms_of_output(recording):
    assert run("receive", *KNOWN, "--form", "cadu", recording)[1] == tmchan.Link(
        depth=2, length=100, inner="none"
    ).send(SENT)
    kiss = run("receive", *KNOWN, "--form", "kiss", recording)[1]
    parts = kiss.split(b"\xc0")
    assert set(parts[::2]) == {b""}
    assert [it.replace(b"\xdb\xdc", b"\xc0").replace(b"\xdb\xdd", b"\xdb") for it in parts[1::2]] == [
        b"\0" + it for it in SENT
    ]


def fields_of(kind):
    """The fields of a line, as docs/GUIDE.md has them, in their order: of each name its type, its unit and its text."""
    text = pathlib.Path(GUIDE).read_text().split(f"<!-- json: {kind} -->")[1].split("<!--")[0]
    return {name: told for name, *told in re.findall(r"^\| `(\w+)` \| (\w+) \| (\S*) ?\| (.*) \|$", text, re.M)}


TYPES = {
    "integer": (int,),
    "number": (float,),
    "string": (str,),
    "boolean": (bool,),
    "array": (list,),
    "object": (dict,),
}


def test_json_lines(recording, tmp_path):
    symbols = bytearray(pathlib.Path(recording).read_bytes())
    symbols[8000:9500] = bytes(1500)
    (tmp_path / "broken").write_bytes(symbols)
    status, written, _ = run(
        "receive",
        *KNOWN,
        "--json",
        "--check",
        "--counters",
        "tm",
        "-o",
        str(tmp_path / "frames"),
        str(tmp_path / "broken"),
    )
    every = [json.loads(line) for line in written.decode().splitlines()]
    assert all(line.startswith(b'{"version":1,"kind":"') for line in written.splitlines())
    lines = [it for it in every if it["kind"] != "window"]
    windows = [it for it in every if it["kind"] == "window"]
    assert status == 1 and every[-1] is lines[-1]
    assert [it["kind"] for it in lines] == ["codeblock"] * (len(lines) - 1) + ["end"]
    for line in every:
        fields = fields_of(line["kind"])
        every_field = {**fields, **({} if line["kind"] == "window" else fields_of(line["kind"] + ", where asked"))}
        assert list(line)[: len(fields)] == list(fields) and line["version"] == 1
        assert list(line) == [it for it in every_field if it in line]
        for name, value in line.items():
            kind, _, text = every_field[name]
            assert type(value) in TYPES[kind] or (value is None and "null" in text), (name, value)
    # All that are decoded, in order, and those of a codeblock's bits before it.
    assert sum(it["kept"] for it in windows) == lines[-1]["bits"]
    assert [it["symbol"] for it in windows] == [256 * number for number in range(len(windows))]
    last = -1
    for it in every[:-1]:
        assert it["kind"] == "window" or it["symbol"] <= last
        last = it["symbol"] if it["kind"] == "window" else last
    assert [it["symbol"] for it in lines[:-1]] == [2 * it["place"] for it in lines[:-1]]
    assert sum(it["wrong"] for it in windows) > 100 and any(it["es_n0"] is None or it["at_least"] for it in windows)
    good = [it for it in lines[:-1] if it["good"]]
    assert len(good) == lines[-1]["good"] and lines[-1]["bad"] == len(lines) - 1 - len(good) > 0
    assert [it["length"] for it in good] == [100] * len(good) and (tmp_path / "frames").stat().st_size == 100 * len(
        good
    )
    assert all(None in it["repaired"] for it in lines[:-1] if not it["good"])
    assert lines[-1]["words"] == KNOWN


def test_the_command_that_ran_is_shown(recording):
    """With the options of the receiver that were given, where it would have taken another value by itself."""
    for given, shown in (
        (["--tolerance", "0", "--rescan", "off"], ["--tolerance", "0", "--rescan", "off"]),
        (["--batch", "1", "--tolerance", "3"], ["--batch", "1"]),
        (["--keep", "8192", "--start", "zero"], ["--start", "zero", "--keep", "8192"]),
    ):
        status, written, said = run("receive", *KNOWN, *given, "--json", recording)
        assert (status, json.loads(written.splitlines()[-1])["words"]) == (0, [*KNOWN, *shown])
        assert f": {' '.join([*KNOWN, *shown])}\n" in said


def test_checks_and_counters(tmp_path):
    import binascii

    made = []
    for number in (0, 1, 2, 5, 6, 7):
        frame = bytes([0, 0x2A, number, 254 + number & 255]) + bytes(94)
        made.append(frame + binascii.crc_hqx(frame, 0xFFFF).to_bytes(2, "big"))
    made[3] = made[3][:50] + b"\1" + made[3][51:]
    (tmp_path / "symbols").write_bytes(LINK.send(made))
    status, written, said = run("receive", *KNOWN, "--check", "--counters", "tm", str(tmp_path / "symbols"))
    assert (status, written) == (0, b"".join(made))
    assert "Frame check (outside of what is proved): 1 of 6 frames fail." in said
    assert "Virtual channel 5 (outside of what is proved): 6 frames, 2 missing by the counter." in said
    aos = [
        bytes([0x40, 0x05]) + (2**24 - 1 + number & 0xFFFFFF).to_bytes(3, "big") + bytes(95) for number in (0, 1, 4)
    ]
    (tmp_path / "symbols").write_bytes(LINK.send(aos))
    assert (
        "Virtual channel 5 (outside of what is proved): 3 frames, 2 missing by the counter."
        in run("receive", *KNOWN, "--counters", "aos", str(tmp_path / "symbols"))[2]
    )


def test_statuses_and_sentences(recording, tmp_path):
    status, written, said = run("receive", "--input", "u8", "--depth", "1", recording)
    assert (status, written) == (1, b"") and ("No sync marker was found" in said or "uncorrectable" in said)
    for words, sentence in (
        (["--depth", "6", recording], "depth: the depth is none of"),
        (["--depth", "five", recording], "invalid int value"),
        (["--no-such", recording], "unrecognized arguments"),
        ([], "required: FILE"),
        (["--input", "mp3", recording], "invalid choice"),
        (["--json", "-o", "-", recording], "can't both go"),
        (["--from", "-1", recording], "below 0"),
        (["--scale", "0", recording], "--scale: a number above 0"),
        (["-o", recording, recording], "would be written over"),
        (["-o", recording, str(tmp_path / "missing"), recording], "would be written over"),
    ):
        status, written, said = run("receive", *words)
        assert (status, written) == (2, b"") and sentence in said
    assert run("receive", *KNOWN, str(tmp_path / "missing"))[::2] == (
        3,
        f"tmchan-receive: {tmp_path}/missing can't be read: No such file or directory\n",
    )
    assert run("receive", *KNOWN, str(tmp_path))[0] == 3
    assert run("receive", *KNOWN, recording, "-o", str(tmp_path / "no" / "folder"))[0] == 4
    with open("/dev/full", "wb") as full:
        status, _, said = run("receive", *KNOWN, recording, output=full)
        assert (
            status == 4
            and "standard output can't be written: No space left on device" in said
            and "Traceback" not in said
        )
        status, _, said = run("receive", *KNOWN, "--json", recording, output=full)
        assert status == 4 and "Traceback" not in said
        assert run("send", recording, output=full)[0] == 4
        status, _, said = run("find", "--input", "u8", recording, output=full)
        assert status == 4 and "Traceback" not in said
    status, _, said = run("receive", *KNOWN, recording, "-o", "/dev/full")
    assert status == 4 and "/dev/full can't be written: No space left on device" in said and "Traceback" not in said
    assert run("send", recording, "-o", recording)[0] == 2
    assert pathlib.Path(recording).read_bytes() == LINK.send(SENT)
    assert run("send", "--length", "7", "-", given=bytes(10))[0::2] == (1, "3 octets are left over: frames have 7.\n")
    assert run("send", "--length", "999", "-", given=b"")[0] == 2
    assert run()[0] == run("recieve")[0] == 2 and run("--help")[0] == 0
    for name in ("receive", "send", "find"):
        status, written, _ = run(name, "--help")
        assert status == 0 and b"Status 0" in written
        assert run(name, "--version") == (0, f"tmchan-{name} {tmchan.__version__}\n".encode(), "")


def by_shell(line):
    """Output and status of a line of bash, in which $tmchan is the commands, and what is said."""
    environment = {
        **os.environ,
        "PYTHONPATH": os.pathsep.join(sys.path),
        "tmchan": f"{sys.executable} -m tmchan",
        "known": " ".join(KNOWN),
    }
    ran = subprocess.run(["bash", "-c", line], stdout=subprocess.PIPE, stderr=subprocess.PIPE, env=environment)
    return ran.stdout, ran.returncode, ran.stderr.decode()


def test_streams_that_are_closed(recording):
    file = f"'{recording}'"
    assert by_shell(f"$tmchan receive $known {file} 2>&-") == (b"".join(SENT), 0, "")
    for line in (f"receive $known {file}", f"receive $known --json {file}", f"find --input u8 {file}"):
        assert by_shell(f"$tmchan {line} >&-")[1:] == (4, f"tmchan-{line.split()[0]}: standard output is closed\n")
        written, status, said = by_shell(f"$tmchan {line} | head -c 9; exit ${{PIPESTATUS[0]}}")
        # (what is short may have been written whole before)
        assert len(written) == 9 and status in (0, 4) and "Traceback" not in said and "Exception" not in said
    assert by_shell(f"$tmchan receive $known - -o {file} < {file}")[1] == 2
    assert by_shell("$tmchan receive $known - <&-")[1] == 3


@contextlib.contextmanager
def live(*words, **more):
    """A command that reads standard input, with pipes to it and from it."""
    command = [sys.executable, "-m", "tmchan", *words, "-"]
    environment = {**os.environ, "PYTHONPATH": os.pathsep.join(sys.path)}
    streams = dict(stdin=subprocess.PIPE, stdout=subprocess.PIPE, stderr=subprocess.PIPE)
    with subprocess.Popen(command, env=environment, **{**streams, **more}) as it:
        try:
            yield it
        finally:
            it.kill()


def came_within(seconds, pipe, size):
    """The first octets of a pipe, as many as come in time."""
    came, until = b"", time.monotonic() + seconds
    while len(came) < size and select.select([pipe], [], [], max(0, until - time.monotonic()))[0]:
        more = os.read(pipe.fileno(), size - len(came))
        if not more:
            break
        came += more
    return came


# What comes of all symbols before the end of a recording is seen.
LIVE = ["receive", *KNOWN, "--batch", "1", "--quiet"]
with tmchan.Link.recording(depth=2, length=100, batch=1).receiver() as it:
    DUE = it.push(LINK.send(SENT)).frames


def test_frames_come_while_a_pipe_stays_open():
    with live(*LIVE) as it:
        it.stdin.write(LINK.send(SENT[:3]))
        it.stdin.flush()
        assert came_within(30, it.stdout, 100) == SENT[0]


def test_an_interrupt_ends_it():
    """What came before is written."""

    def heed():
        # (what a shell began in the background ignores interrupts)
        signal.signal(signal.SIGINT, signal.SIG_DFL)

    with live(*LIVE, preexec_fn=heed) as it:
        it.stdin.write(LINK.send(SENT))
        it.stdin.flush()
        # (by then the library's calls are behind it)
        assert came_within(60, it.stdout, len(DUE)) == DUE and len(DUE) >= 2500
        it.send_signal(signal.SIGINT)
        assert (it.stdout.read(), it.wait(60), it.stderr.read()) == (b"", 130, b"tmchan-receive: ended\n")


def test_an_input_that_does_not_block_is_waited_for():
    reading, writing = os.pipe()
    os.set_blocking(reading, False)
    with live(*LIVE, stdin=reading) as it, os.fdopen(writing, "wb", buffering=0) as symbols:
        os.close(reading)
        symbols.write(LINK.send(SENT[:3]))
        assert came_within(30, it.stdout, 100) == SENT[0]
        symbols.write(LINK.send(SENT[3:]))
        symbols.close()
        assert (it.stdout.read(), it.wait(60), it.stderr.read()) == (b"".join(SENT[1:]), 0, b"")


def test_an_output_that_does_not_block_is_waited_for():
    reading, writing = os.pipe()
    os.set_blocking(writing, False)
    filling = 0
    with contextlib.suppress(BlockingIOError):
        while True:
            filling += os.write(writing, bytes(4096))
    with live(*LIVE, stdout=writing) as it, os.fdopen(reading, "rb") as came:
        os.close(writing)
        # (as many as fit in a pipe)
        it.stdin.write(LINK.send(SENT[:20]))
        it.stdin.close()
        # (one that does not wait has ended by then; how long this is never makes a right one fail)
        time.sleep(0.5)
        assert (came.read()[filling:], it.wait(60), it.stderr.read()) == (b"".join(SENT[:20]), 0, b"")


@pytest.mark.parametrize("unbuffered", ["", "1"])
def test_a_file_that_takes_a_part(unbuffered, recording, tmp_path):
    """A write that takes fewer octets than it is given is gone on with: the next one fails."""
    more = {"PYTHONPATH": os.pathsep.join(sys.path), "PYTHONUNBUFFERED": unbuffered}
    symbols, sent = LINK.send(SENT), b"".join(SENT)
    (tmp_path / "frames").write_bytes(sent)
    for words, written in (
        (["receive", *KNOWN, recording], sent),
        (["send", "--depth", "2", "--length", "100", str(tmp_path / "frames")], symbols),
    ):
        command = [sys.executable, "-m", "tmchan", *words]
        for size in (1000, len(written) - 1):
            assert limited(command, size, tmp_path / "written", more) == (4, written[:size])
        assert limited(command, len(written), tmp_path / "written", more) == (0, written)


# A close that fails for the file INODE, once it is done.
LATE = """
#define _GNU_SOURCE
#include <errno.h>
#include <stdlib.h>
#include <sys/stat.h>
#include <sys/syscall.h>
#include <unistd.h>
int close(int stream) {
    struct stat file;
    int fails = !fstat(stream, &file) && file.st_ino == strtoul(getenv("INODE"), NULL, 10);
    int answer = syscall(SYS_close, stream);
    if (!fails) return answer;
    errno = ENOSPC;
    return -1;
}
"""


@pytest.mark.skipif(not shutil.which("cc"), reason="there is no C compiler")
def test_output_that_is_lost_as_it_is_closed(recording, tmp_path):
    """A file system may say so only then."""
    late, written = tmp_path / "late.so", tmp_path / "written"
    subprocess.run(["cc", "-shared", "-fPIC", "-x", "c", "-o", late, "-"], input=LATE.encode(), check=True)
    written.touch()
    around = {"LD_PRELOAD": str(late), "INODE": str(written.stat().st_ino)}
    environment = {**os.environ, "PYTHONPATH": os.pathsep.join(sys.path), **around}
    command = [sys.executable, "-m", "tmchan"]
    for words in (
        ["receive", *KNOWN, recording],
        ["receive", *KNOWN, "--json", recording],
        ["receive", *KNOWN, "--output", str(written), recording],
        ["send", recording],
        ["find", "--input", "u8", recording],
    ):
        with open(written, "wb") as file:
            ran = subprocess.run([*command, *words], stdout=file, stderr=subprocess.PIPE, env=environment)
        said = ran.stderr.decode()
        assert ran.returncode == 4 and "can't be written: No space left on device" in said and "Traceback" not in said


@pytest.mark.parametrize("begin", [5000, 1_200_000])
def test_where_it_begins(begin, tmp_path):
    """Behind what is read of a pipe at first, and behind a piece."""
    given = random.Random(begin).randbytes(begin) + LINK.send(SENT)
    (tmp_path / "pass").write_bytes(given)
    words = ["receive", *KNOWN, "--from", str(begin)]
    assert run(*words, "-", given=given)[:2] == run(*words, str(tmp_path / "pass"))[:2] == (0, b"".join(SENT))
    assert run(*words, "-", given=given[:begin])[:2] == run(*words, "-", given=given[: begin - 1])[:2] == (1, b"")


def test_empty_and_garbage(tmp_path):
    (tmp_path / "empty").write_bytes(b"")
    (tmp_path / "garbage").write_bytes(os.urandom(5000))
    for name in ("empty", "garbage"):
        for words in (KNOWN, ["--input", "f32", "--depth", "5"], ["--input", "packed-lsb", "--inner", "none"], []):
            if "f32" in words:
                pytest.importorskip("numpy")
            status, written, said = run("receive", *words, str(tmp_path / name))
            assert (status, written) == (1, b"") and "Traceback" not in said
        assert ("No frames?" in said) == (name == "garbage")
    assert run("find", str(tmp_path / "empty"))[0] == 1
    assert run("receive", "-", given=b"")[0] == 1


def wave(path, kind, bits, samples, channels=1, size=None):
    data = samples.tobytes()
    size = len(data) if size is None else size
    head = b"WAVEfmt \x10\0\0\0" + b"".join(
        it.to_bytes(n, "little")
        for it, n in ((kind, 2), (channels, 2), (8000, 4), (8000 * bits // 8, 4), (bits // 8, 2), (bits, 2))
    )
    head += b"LIST\x05\0\0\0abcde\0data" + size.to_bytes(4, "little")
    path.write_bytes(b"RIFF" + (len(head) + len(data)).to_bytes(4, "little") + head + data)


def test_waves(tmp_path):
    numpy = pytest.importorskip("numpy")
    floats = levels(LINK.send(SENT), 3)
    path = tmp_path / "pass.wav"
    for kind, bits, samples in (
        (1, 16, (floats * 3000).astype("<i2")),
        (1, 8, soft(floats)),
        (3, 32, floats),
        (3, 64, floats.astype("<f8")),
    ):
        for size in (None, 0):
            wave(path, kind, bits, samples, size=size)
            assert run("receive", "--depth", "2", "--length", "100", "--inner", "1/2", str(path))[:2] == (
                0,
                b"".join(SENT),
            )
    assert run("receive", "--depth", "2", "--length", "100", "-", given=path.read_bytes())[:2] == (0, b"".join(SENT))
    wave(path, 1, 24, floats)
    assert run("receive", str(path))[::2] == (
        3,
        f"tmchan-receive: {path}: a WAV file of kind 1 with 24 bits a sample is not read\n",
    )
    path.write_bytes(b"RIFF1234WAVEjunk")
    assert run("receive", str(path))[0] == 3
    assert numpy


def test_raw_forms(tmp_path):
    numpy = pytest.importorskip("numpy")
    floats = levels(LINK.send(SENT), 4)
    hard = floats > 0
    for form, data in (
        ("i8", (floats * 32).astype("i1")),
        ("i16", (floats * 900).astype("<i2")),
        ("i16be", (floats * 900).astype(">i2")),
        ("f32", floats),
        ("f32be", floats.astype(">f4")),
        ("f64", floats.astype("<f8")),
        ("f64be", floats.astype(">f8")),
        ("unpacked", hard.astype("u1")),
        ("packed", numpy.packbits(hard)),
        ("packed-lsb", numpy.packbits(hard, bitorder="little")),
    ):
        (tmp_path / form).write_bytes(data.tobytes())
        assert run("receive", "--input", form, *KNOWN[2:], str(tmp_path / form))[:2] == (0, b"".join(SENT)), form
    swapped = soft(floats).reshape(-1, 2)[:, ::-1].tobytes()
    (tmp_path / "swapped").write_bytes(swapped)
    assert run("receive", "--swap", *KNOWN, str(tmp_path / "swapped"))[:2] == (0, b"".join(SENT))
    # What is found needs no word.
    assert run("receive", "--swap", str(tmp_path / "i8"))[:2] == (0, b"".join(SENT))
    bits = tmchan.Link(depth=2, length=100, inner="none").send(SENT)
    (tmp_path / "bits").write_bytes(bytes(it for it in bits))
    assert run("receive", "--input", "packed", "--inner", "none", *KNOWN[2:], str(tmp_path / "bits"))[:2] == (
        0,
        b"".join(SENT),
    )


def printed_lines(path, *words):
    """The commands that tmchan-find prints, run in the recording's folder, and the frames of each."""
    status, written, said = run("find", *words, str(path))
    assert (status, said) == (0, ""), written
    lines = [line.strip() for line in written.decode().split("receives it:")[1].splitlines()]
    folder = path.parent
    bin_folder = folder / "bin"
    bin_folder.mkdir(exist_ok=True)
    (bin_folder / "tmchan-receive").write_text(f"#!/bin/sh\nexec '{sys.executable}' -m tmchan receive \"$@\"\n")
    (bin_folder / "tmchan-receive").chmod(0o755)
    if PROGRAM and not (bin_folder / "tmchan").exists():
        (bin_folder / "tmchan").symlink_to(PROGRAM)
    environment = {**os.environ, "PYTHONPATH": os.pathsep.join(sys.path), "PATH": f"{bin_folder}:{os.environ['PATH']}"}
    for command in lines:
        if command.startswith("tmchan-receive ") or ("tmchan decode" in command and PROGRAM):
            # (of bad codeblocks the status says so)
            ran = subprocess.run(command, shell=True, cwd=folder, env=environment, stderr=subprocess.DEVNULL)
            assert ran.returncode in (0, 1)
            yield command, (folder / "frames").read_bytes()
    assert any("tmchan decode" in it for it in lines)


def test_find_prints_lines_that_work(tmp_path):
    pytest.importorskip("numpy")
    head = b"not symbols, but 31 octets more"
    floats = levels(LINK.send(SENT * 4), 4)
    path = tmp_path / "it's a pass"
    path.write_bytes(head + soft(floats).tobytes())
    came = list(printed_lines(path, "--input", "u8", "--from", str(len(head))))
    assert [frames for _, frames in came] == [b"".join(SENT * 4)] * (1 + bool(PROGRAM))
    path.write_bytes(soft(noise(30_000)).tobytes())
    status, written, _ = run("find", "--places", "1", str(path))
    assert status == 1 and b"No options were found" in written


@pytest.mark.long
def test_find_prints_lines_that_work_for_hard_recordings(tmp_path):
    """Noise before, between and behind, the second half inverted, and a symbol that is lost; from an offset."""
    numpy = pytest.importorskip("numpy")
    sent = frames(120, 200)
    floats = levels(tmchan.Link(depth=2, length=200).send(sent), 3)
    half = len(floats) // 2
    given = numpy.concatenate([noise(150_000), floats[:half], noise(77_777, 4), numpy.delete(-floats[half:], 99_999)])
    path = tmp_path / "pass"
    path.write_bytes(b"head" + soft(given).tobytes())
    count = 0
    for command, written in printed_lines(path, "--from", "4"):
        came = {written[at : at + 200] for at in range(0, len(written), 200)}
        assert len(came & set(sent)) >= 110 and came <= set(sent)
        if "tmchan decode" in command:
            assert "--phase follow" in command and "--polarity find" in command and "tail -c +5 " in command
        count += 1
    assert count == 1 + bool(PROGRAM)


def test_find_on_standard_input():
    pytest.importorskip("numpy")
    given = soft(levels(LINK.send(SENT * 2), 4)).tobytes()
    for words, line in (([], "    tmchan decode "), (["--from", "7"], "    tail -c +8 | tmchan decode ")):
        status, written, said = run("find", *words, "-", given=given)
        assert (status, said) == (0, "") and " < " not in written.decode()
        assert any(it.startswith(line) and it.endswith("> frames") for it in written.decode().splitlines())


def test_receive_finds_what_is_not_given(tmp_path):
    pytest.importorskip("numpy")
    path = tmp_path / "pass"
    path.write_bytes((levels(LINK.send(SENT * 2), 4) * 0.02).tobytes())
    status, written, said = run("receive", str(path))
    assert (status, written) == (0, b"".join(SENT * 2)) and "--input f32 --depth 2 --length 100" in said
    assert run("receive", "-", given=path.read_bytes())[:2] == (0, b"".join(SENT * 2))
