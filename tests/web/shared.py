"""What the tests share: where things are, rows and cases, recordings, and the list of the tests."""
import ast
import hashlib
import importlib.machinery
import importlib.util
import json
import pathlib
import random
import re
import subprocess

HERE = pathlib.Path(__file__).resolve().parent
TOP = HERE.parent.parent
PAGE = TOP / "out" / "web"
PROGRAM = TOP / "out" / "tmchan"
LIBRARY = TOP / "out" / "libtmchan.so"
# The modules that `make web` only copies.
SOURCES = TOP / "web"
CASES = 300
TESTS, SOURCE_TESTS = [], []


def test(call):
    TESTS.append(call)
    return call


def source_test(call):
    """A test of SOURCES alone, by Node."""
    SOURCE_TESTS.append(call)
    return test(call)


class Skipped(Exception):
    """What is missing for a test, and its package."""


def refusals():
    """The tables of refusals of tests/c/rows.c, as lists of numbers."""
    text = (TOP / "tests/c/rows.c").read_text()
    header = (TOP / "include/tmchan.h").read_text()
    numbers = re.findall(r"#define (TMCHAN_\w+) \(?(-?\d\w*)\)?$", re.sub(r" */\*.*", "", header), re.M)
    values = {"UINT32_MAX": 2**32 - 1, **{name: int(value, 0) for name, value in numbers}}
    found = {}
    for name, body in re.findall(r"\} (\w+)\[\] = \{(.*?)\n    \};", text, re.S):
        body = re.sub(r"[A-Z_][A-Z_0-9]{3,}", lambda it: str(values[it[0]]), body).replace("{", "[").replace("}", "]")
        # (a sum of numbers stands in some)
        found[name] = [
            [eval(compile(ast.Expression(it), "", "eval")) for it in row.elts]
            for row in ast.parse(f"[{body}]", mode="eval").body.elts
        ]
    assert sorted(found) == ["columns", "encodings", "units", "words"], sorted(found)
    return found


def drawn_cases(commands=None):
    """Command lines and inputs that tests/compare draws, with the answers of docs/reference. Words that are no text are left out, since a
    page has none; and with commands those that the library has no call for, as of options that it lacks."""
    loader = importlib.machinery.SourceFileLoader("compare", str(TOP / "tests/compare"))
    compare = importlib.util.module_from_spec(importlib.util.spec_from_loader("compare", loader))
    loader.exec_module(compare)
    options = re.findall(r"^    uint64_t (\w+);", (TOP / "include/tmchan.h").read_text(), re.M)
    names, found, place = commands or compare.COMMANDS, [], 0
    while len(found) < CASES:
        command = names[place % len(names)]
        words, data = compare.draw_case(compare.Draw(f"web {place} {command}"), command, True)
        place += 1
        if any("\ud800" <= letter <= "\udfff" for word in words for letter in word):
            continue
        output, notes, status = compare.REFERENCE.run(words, lambda most: data[:most])
        case = dict(
            words=words,
            command=command,
            input=data.hex() or "-",
            output=output.hex() or "-",
            notes=notes.hex() or "-",
            status=status,
        )
        if commands:
            if status > 1:
                continue
            given = {name: value for name, value in options_of(words[1:]).items() if name not in ("workers", "limit")}
            if any(value not in ("off", "drop") for name, value in given.items() if name not in options):
                continue
            case["options"] = {name: value for name, value in given.items() if name in options}
        found.append(case)
    return found


def options_of(words):
    """The options of a command line that is taken, by name."""
    given, rest = {}, [it for it in words if it != "--"]
    while rest:
        word = rest.pop(0)
        name, is_joined, value = word.removeprefix("--").partition("=")
        given[name] = value if is_joined else rest.pop(0)
    return given


class Room:
    """What the tests share: rows and cases, and recordings."""

    def __init__(self, folder):
        self.folder = pathlib.Path(folder)
        self._made = {}

    def path(self, name):
        return self.folder / name

    def rows(self):
        if "rows" not in self._made:
            for name, script in (("rows.txt", "tests/library_rows.py"), ("streams.txt", "tests/stream_rows.py")):
                with open(self.path(name), "wb") as file:
                    subprocess.run([TOP / script], cwd=TOP, stdout=file, check=True)
            self.path("refusals.json").write_text(json.dumps(refusals()))
            self.path("cases.json").write_text(json.dumps(drawn_cases()))
            self.path("library-cases.json").write_text(json.dumps(drawn_cases(("encode", "decode", "bits"))))
            self._made["rows"] = True

    def recording(self, name, frames=150, decibels=3.0, head=0, depth=1, inner="1/2", invert_from=None):
        """A recording in form u8 of frames that a program in Python draws: its path."""
        path = self.path(name)
        if not path.exists():
            draw = random.Random(name)
            sent = draw.randbytes(frames * 223 * depth)
            symbols = subprocess.run(
                [PROGRAM, "encode", "--depth", str(depth), "--inner", inner],
                input=sent,
                stdout=subprocess.PIPE,
                check=True,
            ).stdout
            deviation = (10 ** (-decibels / 10) / 2) ** 0.5
            noise = [draw.gauss(0, 63.75 * deviation) for _ in range(4096)]
            received = bytearray(min(255, max(0, round(127.5 + draw.gauss(0, 90)))) for _ in range(head))
            received += bytes(
                min(255, max(0, round(127.5 + (63.75 if it else -63.75) + noise[draw.getrandbits(12)])))
                for it in symbols
            )
            if invert_from:
                received[invert_from:] = bytes(it ^ 255 for it in received[invert_from:])
            path.write_bytes(bytes(received))
        return path


def program(words, octets):
    ran = subprocess.run([PROGRAM, *words], input=octets, stdout=subprocess.PIPE, stderr=subprocess.PIPE, check=False)
    return ran.returncode, ran.stdout, ran.stderr


def digest(octets):
    return hashlib.sha256(octets).hexdigest()
