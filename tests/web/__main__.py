#!/usr/bin/env python3
"""Tests what `make web` makes, in Node and in headless Chromium.

    python3 tests/web [--node] [--only EXPRESSION] [--pictures FOLDER]

It makes out/web first, and wants Debian's nodejs and chromium, and out/tmchan. With --node it makes nothing, and tests
the modules of web/ that are only copied, in Node: forms of recordings, Es/N0 and passes beside the Python package, and
rooms that are refused. Each test is a line; the last one is `N passed, M failed`, and the status is 1 where some failed, and 77 where there is
no Node for --node. With --pictures it keeps pictures of both views.
"""
import argparse
import pathlib
import re
import shutil
import subprocess
import sys
import tempfile
import time
import traceback

sys.dont_write_bytecode = True
sys.path.insert(0, str(pathlib.Path(__file__).resolve().parent))

import modules  # noqa: E402, F401
import page  # noqa: E402, F401
import passes  # noqa: E402, F401
from browser import Browser, Server  # noqa: E402
from shared import PAGE, SOURCE_TESTS, TESTS, TOP, Room, Skipped  # noqa: E402


def run(tests, room):
    """Runs tests in turn. Returns how many passed, and how many failed."""
    passed = failed = 0
    for it in tests:
        begun = time.monotonic()
        try:
            said = it(room)
            passed += 1
            print(f"{it.__name__}: {said} ({time.monotonic() - begun:.1f} s)", flush=True)
        except Skipped as missing:
            print(f"skipped: {it.__name__} of the page: {missing}")
        except Exception as error:  # noqa: BLE001
            failed += 1
            at = traceback.extract_tb(error.__traceback__)[-1]
            where = f"{pathlib.Path(at.filename).name}:{at.lineno}"
            print(f"{it.__name__} FAILED, {it.__doc__} {type(error).__name__} at {where}: {error}", flush=True)
    return passed, failed


def run_with_browser(tests, room):
    """Runs tests that may have a browser over out/web."""
    room.server, browsers = Server(PAGE), []

    def browser(*flags):
        if not browsers or browsers[0][0] != flags:
            for _, it in browsers:
                it.close()
            browsers[:] = [(flags, Browser(*flags))]
        return browsers[0][1]

    room.browser = browser
    made = subprocess.run(["make", "-s", "web"], cwd=TOP, check=False)
    passed, failed = run(tests, room)
    for _, it in browsers:
        it.close()
    room.server.close()
    return passed, failed + (made.returncode != 0)


def main():
    arguments = argparse.ArgumentParser(description=__doc__, formatter_class=argparse.RawDescriptionHelpFormatter)
    arguments.add_argument("--node", action="store_true")
    arguments.add_argument("--only", default="")
    arguments.add_argument("--pictures")
    given = arguments.parse_args()
    if given.node and not shutil.which("node"):
        print("skipped: the page's modules: Debian's nodejs")
        sys.exit(77)
    tests = [it for it in (SOURCE_TESTS if given.node else TESTS) if re.search(given.only, it.__name__)]
    with tempfile.TemporaryDirectory() as folder:
        room = Room(folder)
        room.pictures = pathlib.Path(given.pictures) if given.pictures else None
        passed, failed = (run if given.node else run_with_browser)(tests, room)
    print(f"{passed} passed, {failed} failed")
    sys.exit(1 if failed else 0)


if __name__ == "__main__":
    main()
