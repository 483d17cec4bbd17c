"""Tests the Python package: that of this clone, or with --installed the one that this Python has.

    /usr/bin/python3 python/tests [--short] [--installed] [words of pytest]

It needs pytest, and numpy for most of it. Without pytest plain.py runs alone, and a line says so. --short leaves out
what takes long.
"""
import importlib.util
import os
import sys

HERE = os.path.dirname(os.path.abspath(__file__))
TOP = os.path.dirname(os.path.dirname(HERE))


def main(words):
    own = [it for it in words if it in ("--short", "--installed")]
    missing = [it for it in ("pytest", "numpy") if not importlib.util.find_spec(it)]
    sys.dont_write_bytecode = True
    if "--installed" not in own:
        sys.path.insert(0, os.path.dirname(HERE))
        os.environ["PYTHONPATH"] = os.pathsep.join(
            [os.path.dirname(HERE), *filter(None, [os.environ.get("PYTHONPATH")])]
        )
    os.environ["PYTHONDONTWRITEBYTECODE"] = "1"
    os.chdir(TOP)
    if missing:
        print(f"python/tests: {sys.executable} has no {' and no '.join(missing)}: what needs it is not tested")
    if "pytest" in missing:
        import plain

        return plain.main() or 0
    import pytest

    short = ["-m", "not long"] if "--short" in own else []
    return int(
        pytest.main(
            [
                "-q",
                "-p",
                "no:cacheprovider",
                "-c",
                os.path.join(HERE, "pytest.ini"),
                *short,
                *(it for it in words if it not in own),
                HERE,
            ]
        )
    )


sys.exit(main(sys.argv[1:]))
