"""The built program, for the scripts that test it."""
import os
import sys

TOP = os.path.dirname(os.path.dirname(os.path.abspath(__file__)))
PROGRAMS = ["out/tmchan", "out/c/tmchan"]


def found(*programs):
    """The path of the program: the first of these that is there, or of PROGRAMS. Ends with status 2 where none is."""
    for it in programs or [os.path.join(TOP, it) for it in PROGRAMS]:
        if os.access(it, os.X_OK):
            return os.path.abspath(it)
    name = os.path.basename(sys.argv[0])
    print(f"{name}: there is no program {' or '.join(programs or PROGRAMS)}: `make program` builds it", file=sys.stderr)
    print("0 passed, 1 failed")
    sys.exit(2)


def program(about):
    """The program that the script was given as its one word, or else that which is found. Ends with status 2, and with
    what the script is about, where its words are others."""
    words = sys.argv[1:]
    if len(words) > 1 or any(it.startswith("-") for it in words):
        print(about.strip())
        sys.exit(2)
    return found(*words)
