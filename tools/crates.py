"""crates.txt, for the scripts that read it."""
import os

TOP = os.path.dirname(os.path.dirname(os.path.abspath(__file__)))


def rows():
    """Of each crate the words before the colon, after its name, and those after it: what it stands on."""
    found = {}
    with open(os.path.join(TOP, "crates.txt"), encoding="utf-8") as file:
        for line in file:
            before, _, after = line.partition("#")[0].partition(":")
            if before.strip():
                name, *kind = before.split()
                found[name] = kind, after.split()
    return found


def below(*names):
    """The crates of the repository that these stand on, without these."""
    crates, found, rest = rows(), [], list(names)
    while rest:
        for it in crates[rest.pop()][1]:
            if it in crates and it not in found:
                found.append(it)
                rest.append(it)
    return found
