"""CCSDS 131.0-B (TM Synchronization and Channel Coding) links over libtmchan, the proved library for C.

    link = tmchan.Link(code="rs16", depth=5, inner="1/2")
    symbols = link.send(frames)
    for item in tmchan.Link.recording(depth=5).receive(chunks):
        if item.good:
            use(item.frame)

What the library says is said here, and nothing more: a frame is good where the library says so. docs/PYTHON.md has the
whole package.
"""
from .library import Closed, Refused, Uncorrectable, version as _version
from .link import Decoder, Item, Link, Phase, Received, Receiver, Sender, Totals, Window
from .quality import Quality, quality
from .reed_solomon import Decoded, randomize, rs_decode, rs_encode
from .search import Found, find


def __getattr__(name: str) -> str:
    if name == "__version__":
        return _version()
    raise AttributeError(f"module {__name__!r} has no attribute {name!r}")


__all__ = [
    "Closed",
    "Decoded",
    "Decoder",
    "Found",
    "Item",
    "Link",
    "Phase",
    "Quality",
    "Received",
    "Receiver",
    "Refused",
    "Sender",
    "Totals",
    "Uncorrectable",
    "Window",
    "find",
    "quality",
    "randomize",
    "rs_decode",
    "rs_encode",
]
