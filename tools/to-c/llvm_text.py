"""Reads a line of a module's text from the left: words, types, values."""
import re
from dataclasses import dataclass

from llvm_types import DOUBLE, POINTER, VOID, Array, Double, Int, Metadata, Struct, Unknown, Vector

NAME = r'(?:"[^"]*"|[-A-Za-z$._0-9]+)'

# What LLVM may assume of a value or an operation. C is told nothing of it: sums may wrap, and so on.
ATTRIBUTES = re.compile(
    r"\s*(?:(?:noundef|nonnull|noalias|nocapture|readonly|writeonly|readnone|signext|zeroext|inreg|returned|immarg"
    r"|nofree|nuw|nsw|exact|disjoint|nneg|samesign|inbounds|nusw|unnamed_addr|local_unnamed_addr|dso_local|internal|private"
    r"|hidden|writable|dead_on_unwind|tail|musttail|notail|fastcc|ccc|coldcc)\b(?![.(])"
    r"|(?:range|captures|dereferenceable|dereferenceable_or_null|initializes|dead_on_return)"
    r"\([^()]*(?:\([^()]*\)[^()]*)*\)"
    r"|align \d+)"
)
TOKENS = {}


def pattern(text):
    if text not in TOKENS:
        TOKENS[text] = re.compile(rf"\s*(?:{text})")
    return TOKENS[text]


@dataclass(frozen=True)
class Local:
    name: str


@dataclass(frozen=True)
class Global:
    name: str


@dataclass(frozen=True)
class Number:
    value: int


@dataclass(frozen=True)
class Real:
    text: str


@dataclass(frozen=True)
class Zero:
    """Zeros of any type."""


@dataclass(frozen=True)
class Poison:
    """poison or undef: any value will do."""


@dataclass(frozen=True)
class Octets:
    octets: bytes


@dataclass(frozen=True)
class Items:
    """The members of an array, a vector or a struct."""

    values: tuple


@dataclass(frozen=True)
class Offset:
    """A constant address, so many octets after another one."""

    base: object
    octets: int


@dataclass(frozen=True)
class AddressNumber:
    """A constant address as a number."""

    address: object


class Line:
    def __init__(self, text):
        self.text, self.at = text, 0

    def match(self, text):
        found = pattern(text).match(self.text, self.at)
        if found:
            self.at = found.end()
        return found

    def take(self, word):
        return self.match(re.escape(word))

    def peek(self, word):
        return pattern(re.escape(word)).match(self.text, self.at)

    def need(self, word):
        if not self.take(word):
            raise self.unknown(f"{word!r} is missing")

    def need_match(self, text):
        found = self.match(text)
        if not found:
            raise self.unknown(f"{text!r} is missing")
        return found

    def unknown(self, what):
        return Unknown(f"{what} at {self.text[self.at:self.at + 60]!r}")

    def is_at_end(self):
        return not self.text[self.at :].strip()

    def end(self):
        """Nothing follows but alignments and metadata."""
        while self.match(r", align \d+") or self.match(r", ![-A-Za-z_.]+ ![0-9]+"):
            pass
        self.match(r"#\d+")
        while self.match(r", ![-A-Za-z_.]+ ![0-9]+"):
            pass
        if not self.is_at_end():
            raise self.unknown("more than is known")

    def attributes(self):
        found = ATTRIBUTES.match(self.text, self.at)
        while found:
            self.at = found.end()
            found = ATTRIBUTES.match(self.text, self.at)

    def word(self):
        return self.need_match("([a-z]+)")[1]

    def index(self):
        return int(self.need_match(r"\d+")[0])

    def label(self):
        self.need("label")
        return self.need_match(rf"%({NAME})")[1]

    def local(self):
        return self.need_match(rf"%({NAME})")[1]

    # Types

    def type(self):
        found = self.match(r"i(\d+)\b")
        if found:
            return Int(int(found[1]))
        for word, kind in (("ptr", POINTER), ("void", VOID), ("double", DOUBLE), ("metadata", Metadata())):
            if self.match(rf"{word}\b"):
                return kind
        for begin, end, is_packed in (("<{", "}>", True), ("{", "}", False)):
            if self.take(begin):
                return Struct(tuple(self.several(end, self.type)), is_packed)
        for begin, end, of in (("<", ">", Vector), ("[", "]", Array)):
            if self.take(begin):
                count = self.index()
                self.need("x")
                item = self.type()
                self.need(end)
                if of is Vector and (not isinstance(item, Int) or item.bits not in (1, 8, 16, 32, 64)):
                    raise self.unknown("a vector of such lanes")
                return of(count, item)
        raise self.unknown("no type")

    def several(self, end, read):
        """What stands, with commas between, before the end."""
        found = []
        while not self.take(end):
            found.append(read())
            self.take(",")
        return found

    # Values

    def typed(self):
        kind = self.type()
        self.attributes()
        return kind, self.value(kind)

    def pair(self):
        """Two values of one type: the type, and both."""
        kind, one = self.typed()
        self.need(",")
        return kind, one, self.value(kind)

    def value(self, kind):
        for text, make in ((rf"%({NAME})", Local), (rf"@({NAME})", Global)):
            found = self.match(text)
            if found:
                return make(found[1])
        for text, value in (
            ("true", Number(1)),
            ("false", Number(0)),
            ("null", Number(0)),
            ("zeroinitializer", Zero()),
            ("poison", Poison()),
            ("undef", Poison()),
        ):
            if self.match(rf"{text}\b"):
                return value
        if isinstance(kind, Double):
            return Real(self.need_match(r"-?\d+\.\d+e[+-]\d+|0x[0-9A-F]{16}\b")[0].strip())
        found = self.match(r"-?\d+\b")
        if found:
            return Number(int(found[0]))
        found = self.match(r'c"([^"]*)"')
        if found:
            return self.octets(found[1], kind)
        if self.take("splat"):
            self.need("(")
            item = self.typed()[1]
            self.need(")")
            return Items((item,) * kind.count)
        for begin, end in (("<{", "}>"), ("{", "}"), ("<", ">"), ("[", "]")):
            if self.take(begin):
                return Items(tuple(item for _, item in self.several(end, self.typed)))
        return self.expression()

    def octets(self, text, kind):
        found = bytes(
            int(it[1:], 16) if len(it) == 3 else ord(it[0])
            for it in re.findall(r"\\\\|\\[0-9A-Fa-f]{2}|.", text, re.DOTALL)
        )
        if len(found) != kind.count:
            raise self.unknown(f"{len(found)} octets where {kind.count} belong")
        return Octets(found)

    def expression(self):
        word = self.need_match(r"(getelementptr|ptrtoint|ptrtoaddr)\b")[1]
        self.attributes()
        self.need("(")
        if word == "getelementptr":
            of = self.type()
            self.need(",")
            base = self.typed()[1]
            self.need(",")
            _, index = self.typed()
            self.need(")")
            if of != Int(8) or not isinstance(index, Number):
                raise self.unknown("such a constant address")
            return Offset(base, index.value)
        address = self.typed()[1]
        self.need("to")
        if self.type() != Int(64):
            raise self.unknown("a part of an address")
        self.need(")")
        return AddressNumber(address)
