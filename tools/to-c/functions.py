"""A function in C: its variables, values as expressions, and the text of its body."""
import re
from collections import Counter
from dataclasses import dataclass

import constants
from blocks import blocks_of, copied_at_once, ordered, phis_of
from llvm_text import NAME, AddressNumber, Items, Line, Local, Number, Poison, Real, Zero
from llvm_types import BIT, Double, Int, Pointer, Struct, Unknown, Vector, c_type, lanes_of_part, part_count, width

INSTRUCTIONS = {}


def instruction(*words):
    """Marks what writes these instructions: it is passed the function, the name of the result (or None), the line and
    the word."""

    def keep(write):
        INSTRUCTIONS.update((word, write) for word in words)
        return write

    return keep


@dataclass
class Kept:
    """What keeps a value: a variable, or of a vector one for each part. Of a mask, lane_bits is the width of its lanes,
    all of whose bits are equal."""

    kind: object
    names: list
    lane_bits: int


def number_text(value, bits):
    value %= 1 << bits
    if width(bits) == 128:
        return f"U128({value >> 64}u, {value % (1 << 64)}u)"
    if width(bits) == 64:
        return f"UINT64_C({value})"
    return f"{value}u"


class Function:
    def __init__(self, module, definition):
        self.module, self.head, self.lines = module, definition.head, definition.lines
        self.kept, self.declared, self.code = {}, {}, []
        self.labels, self.phis, self.block, self.number = {}, {}, None, 0

    # Variables

    def variable(self, c_kind, name):
        self.declared.setdefault(c_kind, []).append(name)
        return name

    def spare(self, c_kind):
        self.number += 1
        return self.variable(c_kind, f"x{self.number}")

    def new(self, name, kind, lane_bits=None):
        """The variables of a value that is defined."""
        self.number += 1
        base = f"x{self.number}"
        if isinstance(kind, Vector):
            lane_bits = lane_bits or kind.lane.bits
            names = [self.variable(f"v{lane_bits}", f"{base}_{k}") for k in range(part_count(kind, lane_bits))]
        else:
            if isinstance(kind, Struct):
                self.module.structs[c_type(kind)] = kind
            names = [self.variable(c_type(kind), base)]
        self.kept[name] = Kept(kind, names, lane_bits)
        return names

    def say(self, text):
        self.code.append("    " + text)

    def set(self, name, kind, expression):
        self.say(f"{self.new(name, kind)[0]} = {expression};")

    def set_parts(self, name, kind, expressions, lane_bits=None):
        for variable, expression in zip(self.new(name, kind, lane_bits), expressions, strict=True):
            self.say(f"{variable} = {expression};")

    # Values

    def local(self, value):
        if value.name not in self.kept:
            raise Unknown(f"%{value.name} is not defined before")
        return self.kept[value.name]

    def scalar(self, kind, value):
        if isinstance(value, Local):
            return self.local(value).names[0]
        if isinstance(kind, Pointer):
            return constants.address(self.module, value)
        if isinstance(kind, Int):
            if isinstance(value, (Zero, Poison)):
                value = Number(0)
            if isinstance(value, Number):
                return number_text(value.value, kind.bits)
            if isinstance(value, AddressNumber):
                return f"number_of({constants.address(self.module, value.address)})"
        if isinstance(kind, Double):
            if isinstance(value, Real):
                return f"double_of(UINT64_C({value.text}))" if value.text.startswith("0x") else value.text
            return "0.0"
        if isinstance(kind, Struct):
            return self.struct(kind, value)
        raise Unknown(f"{value} as {kind}")

    def struct(self, kind, value):
        self.module.structs[c_type(kind)] = kind
        values = value.values if isinstance(value, Items) else [Zero()] * len(kind.fields)
        fields = ", ".join(self.scalar(*field) for field in zip(kind.fields, values, strict=True))
        return f"({c_type(kind)}){{{fields}}}"

    def parts(self, kind, value, lane_bits=None):
        """The parts of a vector; of a mask with lanes of this width."""
        if isinstance(value, Local):
            it = self.local(value)
            if lane_bits in (None, it.lane_bits):
                return it.names
            return self.widened(it.names, it.lane_bits, lane_bits, kind.count)
        lane_bits = lane_bits or kind.lane.bits
        count, lanes = part_count(kind, lane_bits), lanes_of_part(lane_bits)
        if isinstance(value, (Zero, Poison)):
            return [f"v{lane_bits}_zero()"] * count
        numbers = [self.lane(kind, it, lane_bits) for it in value.values] + [0] * (lanes * count - kind.count)
        pieces = [numbers[k * lanes : (k + 1) * lanes] for k in range(count)]
        return [f"v{lane_bits}_of({', '.join(number_text(it, lane_bits) for it in piece)})" for piece in pieces]

    @staticmethod
    def lane(kind, value, lane_bits):
        if not isinstance(value, (Number, Poison, Zero)):
            raise Unknown(f"the lane {value}")
        number = value.value % (1 << kind.lane.bits) if isinstance(value, Number) else 0
        return ((1 << lane_bits) - 1) * number if kind.lane == BIT else number

    def mask_bits(self, *values):
        """The width of the lanes of the first of these masks that is kept; 8 where all are constants."""
        return next((self.local(it).lane_bits for it in values if isinstance(it, Local)), 8)

    def widened(self, parts, have, want, count):
        """A mask with lanes of another width."""
        while have < want:
            parts = [
                f"v{2 * have}_from_v{have}(v{have}_{half}({it}, {it}))" for it in parts for half in ("low", "high")
            ]
            have *= 2
            parts = parts[: part_count(Vector(count, Int(have)), have)]
        while have > want:
            parts = narrowed(parts, have)
            have //= 2
        return parts

    # Jumps

    def jump(self, target):
        copies = []
        for phi in self.phis[target]:
            it, value = self.kept[phi.name], phi.values[self.block]
            if isinstance(phi.kind, Vector):
                expressions = self.parts(phi.kind, value, it.lane_bits if phi.kind.lane == BIT else None)
                copies += [(f"v{it.lane_bits}", *pair) for pair in zip(it.names, expressions, strict=True)]
            else:
                copies.append((c_type(phi.kind), it.names[0], self.scalar(phi.kind, value)))
        return " ".join([*copied_at_once(copies, self.spare), f"goto {self.labels[target]};"])

    # The text

    def write(self):
        """The lines of the function."""
        for number, (kind, name) in enumerate(self.head.parameters):
            self.kept[name] = Kept(kind, [f"a{number}"], None)
        blocks = ordered(blocks_of(self.lines))
        for number, (label, code) in enumerate(blocks):
            self.labels[label], self.phis[label] = f"L{number}", phis_of(code)
            for phi in self.phis[label]:
                self.new(phi.name, phi.kind, phi.lane_bits())
        for label, code in blocks:
            self.block = label
            self.code.append(f"{self.labels[label]}:;")
            for text in code:
                self.write_instruction(text)
        code = self.used()
        variables = [f"    {kind} {', '.join(names)};" for kind, names in self.declared.items()]
        begin, end = self.ends(any(re.search(r"\bv8_(shuffle|pick)|\bv16_pick", it) for it in code))
        return [f"/* {self.head.name.strip(chr(34))} */", begin, *variables, *code, *end, ""]

    def ends(self, is_twice):
        """What stands before the body and after it. One that moves lanes about is compiled twice on x86-64 without
        -march, and is chosen by the processor at each call (portable_vectors.h)."""
        if not is_twice:
            return head_text(self.head) + " {", ["}"]
        kind, name, parameters = c_type(self.head.result), self.head.c_name, parameters_text(self.head)
        given = [f"a{number}" for number in range(len(self.head.parameters))]
        bodies = [f"{name}_body({', '.join([*given, has])})" for has in ("1", "0")]
        answer = "" if kind == "void" else "return"
        choice = f"CHOSEN({kind}, {answer}, {name}, ({parameters}), ({', '.join(given)}), {', '.join(bodies)})"
        return f"INLINE {kind} {name}_body({parameters}, int has_sse4) {{\n    (void)has_sse4;", ["}", choice]

    def used(self):
        """The text without labels to which nothing jumps, and variables that nothing reads."""
        text = "\n".join(self.code)
        words, writes = Counter(re.findall(r"\b[axL]\d\w*", text)), Counter(re.findall(r"\b(x\d\w*) = ", text))
        unread = {it for it, count in writes.items() if words[it] == count}
        kept = []
        for text in self.code:
            begin = re.match(r"(L\d+):;|    (x\w+) = (.*);$", text)
            if begin and begin[1] and words[begin[1]] == 1:
                continue
            if begin and begin[2] in unread and not self.is_jump(text):
                text = f"    (void)({begin[3]});"
            elif self.is_jump(text):
                text = re.sub(r"\b(x\d\w*) = [^;]*; ", lambda copy: "" if copy[1] in unread else copy[0], text)
            kept.append(text)
        left = {kind: [it for it in names if it in words and it not in unread] for kind, names in self.declared.items()}
        self.declared = {kind: names for kind, names in left.items() if names}
        unused = [f"a{k}" for k in range(len(self.head.parameters)) if f"a{k}" not in words]
        return [f"    (void){it};" for it in unused] + kept

    @staticmethod
    def is_jump(text):
        return "goto L" in text

    def write_instruction(self, text):
        if re.match(rf"%{NAME} = phi ", text):
            return
        result = re.match(rf"%({NAME}) = ", text)
        line = Line(text[result.end() :] if result else text)
        try:
            line.attributes()
            word = line.word()
            if word not in INSTRUCTIONS:
                raise Unknown(f"the instruction {word}")
            line.attributes()
            INSTRUCTIONS[word](self, result and result[1], line, word)
            line.end()
        except Unknown as what:
            raise Unknown(f"{self.head.name}: {text[:200]}\n  {what}") from what


def narrowed(parts, lane_bits):
    """Parts with the lower half of each lane alone, two of them in one."""
    parts = list(parts) + [f"v{lane_bits}_zero()"] * (len(parts) % 2)
    return [f"v{lane_bits}_pack({one}, {other})" for one, other in zip(parts[::2], parts[1::2], strict=True)]


def parameters_text(head):
    return ", ".join(f"{c_type(kind)} a{number}" for number, (kind, _) in enumerate(head.parameters))


def head_text(head):
    return f"static {c_type(head.result)} {head.c_name}({parameters_text(head) or 'void'})"
