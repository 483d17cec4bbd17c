"""The blocks of a function: their order, and what is copied at a jump for the phis of its target."""
import re

from llvm_text import NAME, Line
from llvm_types import BIT, Vector


def blocks_of(lines):
    """Pairs of label and instructions, in the order of the module. A switch, which has several lines, is one text."""
    found, label, code = [], None, []
    for text in lines:
        begin = re.match(rf"({NAME}):", text)
        if begin:
            if label or code:
                found.append((label, code))
            label, code = begin[1], []
        elif text.strip() and not text.lstrip().startswith(";"):
            is_in_switch = code and code[-1].startswith("switch ") and not re.search(r"\](, ![a-z.]+ !\d+)*$", code[-1])
            if is_in_switch:
                code[-1] += " " + text.strip()
            else:
                code.append(text.strip())
    return found + [(label, code)]


def ordered(blocks):
    """Reverse postorder, so that a value stands before its uses but those in phis. What is not reached is left out."""
    code = dict(blocks)
    targets = {label: re.findall(rf"label %({NAME})", lines[-1]) for label, lines in blocks}
    first = blocks[0][0]
    seen, left, stack = {first}, [], [(first, iter(targets[first]))]
    while stack:
        label, rest = stack[-1]
        target = next((it for it in rest if it not in seen), None)
        if target is None:
            left.append(label)
            stack.pop()
        else:
            seen.add(target)
            stack.append((target, iter(targets[target])))
    return [(label, code[label]) for label in reversed(left)]


class Phi:
    """A phi: its name and type, and its value by the label of the block that is left for it."""

    def __init__(self, name, line):
        line.attributes()
        self.name, self.kind, self.values = name, line.type(), {}
        while True:
            line.need("[")
            value = line.value(self.kind)
            line.need(",")
            self.values[line.local()] = value
            line.need("]")
            if not line.take(","):
                break
        line.end()

    def lane_bits(self):
        """Of a mask the lanes of an octet: its sources may have any."""
        return 8 if isinstance(self.kind, Vector) and self.kind.lane == BIT else None


def phis_of(code):
    found = []
    for text in code:
        begin = re.match(rf"%({NAME}) = phi ", text)
        if begin:
            found.append(Phi(begin[1], Line(text[begin.end() :])))
    return found


WORD = re.compile(r"\b[a-z]\w*\b")


def copied_at_once(copies, spare):
    """Assignments that do what all copies, triples of type, variable and expression, do at once. spare(kind) makes a
    variable."""
    copies = [it for it in copies if it[1] != it[2]]
    words = [set(WORD.findall(expression)) for _, _, expression in copies]
    lines = []
    while copies:
        for i, (_, name, expression) in enumerate(copies):
            if not any(name in read for k, read in enumerate(words) if k != i):
                lines.append(f"{name} = {expression};")
                del copies[i], words[i]
                break
        else:  # a cycle: what the first one overwrites is kept
            kind, name, _ = copies[0]
            kept = spare(kind)
            lines.append(f"{kept} = {name};")
            copies = [(it, to, re.sub(rf"\b{name}\b", kept, expression)) for it, to, expression in copies]
            words = [set(WORD.findall(expression)) for _, _, expression in copies]
    return lines
