"""The calls of a header under their names, and the program's main.

The module has the layout of x86-64 in memory. Where C's differs, by the order of octets, the size of addresses or an
alignment, what a call is passed is turned before the call and after it, or stands in a copy.
"""
import re
from dataclasses import dataclass

from llvm_types import Unknown

SIZES = {"uint8_t": 1, "uint32_t": 4, "uint64_t": 8}
# An array of numbers, as long as the parameter after it says, by the type of a struct whose fields they are.
NUMBERS = "tmchan_config"


@dataclass
class Field:
    kind: str
    name: str
    count: int

    def is_address(self):
        return self.kind.endswith("*")

    def octets(self):
        return 8 if self.is_address() else SIZES[self.kind]


@dataclass
class Parameter:
    kind: str
    name: str

    def to(self):
        """What the parameter points to."""
        return self.kind.removesuffix("*").strip() if self.kind.endswith("*") else None


def fields_of(text):
    found = []
    for declaration in filter(None, (it.strip() for it in text.split(";"))):
        kind, names = re.fullmatch(r"(\w+(?: \*)?) ?([\w\s,\[\]]+)", re.sub(r"\s+", " ", declaration)).groups()
        for name in names.split(","):
            name, count = re.fullmatch(r"(\w+)(?:\[(\d+)\])?", name.strip()).groups()
            found.append(Field(kind, name, int(count or 1)))
            if not found[-1].is_address() and kind not in SIZES:
                raise Unknown(f"the field {kind} {name}")
    return found


def layout(fields, most):
    """The places of fields, and the octets of all, where no alignment is above `most`."""
    at, places = 0, []
    for it in fields:
        alignment = min(it.octets(), most)
        at = -(-at // alignment) * alignment
        places.append(at)
        at += it.octets() * it.count
    whole = min(max(it.octets() for it in fields), most)
    return places, -(-at // whole) * whole


class Header:
    def __init__(self, path):
        with open(path, encoding="utf-8") as file:
            text = re.sub(r"/\*.*?\*/", "", file.read(), flags=re.DOTALL)
        self.structs = {it[2]: fields_of(it[1]) for it in re.finditer(r"typedef struct \{([^}]*)\} (\w+);", text)}
        self.calls = [
            (it[1], it[2], self.parameters(it[3]))
            for it in re.finditer(r"^(u?int\d+_t|void) (\w+)\(([^)]*)\);", text, re.MULTILINE)
        ]

    @staticmethod
    def parameters(text):
        text = re.sub(r"\s+", " ", text).strip()
        found = [] if text == "void" else text.split(",")
        return [Parameter(*re.fullmatch(r"(.*?)(\w+)", it.strip()).groups()) for it in found]

    def is_copied(self, struct):
        """Whether a struct may have another layout in C than in the module."""
        fields = self.structs[struct]
        return any(it.is_address() for it in fields) or layout(fields, 8) != layout(fields, 4)


def struct_lines(header):
    """For each struct what turns it in place, or moves it to a copy and back."""
    lines = []
    for name, fields in header.structs.items():
        if name == NUMBERS:
            continue
        if not header.is_copied(name):
            turns = [turn(it) for it in fields if it.octets() > 1]
            lines.append(f"EXPORT_TURN({name}, {' '.join(turns)})")
            continue
        places, octets = layout(fields, 8)
        moves = list(zip(fields, places, strict=True))
        lines += [
            f"EXPORT_COPY({name}, {octets},",
            "    " + " ".join(copy_in(*it) for it in moves) + ",",
            "    " + " ".join(copy_out(*it) for it in moves) + ")",
        ]
    return lines


def single(field):
    """The field's name in C, where it is no array."""
    if field.count > 1:
        raise Unknown(f"the array {field.name} in a struct")
    return f"it->{field.name}"


def turn(field):
    return f"{single(field)} = TURNED{8 * field.octets()}({single(field)});"


def copy_in(field, at):
    if field.is_address():
        return f"hold(to + {at}, ADDRESS({single(field)}));"
    if field.octets() == 1:
        return f"to[{at}] = {single(field)};"
    return f"store{8 * field.octets()}(to + {at}, {single(field)});"


def copy_out(field, at):
    if field.is_address():
        return f"{single(field)} = AT(held(to + {at}));"
    if field.octets() == 1:
        return f"{single(field)} = to[{at}];"
    return f"{single(field)} = load{8 * field.octets()}(to + {at});"


class Call:
    """One call of the header: what is done before the module's, what that is passed, and what is done after it."""

    def __init__(self, header, name, parameters):
        self.header, self.name = header, name
        self.before, self.passed, self.after = [], [], []
        rest = list(parameters)
        while rest:
            it = rest.pop(0)
            length = rest[0].name if rest and rest[0].name == f"{it.name}_length" else None
            if it.to() == f"const {NUMBERS}" and length:
                rest.pop(0)
                self.before.append(f"NUMBERS_IN({it.name})")
                self.passed += [f"NUMBERS({it.name})", f"NUMBERS_COUNT({it.name})"]
            else:
                self.take(it, length)

    def take(self, it, length):
        struct = it.to()
        if struct is None:
            self.passed.append(it.name)
        elif struct in ("uint8_t", "const uint8_t", "char"):
            self.passed.append(f"ADDRESS({it.name})")
        elif struct == NUMBERS:
            self.turn(it.name, "uint64_t", f"(uint64_t *)(void *){it.name}", length)
        elif struct == "uint64_t" or struct in self.header.structs and not self.header.is_copied(struct):
            self.turn(it.name, struct, it.name, length)
        elif struct in self.header.structs and not length:
            self.before.append(f"COPY_IN({struct}, {it.name})")
            self.passed.append(f"COPY({it.name})")
            self.after.append(f"COPY_OUT({struct}, {it.name});")
        else:
            raise Unknown(f"{self.name}: the parameter {it.kind}{it.name}")

    def turn(self, name, kind, array, length):
        self.before.append(f"TURN({kind}, {array}, {length or 1});")
        self.after.append(self.before[-1])
        self.passed.append(f"ADDRESS({name})")


def call_lines(header, module, kind, name, parameters):
    if name not in module.heads:
        raise Unknown(f"the module has no {name}")
    call = Call(header, name, parameters)
    text = ", ".join(f"{it.kind}{it.name}" for it in parameters) or "void"
    made, give = [f"{module.heads[name].c_name}({', '.join(call.passed)});"], []
    if kind != "void":
        made, give = [f"{kind} made_of_it = ({kind}){made[0]}"], ["return made_of_it;"]
    lines = [*call.before, *made, *call.after, *give]
    return [f"{kind} ({name})({text}) {{", *(f"    {it}" for it in lines), "}"]


def exported(module, header):
    lines = ['#include "portable_exports.h"', "", *struct_lines(header), ""]
    for call in header.calls:
        lines += [*call_lines(header, module, *call), ""]
    return lines


def main_lines(module):
    """The program's main under the name by which that of platform/ calls it. The module's takes the number of words and
    their address, or nothing."""
    if "main" not in module.heads:
        raise Unknown("the module has no main")
    main = module.heads["main"]
    given = ["(uint32_t)count", "ADDRESS(words)"][: len(main.parameters)]
    return [
        "int tmchan_main(int count, char **words) {",
        "    (void)count, (void)words;",
        f"    return (int){main.c_name}({', '.join(given)});",
        "}",
        "",
    ]
