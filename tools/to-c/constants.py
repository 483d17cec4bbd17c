"""Constants and variables of a module in C.

Where they hold addresses they are structs, since C's compiler alone knows these. On big-endian processors the addresses
are turned to little-endian as the program is loaded.
"""
from llvm_text import AddressNumber, Global, Items, Number, Octets, Offset, Poison, Zero
from llvm_types import Array, Int, Pointer, Struct, Unknown, Vector, packed, size, width


def offset_address(module, value, cast):
    """A constant address: of a variable or a function, or some octets after one. The cast is a format of C's own."""
    if isinstance(value, Offset):
        return f"({offset_address(module, value.base, cast)} + {value.octets})"
    if not isinstance(value, Global):
        raise Unknown(f"the address {value}")
    is_variable = value.name in module.variables
    return cast.format(f"&{module.variables[value.name].c_name}" if is_variable else module.function(value.name))


def address(module, value):
    """A constant address, as an expression of C."""
    if isinstance(value, (Zero, Poison)) or value == Number(0):
        return "(address)0"
    return offset_address(module, value, "ADDRESS({})")


def held_address(module, value):
    """A constant address, as what a held_address begins as."""
    if isinstance(value, Global) and value.name not in module.variables:
        return f"{{.call = (void (*)(void)){module.function(value.name)}}}"
    return f"{{.at = {offset_address(module, value, '(const uint8_t *){}')}}}"


def items(kind, value):
    """Pairs of type and value of what a constant consists of."""
    if isinstance(kind, Struct):
        kinds = packed(kind)
    else:
        kinds = [kind.item if isinstance(kind, Array) else kind.lane] * kind.count
    if isinstance(value, (Zero, Poison)):
        return [(it, value) for it in kinds]
    return list(zip(kinds, value.values, strict=True))


def parts(module, kind, value):
    """A constant as it stands in memory: octets, and texts for addresses between them."""
    if isinstance(value, (Zero, Poison)) or value == Number(0):
        return [bytes(size(kind))]
    if isinstance(value, Octets):
        return [value.octets]
    if isinstance(kind, Int) and isinstance(value, Number):
        return [(value.value % (1 << kind.bits)).to_bytes(width(kind.bits) // 8, "little")]
    if isinstance(kind, Pointer):
        return [held_address(module, value)]
    if isinstance(value, Items) and isinstance(kind, (Array, Struct, Vector)):
        return joined(part for item in items(kind, value) for part in parts(module, *item))
    if isinstance(value, AddressNumber):
        return parts(module, Pointer(), value.address)
    raise Unknown(f"the constant {value}")


def joined(found):
    """The same with octets that follow one another in one part."""
    together = []
    for part in found:
        if together and isinstance(part, bytes) and isinstance(together[-1], bytes):
            together[-1] += part
        else:
            together.append(part)
    return together


def octets_text(octets):
    return "{%s}" % (",".join(map(str, octets)) if any(octets) else "0")


class Constants:
    """The lines of C: declarations, definitions, and a function that turns addresses."""

    def __init__(self, module):
        self.declarations, self.definitions, self.addresses = [], [], []
        for variable in module.variables.values():
            self.add(variable, parts(module, variable.kind, variable.value))

    def add(self, variable, found):
        name = variable.c_name
        if all(isinstance(part, bytes) for part in found):
            octets = b"".join(found) or b"\0"
            word = "static const" if variable.is_constant else "static _Alignas(8)"
            self.declarations.append(f"{word} uint8_t {name}[{len(octets)}] = {octets_text(octets)};")
            return
        word = "static CONSTANT_ADDRESSES" if variable.is_constant else "static"
        fields, values, at = [], [], 0
        for number, part in enumerate(part for part in found if part):
            is_octets = isinstance(part, bytes)
            fields.append(f"uint8_t f{number}[{len(part)}];" if is_octets else f"held_address f{number};")
            values.append(octets_text(part) if is_octets else part)
            if not is_octets:
                if at % 8:
                    raise Unknown("an address that is not aligned in a constant")
                self.addresses.append(f"{name}.f{number}")
            at += len(part) if is_octets else 8
        self.declarations += [f"struct {name} {{{' '.join(fields)}}};", f"{word} struct {name} {name};"]
        self.definitions.append(f"{word} struct {name} {name} = {{{', '.join(values)}}};")

    def turned(self):
        """What turns the addresses that constants hold."""
        if not self.addresses:
            return []
        lines = [f"    hold({it}.octets, ADDRESS({it}.at));" for it in self.addresses]
        return ["#if BIG_ENDIAN_MEMORY", "AT_LOAD static void turn_addresses(void) {", *lines, "}", "#endif"]
