"""The types of LLVM that modules of the kit have, and what stands for each in C.

The layout in memory is that of x86-64, whatever the C is compiled for: numbers little-endian, an address in 8 octets.
"""
from dataclasses import dataclass


class Unknown(Exception):
    """What the translator has no translation for."""


@dataclass(frozen=True)
class Int:
    bits: int


@dataclass(frozen=True)
class Pointer:
    pass


@dataclass(frozen=True)
class Double:
    pass


@dataclass(frozen=True)
class Void:
    pass


@dataclass(frozen=True)
class Metadata:
    pass


@dataclass(frozen=True)
class Vector:
    count: int
    lane: Int


@dataclass(frozen=True)
class Array:
    count: int
    item: object


@dataclass(frozen=True)
class Struct:
    fields: tuple
    is_packed: bool


BIT = Int(1)
POINTER = Pointer()
DOUBLE = Double()
VOID = Void()
PART_BITS = 128  # a vector is kept in parts of so many bits


def width(bits):
    """The width of the C type that holds an integer of so many bits."""
    for wide in (8, 16, 32, 64, 128):
        if bits <= wide:
            return wide
    raise Unknown(f"i{bits}")


def size(kind):
    """The octets that a value has in memory."""
    if isinstance(kind, Int):
        return width(kind.bits) // 8
    if isinstance(kind, (Pointer, Double)):
        return 8
    if isinstance(kind, Vector):
        if kind.count * kind.lane.bits % 8:
            raise Unknown(f"octets of {kind}")
        return kind.count * kind.lane.bits // 8
    if isinstance(kind, Array):
        return kind.count * size(kind.item)
    if isinstance(kind, Struct):
        return sum(map(size, packed(kind)))
    raise Unknown(f"octets of {kind}")


def packed(struct):
    """The fields of a struct, which has no room between them in memory."""
    at = 0
    for field in struct.fields:
        if not struct.is_packed and (isinstance(field, (Array, Struct, Vector)) or at % size(field)):
            raise Unknown("a struct in memory that is not packed")
        at += size(field)
    if not struct.is_packed and any(at % size(field) for field in struct.fields):
        raise Unknown("a struct in memory that is not packed")
    return struct.fields


def c_type(kind):
    if isinstance(kind, Int):
        wide = width(kind.bits)
        return "u128" if wide == 128 else f"uint{wide}_t"
    if isinstance(kind, Pointer):
        return "address"
    if isinstance(kind, Double):
        return "double"
    if isinstance(kind, Void):
        return "void"
    if isinstance(kind, Struct):
        return "struct_" + "_".join(field_name(field) for field in kind.fields)
    raise Unknown(f"a C type for {kind}")


def field_name(kind):
    if isinstance(kind, Int):
        return f"i{kind.bits}"
    if isinstance(kind, Pointer):
        return "ptr"
    raise Unknown(f"a field {kind}")


def lanes_of_part(lane_bits):
    return PART_BITS // lane_bits


def part_count(vector, lane_bits):
    return -(-vector.count // lanes_of_part(lane_bits))
