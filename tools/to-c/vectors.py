"""Instructions over vectors, in parts of 16 octets. A mask, a vector of bits, has lanes as wide as those that were
compared, all of whose bits are equal."""
from functions import instruction, narrowed
from llvm_text import Items, Local, Number, Poison, Zero
from llvm_types import BIT, Int, Unknown, Vector, c_type, lanes_of_part, part_count, width

BINARY = ("add", "sub", "mul", "and", "or", "xor")
SHIFTS = ("shl", "lshr", "ashr")


def is_mask(kind):
    return kind.lane == BIT


def each(function, name, kind, call, *lists, lane_bits=None):
    """Sets a vector to what a call of the headers makes of each part."""
    bits = lane_bits or kind.lane.bits
    function.set_parts(name, kind, [f"v{bits}_{call}({', '.join(it)})" for it in zip(*lists, strict=True)], lane_bits)


def binary(function, name, word, kind, a, b):
    if is_mask(kind):
        if word not in ("and", "or", "xor"):
            raise Unknown(f"{word} of masks")
        bits = function.mask_bits(a, b)
        return each(
            function, name, kind, word, function.parts(kind, a, bits), function.parts(kind, b, bits), lane_bits=bits
        )
    x = function.parts(kind, a)
    if word in BINARY:
        return each(function, name, kind, word, x, function.parts(kind, b))
    if word not in SHIFTS:
        raise Unknown(f"{word} of vectors")
    if isinstance(b, Items) and len(set(b.values)) == 1 and isinstance(b.values[0], Number):
        return each(function, name, kind, word, x, [str(b.values[0].value)] * len(x))
    if word == "ashr":
        raise Unknown("ashr of vectors by several numbers")
    each(function, name, kind, f"{word}_each", x, function.parts(kind, b))


def comparison(function, name, word, kind, a, b):
    if is_mask(kind):
        raise Unknown("a comparison of masks")
    each(
        function,
        name,
        Vector(kind.count, BIT),
        word,
        function.parts(kind, a),
        function.parts(kind, b),
        lane_bits=kind.lane.bits,
    )


def same(function, name, kind, value):
    """A value that is kept as another one is."""
    bits = function.mask_bits(value) if is_mask(kind) else None
    function.set_parts(name, kind, function.parts(kind, value, bits), bits)


def selection(function, name, condition, kind, a, b):
    bits = function.mask_bits(a, b) if is_mask(kind) else kind.lane.bits
    x, y = function.parts(kind, a, bits), function.parts(kind, b, bits)
    if isinstance(condition[0], Vector):
        mask = function.parts(*condition, bits)
        return each(function, name, kind, "choose", mask, x, y, lane_bits=bits)
    bit = function.scalar(*condition)
    function.set_parts(name, kind, [f"{bit} ? {one} : {other}" for one, other in zip(x, y, strict=True)], bits)


# Memory


def pieces(kind, at):
    """Of each part: its address, and how many octets it has in memory where they aren't 16."""
    lanes = lanes_of_part(kind.lane.bits)
    for k in range(part_count(kind, kind.lane.bits)):
        octets = min(lanes, kind.count - k * lanes) * kind.lane.bits // 8
        yield (f"{at} + {16 * k}" if k else at), octets


def load(function, name, kind, at):
    if is_mask(kind):
        raise Unknown("a load of a mask")
    bits = kind.lane.bits
    function.set_parts(
        name,
        kind,
        [
            f"v{bits}_load({it})" if octets == 16 else f"v{bits}_load_some({it}, {octets})"
            for it, octets in pieces(kind, at)
        ],
    )


def store(function, kind, value, at):
    if is_mask(kind):
        bits = bits_of_mask(function, kind, value)
        return function.say(
            f"*{at} = (uint8_t)({bits});"
            if kind.count == 8
            else f"store{kind.count}({at}, (uint{kind.count}_t)({bits}));"
        )
    bits = kind.lane.bits
    for part, (it, octets) in zip(function.parts(kind, value), pieces(kind, at), strict=True):
        function.say(
            f"v{bits}_store({it}, {part});" if octets == 16 else f"v{bits}_store_some({it}, {part}, {octets});"
        )


# Conversions


def bits_of_mask(function, kind, value):
    """A number with a bit for each lane, lane 0 the lowest."""
    if kind.count not in (8, 16, 32, 64) or not isinstance(value, Local):
        raise Unknown("the bits of such a mask")
    bits = function.mask_bits(value)
    lanes, number = lanes_of_part(bits), c_type(Int(kind.count))
    parts = function.parts(kind, value, bits)
    if bits == 16 and len(parts) % 2 == 0:
        texts = [f"v16_bits_of_two({one}, {other})" for one, other in zip(parts[::2], parts[1::2], strict=True)]
        lanes *= 2
    else:
        texts = [f"v{bits}_bits({it})" for it in parts]
    return " | ".join(f"({number}){it}" + (f" << {k * lanes}" if k else "") for k, it in enumerate(texts))


def conversion(function, name, word, kind, value, to):
    if word == "bitcast":
        return bitcast(function, name, kind, value, to)
    have, want = kind.lane.bits, to.lane.bits
    if word in ("sext", "zext") and is_mask(kind):
        parts = function.parts(kind, value, want)
        if word == "zext":
            parts = [f"v{want}_and({it}, v{want}_all(1))" for it in parts]
        return function.set_parts(name, to, parts)
    parts = function.parts(kind, value)
    if word == "trunc" and want != 1:
        while have > want:
            parts, have = narrowed(parts, have), have // 2
        return function.set_parts(name, to, parts)
    if word not in ("sext", "zext"):
        raise Unknown(f"{word} from {kind} to {to}")
    while have < want:
        parts = [
            f"v{2 * have}_from_v{have}(v{have}_{half}({it}, {above(word, have, it)}))"
            for it in parts
            for half in ("low", "high")
        ]
        have *= 2
        parts = parts[: part_count(Vector(kind.count, Int(have)), have)]
    function.set_parts(name, to, parts)


def above(word, bits, part):
    """The upper halves of lanes that become twice as wide."""
    return f"v{bits}_zero()" if word == "zext" else f"v{bits}_slt({part}, v{bits}_zero())"


def bitcast(function, name, kind, value, to):
    if isinstance(to, Vector) and not is_mask(kind) and not is_mask(to):
        return function.set_parts(
            name, to, [f"v{to.lane.bits}_from_v{kind.lane.bits}({it})" for it in function.parts(kind, value)]
        )
    if not isinstance(to, Int):
        raise Unknown(f"bitcast from {kind} to {to}")
    if is_mask(kind):
        return function.set(name, to, f"({c_type(to)})({bits_of_mask(function, kind, value)})")
    if to.bits != width(to.bits):
        raise Unknown(f"bitcast from {kind} to {to}")
    part = f"v64_from_v{kind.lane.bits}({function.parts(kind, value)[0]})"
    if to.bits == 128:
        return function.set(name, to, f"U128(v64_at({part}, 1), v64_at({part}, 0))")
    function.set(name, to, f"({c_type(to)})v64_at({part}, 0)")


# Lanes


@instruction("extractelement")
def lane_read(function, name, line, _):
    kind, value = line.typed()
    line.need(",")
    index_kind, index = line.typed()
    bits = function.mask_bits(value) if is_mask(kind) else kind.lane.bits
    parts, lanes = function.parts(kind, value, bits), lanes_of_part(bits)
    if isinstance(index, Number):
        text = f"v{bits}_at({parts[index.value // lanes]}, {index.value % lanes})"
        return function.set(name, kind.lane, f"{text} & 1" if is_mask(kind) else text)
    if is_mask(kind):
        raise Unknown("a lane of a mask by a variable")
    at = function.scalar(index_kind, index)
    text = f"v{bits}_at({parts[-1]}, {at} % {lanes})"
    for k in reversed(range(len(parts) - 1)):
        text = f"{at} < {(k + 1) * lanes} ? v{bits}_at({parts[k]}, {at} % {lanes}) : {text}"
    function.set(name, kind.lane, text)


@instruction("insertelement")
def lane_written(function, name, line, _):
    kind, value = line.typed()
    line.need(",")
    item = function.scalar(*line.typed())
    line.need(",")
    index = line.typed()[1]
    if is_mask(kind) or not isinstance(index, Number):
        raise Unknown("such an insertelement")
    bits, lanes = kind.lane.bits, lanes_of_part(kind.lane.bits)
    parts = list(function.parts(kind, value))
    k = index.value // lanes
    parts[k] = f"v{bits}_set({parts[k]}, {index.value % lanes}, {item})"
    function.set_parts(name, kind, parts)


@instruction("shufflevector")
def shuffle(function, name, line, _):
    kind, a = line.typed()
    line.need(",")
    b = line.typed()[1]
    line.need(",")
    order_kind, order = line.typed()
    to = Vector(order_kind.count, kind.lane)
    bits = function.mask_bits(a, b) if is_mask(kind) else kind.lane.bits
    lanes = lanes_of_part(bits)
    sources = [*lanes_with_parts(function, kind, a, bits), *lanes_with_parts(function, kind, b, bits)]
    picks = (
        [0] * to.count
        if isinstance(order, (Zero, Poison))
        else [it.value if isinstance(it, Number) else None for it in order.values]
    )
    picks += [None] * (part_count(to, bits) * lanes - to.count)
    chosen = [None if it is None else sources[it] for it in picks]
    function.set_parts(name, to, [shuffled(chosen[k : k + lanes], bits) for k in range(0, len(chosen), lanes)], bits)


def lanes_with_parts(function, kind, value, bits):
    """Of each lane of a vector its part, and its number in the part; None where any value will do."""
    if isinstance(value, Poison):
        return [None] * kind.count
    lanes, parts = lanes_of_part(bits), function.parts(kind, value, bits)
    return [(parts[k // lanes], k % lanes) for k in range(kind.count)]


def shuffled(chosen, bits):
    """A part whose lanes are those chosen, pairs of part and lane, or None where any value will do."""
    lanes = lanes_of_part(bits)
    parts = list(dict.fromkeys(it[0] for it in chosen if it))
    if not parts:
        return f"v{bits}_zero()"
    if len(parts) == 1 and all(it is None or it[1] == k for k, it in enumerate(chosen)):
        return parts[0]
    if len(parts) == 1:
        return f"v{bits}_pick({parts[0]}, {', '.join(str(it[1] if it else 0) for it in chosen)})"
    made = parts[0]
    for number, other in enumerate(parts[1:]):
        order = []
        for k, it in enumerate(chosen):
            if it and it[0] == other:
                order.append(lanes + it[1])
            elif number == 0:
                order.append(it[1] if it and it[0] == parts[0] else 0)
            else:
                order.append(k)
        made = f"v{bits}_pick_two({made}, {other}, {', '.join(map(str, order))})"
    return made
