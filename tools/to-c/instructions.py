"""Instructions over numbers, addresses and memory, calls and jumps. Those over vectors stand in vectors.py."""
import intrinsics
import vectors
from functions import instruction
from llvm_text import Global, Local, Number, Poison
from llvm_types import (
    BIT,
    DOUBLE,
    POINTER,
    VOID,
    Array,
    Double,
    Int,
    Pointer,
    Struct,
    Unknown,
    Vector,
    c_type,
    size,
    width,
)

OPERATORS = {
    "add": "+",
    "sub": "-",
    "mul": "*",
    "and": "&",
    "or": "|",
    "xor": "^",
    "udiv": "/",
    "urem": "%",
    "shl": "<<",
    "lshr": ">>",
    "sdiv": "/",
    "srem": "%",
    "ashr": ">>",
}
REAL_OPERATORS = {"fadd": "real_add", "fsub": "real_sub", "fmul": "real_mul", "fdiv": "real_div"}
COMPARISONS = {
    "eq": "==",
    "ne": "!=",
    "ugt": ">",
    "uge": ">=",
    "ult": "<",
    "ule": "<=",
    "sgt": ">",
    "sge": ">=",
    "slt": "<",
    "sle": "<=",
}
# Comparisons of doubles; those after "not " are false where both are numbers and the opposite holds.
REAL_COMPARISONS = {"oeq": "==", "ogt": ">", "oge": ">=", "olt": "<", "ole": "<=", "une": "!="}
REAL_OPPOSITES = {"ult": ">=", "ule": ">", "ugt": "<=", "uge": "<"}


def cut(kind, expression):
    """A sum or the like of C's int, or of a wider type, as a number of this type."""
    if kind.bits == width(kind.bits):
        return expression if kind.bits >= 32 else f"({c_type(kind)})({expression})"
    if kind == BIT:
        return f"({expression}) & 1"
    return f"({c_type(kind)})(({expression}) & {(1 << kind.bits) - 1}u{'ll' * (kind.bits > 32)})"


def signed(kind, expression):
    """The same bits as a signed number of C."""
    wide = width(kind.bits)
    if wide > 64:
        raise Unknown(f"a signed i{kind.bits}")
    if kind.bits == wide:
        return f"(int{wide}_t){expression}"
    return f"((int{wide}_t)(uint{wide}_t)({expression} << {wide - kind.bits}) >> {wide - kind.bits})"


def shift_count(kind, value, text):
    """By how much is shifted. LLVM allows more than there are bits where nothing rests on what comes of it, and C does not."""
    return text if isinstance(value, Number) else f"({text} & {max(width(kind.bits), 32) - 1}u)"


@instruction(*OPERATORS)
def binary(function, name, line, word):
    kind, a, b = line.pair()
    if isinstance(kind, Vector):
        return vectors.binary(function, name, word, kind, a, b)
    x, y = function.scalar(kind, a), function.scalar(kind, b)
    if kind.bits < 128 and word in ("shl", "lshr", "ashr"):
        y = shift_count(kind, b, y)
    if kind.bits == 128:
        if word in ("ashr", "sdiv", "srem"):
            raise Unknown(f"{word} of 128 bits")
        shift = f"(unsigned)low128({y}) & 127u" if word in ("shl", "lshr") else y
        return function.set(name, kind, f"{word}128({x}, {shift})")
    if word in ("sdiv", "srem", "ashr"):
        y = y if word == "ashr" else signed(kind, y)
        return function.set(name, kind, cut(kind, f"({c_type(kind)})({signed(kind, x)} {OPERATORS[word]} {y})"))
    if word in ("mul", "shl") and kind.bits < 32:
        x = f"(uint32_t){x}"  # C's int would overflow
    expression = f"{x} {OPERATORS[word]} {y}"
    function.set(
        name,
        kind,
        expression
        if word in ("and", "or", "xor", "udiv", "urem", "lshr") and kind.bits > 16
        else cut(kind, expression),
    )


@instruction(*REAL_OPERATORS)
def real_binary(function, name, line, word):
    kind, a, b = line.pair()
    function.set(name, kind, f"{REAL_OPERATORS[word]}({function.scalar(kind, a)}, {function.scalar(kind, b)})")


@instruction("icmp")
def comparison(function, name, line, _):
    word = line.word()
    line.attributes()
    kind, a, b = line.pair()
    if isinstance(kind, Vector):
        return vectors.comparison(function, name, word, kind, a, b)
    x, y = function.scalar(kind, a), function.scalar(kind, b)
    if kind == Int(128) and not word.startswith("s"):
        return function.set(name, BIT, f"{word}128({x}, {y})")
    if word.startswith("s"):
        x, y = signed(kind, x), signed(kind, y)
    function.set(name, BIT, f"{x} {COMPARISONS[word]} {y}")


@instruction("fcmp")
def real_comparison(function, name, line, _):
    word = line.word()
    kind, a, b = line.pair()
    x, y = function.scalar(kind, a), function.scalar(kind, b)
    if word in REAL_COMPARISONS:
        return function.set(name, BIT, f"{x} {REAL_COMPARISONS[word]} {y}")
    if word in REAL_OPPOSITES:
        return function.set(name, BIT, f"!({x} {REAL_OPPOSITES[word]} {y})")
    if word in ("ord", "uno"):
        return function.set(name, BIT, f"{'!' * (word == 'uno')}({x} == {x} && {y} == {y})")
    raise Unknown(f"fcmp {word}")


@instruction("zext", "sext", "trunc", "ptrtoint", "ptrtoaddr", "inttoptr", "bitcast", "uitofp")
def conversion(function, name, line, word):
    kind, value = line.typed()
    line.need("to")
    to = line.type()
    if isinstance(kind, Vector):
        return vectors.conversion(function, name, word, kind, value, to)
    function.set(name, to, converted(word, kind, function.scalar(kind, value), to))


def converted(word, kind, x, to):
    if word == "zext":
        return f"U128(0, {x})" if to.bits == 128 else x
    if word == "sext" and to.bits < 128:
        number = f"-({c_type(to)}){x}" if kind == BIT else signed(kind, x)
        return cut(to, f"({c_type(to)})({number})")
    if word == "trunc":
        return cut(to, f"({c_type(to)})" + (f"low128({x})" if kind.bits == 128 else x))
    if word in ("ptrtoint", "ptrtoaddr") and isinstance(to, Int) and to.bits <= 64:
        return cut(to, f"({c_type(to)})number_of({x})")
    if word == "inttoptr" and kind == Int(64):
        return f"address_of({x})"
    if (word, kind, to) == ("bitcast", Int(64), DOUBLE):
        return f"double_of({x})"
    if (word, kind, to) == ("bitcast", DOUBLE, Int(64)):
        return f"bits_of({x})"
    if word == "uitofp" and isinstance(to, Double) and kind.bits <= 64:
        return f"real_of({x})"
    raise Unknown(f"{word} from {kind} to {to}")


@instruction("select")
def selection(function, name, line, _):
    condition = line.typed()
    line.need(",")
    kind, a = line.typed()
    line.need(",")
    b = line.typed()[1]
    if isinstance(kind, Vector):
        return vectors.selection(function, name, condition, kind, a, b)
    function.set(name, kind, f"{function.scalar(*condition)} ? {function.scalar(kind, a)} : {function.scalar(kind, b)}")


@instruction("freeze")
def freeze(function, name, line, _):
    kind, value = line.typed()
    if isinstance(kind, Vector):
        return vectors.same(function, name, kind, value)
    function.set(name, kind, function.scalar(kind, value))


# Structs in variables


@instruction("extractvalue")
def field_read(function, name, line, _):
    kind, value = line.typed()
    line.need(",")
    index = line.index()
    function.set(name, kind.fields[index], f"{function.scalar(kind, value)}.f{index}")


@instruction("insertvalue")
def field_written(function, name, line, _):
    kind, value = line.typed()
    line.need(",")
    item = line.typed()
    line.need(",")
    index = line.index()
    variable = function.new(name, kind)[0]
    function.say(f"{variable} = {function.scalar(kind, value)};")
    function.say(f"{variable}.f{index} = {function.scalar(*item)};")


# Memory


@instruction("alloca")
def room(function, name, line, _):
    kind = line.type()
    alignment = line.match(r", align (\d+)")
    if alignment and int(alignment[1]) > 16:
        raise Unknown("an alignment above 16")
    octets = max(1, size(kind))
    variable = function.new(name, POINTER)[0]
    function.variable(f"ROOM({octets})", f"{variable}_room")
    function.say(f"{variable} = ADDRESS({variable}_room.octets);")


@instruction("load")
def load(function, name, line, _):
    is_atomic = line.take("atomic")
    line.take("volatile")
    kind = line.type()
    line.need(",")
    at = f"AT({function.scalar(*line.typed())})"
    if is_atomic:
        ordering(line, kind)
        return function.set(name, kind, f"atomic_load({at})")
    if isinstance(kind, Vector):
        return vectors.load(function, name, kind, at)
    function.set(name, kind, loaded(kind, at))


def loaded(kind, at):
    if isinstance(kind, Pointer):
        return f"held({at})"
    if isinstance(kind, Double):
        return f"double_of(load64({at}))"
    if not isinstance(kind, Int):
        raise Unknown(f"a load of {kind}")
    if kind.bits <= 8:
        return f"*{at}" if kind.bits == 8 else f"*{at} & {(1 << kind.bits) - 1}"
    if kind.bits == width(kind.bits):
        return f"load{kind.bits}({at})"
    if kind.bits % 8 == 0 and kind.bits < 64:
        return f"({c_type(kind)})load_octets({at}, {kind.bits // 8})"
    raise Unknown(f"a load of i{kind.bits}")


@instruction("store")
def store(function, _, line, __):
    is_atomic = line.take("atomic")
    kind, value = line.typed()
    line.need(",")
    at = f"AT({function.scalar(*line.typed())})"
    if isinstance(value, Poison):
        return
    if is_atomic:
        ordering(line, kind)
        return function.say(f"atomic_store({at}, {function.scalar(kind, value)});")
    if isinstance(kind, Vector):
        return vectors.store(function, kind, value, at)
    function.say(stored(kind, function.scalar(kind, value), at))


def stored(kind, x, at):
    if isinstance(kind, Pointer):
        return f"hold({at}, {x});"
    if isinstance(kind, Double):
        return f"store64({at}, bits_of({x}));"
    if not isinstance(kind, Int):
        raise Unknown(f"a store of {kind}")
    if kind.bits <= 8:
        return f"*{at} = {x};"
    if kind.bits == width(kind.bits):
        return f"store{kind.bits}({at}, {x});"
    if kind.bits % 8 == 0 and kind.bits < 64:
        return f"store_octets({at}, {x}, {kind.bits // 8});"
    raise Unknown(f"a store of i{kind.bits}")


@instruction("getelementptr")
def offset(function, name, line, _):
    of = line.type()
    line.need(",")
    base = function.scalar(*line.typed())
    line.need(",")
    kind, value = line.typed()
    if line.peek(", i"):
        raise Unknown("an address by several indices")
    if isinstance(of, (Struct, Array)):
        raise Unknown(f"an address of {of}")
    if isinstance(value, Number):
        return function.set(name, POINTER, f"{base} + ({value.value * size(of)})")
    index = f"(offset){signed(kind, function.scalar(kind, value))}"
    function.set(name, POINTER, f"{base} + {index}" + (f" * {size(of)}" if size(of) > 1 else ""))


# Threads: every access is sequentially consistent, and of 64 bits.


def ordering(line, kind):
    line.need("seq_cst")
    if kind != Int(64):
        raise Unknown("an atomic access of another width")


@instruction("fence")
def fence(function, _, line, __):
    line.need("seq_cst")
    function.say("atomic_fence();")


@instruction("atomicrmw")
def atomic_update(function, name, line, _):
    word = line.word()
    if word not in ("xchg", "add", "sub"):
        raise Unknown(f"atomicrmw {word}")
    at = f"AT({function.scalar(*line.typed())})"
    line.need(",")
    kind, value = line.typed()
    ordering(line, kind)
    function.set(name, kind, f"atomic_{word}({at}, {function.scalar(kind, value)})")


@instruction("cmpxchg")
def atomic_exchange(function, name, line, _):
    line.take("weak")
    at = f"AT({function.scalar(*line.typed())})"
    line.need(",")
    kind, expected = line.typed()
    line.need(",")
    desired = line.typed()[1]
    ordering(line, kind)
    ordering(line, kind)
    variable = function.new(name, Struct((kind, BIT), False))[0]
    function.say(f"{variable}.f0 = {function.scalar(kind, expected)};")
    function.say(f"{variable}.f1 = atomic_compare_exchange({at}, &{variable}.f0, {function.scalar(kind, desired)});")


# Jumps and calls


@instruction("br")
def branch(function, _, line, __):
    if line.peek("label"):
        return function.say(function.jump(line.label()))
    condition = function.scalar(*line.typed())
    line.need(",")
    then = function.jump(line.label())
    line.need(",")
    function.say(f"if ({condition}) {then if then.startswith('goto') else f'{{ {then} }}'}")
    function.say(function.jump(line.label()))


@instruction("switch")
def switch(function, _, line, __):
    kind, value = line.typed()
    line.need(",")
    default = line.label()
    line.need("[")
    function.say(f"switch ({function.scalar(kind, value)}) {{")
    while not line.take("]"):
        case = function.scalar(*line.typed())
        line.need(",")
        function.say(f"case {case}: {function.jump(line.label())}")
    function.say(f"default: {function.jump(default)}")
    function.say("}")


@instruction("ret")
def answer(function, _, line, __):
    if line.take("void"):
        return function.say("return;")
    function.say(f"return {function.scalar(*line.typed())};")


@instruction("unreachable")
def unreachable(function, _, __, ___):
    function.say("NEVER;")


def argument(line):
    kind = line.type()
    line.attributes()
    return kind, line.match(r"metadata [^,)]*|!\d+") or line.value(kind)


@instruction("call")
def call(function, name, line, _):
    line.attributes()
    result = line.type()
    line.attributes()
    if line.match(r'asm sideeffect "", "~\{memory\}"\(\)'):
        return function.say("COMPILER_FENCE;")
    callee = line.value(POINTER)
    line.need("(")
    given = line.several(")", lambda: argument(line))
    if isinstance(callee, Global) and callee.name.startswith("llvm."):
        line.match(r"(?:#\d+ )?\[.*\]$")
        return intrinsics.call(function, name, callee.name, result, given)
    if isinstance(callee, Local):
        kinds = ", ".join(c_type(kind) for kind, _ in given) or "void"
        called = f"(({c_type(result)} (*)({kinds}))(uintptr_t){function.scalar(POINTER, callee)})"
    elif isinstance(callee, Global):
        called = function.module.function(callee.name)
    else:
        raise Unknown("a call of a number")
    expression = f"{called}({', '.join(function.scalar(*it) for it in given)})"
    if result == VOID or name is None:
        return function.say(expression + ";")
    function.set(name, result, expression)
