"""Calls of LLVM's own functions."""
from llvm_text import Local
from llvm_types import BIT, Int, Struct, Unknown, Vector, lanes_of_part, width

NOTHING = ("llvm.lifetime.", "llvm.assume", "llvm.experimental.noalias.scope.decl")
VECTOR = ("umin", "umax")
NUMBER = tuple("umin umax smin smax ctpop cttz ctlz bswap fshl fshr abs uadd.sat usub.sat".split())
OF_TWO = ("uadd.with.overflow", "usub.with.overflow", "umul.with.overflow")
FLAGGED = ("cttz", "ctlz", "abs")  # their second argument says what is poison


def call(function, name, called, result, given):
    if called.startswith(NOTHING):
        return
    if called == "llvm.trap":
        return function.say("TRAP;")
    word = called.removeprefix("llvm.").rsplit(".", 1)[0]
    if word in ("memcpy.p0.p0", "memmove.p0.p0", "memset.p0"):
        return memory(function, word.split(".")[0], given)
    if called == "llvm.x86.ssse3.pshuf.b.128":
        parts = [function.parts(*it)[0] for it in given]
        return function.set_parts(name, result, [f"v8_shuffle({', '.join(parts)})"])
    if word.startswith("vector.reduce."):
        return reduction(function, name, word.rsplit(".", 1)[1], result, *given[0])
    if isinstance(result, Vector):
        return over_vectors(function, name, word, result, given)
    if called == "llvm.arithmetic.fence.f64":
        return function.set(name, result, function.scalar(*given[0]))
    numbers(function, name, word, result, given)


def memory(function, word, given):
    to, source, octets = (function.scalar(*it) for it in given[:3])
    function.say(f"{word}(AT({to}), {source if word == 'memset' else f'AT({source})'}, (size_t){octets});")


def over_vectors(function, name, word, result, given):
    if word not in VECTOR or result.lane == BIT:
        raise Unknown(f"{word} of vectors")
    lists = [function.parts(*it) for it in given]
    function.set_parts(
        name, result, [f"v{result.lane.bits}_{word}({', '.join(it)})" for it in zip(*lists, strict=True)]
    )


def numbers(function, name, word, result, given):
    kind = given[0][0]
    if not isinstance(kind, Int) or kind.bits != width(kind.bits):
        raise Unknown(f"{word} of {kind}")
    given = [function.scalar(*it) for it in (given[:1] if word in FLAGGED else given)]
    call_name = f"{word.replace('.', '_')}{kind.bits}"
    if word in OF_TWO:
        variable = function.new(name, Struct((kind, BIT), False))[0]
        return function.say(f"{variable}.f1 = {call_name}({', '.join(given)}, &{variable}.f0);")
    if word not in NUMBER:
        raise Unknown(f"llvm.{word}")
    function.set(name, result, f"{call_name}({', '.join(given)})")


def reduction(function, name, word, result, kind, value):
    """A number that all lanes make together."""
    if kind.lane == BIT:
        return mask_reduction(function, name, word, kind, value)
    raise Unknown(f"{word} of all lanes")


def mask_reduction(function, name, word, kind, value):
    if not isinstance(value, Local):
        raise Unknown(f"{word} of all lanes of a constant")
    bits = function.mask_bits(value)
    lanes, parts = lanes_of_part(bits), function.parts(kind, value, bits)
    if kind.count % min(lanes, kind.count) or word not in ("and", "or"):
        raise Unknown(f"{word} of all lanes of a mask")
    all_set = (1 << min(lanes, kind.count)) - 1
    together = {"or": " | ", "and": " & "}[word].join(f"v{bits}_bits({it})" for it in parts)
    function.set(name, BIT, f"(({together}) & {all_set}u) {'!= 0' if word == 'or' else f'== {all_set}u'}")
