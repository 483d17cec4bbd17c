"""Path certificates: written from windows of the soft decoder, and checked without it."""
from io import BytesIO
from struct import iter_unpack, pack, unpack
from inner import TRELLIS, branch_metrics, next_register, sent, sums
from options import require

def certificate(w):
    """A window of the soft decoder with what shows that no path costs less than its own."""
    return (pack(">IIBQ", len(w.soft), w.kept, w.passed[0], w.metric) + bytes(w.bits)
            + b"".join(w.soft) + b"".join(pack(">64I", *column) for column in w.columns))

def take(stream, count):
    octets = stream.read(count)
    if len(octets) < count:
        raise EOFError
    return octets

def check_columns(columns, soft, first, starts, metric, c):
    """No number is above what a branch that ends there allows, and none of the last column is
    below the metric: so no path costs less than the metric."""
    for register in starts:
        require(columns[0][register] == 0, f"edge 0 {register}")
    for t, octets in enumerate(soft):
        cost = branch_metrics(octets, first + t, c)
        for register in range(64):
            most = min(columns[t][before] + cost[x] for before, x in TRELLIS[register])
            require(columns[t + 1][register] <= most, f"edge {t + 1} {register}")
    for register in range(64):
        require(columns[-1][register] >= metric, f"edge {len(soft)} {register}")

def path_cost(bits, register, soft, first, c):
    """What the path of the bits costs from a register, and the registers that it passes."""
    total, passed = 0, [register]
    for t, bit in enumerate(bits):
        total += branch_metrics(soft[t], first + t, c)[sums(passed[-1], bit)]
        passed.append(next_register(passed[-1], bit))
    return total, passed

def checked_windows(octets, c):
    """Of each window that passes its steps, kept steps and metric, and the soft octets of the
    kept steps. After these `Refused` comes where a window fails, `EOFError` where it ends."""
    stream, whole, first = BytesIO(octets), c.keep + c.ahead, 0
    starts = range(64) if c.start_any else (0,)
    follows, last, ahead = False, False, b""  # whether one has to, or none may; octets seen before
    while follows or stream.tell() < len(octets):
        require(not last, "shape")
        steps, kept, start, metric = unpack(">IIBQ", take(stream, 17))
        require(1 <= steps <= whole and start <= 63 and (steps > c.ahead or not follows), "shape")
        require(kept == steps or (steps == whole and kept == c.keep), "shape")
        bits = take(stream, steps)
        require(max(bits) <= 1, "shape")
        soft = [take(stream, sum(sent(first + t, c))) for t in range(steps)]
        require(start in starts and b"".join(soft).startswith(ahead), "joint")
        columns = list(iter_unpack(">64I", take(stream, 256 * (steps + 1))))
        check_columns(columns, soft, first, starts, metric, c)
        total, passed = path_cost(bits, start, soft, first, c)
        require(total == metric, f"sum {total}")
        yield steps, kept, metric, b"".join(soft[:kept])
        first, starts, ahead = first + kept, (passed[kept],), b"".join(soft[kept:])
        follows, last = kept < steps, steps < whole or (kept == steps and c.ahead > 0)
