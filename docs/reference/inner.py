"""The inner code: CCSDS 131.0-B, "Convolutional coding" (constraint length 7), and its decoder."""
from types import SimpleNamespace
from outer import bits_of

# For each step of a rate's period, whether the first sum is sent, and whether the second.
PATTERNS = {rate: [(x == "1", y == "1") for x, y in zip(first, second)] for rate, first, second in (
    ("1/2", "1", "1"), ("2/3", "10", "11"), ("3/4", "101", "110"), ("5/6", "10101", "11010"),
    ("7/8", "1000101", "1111010"))}

def sent(t, c):
    """Which sums step t of the stream sends."""
    return PATTERNS[c.inner][t % len(PATTERNS[c.inner])]
def period(c):
    """How many symbols a period of the pattern sends."""
    return sum(map(sum, PATTERNS[c.inner]))

def sums(register, bit):
    """2 c1 + c2 for u[t] = bit; the register's six bits are u[t-1] (most significant) to u[t-6]."""
    u = [bit] + [register >> (6 - k) & 1 for k in range(1, 7)]  # u[k] is u[t-k]
    return 2 * (u[0] ^ u[1] ^ u[2] ^ u[3] ^ u[6]) + (u[0] ^ u[2] ^ u[3] ^ u[5] ^ u[6])
def next_register(register, bit):
    return bit << 5 | register >> 1

def soft_form(octets, c):
    """Octets converted from the unsigned form to that of --soft, or back."""
    return bytes(octet ^ 128 for octet in octets) if c.signed else bytes(octets)

def symbols(bits, c):
    """The symbols of a stream's bits, or without an inner code the bits, an octet each."""
    if c.inner == "none":
        return soft_form((255 * bit for bit in bits), c)
    register, octets = 0, bytearray()
    for t, bit in enumerate(bits):
        (first, second), both = sent(t, c), sums(register, bit) ^ c.invert
        octets += bytes([255 * (both >> 1)] * first + [255 * (both & 1)] * second)
        register = next_register(register, bit)
    return soft_form(octets, c)

def on_the_link(units, c):
    """The octets that are sent for CADUs."""
    return bytes(units) if c.packed else symbols(bits_of(units), c)

# The soft decoder (Viterbi), by whole windows.
def cut_steps(octets, c, first=0, most=None):
    """The octets of each whole step from step `first` on, at most `most`; how many are left."""
    steps, at = [], 0
    while len(steps) != most and at + (size := sum(sent(first + len(steps), c))) <= len(octets):
        steps.append(octets[at:at + size])
        at += size
    return steps, len(octets) - at

def branch_metrics(soft, t, c):
    """What step t of the stream costs for each 2 c1 + c2."""
    first, second = sent(t, c)
    one = (soft[0], 255 - soft[0]) if first else (0, 0)
    two = (soft[-1], 255 - soft[-1]) if second else (0, 0)
    return [one[c1] + two[c2 ^ c.invert] for c1 in (0, 1) for c2 in (0, 1)]

# Of each register the two before it, that with u[t-6] = 0 first, with 2 c1 + c2 of the branch.
TRELLIS = [[(2 * register % 64 + lost, sums(2 * register % 64 + lost, register >> 5))
            for lost in (0, 1)] for register in range(64)]

def path_metrics(steps, first, starts, c):
    """The path metrics of all registers before the first of the steps, which is step `first` of
    the stream, and after each. A path from a register that is not in `starts` costs 2^30 more."""
    columns = [[0 if register in starts else 2 ** 30 for register in range(64)]]
    for t, soft in enumerate(steps, first):
        cost, last = branch_metrics(soft, t, c), columns[-1]
        columns.append([min(last[a] + cost[x], last[b] + cost[y]) for (a, x), (b, y) in TRELLIS])
    return columns

def traceback(columns, steps, first, c):
    """The registers that the best path passes. Of equal paths the one whose bits, read from the
    last one back, come first: the one with the least last register, then with u[t-6] = 0."""
    passed = [columns[-1].index(min(columns[-1]))]
    for k in range(len(steps) - 1, -1, -1):
        cost = branch_metrics(steps[k], first + k, c)
        (a, x), (b, _) = TRELLIS[passed[0]]
        passed.insert(0, a if columns[k][a] + cost[x] == columns[k + 1][passed[0]] else b)
    return passed

def path_costs(octets, first, count, c):
    """What the best path costs over that many steps from octet k on, for each k below a period."""
    return [min(path_metrics(cut_steps(octets[k:], c, first, count)[0], first, range(64), c)[-1])
            for k in range(period(c))]

def symbol_phase(octets, ended, c):
    """The phase and what the best path costs from there; None while it can't be chosen."""
    count = len(cut_steps(octets[period(c) - 1:], c, 0, c.keep + c.ahead)[0])
    if count < c.keep + c.ahead and not ended:
        return None
    costs = path_costs(octets, 0, count, c)
    return costs.index(min(costs)), min(costs)

def dropped_octets(octets, first, c):
    """How many octets are dropped before a later window, which would begin with these octets."""
    count = min(c.keep + c.ahead - 8, 1024)
    size = sum(sum(sent(first + t, c)) for t in range(count))
    if len(octets) < size + period(c) - 1:
        return 0
    costs = path_costs(octets, first, count, c)
    excess = [cost - sum(min(octet, 255 - octet) for octet in octets[k:k + size])
              for k, cost in enumerate(costs)]
    k = costs.index(min(costs))
    return k if 4 * excess[k] < 3 * excess[0] else 0

def windows(octets, ended, c):
    """The windows, without the last one where the octets go on; and how many are left over."""
    found, first, starts, whole = [], 0, range(64) if c.start_any else (0,), c.keep + c.ahead
    size = len(octets)
    while True:
        k = dropped_octets(octets, first, c) if c.follow and found else 0
        octets, starts = octets[k:], range(64) if k else starts
        steps, leftover = cut_steps(octets, c, first, whole + 1)
        if len(steps) <= (0 if ended else whole):
            return found, leftover
        w = SimpleNamespace(soft=steps[:whole], dropped=k, at=size - len(octets), first=first)
        w.kept = c.keep if len(steps) > whole else len(w.soft)
        w.columns = path_metrics(w.soft, first, starts, c)
        w.passed = traceback(w.columns, w.soft, first, c)
        w.metric, w.bits = min(w.columns[-1]), [register >> 5 for register in w.passed[1:]]
        first, starts = first + w.kept, (w.passed[w.kept],)
        octets = octets[sum(map(len, w.soft[:w.kept])):]
        found.append(w)

def window_record(w, phase, c):
    """What libtmchan tells of a window: where its first step's symbol stands among all octets, the
    octets dropped before it, its steps, those kept, the metric; and of the kept steps' octets how
    many, how many are nearer to the symbol that the path does not have, the sum of their distances
    from the path's symbols, and that of the squares."""
    distances = []
    for t, soft in enumerate(w.soft[:w.kept]):
        (first, second), both = sent(w.first + t, c), sums(w.passed[t], w.bits[t]) ^ c.invert
        path = [both >> 1] * first + [both & 1] * second
        distances += [255 - octet if symbol else octet for symbol, octet in zip(path, soft)]
    return (c.skip + phase + w.at, w.dropped, len(w.soft), w.kept, w.metric, len(distances),
            sum(d > 127 for d in distances), sum(distances), sum(d * d for d in distances))

def symbol_at(n, r, c):
    """Where the symbol of received bit n stands: the first of its step, those skipped counted."""
    if c.inner == "none":
        return c.skip + n
    w = [w for w in r.windows if w.first <= n][-1]
    return c.skip + r.phase[0] + w.at + sum(map(len, w.soft[:n - w.first]))

def received(data, ended, c):
    """The windows, bits and lines of an input, or where it goes on those that are due."""
    r, octets = SimpleNamespace(phase=(0, 0), windows=[], leftover=0), soft_form(data, c)[c.skip:]
    if c.packed:
        r.bits = bits_of(data)[c.skip:]
    elif c.inner == "none":
        r.bits = [octet >> 7 for octet in octets]  # the nearer of 00 and FF
    else:
        r.phase = symbol_phase(octets, ended, c) if c.find_phase else (0, 0)
        if r.phase:
            r.windows, r.leftover = windows(octets[r.phase[0]:], ended, c)
        r.bits = [bit for w in r.windows for bit in w.bits[:w.kept]]
    r.slips = [f"slips {sum(w.dropped > 0 for w in r.windows)}"] if c.follow else []
    r.head = [f"phase {r.phase[0]} cost {r.phase[1]}"] if c.find_phase and r.phase else []
    r.end = f"blocks {len(r.windows)} bits {len(r.bits)} leftover {r.leftover}"
    return r
