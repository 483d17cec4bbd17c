"""The receiver: CCSDS 131.0-B, "Frame synchronization", then repair and the report."""
from outer import MARKER, bits_of, elements, nearest_codeword, octets_from, octets_of, randomized

def places(bits, c):
    """Of each codeblock its place, by what it was found, its marker's wrong bits, if inverted, and
    what it is repaired to."""
    marker, unit, reach = bits_of(MARKER), 32 + 8 * c.codeblock, 8 * c.depth * c.E

    def wrong_bits(at, inverted):
        return sum((x != y) != inverted for x, y in zip(marker, bits[at:at + 32]))
    def polarity(at):  # the one in which a marker matches, None where none does
        for inverted in [False] + [True] * c.find_polarity:
            if at + 32 <= len(bits) and wrong_bits(at, inverted) <= c.tolerance:
                return inverted
    def verified(at, inverted):
        return all(polarity(at + k * unit) == inverted for k in range(1, c.verify + 1))
    def may_bridge(at, inverted):
        later = map(polarity, range(at + 8 * c.depth, at + reach + 1, 8 * c.depth))
        return not c.rescan or wrong_bits(at, not inverted) > 8 and set(later) <= {None}
    def hidden(at, before, counts):  # in the codeblock of the place before it
        is_early, end = at + reach < before + unit, before + unit
        return not c.rescan or "x" not in counts and (is_early or polarity(end) is not None)
    def codeblock(at, inverted):
        block = octets_of([bit ^ inverted for bit in bits[at + 32:at + unit]])
        return repaired(randomized(block, c), c)

    before, inverted, bridged, found = -unit - 1, False, 0, None  # of the place before
    for at in range(len(bits) - unit + 1):
        since = at - before
        if since < unit and hidden(at, before, found[1]):
            continue
        way = polarity(at)
        bridges = since == unit and way is None and bridged < c.fly and may_bridge(at, inverted)
        if not bridges and (way is None or since > unit and not verified(at, way)):
            continue
        way = inverted if bridges else way
        here = codeblock(at, way)
        if since < unit and "x" in here[1]:
            continue
        before, inverted, bridged, found = at, way, bridged + 1 if bridges else 0, here
        yield at, "bridged" if bridges else "marker", wrong_bits(at, way), way, found

def repaired(block, c):
    """The frame, with the octets of a column that is uncorrectable as they came, and how many
    symbols were wrong in each."""
    if not c.E:
        return block, []
    frame, counts = bytearray(block[:c.length]), []
    for i in range(c.depth):
        nearest = nearest_codeword(elements(block[i::c.depth], c), [], c.E, c.repair)
        counts.append(nearest[1] if nearest else "x")
        if nearest:
            frame[i::c.depth] = octets_from(nearest[0][:c.length // c.depth], c)
    return bytes(frame), counts

def items(bits, c):
    """Of each codeblock the frame, the line, and for each column how many symbols were wrong."""
    for k, (at, how, wrong, inverted, (frame, counts)) in enumerate(places(bits, c)):
        line = f"frame {k} at {at} {how} {wrong}" + " inverted" * inverted
        line += " words " + " ".join(map(str, counts)) if c.E else " uncoded"
        yield frame, line, counts

def last_line(found, bits):
    bad = sum("x" in counts for _, _, counts in found)
    fixed = sum(n for _, _, counts in found for n in counts if n != "x")
    return f"frames {len(found) - bad} bad {bad} fixed {fixed} bits {len(bits)}"
