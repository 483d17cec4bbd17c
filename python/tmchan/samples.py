"""Samples of a radio as the soft octets that the library takes: 0 is the surest 0 and 255 the surest 1, or in two's
complement -128 and 127 (CCSDS 131.0-B, "Convolutional coding", says what a symbol is; how sure one is, is the radio's).

numpy is needed for samples that are no octets, and for nothing else.
"""
try:
    import numpy
except ImportError:
    numpy = None

# What is multiplied by, before 127.5 is added: floats are -1 and 1 without noise, and integers use their range.
SCALES = {"b": 1, "h": 1 / 256, "f": 64, "d": 64}
# Scaled by their own mean, BLOCK samples at a time have the size LEVEL in the mean.
BLOCK, LEVEL = 65536, 64
# How many are turned into octets at a time, while they are in the processor's cache.
CACHED = 32768
SIGNED = bytes(octet ^ 128 for octet in range(256))


def view_of(buffer):
    """A buffer's memoryview, and the letter of its elements, without their byte order. Raises TypeError where it is no
    buffer, or of other elements."""
    view = memoryview(buffer)
    letter = view.format.lstrip("@=<>!")
    if letter == "c":
        view, letter = view.cast("B"), "B"
    if letter not in SCALES and letter != "B":
        raise TypeError(
            f"samples are octets, or int8, int16, float32 or float64, and no buffer of format {view.format!r}"
        )
    return view, letter


class Octets:
    """Turns samples, a piece after another, into the soft octets of a link. `soft` is the form that the link has, u8 or
    i8, and the one that octets without a sign are in already. With `packed` octets hold bits, and no others are taken.

    `scale` is what signed samples are multiplied by before they are cut to the range, or "mean": each 65,536 of them
    then get the same mean size, so that as many have to be there before a piece comes out."""

    def __init__(self, soft="u8", packed=False, scale=None):
        if not (
            scale is None
            or scale == "mean"
            or (isinstance(scale, (int, float)) and not isinstance(scale, bool) and scale > 0)
        ):
            raise ValueError(f"scale: a number above 0 is wanted, or 'mean', and this is {scale!r}")
        self._is_signed, self._is_packed, self._scale, self._waiting = soft == "i8", packed, scale, []

    def push(self, buffer):
        """The octets of the next samples, as bytes."""
        view, letter = view_of(buffer)
        if letter == "B":
            return buffer if type(buffer) is bytes else view.tobytes()
        if self._is_packed:
            raise TypeError("the octets of this link hold bits: pack='off' takes samples")
        if letter == "b" and self._scale in (None, 1):
            return view.tobytes() if self._is_signed else view.tobytes().translate(SIGNED)
        if numpy is None:
            raise TypeError("numpy is needed for samples that are no octets, or to scale them")
        samples = numpy.ascontiguousarray(view).reshape(-1)
        if self._scale != "mean":
            return self._octets(samples, SCALES[letter] if self._scale is None else self._scale)
        self._waiting.append(samples)
        if sum(map(len, self._waiting)) < BLOCK:
            return b""
        samples = numpy.concatenate(self._waiting)
        whole = len(samples) - len(samples) % BLOCK
        self._waiting = [samples[whole:].copy()]
        return b"".join(self._by_mean(samples[at : at + BLOCK]) for at in range(0, whole, BLOCK))

    def finish(self):
        """The octets that are left."""
        samples, self._waiting = self._waiting, []
        return self._by_mean(numpy.concatenate(samples)) if samples else b""

    def _by_mean(self, samples):
        # What is no number says nothing, here too.
        sizes = numpy.abs(samples.astype(numpy.float64))
        mean = sizes[numpy.isfinite(sizes)].mean() if numpy.isfinite(sizes).any() else 0
        return self._octets(samples, LEVEL / mean if mean else 1)

    def _octets(self, samples, scale):
        octets = numpy.empty(len(samples), numpy.uint8)
        scale = scale if samples.dtype.itemsize == 8 else numpy.float32(scale)
        with numpy.errstate(invalid="ignore", over="ignore"):
            for at in range(0, len(samples), CACHED):
                levels = samples[at : at + CACHED] * scale
                levels += 128
                # (what is no number passes what cuts, and the most of them is none either)
                if numpy.isnan(levels.max()):
                    levels[numpy.isnan(levels)] = 128
                numpy.maximum(levels, 0, out=levels)
                numpy.minimum(levels, 255, out=levels)
                octets[at : at + CACHED] = levels
        if self._is_signed:
            octets ^= 128
        return octets.tobytes()
