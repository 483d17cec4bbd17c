"""The words of the command line (docs/OPTIONS.md)."""
from types import SimpleNamespace
from inner import PATTERNS

COMMANDS = "encode decode report trace bits certify check erased word soak".split()
OPTIONS = """code depth length inner invert soft randomize basis limit tolerance fly polarity repair
             start skip phase keep ahead workers batch pack verify rescan bad""".split()
SOAK_OPTIONS = "seed frames hits".split()

class Refused(Exception):
    """The words, or a window of a certificate, are refused for the reason that is the text."""
def require(holds, reason):
    if not holds:
        raise Refused(reason)

def split_words(words):
    """The command, the texts of the options given, and the words that belong to no option."""
    command, rest = words[0] if words else "", list(words[1:])
    known = OPTIONS + (SOAK_OPTIONS if command == "soak" else [])
    given, free = {}, []
    while rest:
        word = rest.pop(0)
        if word == "--":
            free, rest = free + rest, []
        elif not word.startswith("-") or word == "-":
            free.append(word)
        else:
            name, equals, text = word[2:].partition("=")
            require(word.startswith("--") and name in known and name not in given, "words")
            if not equals:
                require(rest and (not rest[0].startswith("-") or rest[0] == "-"), "words")
                text = rest.pop(0)
            given[name] = text
    require(command in COMMANDS and len(free) == (1 if command == "word" else 0), "words")
    return command, given, free

# An option that is one of some texts, and one that is a number, of 1 to 20 decimal digits.
def chosen(given, name, choices, default, reason=None):
    text = given.get(name, default)
    require(text in choices, reason or name)
    return text
def number(given, name, least, most, default):
    text = given.get(name, str(default))
    require(1 <= len(text) <= 20 and set(text) <= set("0123456789"), name)
    require(least <= int(text) <= most, name)
    return int(text)

def configuration(given):
    """What the options say, tested in the order of the reasons."""
    c, errors = SimpleNamespace(), {"rs16": 16, "rs8": 8, "none": 0}
    c.E = errors[chosen(given, "code", errors, "rs16")]
    c.depth = number(given, "depth", 1, 8 if c.E else 1, 1)
    require(c.depth in (1, 2, 3, 4, 5, 8), "depth")
    longest = (255 - 2 * c.E) * c.depth if c.E else 2040
    c.length = number(given, "length", 1, longest, longest)
    require(c.length % c.depth == 0, "length")
    c.inner = chosen(given, "inner", ("none", *PATTERNS), "1/2")
    usual = "on" if c.inner == "1/2" else "off"
    c.invert = chosen(given, "invert", ("on", "off"), usual, "switch") == "on"
    c.randomize = chosen(given, "randomize", ("on", "off"), "on", "switch") == "on"
    c.dual = chosen(given, "basis", ("dual", "poly"), "dual") == "dual"
    c.tolerance = number(given, "tolerance", 0, 8, 0)
    c.repair = number(given, "repair", 0, c.E, c.E)
    c.signed = chosen(given, "soft", ("u8", "i8"), "u8") == "i8"
    c.start_any = chosen(given, "start", ("zero", "any"), "zero") == "any"
    c.skip = number(given, "skip", 0, 15, 0)
    c.workers = number(given, "workers", 1, 64, 1)  # no answer depends on it
    c.limit = number(given, "limit", 1, 2 ** 40, 2 ** 32)
    c.fly = number(given, "fly", 0, 15, 0)
    c.keep = number(given, "keep", 64, 65536, 8192)
    c.ahead = number(given, "ahead", 0, 4096, 256)
    phase = chosen(given, "phase", ("given", "find", "follow"), "given")
    c.find_phase, c.follow = phase != "given", phase == "follow"
    c.find_polarity = chosen(given, "polarity", ("given", "find"), "given") == "find"
    c.batch = number(given, "batch", 1, 4096, 32)
    # Whether octets have eight bits, and are no symbols.
    c.packed = chosen(given, "pack", ("on", "off"), "on") == "on" and c.inner == "none"
    c.verify = number(given, "verify", 0, 7, 0)
    c.rescan = chosen(given, "rescan", ("on", "off"), "off") == "on"
    c.pass_bad = chosen(given, "bad", ("drop", "pass"), "drop") == "pass"
    c.codeword = c.length // c.depth + 2 * c.E  # symbols of a codeword, as they are sent
    c.codeblock = c.codeword * c.depth          # octets of a codeblock
    return c

def read_words(words):
    """The command and its configuration, with what `word` and `soak` need besides."""
    command, given, free = split_words(words)
    c = configuration(given)
    require(command != "check" or c.inner != "none", "inner")
    require(command not in ("word", "erased") or c.E, "code")
    if command == "word":
        text = free[0].encode()
        require(len(text) % 2 == 0 and 2 * c.E + 1 <= len(text) // 2 <= 255, "word")
        require(set(text) <= set(b"0123456789ABCDEFabcdef"), "hex")
        c.word = bytes.fromhex(free[0])
    if command == "soak":
        c.seed = number(given, "seed", 0, 2 ** 63 - 1, 1)
        c.frames = number(given, "frames", 0, 1000000, 100)
        c.hits = number(given, "hits", 0, 2 * c.E, 0)
    return command, c
