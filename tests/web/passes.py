"""Counts of windows, and passes, as the Python package judges them and as the page does."""
import json
import math
import random
import re
import subprocess
import sys
import types
import xml.etree.ElementTree

from shared import SOURCES, TOP, source_test

sys.path.insert(0, str(TOP / "python"))

from tmchan import page as pages  # noqa: E402
from tmchan.link import Item, Link, Totals, Window  # noqa: E402
from tmchan.quality import NEARER, Counts, cut, quality_of  # noqa: E402

# The most stretches that the page draws
DRAWN = 256


def in_node(room, script, given):
    """What a script prints as JSON, of `given`; numbers that are none come as their names."""
    room.path("given.json").write_text(json.dumps(given))
    text = f"""
        import {{ readFileSync }} from "node:fs";
        const given = JSON.parse(readFileSync("{room.path('given.json')}"));
        const told = (_, it) => (typeof it === "number" && !Number.isFinite(it) ? String(it) : it);
        {script.replace("SOURCES", str(SOURCES))}"""
    ran = subprocess.run(["node", "--input-type=module", "-e", text], stdout=subprocess.PIPE, check=True)
    return json.loads(ran.stdout)


def drawn_counts():
    """Counts of signals and white noise at each rate, of octets drawn, and of none."""
    draw = random.Random("counts")
    for rate in NEARER:
        for decibels in (it / 4 for it in range(-24, 60)):
            for level in (0.3, 5, 20, 64, 100, 127, 160, 1e6):
                deviation, size = level / math.sqrt(2 * 10 ** (decibels / 10)), draw.choice([200, 16384, 10**7])
                mean, power, _ = cut(level, deviation)
                distance = round((127.5 - mean) * size)
                squares = round((power - 127.5**2) * size + 255 * distance)
                wrong = round(size * math.erfc(level / deviation / math.sqrt(2)) / 2)
                yield Counts(round(size / rate), size, wrong, distance, squares)
    for _ in range(500):
        size = draw.randint(0, 3000)
        octets = draw.choices(range(256), k=size)
        wrong = sum(it > 127 for it in octets)
        yield Counts(draw.randint(0, size), size, wrong, sum(octets), sum(it * it for it in octets))
    yield Counts()
    yield Counts(100, 200, 0, 0, 0)
    yield Counts(100, 200, 200, 200 * 255, 200 * 255 * 255)
    yield Counts(0, 200, 3, 100, 100)


@source_test
def quality(room):
    """Es/N0 and the symbol error rate are those of the Python package, over drawn counts."""
    counts, seen, most = list(drawn_counts()), set(), 0.0
    script = """
        import { quality, qualityOf } from "SOURCES/quality.mjs";
        console.log(JSON.stringify([given.map((it) => qualityOf(it)), quality(given.slice(0, 5))], told));"""
    made, together = in_node(room, script, [it._asdict() for it in counts])
    # (of several windows all together, too)
    for given, mine in [*zip(counts, made), (Counts().plus(counts[:5]), together)]:
        right = quality_of(given)
        assert mine["atLeast"] == right.at_least, (given, mine, right)
        for its, theirs in ((mine["symbolErrorRate"], right.symbol_error_rate), (mine["esN0"], right.es_n0)):
            its = float(str(its).replace("Infinity", "inf"))
            if math.isfinite(theirs):
                most = max(most, abs(its - theirs))
            same = its == theirs or math.isnan(its) and math.isnan(theirs) or abs(its - theirs) < 1e-6
            assert same, (given, mine, right)
        seen.add((right.at_least, math.isfinite(right.es_n0)))
    assert len(made) == len(counts) and len(seen) == 4
    return f"{len(counts):,} counts, at most {most:.0e} apart"


def columns_of(link):
    return 0 if link["code"] == "none" else link["depth"]


def drawn_pass(draw, link, has_windows):
    """Batches of windows and codeblocks over a recording, with gaps, slips, flips and places without a marker."""
    columns = columns_of(link)
    place, shift, inverted, batches, ahead = draw.randint(0, 5000), 50, False, [], 0
    for _ in range(link["codeblocks"]):
        place += link["unit"] + draw.choice([0] * 12 + [1, 1, 3, 700, 40_000, -200])
        inverted ^= draw.random() < 0.03
        shift += draw.choice([0] * 12 + [1, -2, -4])
        repaired = [draw.choice([0, 0, 0, 1, 5, 16, None]) if draw.random() < 0.3 else 0 for _ in range(columns)]
        bridged = draw.random() < 0.05
        item = dict(
            place=place,
            symbol=2 * place + shift if has_windows else place,
            good=None not in repaired,
            fixed=sum(it or 0 for it in repaired),
            frame=None,
            distance=draw.randint(0, 11 if bridged else 3),
            bridged=bridged,
            inverted=inverted,
            repaired=repaired,
        )
        windows = []
        while has_windows and ahead < place:
            octets = draw.choice([2048, 2048, 2600, 0, 600])
            mean, noise = draw.choice([40, 60, 90, 126]), draw.choice([0, 300, 900])
            distance = octets * (127 - mean)
            windows.append(
                dict(
                    symbol=2 * ahead + shift,
                    dropped=draw.choice([0] * 9 + [1, 3]) if ahead else 1,
                    steps=1024 + 64,
                    kept=octets // 2,
                    metric=draw.randint(0, 10**6),
                    octets=octets,
                    wrong=draw.choice([0, 0, octets // 50]),
                    distance=distance,
                    squares=octets * ((127 - mean) ** 2 + noise),
                )
            )
            ahead += octets // 2
        batches.append(dict(items=[item], windows=windows))
    return batches


def names_of(stretch):
    """A stretch of the Python package by the names of the page's."""
    made = {re.sub("_(.)", lambda it: it[1].upper(), name): it for name, it in vars(stretch).items()}
    return {**made, "counts": stretch.counts._asdict()}


def same(mine, right):
    """Whether numbers are equal but for the order in which they were added."""
    if isinstance(right, dict):
        return mine.keys() == right.keys() and all(same(mine[name], it) for name, it in right.items())
    if isinstance(right, list):
        return len(mine) == len(right) and all(map(same, mine, right))
    return mine == right or isinstance(right, float) and abs(mine - right) < 1e-9 * max(1, abs(right))


def compared(mine, stretches, what):
    right = [names_of(it) for it in stretches.all]
    assert mine["size"] == stretches.size and len(mine["all"]) == len(right), (what, mine["size"], stretches.size)
    for number, (its, theirs) in enumerate(zip(mine["all"], right)):
        assert same(its, theirs), (what, number, its, theirs)


def drawings(text, stretches, count):
    """The page of a pass is a small file with its drawings, in which every number is one, and with the numbers in a table."""
    found = re.findall(r"<svg .*?</svg>", text, re.S)
    assert len(found) == count and len(text.encode()) < 500_000, (len(found), count, len(text))
    for it in found:
        assert xml.etree.ElementTree.fromstring(it).get("aria-label")
    assert not re.search(r"NaN|Infinity|undefined|null|\[object|<said>|<script", text)
    table = re.search(r'<table class="numbers">(.*?)</table>', text, re.S)[1]
    head, *rows = [re.findall(r"<t[hd][^>]*>(.*?)</t[hd]>", it) for it in re.findall(r"<tr>(.*?)</tr>", table)]
    assert len(rows) == len(stretches.all)
    for number, (row, it) in enumerate(zip(rows, stretches.all)):
        named = dict(zip(head, row))
        assert named["from symbol"] == f"{number * stretches.size:,}" and named["good"] == str(it.clean + it.repaired)
        assert [named[name] for name in ("slips", "flips", "gaps")] == [str(n) for n in (it.slips, it.flips, it.gaps)]
        if "Es/N0, dB" in named:
            found = quality_of(it.counts)
            shown = pages.decibels(found).removesuffix(" dB") if math.isfinite(found.es_n0) else ""
            assert named["Es/N0, dB"] == shown, (named, found)


def totals_of(octets):
    """The totals of a recording at rate 1/2, as tmchan-receive --page has them, by the Python package."""
    link = Link.recording(code="rs16")
    its_pass = pages.Pass(link)
    with link.receiver(windows=True) as receiver:
        its_pass.push(receiver.push(octets), receiver.windows)
        its_pass.push(receiver.finish(), receiver.windows)
        totals = receiver.totals
    unit = round(its_pass.unit * its_pass._rate)
    coarse = its_pass.stretches.coarse(max(unit, its_pass.window_symbols), pages.MOST)
    return [*pages.totals_rows(its_pass, totals), *pages.quality_rows(coarse)]


@source_test
def passes(room):
    """What the page counts of a pass is what tmchan-receive --page counts: stretches, places, totals, Es/N0."""
    script = """
        import { Pass } from "SOURCES/pass.mjs"; import { pageOf } from "SOURCES/figures.mjs";
        const css = readFileSync("SOURCES/page.css", "utf8"), passes = given.map(({ link, totals, batches }) => {
            const it = new Pass({ name: "a", words: [], options: link, blockLength: link.unit / 8 - 4, frameLength: link.frameLength });
            for (const { items, windows } of batches) it.push(items, windows);
            it.totals = totals;
            const summary = it.summary();
            return { raw: it.stretches, ...summary, missing: it.missing, page: pageOf(summary, ["<said>"], css) };
        });
        console.log(JSON.stringify(passes, told));"""
    given = []
    for code, depth, length, codeblocks, has_windows in (
        ("rs16", 1, 223, 400, True),
        ("rs16", 5, 1115, 3000, True),
        ("rs8", 2, 60, 300, False),
        ("none", 1, 100, 200, True),
        ("rs16", 1, 40, 0, True),
        ("rs16", 1, 40, 30, True),
        ("rs16", 1, 223, 3, True),
    ):
        checks = {"rs16": 32, "rs8": 16, "none": 0}[code] * depth
        link = dict(code=code, depth=depth, repair=None, bad="drop", frameLength=length, codeblocks=codeblocks)
        link["unit"] = 32 + 8 * (length + checks)
        batches = drawn_pass(random.Random(f"{code} {codeblocks}"), link, has_windows)
        slips = 17 if any(it["windows"] for it in batches) else 0
        given.append(dict(link=link, batches=batches, totals=dict(bits=10**6, slips=slips)))
    stretches = events = 0
    for case, mine in zip(given, in_node(room, script, given)):
        link = case["link"]
        its_pass = pages.Pass(types.SimpleNamespace(options=link, frame_length=link["frameLength"]))
        for batch in case["batches"]:
            items = [
                Item(**{name: it for name, it in item.items() if name in Item._fields}) for item in batch["items"]
            ]
            assert [(it.good, it.fixed) for it in items] == [(it["good"], it["fixed"]) for it in batch["items"]]
            its_pass.push(items, [Window(**it) for it in batch["windows"]])
        compared(mine["raw"], its_pass.stretches, "as they came")
        unit = round(its_pass.unit * its_pass._rate)
        coarse = its_pass.stretches.coarse(max(unit, its_pass.window_symbols), pages.MOST)
        compared(mine["drawn"], coarse.coarse(coarse.size, DRAWN), "drawn")
        least = min(8 * unit, coarse.size * len(coarse.all) // 48)
        compared(mine["codeblocks"], coarse.coarse(max(coarse.size, least), DRAWN), "codeblocks")
        assert [tuple(it.values()) for it in mine["gaps"]] == its_pass.gaps
        assert [tuple(it.values()) for it in mine["slips"]] == its_pass.slips
        assert [tuple(it.values()) for it in mine["flips"]] == its_pass.flips
        assert (mine["gapCount"], mine["flipCount"]) == (its_pass.number_of_gaps, its_pass.number_of_flips)
        assert same(mine["missing"], float(its_pass.missing))
        rows = [*pages.totals_rows(its_pass, Totals(**case["totals"])), *pages.quality_rows(coarse)]
        # (a share of a hundred thousandth is written in another way)
        shares = [re.sub(r"^([\d.e-]+) of all$", lambda it: repr(float(it[1])), text) for _, text in rows]
        mine_shares = [re.sub(r"^([\d.e-]+) of all$", lambda it: repr(float(it[1])), text) for _, text in mine["rows"]]
        assert [it for it, _ in mine["rows"]] == [it for it, _ in rows] and mine_shares == shares, (mine["rows"], rows)
        drawings(mine["page"], coarse.coarse(coarse.size, DRAWN), 3 + (columns_of(link) > 0) + 2 * (its_pass.windows > 0))
        stretches += len(coarse.all)
        events += len(its_pass.gaps) + len(its_pass.slips) + len(its_pass.flips)
    assert stretches > 1000 and events > 100, (stretches, events)
    return f"{len(given)} passes, {stretches:,} stretches, {events} places"
