// Figures as SVG, which the page shows and the page of a pass keeps. They are text: their colours are page.css's, by classes.
import { LISTED } from "./pass.mjs";
import { qualityOf } from "./quality.mjs";
import { counted, escaped, short } from "./text.mjs";

const WIDTH = 480, LEFT = 52, RIGHT = 12, TOP = 12, BOTTOM = 34;

const round = (number) => String(Math.round(number * 100) / 100);
const text = (x, y, anchor, it) => `<text x="${round(x)}" y="${round(y)}" text-anchor="${anchor}">${escaped(it)}</text>`;

function box(kind, x, y, width, height) {
    const size = `width="${round(Math.max(width, 0))}" height="${round(Math.max(height, 0))}"`;
    return `<rect class="${kind}" x="${round(x)}" y="${round(y)}" ${size}/>`;
}

function line(kind, ...points) {
    return `<polyline class="${kind}" points="${points.map(([x, y]) => `${round(x)},${round(y)}`).join(" ")}"/>`;
}

/** What the colours are: rows of a kind and a text. */
export function legend(rows) {
    return `<ul class="legend">${rows.map(([kind, it]) => `<li class="${kind}"><i></i>${escaped(it)}</li>`).join("")}</ul>`;
}

/** A round number that is not below this one. */
function ceiling(most) {
    if (most <= 5) return Math.max(1, Math.ceil(most));
    const by = 10 ** Math.floor(Math.log10(most));
    return by * [1, 2, 2.5, 4, 5, 8, 10].find((it) => it * by >= most);
}

function drawing(height, label, inner) {
    return `<svg xmlns="http://www.w3.org/2000/svg" viewBox="0 0 ${WIDTH} ${height}" role="img" aria-label="${escaped(label)}">`
        + `${inner}</svg>`;
}

const across = (share) => LEFT + share * (WIDTH - LEFT - RIGHT);

/** The axes of a figure, and what places its points: `ticks` are values with a text each, `share` is how far up a value stands, from 0
 * to 1, and `along` is what the axis of x ends with. */
function plot({ height = 200, ticks, share, along }) {
    const bottom = height - BOTTOM, y = (value) => bottom - share(value) * (bottom - TOP);
    const rows = ticks.map(([it, said]) => horizontal("grid", y(it)) + text(LEFT - 6, y(it) + 5, "end", said));
    return { y, height, axes: rows.join("") + axis(bottom, height - 14, along) };
}

/** The axes of a figure whose values are counts, from 0 to the most. */
function counting({ height, most, along }) {
    const top = ceiling(most), values = top <= 5 ? Array.from({ length: top + 1 }, (_, k) => k) : [0, 1, 2, 3, 4].map((k) => (k * top) / 4);
    return plot({ height, along, ticks: values.map((it) => [it, short(it)]), share: (value) => value / top });
}

const horizontal = (kind, y) => line(kind, [across(0), y], [across(1), y]);
const axis = (at, below, along) =>
    horizontal("axis", at) + text(across(0), below, "start", "0") + text(across(1), below, "end", along);

const path = (kind, steps) => (steps.length ? `<path class="${kind}" d="${steps.join("")}"/>` : "");
const at = (x, y) => `M${round(x)} ${round(y)}`;
const block = (x, y, width, height) => `${at(x, y)}h${round(width)}v${round(height)}h${round(-width)}z`;

/** What stands in stretches, in their order. */
class Along {
    constructor({ size, all }) {
        this.all = all;
        this.text = `symbol ${short(size * all.length)}`;
        this.sentence = `In stretches of ${counted(size, "symbol")}.`;
        this.width = across(1 / all.length) - across(0);
    }

    /** Bars on one another: of each stretch the values by name. */
    bars(y, kinds) {
        const below = this.all.map(() => 0), width = this.width > 4 ? this.width - 1 : this.width;
        return kinds.map(([name, kind]) => path(kind, this.all.flatMap((it, k) => {
            if (!it[name]) return [];
            const from = y(below[k]), to = y((below[k] += it[name]));
            return [block(across(k / this.all.length), to, width, from - to)];
        }))).join("");
    }

    /** The values that are there, null where none is, as [x, y]. */
    #points(y, values) {
        return values.flatMap((it, k) => (it === null ? [] : [[across((k + 0.5) / values.length), y(it)]]));
    }

    /** A line through the values, with a gap where two stretches in a row have none; of one by itself a short one. */
    line(y, values) {
        const runs = [];
        let before = -Infinity;
        values.forEach((it, k) => {
            if (it === null) return;
            if (k - before > 2) runs.push([]);
            runs.at(-1).push([across((k + 0.5) / values.length), y(it)]);
            before = k;
        });
        return runs.map((it) => (it.length > 1 ? line("mean", ...it) : path("mean", [`${at(it[0][0] - 2, it[0][1])}h4`]))).join("");
    }

    /** A short dash at each value. */
    dashes(y, values) {
        return path("most", this.#points(y, values).map(([x, y]) => `${at(x - 2, y)}h4`));
    }

    /** A triangle at each value, that points up (-1) or down (1). */
    triangles(y, values, way) {
        return path("least", this.#points(y, values).map(([x, y]) => `${at(x - 3, y - 2 * way)}h6l-3 ${5 * way}z`));
    }
}

/** How many codeblocks came in each stretch. */
function codeblocksFigure({ codeblocks, isCoded, rows }) {
    const along = new Along(codeblocks), kinds = isCoded ? ["clean", "repaired", "bad", "missing"] : ["clean", "missing"];
    const most = Math.max(1, ...along.all.map((it) => kinds.reduce((sum, name) => sum + it[name], 0)));
    const { y, axes, height } = counting({ most, along: along.text });
    const colours = [["good", isCoded ? "good" : "found"], ["repaired", "good, symbols repaired"], ["bad", "uncorrectable"],
        ["missing", "missing, by the room in gaps"]];
    const shown = { clean: "good", repaired: "repaired", bad: "bad", missing: "missing" };
    const label = `Codeblocks along the recording: ${rows.slice(0, isCoded ? 5 : 2).map((it) => it.join(": ")).join("; ")}`;
    return {
        title: "Codeblocks",
        drawing: drawing(height, label, axes + along.bars(y, kinds.map((name) => [name, shown[name]])))
            + legend(isCoded ? colours : [colours[0], colours[3]]),
        sentence: along.sentence,
    };
}

/** A mean and a most of each stretch. */
function meansFigure({ along, title, means, most, bound, sentence, label }) {
    const highest = Math.max(0, ...most.filter((it) => it !== null));
    const { y, axes, height } = counting({ most: Math.max(highest, bound ?? 2), along: along.text });
    const limit = bound ? horizontal("bound", y(bound)) : "";
    return { title, drawing: drawing(height, `${label}: at most ${highest}`, axes + along.dashes(y, most) + along.line(y, means) + limit),
        sentence };
}

/** How near codewords came to what can be repaired. */
function repairedFigure({ drawn, bound }) {
    return meansFigure({
        along: new Along(drawn),
        title: "Repaired symbols",
        label: "Repaired symbols of a codeword",
        means: drawn.all.map((it) => (it.words ? it.fixed / it.words : null)),
        most: drawn.all.map((it) => (it.words ? it.mostFixed : null)),
        bound,
        sentence: `Of a codeword, in the mean (line) and at most (dashes). Up to ${bound} are repaired.`,
    });
}

function esN0Figure({ drawn }) {
    const along = new Along(drawn), found = drawn.all.map((it) => qualityOf(it.counts));
    const some = (isLeast) => found.map((it) => (Number.isFinite(it.esN0) && it.atLeast === isLeast ? it.esN0 : null));
    const told = some(false), least = some(true), values = [...told, ...least].filter((it) => it !== null);
    const low = Math.min(0, ...values.map(Math.floor)), high = Math.max(10, ...values.map((it) => Math.ceil(it) + 1));
    const step = high - low > 14 ? 5 : 2, first = Math.ceil(low / step) * step;
    const ticks = Array.from({ length: Math.floor((high - first) / step) + 1 }, (_, k) => [first + step * k, String(first + step * k)]);
    const { y, axes, height } = plot({ along: along.text, ticks, share: (value) => (value - low) / (high - low) });
    const range = values.length ? `${Math.min(...values).toFixed(1)} to ${Math.max(...values).toFixed(1)} dB` : "nowhere told";
    return {
        title: "Es/N0",
        drawing: drawing(height, `Es/N0 along the recording: ${range}`, axes + along.line(y, told) + along.triangles(y, least, -1)),
        sentence: "In dB, as for white noise, by the windows of the soft decoder. A triangle: at least so much, since most symbols are "
            + "cut at 0 and 255. Where there is no point, there was no signal that tells it.",
    };
}

function errorsFigure({ drawn }) {
    const along = new Along(drawn), counts = drawn.all.map(({ counts }) => (counts.octets ? counts : null));
    const rates = counts.map((it) => (it?.wrong ? it.wrong / it.octets : null));
    const below = counts.map((it) => (it && !it.wrong ? 1 / it.octets : null));
    const values = [...rates, ...below].filter((it) => it !== null), log = Math.log10;
    const low = Math.floor(log(Math.min(1e-3, ...values))), high = log(0.5);
    const ticks = Array.from({ length: -low }, (_, k) => [10 ** (low + k), low + k < -2 ? `1e${low + k}` : String(10 ** (low + k))]);
    const { y, axes, height } = plot({ along: along.text, ticks, share: (value) => (log(value) - low) / (high - low) });
    const most = Math.max(0, ...rates.filter((it) => it !== null));
    return {
        title: "Symbol error rate",
        drawing: drawing(height, `Symbol error rate along the recording: at most ${Number(most.toPrecision(2))}`,
            axes + along.line(y, rates) + along.triangles(y, below, 1)),
        sentence: "The share of symbols that were received nearer to the other one, before decoding. A triangle: none, that is fewer "
            + "than one of as many.",
    };
}

function eventsFigure({ drawn, totals, gapCount, flipCount, hasSlips }) {
    const { all, text: end, width } = new Along(drawn), high = 24;
    const kinds = [...(hasSlips ? [["slips", "bad"]] : []), ["flips", "repaired"], ["gaps", "missing"]];
    const rows = kinds.map(([name, kind], row) => {
        const mark = (k) => block(across(k / all.length), 10 + high * row, Math.max(2, width), 16);
        const marks = path(kind, all.flatMap((it, k) => (it[name] ? [mark(k)] : [])));
        return text(LEFT - 6, 23 + high * row, "end", name) + horizontal("grid", 18 + high * row) + marks;
    });
    const said = [counted(totals.slips, "slip"), counted(flipCount, "flip"), counted(gapCount, "gap")].join(", ");
    return {
        title: "Slips, flips and gaps",
        drawing: drawing(120, `Along the recording ${said}`, rows.join("") + axis(86, 106, end)),
        sentence: `Symbols lost or doubled${hasSlips ? "" : " (where was not looked for)"}, the polarity turned over, and no codeblock `
            + "where one would follow.",
    };
}

function markersFigure({ drawn }) {
    return meansFigure({
        along: new Along(drawn),
        title: "Wrong bits of markers",
        label: "Wrong bits of markers, of 32",
        means: drawn.all.map((it) => (it.markers ? it.wrongBits / it.markers : null)),
        most: drawn.all.map((it) => (it.markers ? it.mostWrongBits : null)),
        sentence: "Of 32, in the mean (line) and at most (dashes).",
    });
}

const table = (rows) => `<table><tbody>${rows.map(([what, it]) =>
    `<tr><th scope="row" class="text">${escaped(what)}</th><td>${escaped(it)}</td></tr>`).join("")}</tbody></table>`;

/** Where gaps, slips and flips are, the first ones of each. */
function listed({ gaps, slips, flips }) {
    const rows = [
        ...gaps.map(({ symbol, bits }) => [symbol, `gap of ${counted(bits, "bit")} before`]),
        ...slips.map(({ symbol, dropped }) => [symbol, `slip: ${counted(dropped, "symbol")} dropped before`]),
        ...flips.map(({ symbol, inverted }) => [symbol, `flip: ${inverted ? "inverted" : "upright"} from here on`]),
    ];
    if (!rows.length) return "";
    const shown = table(rows.sort((a, b) => a[0] - b[0]).map(([symbol, it]) => [symbol.toLocaleString("en"), it]));
    return `<details><summary>Where they are, by symbol: the first ${LISTED} of each</summary>${shown}</details>`;
}

/** What the figures show, as a table: a row for each stretch. */
function numbers({ drawn, isCoded, hasWindows, hasSlips }) {
    const esN0 = (it) => (Number.isFinite(it.esN0) ? `${it.atLeast ? "at least " : ""}${it.esN0.toFixed(1)}` : "");
    const rate = ({ octets, wrong }) => (octets ? String(Number((wrong / octets).toPrecision(2))) : "");
    const columns = [
        ["good", (it) => it.clean + it.repaired],
        ...(isCoded ? [["repaired", (it) => it.repaired], ["uncorrectable", (it) => it.bad]] : []),
        ["missing", (it) => Number(it.missing.toFixed(1))],
        ...(isCoded ? [["symbols repaired", (it) => it.fixed], ["most of a codeword", (it) => it.mostFixed]] : []),
        ...(hasWindows ? [["Es/N0, dB", (it) => esN0(qualityOf(it.counts))], ["symbol error rate", (it) => rate(it.counts)]] : []),
        ...(hasSlips ? [["slips", (it) => it.slips]] : []),
        ["flips", (it) => it.flips],
        ["gaps", (it) => it.gaps],
        ["wrong bits of markers", (it) => it.wrongBits],
        ["most of a marker", (it) => it.mostWrongBits],
    ];
    const head = ["from symbol", ...columns.map(([name]) => name)].map((it) => `<th scope="col">${it}</th>`).join("");
    const row = (it, k) => `<tr><th scope="row">${(k * drawn.size).toLocaleString("en")}</th>`
        + `${columns.map(([, of]) => `<td>${of(it)}</td>`).join("")}</tr>`;
    return `<details><summary>The numbers of the figures</summary><div class="scroll" tabindex="0" role="region" `
        + `aria-label="The numbers of the figures"><table class="numbers"><thead><tr>${head}</tr></thead>`
        + `<tbody>${drawn.all.map(row).join("")}</tbody></table></div></details>`;
}

/** The parts of the page of a pass: of each a title, what is shown, and a sentence where there is one. */
export function partsOf(summary) {
    const { rows, words, options, isCoded, hasWindows } = summary, events = eventsFigure(summary);
    const every = Object.entries(options).filter(([, it]) => it !== null);
    return [
        { title: "Totals", drawing: table(rows) + numbers(summary) },
        codeblocksFigure(summary),
        ...(isCoded ? [repairedFigure(summary)] : []),
        ...(hasWindows ? [esN0Figure(summary), errorsFigure(summary)] : []),
        { ...events, drawing: events.drawing + listed(summary) },
        markersFigure(summary),
        {
            title: "Options",
            drawing: `<p><code>tmchan decode ${escaped(words.join(" "))}</code></p>`
                + `<details><summary>All of them</summary>${table(every)}</details>`,
        },
    ];
}

/** A part as HTML, with a title of a level. */
export const figure = ({ title, drawing: shown, sentence }, level) => `<figure><${level}>${escaped(title)}</${level}>${shown}`
    + `${sentence ? `<figcaption>${escaped(sentence)}</figcaption>` : ""}</figure>`;

/** How often each level was received, of symbols 0 and 1. */
export function histogram([zeros, ones]) {
    const size = zeros.length, most = Math.max(...zeros.map((it, k) => it + ones[k]));
    const { y, axes, height } = counting({ most, along: "level 255", height: 190 }), width = across(1 / size) - across(0) - 0.5;
    const bars = zeros.map((zero, k) => box("zero", across(k / size), y(zero), width, y(0) - y(zero))
        + box("one", across(k / size), y(zero + ones[k]), width, y(zero) - y(zero + ones[k])));
    return drawing(height, "How often each level from 0 to 255 was received", axes + bars.join(""))
        + legend([["zero", "a 0 was sent"], ["one", "a 1 was sent"]]);
}

/** Symbols as sent and as received, one below the other. */
export function symbols(sent, received) {
    const size = sent.length, width = across(1 / size) - across(0) - 1, at = (k) => across(k / size);
    const tall = (level) => Math.max(1, Math.abs(level / 127.5 - 1) * 34);
    const above = Array.from(sent, (it, k) => box(it ? "one" : "zero", at(k), it ? 10 : 32, width, 22));
    const below = Array.from(received, (it, k) =>
        box(it > 127 ? "one" : "zero", at(k), it > 127 ? 104 - tall(it) : 104, width, tall(it)));
    const names = text(LEFT - 6, 37, "end", "sent") + text(LEFT - 6, 109, "end", "seen");
    return drawing(150, `${size} symbols as they were sent, and as they were received`,
        names + horizontal("axis", 32) + horizontal("axis", 104) + above.join("") + below.join(""));
}

/** Where codeblocks stand in the bits that were received. */
export function places(found, unit, bits) {
    const x = (bit) => across(bit / bits);
    const marks = found.map((it) => {
        const kind = it.good ? (it.fixed ? "repaired" : "good") : "bad";
        return box(`${kind} half`, x(it.place), 22, x(it.place + unit) - x(it.place) - 1, 30)
            + box(it.bridged ? "missing" : "marker", x(it.place), 14, Math.max(3, x(it.place + 32) - x(it.place)), 46);
    });
    const colours = [["marker", "marker found"], ["missing", "place taken without a marker"], ["good", "nothing to repair"],
        ["repaired", "repaired"], ["bad", "uncorrectable"]];
    return drawing(84, `${found.length} codeblocks in ${bits} received bits`,
        marks.join("") + axis(60, 78, `${short(bits)} bits received`)) + legend(colours);
}

/** The page of a pass: one file that needs nothing else. */
export function pageOf(summary, said, css) {
    const name = escaped(summary.name), figures = partsOf(summary).map((it) => figure(it, "h2"));
    return `<!doctype html>
<html lang="en"><head><meta charset="utf-8"><meta name="viewport" content="width=device-width, initial-scale=1">
<meta name="color-scheme" content="light dark"><title>${name}: a pass received by tmchan</title><style>${css}</style>
</head><body>
<header><h1>${name}</h1><p class="result">${said.map(escaped).join("<br>")}</p></header>
<main class="figures">
${figures.join("\n")}
</main>
<footer><p>Made by tmchan's page. What the library says of a frame is proved of the library; its module for WebAssembly is
compiled from the module that was proved for x86-64, with one instruction's stand-in; that is tested by rows and drawn
cases, not proved. The figures are the page's own, and Es/N0 is worked out of what the library counts.</p></footer></body></html>
`;
}
