// A pass: what came of a recording, in a few octets for each codeblock, and in stretches of it for the figures, which are those of
// tmchan-receive --page (python/tmchan/page.py). tests/web compares both.
import { Counts, quality, qualityOf } from "./quality.mjs";
import { counted } from "./text.mjs";

const MARKER = 4;
// The most stretches of a recording, and of those that are drawn; and symbols of a stretch at first.
const MOST = 512, DRAWN = 256, FINEST = 256;
// At each rate how many symbols a bit has
const SYMBOLS = { "1/2": 2, "2/3": 3 / 2, "3/4": 4 / 3, "5/6": 6 / 5, "7/8": 8 / 7 };
/** How many gaps, slips and flips are listed one by one. */
export const LISTED = 50;

/** Numbers of one kind, as many as come. */
class Column {
    #kind;
    #array;

    constructor(kind) {
        this.#kind = kind;
        this.#array = new kind(1024);
        this.length = 0;
    }

    push(number) {
        if (this.length === this.#array.length) {
            const more = new this.#kind(2 * this.length);
            more.set(this.#array);
            this.#array = more;
        }
        this.#array[this.length++] = number;
    }

    at(index) {
        return this.#array[index];
    }
}

/** What came of a stretch of a recording. */
class Stretch {
    clean = 0;
    repaired = 0;
    bad = 0;
    missing = 0;
    fixed = 0;
    words = 0;
    mostFixed = 0;
    markers = 0;
    wrongBits = 0;
    mostWrongBits = 0;
    bridged = 0;
    slips = 0;
    flips = 0;
    gaps = 0;
    counts = new Counts();

    /** Counts what came of another one too. */
    take(other) {
        for (const name of Object.keys(this)) {
            if (name === "counts") this.counts.add(other.counts);
            else if (name.startsWith("most")) this[name] = Math.max(this[name], other[name]);
            else this[name] += other[name];
        }
    }
}

/** A recording in stretches of one length, which doubles when there are too many. */
class Stretches {
    constructor(size = FINEST) {
        this.size = size;
        this.all = [new Stretch()];
    }

    at(symbol) {
        while (Math.floor(symbol / this.size) >= MOST) this.#double();
        const index = Math.floor(symbol / this.size);
        while (index >= this.all.length) this.all.push(new Stretch());
        return this.all[index];
    }

    #double() {
        for (let k = 0; k + 1 < this.all.length; k += 2) this.all[k].take(this.all[k + 1]);
        this.all = this.all.filter((_, k) => k % 2 === 0);
        this.size *= 2;
    }

    /** These in stretches of at least `size` symbols, and at most `most` of them. */
    coarse(size, most) {
        const made = new Stretches(this.size);
        while (made.size < size || Math.floor(((this.all.length - 1) * this.size) / made.size) >= most) made.size *= 2;
        this.all.forEach((it, k) => made.at(k * this.size).take(it));
        return made;
    }
}

export class Pass {
    #place = new Column(Float64Array);
    #symbol = new Column(Float64Array);
    #distance = new Column(Uint8Array);
    #flags = new Column(Uint8Array);
    #repaired = new Column(Uint8Array);
    // Where the codeblocks so far end, in bits, and the last good one, in symbols; and how many bits since then are in no codeblock.
    #end = 0;
    #goodEnd = 0;
    #uncovered = 0;
    #isInverted = null;
    // Of the windows so far, and the symbols of the longest one.
    #windows = 0;
    #bits = 0;
    #octets = 0;
    #windowSymbols = 0;

    constructor({ name, words, options, blockLength, frameLength }) {
        Object.assign(this, { name, words, options, frameLength });
        /** How many bits a marker and its codeblock have, and how many columns it has. */
        this.unit = 8 * (blockLength + MARKER);
        this.columns = options.code === "none" ? 0 : options.depth;
        this.bound = options.repair ?? { rs16: 16, rs8: 8, none: 0 }[options.code];
        this.good = this.bad = this.fixed = this.bridged = this.inverted = 0;
        this.stretches = new Stretches();
        // The first ones of each, at which symbol, and how many there are.
        this.gaps = [];
        this.slips = [];
        this.flips = [];
        this.gapCount = this.flipCount = this.missing = 0;
        this.totals = this.phase = null;
    }

    get length() {
        return this.#place.length;
    }

    /** How many symbols a bit has, in the mean: by the windows, where there are any. */
    get #rate() {
        return this.#bits ? this.#octets / this.#bits : SYMBOLS[this.options.inner] ?? 1;
    }

    push(items, windows) {
        for (const it of windows) this.#takeWindow(it);
        for (const it of items) this.#takeItem(it);
    }

    #takeWindow(window) {
        const stretch = this.stretches.at(window.symbol);
        stretch.counts.add(window);
        this.#windows += 1;
        this.#windowSymbols = Math.max(this.#windowSymbols, window.octets);
        this.#bits += window.kept;
        this.#octets += window.octets;
        // (what is dropped before the first one is where the symbol phase was found)
        if (!window.dropped || this.#windows === 1) return;
        stretch.slips += 1;
        if (this.slips.length < LISTED) this.slips.push({ symbol: window.symbol, dropped: window.dropped });
    }

    #takeItem(item) {
        this.#keep(item);
        const { symbol, place, good, fixed, inverted } = item, stretch = this.stretches.at(symbol);
        this.#uncovered += Math.max(0, place - this.#end);
        this.#end = Math.max(this.#end, place + this.unit);
        if (good) {
            if (this.#uncovered && this.#isInverted !== null) this.#takeGap(symbol, this.#uncovered);
            this.#uncovered = 0;
            this.#goodEnd = symbol + Math.round(this.unit * this.#rate);
            if (this.#isInverted !== null && this.#isInverted !== inverted) {
                stretch.flips += 1;
                this.flipCount += 1;
                if (this.flips.length < LISTED) this.flips.push({ symbol, inverted });
            }
            this.#isInverted = inverted;
        }
        stretch[good ? (fixed ? "repaired" : "clean") : "bad"] += 1;
        for (const it of item.repaired) {
            if (it === null) continue;
            stretch.words += 1;
            stretch.fixed += it;
            stretch.mostFixed = Math.max(stretch.mostFixed, it);
        }
        stretch.bridged += item.bridged;
        if (item.bridged) return;
        stretch.markers += 1;
        stretch.wrongBits += item.distance;
        stretch.mostWrongBits = Math.max(stretch.mostWrongBits, item.distance);
    }

    /** Counts what is missing between two good codeblocks, in each stretch between them as much as it has of it. */
    #takeGap(symbol, bits) {
        this.gapCount += 1;
        this.missing += bits / this.unit;
        if (this.gaps.length < LISTED) this.gaps.push({ symbol, bits });
        this.stretches.at(symbol).gaps += 1;
        const begin = Math.min(this.#goodEnd, symbol - 1), { size, all } = this.stretches;
        for (let k = Math.floor(begin / size); k * size <= symbol; k++) {
            const part = Math.min(symbol, (k + 1) * size) - Math.max(begin, k * size);
            all[k].missing += ((bits / this.unit) * part) / (symbol - begin);
        }
    }

    /** Keeps what was said of a codeblock, but for its frame. */
    #keep(item) {
        this.#place.push(item.place);
        this.#symbol.push(item.symbol);
        this.#distance.push(item.distance);
        this.#flags.push((item.good ? 0 : 1) | (item.bridged ? 2 : 0) | (item.inverted ? 4 : 0));
        for (let k = 0; k < this.columns; k++) this.#repaired.push(item.repaired[k] ?? 255);
        this.good += item.good;
        this.bad += !item.good;
        this.fixed += item.fixed;
        this.bridged += item.bridged;
        this.inverted += item.inverted;
    }

    /** What was said of a codeblock, but for its frame. */
    item(index) {
        const flags = this.#flags.at(index);
        const counts = Array.from({ length: this.columns }, (_, k) => this.#repaired.at(this.columns * index + k));
        const repaired = counts.map((it) => (it === 255 ? null : it)), fixed = repaired.reduce((sum, it) => sum + (it ?? 0), 0);
        const good = !(flags & 1), length = good || this.options.bad === "pass" ? this.frameLength : 0;
        return { number: index, place: this.#place.at(index), symbol: this.#symbol.at(index), good, length, fixed, repaired,
            distance: this.#distance.at(index), bridged: (flags & 2) !== 0, inverted: (flags & 4) !== 0 };
    }

    /** What stands before and after the lines of the codeblocks in the program's report. */
    get firstLines() {
        return this.phase ? `phase ${this.phase.skip} cost ${this.phase.cost}\n` : "";
    }

    get lastLines() {
        const slips = this.options.phase === "follow" ? `slips ${this.totals.slips}\n` : "";
        return `${slips}frames ${this.good} bad ${this.bad} fixed ${this.fixed} bits ${this.totals.bits}\n`;
    }

    /** What the page shows: totals, and the stretches that are drawn, those of codeblocks in some where there are many. */
    summary() {
        const unit = Math.round(this.unit * this.#rate), stretches = this.stretches.coarse(Math.max(unit, this.#windowSymbols), MOST);
        const { size, all } = stretches, some = Math.min(8 * unit, Math.floor((size * all.length) / 48));
        const { name, words, options, good, bad, fixed, bound, totals, frameLength, gaps, slips, flips, gapCount, flipCount } = this;
        return {
            name, words, options, good, bad, fixed, bound, totals, frameLength, gaps, slips, flips, gapCount, flipCount,
            isCoded: this.columns > 0, hasWindows: this.#windows > 0, hasSlips: this.#windows > 0 || !totals.slips,
            rows: [...this.#totalsRows(), ...qualityRows(all)],
            drawn: stretches.coarse(size, DRAWN), codeblocks: stretches.coarse(Math.max(size, some), DRAWN),
        };
    }

    /** The totals: what each is, and the text of it. */
    #totalsRows() {
        const every = new Stretch(), number = (count) => count.toLocaleString("en");
        for (const it of this.stretches.all) every.take(it);
        const coded = [
            ["good codeblocks", number(this.good)],
            ["of these with symbols repaired", number(every.repaired)],
            ["uncorrectable codeblocks", number(this.bad)],
            ["symbols repaired", number(this.fixed)],
        ];
        return [
            ...(this.columns ? coded : [["codeblocks, which no outer code tests", number(this.good)]]),
            ["gaps between good codeblocks", `${number(this.gapCount)}, with room for ${number(Math.round(this.missing))} codeblocks`],
            ["slips of the symbol phase", number(this.totals.slips)],
            ["flips of the polarity", number(this.flipCount)],
            ["places taken without a marker", number(this.bridged)],
            ["wrong bits of markers", `${number(every.wrongBits)} in ${number(every.markers)}`],
            ["bits received", number(this.totals.bits)],
        ];
    }
}

const decibels = ({ esN0, atLeast }) => `${atLeast ? "at least " : ""}${esN0.toFixed(1)} dB`;

/** Es/N0 and the rate of wrong symbols of those stretches in which good codeblocks begin. */
function qualityRows(all) {
    const counts = all.filter((it) => it.clean + it.repaired && it.counts.octets).map((it) => it.counts), rows = [];
    const found = counts.map(qualityOf).filter((it) => Number.isFinite(it.esN0)).sort((a, b) => a.esN0 - b.esN0);
    if (found.length) {
        const [middle, first, last] = [found[found.length >> 1], found[0], found.at(-1)].map(decibels);
        rows.push(["Es/N0 where good codeblocks begin", `${middle} in the median of stretches, ${first} to ${last}`]);
    }
    if (counts.length) rows.push(["wrong symbols there", `${Number(quality(counts).symbolErrorRate.toPrecision(2))} of all`]);
    return rows;
}

/** What came of a pass, in words: as tmchan-receive says it. */
export function sentences(pass) {
    const { good, bad, fixed, bridged, inverted, totals } = pass, lines = [];
    if (!good && !bad) return [`No sync marker was found in ${counted(totals.bits, "bit")}.`];
    const came = `${counted(good, "frame")} of ${counted(pass.frameLength, "octet")}`;
    const rest = bad ? `${counted(bad, "codeblock is", "codeblocks are")} uncorrectable` : "every codeblock that was found is good";
    lines.push(pass.columns === 0 ? `${came}; there is no outer code, so nothing says whether they are right.`
        : `${came}, with ${counted(fixed, "symbol")} repaired; ${rest}.`);
    const more = [];
    if (totals.slips) more.push(`${counted(totals.slips, "slip")} of the symbol phase made good`);
    if (bridged) more.push(`${counted(bridged, "place")} taken without a marker`);
    if (inverted) more.push(`${counted(inverted, "codeblock")} received inverted`);
    if (more.length) lines.push(`${more.join("; ")}.`);
    return lines;
}
