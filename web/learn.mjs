// What the page's first view shows of a text: each stage as the library computes it.
import { disturb } from "./channel.mjs";
import { joined } from "./octets.mjs";

const MARKER = 4;
const HISTOGRAM = 64; // levels that are told apart
const EXAMPLE_HEAD = 20_001; // symbols before the first

/** The options of the link. The receiver's are those for a recording, with short windows, since what is sent here is short. */
export function optionsOf({ code, depth, length, inner }) {
    const windows = inner === "1/2" ? {} : { keep: 1024, ahead: 128 };
    return { code, depth, length: depth * length, inner, ...windows };
}

/** The frames of a text, and of each how many octets stand before its part of the text: its number. */
function framesOf(text, length) {
    const octets = new TextEncoder().encode(text), frames = [], heads = [];
    for (let at = 0; at < octets.length || !frames.length; ) {
        const head = new TextEncoder().encode(`${frames.length + 1}: `), part = octets.subarray(at, at + length - head.length);
        frames.push(new Uint8Array(length).fill(32));
        frames.at(-1).set(joined([head, part]));
        heads.push(head.length);
        at += part.length;
    }
    return { frames, heads };
}

const same = (a, b) => a.length === b.length && a.every((it, k) => it === b[k]);

/** The octets of bits, the most significant first. */
function packed(bits) {
    return Uint8Array.from({ length: bits.length >> 3 }, (_, k) => bits.subarray(8 * k, 8 * k + 8).reduce((sum, bit) => 2 * sum + bit, 0));
}

/** A codeblock as it was received, column by column, and what became of each: which symbols were wrong, or null where it stayed. */
function repairs(library, link, bits, item) {
    const { code, depth, basis, randomize } = link.options, begin = item.place + 8 * MARKER;
    let block = packed(bits.subarray(begin, begin + 8 * link.blockLength));
    if (item.inverted) block = block.map((it) => it ^ 255);
    if (randomize === "on") block = library.randomize(block);
    return Array.from({ length: depth }, (_, index) => {
        const received = library.takeColumn(depth, index, block);
        try {
            return { received, repaired: library.rsDecode(received, { code, basis }).word };
        } catch (error) {
            if (error.name !== "Uncorrectable") throw error;
            return { received, repaired: null };
        }
    });
}

/** Which codeblock that was found has each frame that was sent, or null. An uncorrectable one stands for the frame at its distance from
 * the last good one, or from the beginning, where no other has that. */
function codeblocksOf(frames, found, unit) {
    const given = new Map(), numbers = found.map(({ frame }) => (frame ? frames.findIndex((it) => same(it, frame)) : -1));
    const give = (number, k) => number >= 0 && number < frames.length && !given.has(number) && given.set(number, k);
    numbers.forEach(give);
    found.forEach(({ good, place }, k) => {
        if (good) return;
        const before = numbers.findLastIndex((it, j) => j < k && it >= 0), first = before < 0 ? 0 : numbers[before];
        give(first + Math.round((place - (found[before]?.place ?? 0)) / unit), k);
    });
    return frames.map((_, number) => given.get(number) ?? null);
}

/** Sends a text, disturbs the symbols and receives them. */
export function learn(library, { text, link: options, channel }) {
    const link = library.recording(optionsOf(options)), { frames, heads } = framesOf(text, link.frameLength);
    const symbols = link.send(joined(frames)), each = symbols.length / frames.length;
    const { soft, sent, wrong } = disturb(symbols, { ...channel, gap: Math.round(channel.gap * each) });
    const bits = link.decode(soft), receiver = link.receiver(), items = [...receiver.push(soft), ...receiver.finish()];
    const found = items.map((item) => ({ ...item, columns: repairs(library, link, bits, item) }));
    const unit = 8 * (link.blockLength + MARKER);
    return {
        /** What was sent: frames, how many octets of each are its number, CADUs, symbols, and how many of these a frame has. */
        frames,
        heads,
        cadus: frames.map((it) => link.cadu(it)),
        symbols,
        each,
        /** What was received, symbol by symbol, how often each level was, and of how many symbols how many were on the wrong side. */
        soft,
        histogram: [0, 1].map((is) => levelsOf(soft.filter((_, k) => sent[k] === is))),
        carried: sent.filter((it) => it < 2).length,
        wrong,
        /** What the receiver made of it: the number of bits, the symbol phase, the slips, and codeblocks; of each frame that was sent which
         * one has it. */
        bits: bits.length,
        phase: receiver.phase,
        slips: receiver.totals.slips,
        found,
        given: codeblocksOf(frames, found, unit),
        /** The link: the command line's words, the bits of a CADU, and how many symbols of a codeword can be repaired. */
        words: link.words,
        unit,
        bound: options.code === "rs16" ? 16 : 8,
    };
}

function levelsOf(soft) {
    const counts = new Array(HISTOGRAM).fill(0);
    for (const octet of soft) counts[(octet * HISTOGRAM) >> 8] += 1;
    return counts;
}

/** A recording of a link with these options, in form u8: noise first, then a hundred frames, with a slip and a carrier that turns. */
export function example(library, options) {
    const link = library.link(options), text = new TextEncoder().encode("A frame of an example, sent by the page itself. ");
    const frames = Uint8Array.from({ length: 100 * link.frameLength }, (_, k) => text[k % text.length]);
    const { soft } = disturb(link.send(frames), { decibels: 4, slips: 1, flip: 0.75, seed: 2 });
    return joined([disturb(new Uint8Array(EXAMPLE_HEAD), { decibels: -20 }).soft, soft]);
}

/** One window of a certificate, as docs/FORMAT.md has it, and how many there are. */
export function windowOf(certificate, { inner }, wanted) {
    const view = new DataView(certificate.buffer, certificate.byteOffset, certificate.length);
    // Of each rate how many symbols its steps keep, over a period of the puncture pattern.
    const period = { "1/2": [2], "2/3": [2, 1], "3/4": [2, 1, 1], "5/6": [2, 1, 1, 1, 1], "7/8": [2, 1, 1, 1, 1, 1, 1] }[inner];
    let at = 0, number = 0, step = 0, shown = null;
    while (at + 17 <= certificate.length) {
        const steps = view.getUint32(at), kept = view.getUint32(at + 4), start = view.getUint8(at + 8);
        const metric = Number(view.getBigUint64(at + 9));
        let symbols = 0;
        for (let k = 0; k < steps; k++) symbols += period[(step + k) % period.length];
        const bits = at + 17, soft = bits + steps, columns = soft + symbols, end = columns + 256 * (steps + 1);
        if (end > certificate.length) break;
        if (number === wanted)
            shown = {
                number, steps, kept, start, metric,
                bits: certificate.slice(bits, soft),
                columns: Uint32Array.from({ length: 64 * (steps + 1) }, (_, k) => view.getUint32(columns + 4 * k)),
            };
        at = end;
        step += kept;
        number += 1;
    }
    return { shown, count: number };
}
