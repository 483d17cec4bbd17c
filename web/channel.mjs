// The channel of the page's first view: white noise, symbols that are lost or doubled, a carrier that turns by half, and a gap of noise.
// Nothing of it is proved, and nothing of it is the library's.

/** Numbers from 0 to below 1, the same for the same seed (mulberry32). */
function draws(seed) {
    let state = seed >>> 0;
    return () => {
        state = (state + 0x6d2b79f5) >>> 0;
        let it = Math.imul(state ^ (state >>> 15), state | 1);
        it ^= it + Math.imul(it ^ (it >>> 7), it | 61);
        return ((it ^ (it >>> 14)) >>> 0) / 2 ** 32;
    };
}

/** Numbers with a normal distribution, of mean 0 and deviation 1, two from two draws (Box and Muller). */
function normals(draw) {
    let spare = null;
    return () => {
        if (spare !== null) {
            const it = spare;
            spare = null;
            return it;
        }
        const size = Math.sqrt(-2 * Math.log(1 - draw())), angle = 2 * Math.PI * draw();
        spare = size * Math.sin(angle);
        return size * Math.cos(angle);
    };
}

/** What a receiver sees of symbols, 00 and FF: soft octets; of each which symbol was sent, 0 or 1, or 2 where it is noise alone; and how
 * many are on the wrong side of what the carrier had. `decibels` are Es/N0; `slips` symbols are lost or doubled; from `flip` on, a share
 * of the stream, the carrier has all of them inverted; and in its middle `gap` octets are noise alone. */
export function disturb(symbols, { decibels, slips = 0, flip = 1, gap = 0, seed = 1 }) {
    const normal = normals(draws(seed)), deviation = Math.sqrt(10 ** (-decibels / 10) / 2), levels = [], sent = [];
    const turn = Math.floor(flip * symbols.length), middle = Math.floor(symbols.length * 0.55);
    // A slip stands in the middle of a part of the stream each: the first is a symbol lost, the next one doubled, and so on.
    const places = Array.from({ length: slips }, (_, k) => Math.floor(((k + 0.5) / slips) * symbols.length) | 1);
    const times = new Map(places.map((place, k) => [place, k % 2 ? 2 : 0]));
    symbols.forEach((symbol, place) => {
        if (place === middle) for (let k = 0; k < gap; k++) levels.push(0), sent.push(2);
        for (let k = 0; k < (times.get(place) ?? 1); k++) {
            levels.push((symbol ? 1 : -1) * (place < turn ? 1 : -1));
            sent.push(symbol ? 1 : 0);
        }
    });
    const soft = Uint8Array.from(levels, (level) => Math.min(255, Math.max(0, Math.round(127.5 + 63.75 * (level + deviation * normal())))));
    const wrong = levels.filter((level, k) => level && soft[k] > 127 !== level > 0).length;
    return { soft, sent: Uint8Array.from(sent), wrong };
}
