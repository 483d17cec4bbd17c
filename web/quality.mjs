// How good symbols were, by what the library counts of windows of its soft decoder: the formula and the tables of the Python package
// (python/tmchan/quality.py), which says how it is worked out and over what the tables were measured. tests/web compares both.

const MIDDLE = 127.5;
// By how many deviations of the noise the best path is nearer in the mean than the one that was sent, at an Es/N0 of -2, -1 .. 3 dB, and
// the share of wrong symbols by the best path at -2, -1 .. 5 dB where all symbols are cut: at each rate by how many symbols a bit has.
const FIRST = -2;
const RATES = [
    {
        symbols: 2,
        nearer: [0.0042, 0.0005, 0, 0, 0, 0],
        wrong: [0.11297, 0.09825, 0.0776, 0.0561, 0.03746, 0.02272, 0.01242, 0.00591],
    },
    {
        symbols: 1.5,
        nearer: [0.0466, 0.0165, 0.0029, 0.0004, 0, 0],
        wrong: [0.07095, 0.06883, 0.06322, 0.05166, 0.03684, 0.02278, 0.01255, 0.00599],
    },
    {
        symbols: 4 / 3,
        nearer: [0.0791, 0.0421, 0.0143, 0.0029, 0.0001, 0],
        wrong: [0.0503, 0.04983, 0.04814, 0.04338, 0.03386, 0.02221, 0.01241, 0.00597],
    },
    {
        symbols: 1.2,
        nearer: [0.1067, 0.0707, 0.0386, 0.0139, 0.0024, 0],
        wrong: [0.03147, 0.03145, 0.03118, 0.03018, 0.02699, 0.02024, 0.01215, 0.00598],
    },
    {
        symbols: 8 / 7,
        nearer: [0.117, 0.0824, 0.0514, 0.0248, 0.0071, 0.001],
        wrong: [0.02252, 0.02252, 0.0225, 0.02222, 0.02102, 0.01736, 0.01138, 0.00588],
    },
];

/** Sums over windows, with the names of their fields. */
export class Counts {
    kept = 0;
    octets = 0;
    wrong = 0;
    distance = 0;
    squares = 0;

    /** Adds those of a window, or other sums. */
    add(more) {
        for (const name of Object.keys(this)) this[name] += more[name];
    }
}

/** What windows, or sums over windows, say of the symbols, all together. */
export function quality(windows) {
    const all = new Counts();
    for (const it of windows) all.add(it);
    return qualityOf(all);
}

/** The share of symbols that were received nearer to the other one; Es/N0 in dB, -Infinity where it is below -2 dB or nothing is known of
 * it; and whether it may be greater, since most symbols are cut at 00 and FF, or have no noise. Both numbers are NaN of no symbol. */
export function qualityOf({ kept, octets, wrong, distance, squares }) {
    if (!octets) return { symbolErrorRate: NaN, esN0: NaN, atLeast: false };
    const off = (it) => Math.abs(octets / Math.max(1, kept) - it.symbols);
    const rate = RATES.reduce((best, it) => (off(it) < off(best) ? it : best));
    const mean = MIDDLE - distance / octets, power = (squares - 2 * MIDDLE * distance) / octets + MIDDLE ** 2;
    const symbolErrorRate = wrong / octets, esN0 = mean > 0 ? sent(mean, power, rate.nearer) : -Infinity;
    if (esN0 === null) return { symbolErrorRate, esN0: least(wrong, octets, rate.wrong), atLeast: true };
    return { symbolErrorRate, esN0: esN0 >= FIRST ? esN0 : -Infinity, atLeast: false };
}

const density = (level) => Math.exp((-level * level) / 2) / Math.sqrt(2 * Math.PI);

/** The share of a normal distribution above a level: by the series of what lies between 0 and it, and from 4 on by the continued
 * fraction, from its end. */
function above(level) {
    if (level < 0) return 1 - above(-level);
    if (level > 4) {
        let rest = level;
        for (let k = 80; k > 0; k--) rest = level + k / rest;
        return density(level) / rest;
    }
    let sum = 0;
    for (let term = level, k = 1; term > 1e-17 * sum; k += 2) {
        sum += term;
        term *= (level * level) / (k + 2);
    }
    return 0.5 - density(level) * sum;
}

/** The level with so small a share above it, by Newton's method from below. */
function levelOf(share) {
    let level = 2;
    for (let k = 0; k < 100; k++) level += (above(level) - share) / density(level);
    return level;
}

/** Of a signal and noise, cut at MIDDLE on either side: the mean, the power, and the share that is cut. */
function cut(signal, deviation) {
    const low = (MIDDLE + signal) / deviation, high = (MIDDLE - signal) / deviation, below = above(low), beyond = above(high);
    const kept = 1 - below - beyond, ends = density(low) - density(high);
    const mean = signal * kept + deviation * ends + MIDDLE * (beyond - below);
    const power = (signal ** 2 + deviation ** 2) * kept + 2 * signal * deviation * ends
        - deviation ** 2 * (low * density(low) + high * density(high)) + MIDDLE ** 2 * (beyond + below);
    return { mean, power, share: beyond + below };
}

/** What is measured at an Es/N0, between those that are in the table; below it goes on as it begins. */
function between(decibels, measured) {
    const index = Math.max(0, Math.floor(decibels) - FIRST);
    if (index + 1 >= measured.length) return 0;
    return measured[index] + (decibels - FIRST - index) * (measured[index + 1] - measured[index]);
}

/** The Es/N0 of the signal and the noise that have this mean, by the best path, and this power once they are cut; null where more than
 * half of them are cut, or there is no noise. */
function sent(mean, power, measured) {
    let signal = mean, variance = power - mean ** 2, decibels = Infinity;
    for (let k = 0; k < 200; k++) {
        if (variance <= 0 || signal >= MIDDLE) return null;
        const deviation = Math.sqrt(variance), before = decibels;
        decibels = 20 * Math.log10(signal / deviation) - 10 * Math.log10(2);
        const found = cut(signal, deviation);
        if (found.share > 0.5) return null;
        if (Math.abs(decibels - before) < 1e-4 || decibels < 2 * FIRST) break;
        const nearest = found.mean + deviation * between(decibels, measured);
        signal += mean - nearest;
        variance += power - mean ** 2 - (found.power - nearest ** 2);
        if (signal <= 0) return -Infinity;
    }
    return decibels;
}

/** The Es/N0 that white noise has at least where `wrong` of `octets` symbols are wrong, 39 of 40 times: by what was measured of symbols
 * that are all cut, where more are wrong than at the end of the table. */
function least(wrong, octets, measured) {
    const share = (wrong + 2 * Math.sqrt(wrong + 1) + 2) / octets;
    if (share > measured[0]) return -Infinity;
    for (let k = 0; k + 1 < measured.length; k++)
        if (share > measured[k + 1]) return FIRST + k + (measured[k] - share) / (measured[k] - measured[k + 1]);
    return 10 * Math.log10(levelOf(share) ** 2 / 2);
}
