// Recordings: in which form their symbols stand, and WAV files. A form turns the octets of a file into soft octets, 0 the surest 0 and 255
// the surest 1, a symbol each; the forms and what they make are those of the Python package.
import { joined } from "./octets.mjs";

// Floats and numbers of 16 bits are scaled by their own mean, a block at a time, so that their mean distance from 128 is the level.
const BLOCK = 65536, LEVEL = 64;

const table = (ofOctet) => Array.from({ length: 256 }, (_, octet) => ofOctet(octet));
const bits = (places) => table((octet) => places.map((k) => 255 * ((octet >> k) & 1)));
const get = (name, littleEndian) => (view, at) => view[name](at, littleEndian);

/** Of each form the octets of an element, how one is read, or the symbols of each octet, and what it is. */
export const FORMS = {
    u8: { size: 1, text: "octets, 00 the surest 0 and FF the surest 1" },
    i8: { size: 1, symbols: table((octet) => [octet ^ 128]), text: "signed octets, below 0 for a symbol 0" },
    i16: { size: 2, read: get("getInt16", true), text: "signed numbers of 16 bits" },
    i16be: { size: 2, read: get("getInt16", false), text: "the same, the most significant octet first" },
    f32: { size: 4, read: get("getFloat32", true), text: "floats of 32 bits, below 0 for a symbol 0" },
    f32be: { size: 4, read: get("getFloat32", false), text: "the same, the most significant octet first" },
    f64: { size: 8, read: get("getFloat64", true), text: "floats of 64 bits" },
    f64be: { size: 8, read: get("getFloat64", false), text: "the same, the most significant octet first" },
    unpacked: { size: 1, symbols: table((octet) => [octet ? 255 : 0]), text: "octets 00 and 01, a symbol each" },
    packed: { size: 1, symbols: bits([7, 6, 5, 4, 3, 2, 1, 0]), text: "eight symbols an octet, the most significant bit first" },
    "packed-lsb": { size: 1, symbols: bits([0, 1, 2, 3, 4, 5, 6, 7]), text: "eight symbols an octet, the least significant bit first" },
};

/** Turns the octets of a recording, a piece after another, into soft octets. `swap` exchanges the two symbols of each pair. */
export class Symbols {
    #form;
    #swap;
    #unread = new Uint8Array(0);
    #waiting = [];
    #unpaired = new Uint8Array(0);

    constructor(form, swap = false) {
        this.#form = FORMS[form];
        this.#swap = swap;
    }

    push(octets) {
        const { size, read, symbols } = this.#form;
        if (symbols) return this.#paired(this.#looked(octets));
        if (!read) return this.#paired(octets);
        const all = this.#unread.length ? joined([this.#unread, octets]) : octets, whole = all.length - (all.length % size);
        this.#unread = all.slice(whole);
        const view = new DataView(all.buffer, all.byteOffset, whole), parts = [];
        for (let at = 0; at < whole; at += size) {
            this.#waiting.push(read(view, at));
            if (this.#waiting.length === BLOCK) parts.push(this.#byMean());
        }
        return this.#paired(joined(parts));
    }

    /** The symbols that are left. What is no whole element, and with swap no whole pair, is dropped. */
    finish() {
        return this.#paired(this.#waiting.length ? this.#byMean() : new Uint8Array(0));
    }

    #looked(octets) {
        const { symbols } = this.#form, each = symbols[0].length, made = new Uint8Array(each * octets.length);
        for (let i = 0; i < octets.length; i++) for (let k = 0; k < each; k++) made[each * i + k] = symbols[octets[i]][k];
        return made;
    }

    #byMean() {
        const samples = this.#waiting, is64 = this.#form.size === 8;
        this.#waiting = [];
        let sum = 0, count = 0;
        for (const it of samples) {
            if (!Number.isFinite(it)) continue;
            sum += Math.abs(it);
            count += 1;
        }
        const mean = count ? sum / count : 0, rounded = is64 ? (it) => it : Math.fround, by = rounded(mean ? LEVEL / mean : 1);
        const made = new Uint8Array(samples.length);
        for (let i = 0; i < samples.length; i++) {
            const level = rounded(rounded(samples[i] * by) + 128);
            // (what is no number says nothing of its symbol)
            made[i] = Number.isNaN(level) ? 128 : Math.min(255, Math.max(0, level));
        }
        return made;
    }

    #paired(symbols) {
        if (!this.#swap) return symbols;
        const all = this.#unpaired.length ? joined([this.#unpaired, symbols]) : symbols, whole = all.length - (all.length % 2);
        const made = new Uint8Array(whole);
        for (let i = 0; i < whole; i += 2) [made[i], made[i + 1]] = [all[i + 1], all[i]];
        this.#unpaired = all.slice(whole);
        return made;
    }
}

/** The header of a WAV file that begins with these octets: the form of its samples, where they begin, how many octets they have and how
 * many channels; null where it is none. Samples of several channels are symbols one after the other. */
export function waveHeader(octets) {
    const view = new DataView(octets.buffer, octets.byteOffset, octets.length);
    const text = (at) => String.fromCharCode(...octets.subarray(at, at + 4));
    if (octets.length < 12 || !["RIFF", "RF64"].includes(text(0)) || text(8) !== "WAVE") return null;
    let form = "", channels = 0;
    for (let at = 12; at + 8 <= octets.length; ) {
        const name = text(at), size = view.getUint32(at + 4, true);
        if (name === "fmt " && at + 24 <= octets.length) {
            const wide = view.getUint16(at + 8, true) === 0xfffe && at + 34 <= octets.length;
            const kind = view.getUint16(wide ? at + 32 : at + 8, true), width = view.getUint16(at + 22, true);
            channels = view.getUint16(at + 10, true);
            form = { "1 8": "u8", "1 16": "i16", "3 32": "f32", "3 64": "f64" }[`${kind} ${width}`] ?? "";
            if (!form) throw new Error(`a WAV file of kind ${kind} with ${width} bits a sample is not read`);
        }
        if (name === "data" && form) return { form, start: at + 8, length: size === 0 || size === 0xffffffff ? Infinity : size, channels };
        at += 8 + size + (size % 2);
    }
    throw new Error("a WAV file without samples");
}

/** What a file's octets are, by its name: the form that is proposed. */
export function formOfName(name) {
    const ending = name.toLowerCase().split(".").at(-1);
    const others = { float: "f32", s16: "i16", s8: "i8", bits: "packed" };
    return others[ending] ?? (Object.hasOwn(FORMS, ending) ? ending : "u8");
}
