// libtmchan in WebAssembly, for pages, workers and Node: include/tmchan.h says what each call does, and docs/OPTIONS.md what each option
// means. Nothing is fetched but the module beside this file, and nothing is sent.
import { CALLS, NUMBERS, STRUCTS, VERSION } from "./layout.mjs";
import { joined } from "./octets.mjs";
import { quality } from "./quality.mjs";

const UNSET = 2n ** 64n - 1n;
// Outside of every list and range: what stands for a word that an option does not have.
const OUTSIDE = 2n ** 63n;
// How many numbers of options are passed.
const OPTION_COUNT = BigInt(STRUCTS.config.size / 8);
// Octets that go to the library at once; the memory of a stream is for as many.
const PIECE = 1 << 18;

const SWITCH = { on: NUMBERS.ON, off: NUMBERS.OFF };
// The numbers of the words of options; the others are numbers themselves.
const WORDS = {
    code: { rs16: NUMBERS.RS16, rs8: NUMBERS.RS8, none: NUMBERS.NO_CODE },
    inner: {
        none: NUMBERS.NO_INNER,
        "1/2": NUMBERS.RATE_12,
        "2/3": NUMBERS.RATE_23,
        "3/4": NUMBERS.RATE_34,
        "5/6": NUMBERS.RATE_56,
        "7/8": NUMBERS.RATE_78,
    },
    invert: SWITCH,
    randomize: SWITCH,
    basis: { dual: NUMBERS.DUAL, poly: NUMBERS.POLYNOMIAL },
    soft: { u8: NUMBERS.U8, i8: NUMBERS.I8 },
    start: { zero: NUMBERS.ZERO, any: NUMBERS.ANY },
    phase: { given: NUMBERS.GIVEN, find: NUMBERS.FIND, follow: NUMBERS.FOLLOW },
    polarity: { given: NUMBERS.GIVEN, find: NUMBERS.FIND },
    pack: SWITCH,
    rescan: SWITCH,
    bad: { drop: NUMBERS.DROP, pass: NUMBERS.PASS },
};
const WITHOUT_EFFECT = ["workers", "limit"];

/** The options of a link, in the order of the command line's tests, and of each its words, or null where it is a number. */
export const OPTIONS = Object.fromEntries(
    Object.keys(STRUCTS.config.fields)
        .filter((name) => !WITHOUT_EFFECT.includes(name))
        .map((name) => [name, WORDS[name] ? Object.keys(WORDS[name]) : null]),
);
/** What an option is that was not given; null: the library chooses it. */
export const DEFAULTS = {
    ...Object.fromEntries(Object.keys(OPTIONS).map((name) => [name, 0])),
    code: "rs16",
    depth: 1,
    length: null,
    inner: "1/2",
    invert: null,
    randomize: "on",
    basis: "dual",
    repair: null,
    soft: "u8",
    start: "zero",
    keep: 8192,
    ahead: 256,
    phase: "given",
    polarity: "given",
    batch: 32,
    pack: "on",
    rescan: "off",
    bad: "drop",
};
/** The settings for a recording, which begins anywhere, has noise before it and may slip or be inverted: those that
 * tmchan_config_recording makes, without a library. */
export function recordingSettings(inner = DEFAULTS.inner) {
    const windows = inner === "1/2" ? { keep: 128, ahead: 64 } : { keep: DEFAULTS.keep, ahead: DEFAULTS.ahead };
    return { tolerance: 3, fly: 1, start: "any", phase: "follow", polarity: "find", verify: 0, rescan: "on", ...windows };
}

/** The library refuses what it was given: `reason` is the name in the program's line `refused: depth`. */
export class Refused extends RangeError {
    constructor(answer, text) {
        const name = Object.keys(NUMBERS).find((it) => NUMBERS[it] === answer && answer < 0) ?? String(answer);
        const reason = name.replace(/^BAD_/, "").toLowerCase();
        super(`${reason}: ${text}`);
        Object.assign(this, { name: "Refused", reason, answer });
    }
}

/** No codeword lies within the repair bound of a word. It is no mistake of the caller. */
export class Uncorrectable extends Error {
    constructor() {
        super("no codeword lies within the repair bound");
        this.name = "Uncorrectable";
    }
}

/** The stream was finished or closed before. */
export class Closed extends Error {
    constructor() {
        super("the stream is closed");
        this.name = "Closed";
    }
}

/** The host gave the module no memory. */
export class NoMemory extends Error {
    constructor() {
        super("out of memory");
        this.name = "NoMemory";
    }
}

/** The module trapped, in this call or in one before: nothing is said of what is in its memory, so it is to be thrown away. */
export class Trapped extends Error {
    constructor(cause) {
        super(`the module trapped${cause ? `: ${cause.message}` : ""}, and is to be thrown away`, { cause });
        this.name = "Trapped";
    }
}

/** Whether this host has memory of 64-bit addresses, and vectors, which the faster of the two modules needs. */
export function hasMemory64() {
    const memory = [0, 97, 115, 109, 1, 0, 0, 0, 5, 3, 1, 4, 1];
    // A function that returns i8x16.splat(0).
    const vectors = [0, 97, 115, 109, 1, 0, 0, 0, 1, 5, 1, 96, 0, 1, 123, 3, 2, 1, 0, 10, 8, 1, 6, 0, 65, 0, 253, 15, 11];
    return [memory, vectors].every((it) => WebAssembly.validate(Uint8Array.from(it)));
}

/** The octets of a file beside this one, in a browser or in Node. */
export async function octetsOf(url) {
    if (url.protocol === "file:") return new Uint8Array(await (await import("node:fs/promises")).readFile(url));
    const answer = await fetch(url);
    if (!answer.ok) throw new Error(`${url} cannot be loaded: ${answer.status}`);
    return new Uint8Array(await answer.arrayBuffer());
}

/** Loads a module of the library: the octets given, or the file beside this one that the host can run. */
export async function load(octets) {
    octets ??= await octetsOf(new URL(hasMemory64() ? "tmchan.wasm" : "tmchan32.wasm", import.meta.url));
    const { instance } = await WebAssembly.instantiate(octets, {});
    return new Library(instance.exports);
}

export class Library {
    #exports;
    #trapped = null;

    constructor(exports) {
        this.#exports = exports;
        const missing = CALLS.filter((name) => !exports[`tmchan_${name}`]);
        if (missing.length) throw new Error(`the module has no call ${missing.join(", ")}`);
        const found = this.call("version");
        if (found >> 8 !== VERSION >> 8) throw new Error(`the module is of another version: ${versionText(found)}`);
        /** The version of the library, as "0.3.0". */
        this.version = versionText(found);
    }

    /** Whether a call trapped. */
    get hasTrapped() {
        return this.#trapped !== null;
    }

    /** How many pages of 65,536 octets the module's memory has. */
    get pages() {
        return this.#exports.memory.buffer.byteLength / 65536;
    }

    /** Makes a call of the header, by its name without tmchan_. Its numbers are as the module has them, addresses and lengths BigInt. */
    call(name, ...given) {
        if (this.#trapped) throw new Trapped(this.#trapped);
        try {
            return this.#exports[`tmchan_${name}`](...given);
        } catch (error) {
            // (A wrong kind of argument is a TypeError, and traps nothing.)
            if (!(error instanceof WebAssembly.RuntimeError || error instanceof RangeError)) throw error;
            this.#trapped = error;
            throw new Trapped(error);
        }
    }

    /** Makes a call, and throws what a number below 0 stands for. */
    ask(name, ...given) {
        const answer = this.call(name, ...given), number = Number(answer);
        if (number >= 0) return answer;
        if (number === NUMBERS.BEYOND) throw new Uncorrectable();
        if (number === NUMBERS.CLOSED) throw new Closed();
        if (number === NUMBERS.MEMORY) throw new NoMemory();
        throw this.refusal(number);
    }

    /** What is thrown for a number below 0. */
    refusal(number) {
        const size = NUMBERS.TEXT_LENGTH, at = this.room(size), length = this.call("text", BigInt(number), at, BigInt(size));
        const text = new TextDecoder().decode(this.octets(at, length));
        this.free(at);
        return new Refused(number, text);
    }

    /** Room for `size` octets in the module's memory, zeros. It is to be given back. */
    room(size) {
        const at = this.call("alloc", BigInt(size));
        if (!at) throw new NoMemory();
        this.octets(at, size).fill(0);
        return at;
    }

    free(...rooms) {
        if (!this.hasTrapped) for (const at of rooms) this.call("free", at);
    }

    /** Room that has these octets. */
    put(octets) {
        const at = this.room(octets.length);
        this.octets(at, octets.length).set(octets);
        return at;
    }

    /** What stands in the module's memory. A view is good until the next call, which may move the memory. */
    octets(at, size) {
        return new Uint8Array(this.#exports.memory.buffer, Number(at), size);
    }

    view(at, size) {
        return new DataView(this.#exports.memory.buffer, Number(at), size);
    }

    /** The fields of a struct, as numbers; of an array the list of them. */
    fields(struct, at) {
        const { size, fields } = STRUCTS[struct], view = this.view(at, size);
        return Object.fromEntries(Object.entries(fields).map(([name, place]) => [name, field(view, place)]));
    }

    /** Gives rooms of these sizes, or with these octets, to what is done with them, and takes them back. */
    within(rooms, done) {
        const taken = [];
        try {
            for (const it of rooms) taken.push(typeof it === "number" ? this.room(it) : this.put(it));
            return done(...taken);
        } finally {
            this.free(...taken);
        }
    }

    /** The check symbols of data: together they are a codeword. */
    rsEncode(data, { code = "rs16", basis = "dual" } = {}) {
        const e = number("code", code), size = 2 * Number(e === OUTSIDE ? 0n : e);
        return this.within([data, size], (given, checks) => {
            this.ask("rs_encode", u32(e), u32(number("basis", basis)), given, BigInt(data.length), checks, BigInt(size));
            return this.octets(checks, size).slice();
        });
    }

    /** The codeword within the repair bound, and how many symbols were wrong; `erased` are the places of lost ones. */
    rsDecode(word, { code = "rs16", basis = "dual", repair = null, erased = null } = {}) {
        const e = number("code", code), numbers = [e, number("basis", basis), repair === null ? e : number("repair", repair)].map(u32);
        const flags = new Uint8Array(word.length);
        for (const place of erased ?? []) {
            if (!(Number.isInteger(place) && place >= 0 && place < word.length)) throw this.refusal(NUMBERS.FLAGS);
            flags[place] = 1;
        }
        return this.within([word, flags], (at, flagged) => {
            const length = BigInt(word.length), given = [...numbers, at, length];
            const wrong = erased ? this.ask("rs_decode_erased", ...given, flagged, length) : this.ask("rs_decode", ...given);
            return { word: this.octets(at, word.length).slice(), wrong };
        });
    }

    /** The block with the pseudo-random sequence added; once more takes it off. */
    randomize(block) {
        return this.within([block], (at) => {
            this.call("randomize", at, BigInt(block.length));
            return this.octets(at, block.length).slice();
        });
    }

    /** A column of a codeblock. */
    takeColumn(depth, index, block) {
        const size = Math.floor(block.length / depth);
        return this.within([block, size], (at, word) => {
            this.ask("take_column", depth, index, at, BigInt(block.length), word, BigInt(size));
            return this.octets(word, size).slice();
        });
    }

    /** The codeblock with a column replaced. */
    putColumn(depth, index, block, word) {
        return this.within([block, word], (at, given) => {
            this.ask("put_column", depth, index, at, BigInt(block.length), given, BigInt(word.length));
            return this.octets(at, block.length).slice();
        });
    }

    /** A search for sync markers, each with a codeblock of `bits` bits after it. */
    search(options) {
        return new Search(this, options);
    }

    /** A link with these options, by the names and words of the command line. */
    link(options = {}) {
        return new Link(this, options);
    }

    /** A link with the settings for a recording; what is given besides comes first. */
    recording(options = {}) {
        return new Link(this, { ...recordingSettings(options.inner), ...defined(options) });
    }
}

const defined = (options) => Object.fromEntries(Object.entries(options).filter(([, it]) => it !== undefined));

function versionText(number) {
    return [16, 8, 0].map((by) => (number >> by) & 255).join(".");
}

const u32 = (number) => Number(BigInt.asIntN(32, BigInt(number) > 0xffffffffn ? 0xffffffffn : BigInt(number)));

function field(view, [at, size, count]) {
    const long = (place) => Number(view.getBigUint64(place, true));
    const one = size === 8 ? long : (place) => (size === 4 ? view.getUint32(place, true) : view.getUint8(place));
    return count === 1 ? one(at) : Array.from({ length: count }, (_, k) => one(at + size * k));
}

/** The number of an option's value: of a word, of true and false where the words are on and off, or itself. */
function number(name, value) {
    const words = WORDS[name];
    if (words) {
        if (words === SWITCH && typeof value === "boolean") return BigInt(value);
        return typeof value === "string" && Object.hasOwn(words, value) ? BigInt(words[value]) : OUTSIDE;
    }
    if (typeof value !== "bigint" && !(typeof value === "number" && Number.isInteger(value)))
        throw new TypeError(`${name}: a number is wanted, and this is ${JSON.stringify(value)}`);
    return value >= 0 && BigInt(value) < UNSET ? BigInt(value) : OUTSIDE;
}

/** The words of the command line for those options that are not as `others` has them. */
export function wordsOf(options, others) {
    const text = (value) => (value === true ? "on" : value === false ? "off" : String(value));
    return Object.entries(options).filter(([name, value]) => value !== null && text(value) !== text(others[name]))
        .flatMap(([name, value]) => [`--${name}`, text(value)]);
}

/** The options of a link. A link is never changed. */
export class Link {
    #library;
    #config;

    constructor(library, options) {
        for (const name of Object.keys(options)) if (!(name in OPTIONS)) throw new TypeError(`there is no option ${name}`);
        this.#library = library;
        /** The options that were given, or have a default, by name; null where the library chooses it. */
        this.options = Object.freeze({ ...DEFAULTS, ...defined(options) });
        const { size, fields } = STRUCTS.config, at = library.room(size);
        try {
            library.call("config_defaults", at, OPTION_COUNT);
            for (const [name, value] of Object.entries(this.options))
                if (value !== null) library.view(at, size).setBigUint64(fields[name][0], number(name, value), true);
            library.ask("config_check", at, OPTION_COUNT);
            /** The octets of a transfer frame. */
            this.frameLength = library.ask("frame_length", at, OPTION_COUNT);
            this.#config = library.octets(at, size).slice();
        } finally {
            library.free(at);
        }
        const { code, depth } = this.options;
        /** The octets of a codeblock; with its marker it has four more. */
        this.blockLength = library.ask("cadu_length", u32(number("code", code)), u32(number("depth", depth)), BigInt(this.frameLength)) - 4;
    }

    /** The words of the command line that say the same: those that differ from the defaults. */
    get words() {
        return wordsOf(this.options, DEFAULTS);
    }

    sender() {
        return new Sender(this.#library, this.#config);
    }

    /** With `windows` it says of each window of the soft decoder how good its symbols are. */
    decoder({ windows = false } = {}) {
        return new Decoder(this.#library, this.#config, windows);
    }

    receiver({ windows = false } = {}) {
        return new Receiver(this.#library, this.#config, this.frameLength, windows);
    }

    /** The symbols of whole frames, one after the other. */
    send(frames) {
        const sender = this.sender();
        try {
            const symbols = sender.push(frames), left = sender.finish();
            if (left) throw new RangeError(`the frames have ${this.frameLength} octets, and ${left} are left over`);
            return symbols;
        } finally {
            sender.close();
        }
    }

    /** The decoded bits of all symbols, an octet of 0 or 1 for each. */
    decode(symbols) {
        const decoder = this.decoder();
        try {
            return joined([decoder.push(symbols), decoder.finish()]);
        } finally {
            decoder.close();
        }
    }

    /** The codeblocks that are found in symbols: an array of octets, or anything that gives one after another, as a ReadableStream. */
    async *receive(symbols) {
        const receiver = this.receiver();
        try {
            for await (const piece of symbols instanceof Uint8Array ? [symbols] : readable(symbols)) yield* receiver.push(piece);
            yield* receiver.finish();
        } finally {
            receiver.close();
        }
    }

    /** Streams to pipe through: octets of frames to symbols, symbols to bits, symbols to items. */
    sending() {
        return through(this.sender());
    }

    decoding() {
        return through(this.decoder());
    }

    receiving() {
        return through(this.receiver());
    }

    /** The channel access data unit of a frame: the attached sync marker and the codeblock. */
    cadu(frame) {
        const library = this.#library, { code, depth, basis, randomize } = this.options, size = this.blockLength + 4;
        if (frame.length !== this.frameLength) throw library.refusal(NUMBERS.BAD_LENGTH);
        return library.within([frame, size], (given, made) => {
            const numbers = Object.entries({ code, depth, basis, randomize }).map(([name, value]) => u32(number(name, value)));
            library.ask("cadu", ...numbers, given, BigInt(frame.length), made, BigInt(size));
            return library.octets(made, size).slice();
        });
    }
}

async function* readable(source) {
    if (!(source instanceof ReadableStream) || source[Symbol.asyncIterator]) return yield* source;
    const reader = source.getReader();
    try {
        for (let it = await reader.read(); !it.done; it = await reader.read()) yield it.value;
    } finally {
        reader.releaseLock();
    }
}

function through(stream) {
    const give = (made, to) => {
        if (made instanceof Received) for (const item of made) to.enqueue(item);
        else if (made instanceof Uint8Array && made.length) to.enqueue(made);
    };
    return new TransformStream({
        transform: (piece, to) => give(stream.push(piece), to),
        flush(to) {
            const made = stream.finish();
            if (typeof made === "number" && made) throw new RangeError(`${made} octets are left over, which are no whole frame`);
            give(made, to);
        },
        cancel: () => stream.close(),
    });
}

/** What the streams have in common: a handle, and rooms, all of which are given back at the finish, or when it is closed. */
class Stream {
    #rooms = [];
    #hasHandle = false;

    constructor(kind, library, config) {
        this.library = library;
        this.kind = kind;
        this.made(() => {
            this.config = this.rooms(config);
            this.handle = this.rooms(STRUCTS.stream.size);
            this.given = this.rooms(PIECE);
            this.written = this.rooms(STRUCTS.written.size);
            library.ask(`${kind}_open`, this.handle, this.config, OPTION_COUNT);
            this.#hasHandle = true;
        });
    }

    /** Does a part of a constructor: where that fails, as it can where memory is refused, what was taken before is given back. */
    made(part) {
        try {
            part();
        } catch (error) {
            if (this.#hasHandle) this.close();
            else this.release();
            throw error;
        }
    }

    rooms(it) {
        const at = typeof it === "number" ? this.library.room(it) : this.library.put(it);
        this.#rooms.push(at);
        return at;
    }

    release() {
        this.library.free(...this.#rooms);
        this.#rooms = [];
    }

    get isOpen() {
        return this.#rooms.length > 0 && !this.library.hasTrapped;
    }

    /** Gives the memory back, and drops what was not given out yet. A stream that is closed stays so. */
    close() {
        if (!this.isOpen) return;
        this.library.call("close", this.handle);
        this.release();
    }

    /** Gives the octets to what takes them, piece by piece. */
    pieces(octets, take) {
        if (!(octets instanceof Uint8Array)) throw new TypeError("a Uint8Array is wanted");
        if (!this.isOpen) this.refuse();
        const made = [];
        for (let at = 0; at < octets.length; at += PIECE) {
            const piece = octets.subarray(at, at + PIECE);
            this.library.octets(this.given, piece.length).set(piece);
            made.push(take(BigInt(piece.length)));
        }
        return made;
    }

    refuse() {
        if (this.library.hasTrapped) this.library.call("version");
        throw new Closed();
    }

    ask(name, ...given) {
        if (!this.isOpen) this.refuse();
        return this.library.ask(`${this.kind}_${name}`, this.handle, ...given);
    }
}

/** A stream with a soft decoder, whose windows are counted where that is asked for: `windows` has those of the last push, or of the finish. */
class Decoding extends Stream {
    #at = null;
    #count = 0n;
    #made = [];

    constructor(kind, library, config, counts) {
        super(kind, library, config);
        this.windows = [];
        this.made(() => {
            if (counts) this.#count = library.ask("window_room", this.config, OPTION_COUNT, BigInt(PIECE));
            // (there are none without an inner code)
            if (this.#count) this.#at = this.rooms(STRUCTS.window.size * Number(this.#count));
        });
    }

    /** Pushes octets, piece by piece. */
    pieces(octets, take) {
        this.#made = [];
        const made = super.pieces(octets, take);
        this.windows = this.#made;
        return made;
    }

    /** Makes a push or a finish with the arrays that it writes, and with that of windows behind them. */
    fill(name, given, arrays, rest = []) {
        if (this.#at === null) return this.ask(name, ...given, ...arrays, ...rest, this.written);
        const answer = this.ask(`${name}_windows`, ...given, ...arrays, this.#at, this.#count, ...rest, this.written);
        const { size } = STRUCTS.window, { windows } = this.library.fields("written", this.written);
        const view = this.library.view(this.#at, size * windows);
        for (let k = 0; k < windows; k++) this.#made.push(new Window(view, k * size));
        return answer;
    }

    /** Makes the finish. */
    end(arrays, rest) {
        this.#made = [];
        const answer = this.fill("finish", [], arrays, rest);
        this.windows = this.#made;
        return answer;
    }
}

/** What is counted of a window of the soft decoder: the fields of tmchan_window. */
export class Window {
    constructor(view, at) {
        for (const [name, place] of WINDOW) this[name] = Number(view.getBigUint64(at + place, true));
    }

    /** How good its symbols are. */
    get quality() {
        return quality([this]);
    }
}

const WINDOW = Object.entries(STRUCTS.window.fields).map(([name, [place]]) => [name, place]);

/** Takes the octets of transfer frames, and gives the symbols of each frame's CADU once it is whole. */
export class Sender extends Stream {
    constructor(library, config) {
        super("sender", library, config);
        this.made(() => {
            this.length = library.ask("sender_room", this.config, OPTION_COUNT, BigInt(PIECE));
            this.symbols = this.rooms(Number(this.length));
        });
    }

    push(octets) {
        return joined(this.pieces(octets, (size) => {
            const count = this.ask("push", this.given, size, this.symbols, this.length, this.written);
            return this.library.octets(this.symbols, Number(count)).slice();
        }));
    }

    /** Closes it. Returns how many octets follow the last whole frame; they were not sent. */
    finish() {
        const left = Number(this.ask("finish", this.written));
        this.release();
        return left;
    }
}

/** The soft decoder of the convolutional code alone: symbols in, bits out, an octet of 0 or 1 for each. */
export class Decoder extends Decoding {
    constructor(library, config, counts) {
        super("decoder", library, config, counts);
        this.made(() => {
            this.length = library.ask("decoder_room", this.config, OPTION_COUNT, BigInt(PIECE));
            this.bits = this.rooms(Number(this.length));
            this.small = this.rooms(STRUCTS.phase.size);
        });
        this.last = null;
    }

    push(symbols) {
        const push = (size) => this.#written(this.fill("push", [this.given, size], [this.bits, this.length]));
        return joined(this.pieces(symbols, push));
    }

    #written(count) {
        return this.library.octets(this.bits, Number(count)).slice();
    }

    /** Closes it. Returns the bits that are left. */
    finish() {
        const bits = this.#written(this.end([this.bits, this.length], [this.small]));
        this.last = phaseOf(this.library, this.small);
        this.release();
        return bits;
    }

    /** The symbol phase that was chosen, and what the best path after it costs; null until it is, or where it is given. */
    get phase() {
        if (this.isOpen) this.ask("phase", this.small);
        return this.isOpen ? phaseOf(this.library, this.small) : this.last;
    }
}

function phaseOf(library, at) {
    const { is_chosen, skip, cost } = library.fields("phase", at);
    return is_chosen ? { skip, cost } : null;
}

/** Takes symbols, and gives the codeblocks that are found: whole batches, and what is left at the finish. */
export class Receiver extends Decoding {
    constructor(library, config, frameLength, counts) {
        super("receiver", library, config, counts);
        this.frameLength = frameLength;
        this.made(() => {
            this.small = this.rooms(STRUCTS.totals.size + STRUCTS.phase.size);
            this.items = library.ask("receiver_room", this.config, OPTION_COUNT, BigInt(PIECE), this.small);
            this.length = library.view(this.small, 8).getBigUint64(0, true);
            this.frames = this.rooms(Number(this.length));
            this.reports = this.rooms(STRUCTS.report.size * Number(this.items));
        });
        /** What all octets came to, after the finish: `bits`, and `slips`, before how many windows octets were dropped. */
        this.totals = null;
        this.last = null;
    }

    push(symbols) {
        const made = this.pieces(symbols, (size) => {
            this.fill("push", [this.given, size], this.#arrays());
            return this.#made();
        });
        return received(made, this.frameLength);
    }

    #arrays() {
        return [this.frames, this.length, this.reports, this.items];
    }

    /** What the last push or finish wrote. */
    #made() {
        const { reports, octets } = this.library.fields("written", this.written);
        return {
            frames: this.library.octets(this.frames, octets).slice(),
            reports: this.library.octets(this.reports, STRUCTS.report.size * reports).slice(),
        };
    }

    /** Closes it. Returns the codeblocks that are left. */
    finish() {
        const phase = this.small + BigInt(STRUCTS.totals.size);
        this.end(this.#arrays(), [this.small, phase]);
        const made = this.#made();
        this.totals = this.library.fields("totals", this.small);
        this.last = phaseOf(this.library, phase);
        this.release();
        return received([made], this.frameLength);
    }

    /** Before how many windows octets were dropped so far; 0 where the phase is not followed. */
    get slips() {
        if (!this.isOpen) return this.totals?.slips ?? 0;
        this.ask("slips", this.small);
        return Number(this.library.view(this.small, 8).getBigUint64(0, true));
    }

    get phase() {
        if (this.isOpen) this.ask("phase", this.small);
        return this.isOpen ? phaseOf(this.library, this.small) : this.last;
    }
}

function received(made, frameLength) {
    return made.length === 1 ? new Received(made[0].frames, made[0].reports, frameLength)
        : new Received(joined(made.map((it) => it.frames)), joined(made.map((it) => it.reports)), frameLength);
}

/** What came out of a piece: the frames that are given, one after the other, and an item of each codeblock, made when it is asked for. */
export class Received {
    #reports;

    constructor(frames, reports, frameLength) {
        this.frames = frames;
        this.#reports = reports;
        this.length = reports.length / STRUCTS.report.size;
        this.frameLength = frameLength;
    }

    *[Symbol.iterator]() {
        const { size, fields } = STRUCTS.report, view = new DataView(this.#reports.buffer, this.#reports.byteOffset, this.#reports.length);
        let frame = 0;
        for (let at = 0; at < this.#reports.length; at += size) {
            const get = ([place, width, count]) => field(view, [at + place, width, count]);
            const length = get(fields.frame_length), columns = get(fields.columns);
            const repaired = get(fields.repaired).slice(0, columns).map((it) => (it === 255 ? null : it));
            yield {
                place: get(fields.place),
                symbol: get(fields.symbol),
                good: !get(fields.bad),
                fixed: repaired.reduce((sum, it) => sum + (it ?? 0), 0),
                frame: length ? this.frames.slice(frame, frame + length) : null,
                distance: get(fields.distance),
                bridged: get(fields.bridged) === 1,
                inverted: get(fields.inverted) === 1,
                repaired,
            };
            frame += length;
        }
    }
}

/** A search for sync markers in bits or octets. What it takes of memory is given back by `close`. */
export class Search {
    #library;
    #rooms = [];
    #length;

    constructor(library, { tolerance = 0, fly = 0, either = false, bits, verify = 0 }) {
        this.#library = library;
        const few = Number.isInteger(verify) && verify >= 0 && verify <= 7 ? verify : 0;
        this.#length = few * (32 + bits);
        try {
            for (const size of [STRUCTS.search.size, this.#length, 8, STRUCTS.place.size]) this.#rooms.push(library.room(size));
            library.ask("search_open", this.#rooms[0], u32(tolerance), u32(fly), u32(either ? 1 : 0), u32(bits), u32(verify));
        } catch (error) {
            this.close();
            throw error;
        }
    }

    close() {
        this.#library.free(...this.#rooms);
        this.#rooms = [];
    }

    /** The places that are found with the next bits, each an octet. */
    bits(array) {
        return this.#find("search_bits", array);
    }

    /** The places that are found with the next octets, of eight bits each. */
    octets(array) {
        return this.#find("search_octets", array);
    }

    #find(name, array) {
        if (!this.#rooms.length) throw new Closed();
        const library = this.#library, [search, room, at, place] = this.#rooms, given = library.put(array), found = [];
        library.view(at, 8).setBigUint64(0, 0n, true);
        try {
            while (library.ask(name, search, room, BigInt(this.#length), given, BigInt(array.length), at, place) === 1) {
                const it = library.fields("place", place);
                found.push({ place: it.place, distance: it.distance, bridged: it.bridged === 1, inverted: it.inverted === 1 });
            }
            return found;
        } finally {
            library.free(given);
        }
    }
}

/** A codeblock's line in the program's report. */
export function line(item, index) {
    const words = item.repaired.length ? `words ${item.repaired.map((it) => it ?? "x").join(" ")}` : "uncoded";
    const marker = `${item.bridged ? "bridged" : "marker"} ${item.distance}${item.inverted ? " inverted" : ""}`;
    return `frame ${index} at ${item.place} ${marker} ${words}`;
}

export { NUMBERS, STRUCTS, quality };
