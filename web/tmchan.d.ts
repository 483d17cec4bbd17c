// Types of tmchan.mjs: libtmchan in WebAssembly. include/tmchan.h says what each call does, docs/OPTIONS.md what each option means.

export type Switch = "on" | "off" | boolean;

/** The options of a link, by the names and words of the command line. */
export interface Options {
    /** The outer code: (255,223), (255,239) or none. */
    code?: "rs16" | "rs8" | "none";
    /** The interleaving depth: 1, 2, 3, 4, 5 or 8. */
    depth?: number;
    /** The octets of a transfer frame; null: the most. */
    length?: number | null;
    /** The convolutional code's rate. */
    inner?: "1/2" | "2/3" | "3/4" | "5/6" | "7/8" | "none";
    /** Whether each second symbol of it is inverted; null: at rate 1/2 alone. */
    invert?: Switch | null;
    randomize?: Switch;
    basis?: "dual" | "poly";
    /** How many of a marker's 32 bits may be wrong, 0 to 8. */
    tolerance?: number;
    /** The most wrong symbols of a codeword that are repaired; null: all that can be. */
    repair?: number | null;
    soft?: "u8" | "i8";
    start?: "zero" | "any";
    /** How many symbols are dropped first, 0 to 15. */
    skip?: number;
    /** How many markers in a row may be missing, 0 to 15. */
    fly?: number;
    /** Steps of a decoder's window that are kept, 64 to 65,536, and steps after these, 0 to 4,096. */
    keep?: number;
    ahead?: number;
    phase?: "given" | "find" | "follow";
    polarity?: "given" | "find";
    /** How many codeblocks are handed over at once, 1 to 4,096. */
    batch?: number;
    pack?: Switch;
    /** How many further markers must match, 0 to 7. */
    verify?: number;
    /** Whether markers are looked for inside codeblocks too, where a column is uncorrectable or no marker follows. */
    rescan?: Switch;
    /** What becomes of a frame with an uncorrectable column. */
    bad?: "drop" | "pass";
}

/** A codeblock that the receiver found. */
export interface Item {
    /** How many received bits stand before its marker. */
    place: number;
    /** The number of its marker's first symbol among all that were given, those skipped or dropped counted. */
    symbol: number;
    /** Whether each column was repaired. Without an outer code that says nothing of the frame. */
    good: boolean;
    /** How many symbols were repaired. */
    fixed: number;
    /** Its transfer frame; null where a column is uncorrectable, but with `bad: "pass"`. */
    frame: Uint8Array | null;
    /** How many of the marker's 32 bits are wrong, in the codeblock's polarity. */
    distance: number;
    /** No marker stands there: its place was taken since it directly follows a codeblock. */
    bridged: boolean;
    inverted: boolean;
    /** For each column how many symbols were wrong; null where it is uncorrectable. */
    repaired: (number | null)[];
}

/** The symbol phase: how many symbols stand before the first step's, and what the best path after them costs. */
export interface Phase {
    skip: number;
    cost: number;
}

/** What is counted of a window of the soft decoder; the sums are of the octets of the steps that it keeps. */
export interface Window {
    /** The number of its first symbol among all that were given. */
    readonly symbol: number;
    /** How many symbols were dropped before it. */
    readonly dropped: number;
    readonly steps: number;
    readonly kept: number;
    /** What its best path costs, over all steps. */
    readonly metric: number;
    readonly octets: number;
    /** How many of these are nearer to the other symbol than to the path's. */
    readonly wrong: number;
    /** The sum of their distances from the path's symbols, and of the squares of these. */
    readonly distance: number;
    readonly squares: number;
    /** How good its symbols are. */
    readonly quality: Quality;
}

/** What windows say of the symbols; both numbers are NaN where there are none. */
export interface Quality {
    /** The share of symbols that were received nearer to the other one. */
    symbolErrorRate: number;
    /** Es/N0 in dB, in white noise; -Infinity where it is below -2 dB, or nothing is known of it. */
    esN0: number;
    /** Most symbols are cut at 00 and FF, or have no noise: Es/N0 is `esN0` or greater. */
    atLeast: boolean;
}

/** How good the symbols of several windows were, all together. */
export function quality(windows: Iterable<Pick<Window, "kept" | "octets" | "wrong" | "distance" | "squares">>): Quality;

/** What all symbols came to. */
export interface Totals {
    bits: number;
    /** Before how many windows of the soft decoder symbols were dropped; 0 where the phase is not followed. */
    slips: number;
}

/** Where a sync marker stands. */
export interface Place {
    place: number;
    distance: number;
    bridged: boolean;
    inverted: boolean;
}

export class Refused extends RangeError {
    /** The name in the program's line `refused: depth`. */
    readonly reason: string;
    /** The number of include/tmchan.h. */
    readonly answer: number;
}
export class Uncorrectable extends Error {}
export class Closed extends Error {}
export class NoMemory extends Error {}
/** The module trapped, and is to be thrown away. */
export class Trapped extends Error {}

/** Of each option its words, or null where it is a number. */
export const OPTIONS: Readonly<Record<string, string[] | null>>;
export const DEFAULTS: Readonly<Required<Options>>;
/** The settings for a recording at a rate of the convolutional code. */
export function recordingSettings(inner?: Options["inner"]): Options;

/** Whether this host has memory of 64-bit addresses, and vectors. */
export function hasMemory64(): boolean;
/** The octets of a file beside the module, in a browser or in Node. */
export function octetsOf(url: URL): Promise<Uint8Array>;
/** Loads a module of the library: the octets given, or the file beside this one that the host can run. */
export function load(octets?: BufferSource): Promise<Library>;
/** A codeblock's line in the program's report. */
export function line(item: Item, index: number): string;

export class Library {
    /** The version, as "0.3.0". */
    readonly version: string;
    readonly hasTrapped: boolean;
    /** How many pages of 65,536 octets the module's memory has. */
    readonly pages: number;
    /** A link with these options. Throws Refused for the first that is outside. */
    link(options?: Options): Link;
    /** A link with the settings for a recording; what is given besides comes first. */
    recording(options?: Options): Link;
    /** The check symbols of data: together they are a codeword. */
    rsEncode(data: Uint8Array, how?: { code?: "rs16" | "rs8"; basis?: "dual" | "poly" }): Uint8Array;
    /** The codeword within the repair bound, and how many symbols were wrong. Throws Uncorrectable. */
    rsDecode(word: Uint8Array, how?: {
        code?: "rs16" | "rs8";
        basis?: "dual" | "poly";
        /** How many symbols are repaired at most; null: all that can be. */
        repair?: number | null;
        /** The places of lost symbols. */
        erased?: Iterable<number> | null;
    }): { word: Uint8Array; wrong: number };
    /** The block with the pseudo-random sequence added; once more takes it off. */
    randomize(block: Uint8Array): Uint8Array;
    takeColumn(depth: number, index: number, block: Uint8Array): Uint8Array;
    putColumn(depth: number, index: number, block: Uint8Array, word: Uint8Array): Uint8Array;
    search(options: { tolerance?: number; fly?: number; either?: boolean; bits: number; verify?: number }): Search;
    /** A call of the header, by its name without tmchan_; addresses and lengths are BigInt. `ask` throws what a negative number stands
     * for. */
    call(name: string, ...given: (number | bigint)[]): any;
    ask(name: string, ...given: (number | bigint)[]): any;
    /** Room in the module's memory, zeros or with these octets, which is to be given back. */
    room(size: number): bigint;
    put(octets: Uint8Array): bigint;
    free(...rooms: bigint[]): void;
    /** What stands there. A view is good until the next call. */
    octets(at: bigint, size: number): Uint8Array;
    view(at: bigint, size: number): DataView;
}

export class Link {
    private constructor();
    readonly options: Readonly<Required<Options>>;
    /** The octets of a transfer frame, and of a codeblock. */
    readonly frameLength: number;
    readonly blockLength: number;
    /** The words of the command line that say the same. */
    readonly words: string[];
    sender(): Sender;
    /** With `windows` it counts the windows of its soft decoder. */
    decoder(how?: { windows?: boolean }): Decoder;
    receiver(how?: { windows?: boolean }): Receiver;
    /** The symbols of whole frames, one after the other. */
    send(frames: Uint8Array): Uint8Array;
    /** The decoded bits of all symbols, an octet of 0 or 1 for each. */
    decode(symbols: Uint8Array): Uint8Array;
    /** The codeblocks that are found in symbols. */
    receive(symbols: Uint8Array | ReadableStream<Uint8Array> | AsyncIterable<Uint8Array> | Iterable<Uint8Array>): AsyncGenerator<Item>;
    /** Streams to pipe through: octets of frames to symbols, symbols to bits, symbols to items. */
    sending(): TransformStream<Uint8Array, Uint8Array>;
    decoding(): TransformStream<Uint8Array, Uint8Array>;
    receiving(): TransformStream<Uint8Array, Item>;
    /** The channel access data unit of a frame. */
    cadu(frame: Uint8Array): Uint8Array;
}

interface Stream {
    readonly isOpen: boolean;
    /** Gives the memory back, and drops what was not given out yet. */
    close(): void;
}

/** Each throws Closed after `finish` or `close`. */
export class Sender implements Stream {
    private constructor();
    readonly isOpen: boolean;
    close(): void;
    push(octets: Uint8Array): Uint8Array;
    /** Closes it. Returns how many octets follow the last whole frame; they were not sent. */
    finish(): number;
}

export class Decoder implements Stream {
    private constructor();
    readonly isOpen: boolean;
    close(): void;
    push(symbols: Uint8Array): Uint8Array;
    finish(): Uint8Array;
    /** Those of the last push, or of the finish; none where they are not counted. */
    readonly windows: Window[];
    readonly phase: Phase | null;
}

export class Receiver implements Stream {
    private constructor();
    readonly isOpen: boolean;
    close(): void;
    push(symbols: Uint8Array): Received;
    finish(): Received;
    /** Those of the last push, or of the finish; none where they are not counted. */
    readonly windows: Window[];
    readonly phase: Phase | null;
    /** Before how many windows symbols were dropped so far. */
    readonly slips: number;
    /** null until the finish. */
    readonly totals: Totals | null;
}

/** What came out of a piece: the frames that are given, one after the other, and an item of each codeblock. */
export class Received implements Iterable<Item> {
    private constructor();
    readonly frames: Uint8Array;
    readonly length: number;
    readonly frameLength: number;
    [Symbol.iterator](): Iterator<Item>;
}

export class Search {
    private constructor();
    /** The places that are found with the next bits, each an octet, or with the bits of the next octets. */
    bits(array: Uint8Array): Place[];
    octets(array: Uint8Array): Place[];
    close(): void;
}
