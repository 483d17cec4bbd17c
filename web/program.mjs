// The program in WebAssembly: docs/OPTIONS.md has its commands. A run has an instance of its own, and no threads.
import { joined } from "./octets.mjs";

class Exit {
    constructor(status) {
        this.status = status;
    }
}

/** Runs a module of the program with these words, the first being its own name. `read(octets)` fills the octets from standard input and
 * returns how many there were, 0 at the end; `write(file, octets)` writes to standard output (1) or error (2) and returns how many were
 * taken. Either returns -1 where it failed. Returns the exit status. */
export async function run(module, words, read, write) {
    const given = words.map((it) => new TextEncoder().encode(it));
    let memory;
    const octets = (at, size) => new Uint8Array(memory.buffer, Number(at), Number(size));
    const host = {
        read: (file, to, size) => BigInt(file === 0 ? read(octets(to, size)) : -1),
        write: (file, from, size) => BigInt(write(file, octets(from, size))),
        word: (index, to, size) => {
            const word = given[Number(index)], most = Number(size);
            if (!word) return -1n;
            octets(to, size).set(word.subarray(0, most));
            return BigInt(word.length <= most ? word.length : -2);
        },
        exit: (status) => {
            throw new Exit(status);
        },
    };
    const made = await WebAssembly.instantiate(module, { host }), { exports } = made.instance ?? made;
    memory = exports.memory;
    try {
        return exports.main(0, 0n) & 255;
    } catch (error) {
        if (error instanceof Exit) return error.status & 255;
        throw error;
    }
}

/** Runs the program over octets in memory. Returns the status, the output and the notes, which are text. */
export async function runOn(module, words, input) {
    const written = { 1: [], 2: [] };
    let at = 0;
    const status = await run(module, ["tmchan", ...words], (octets) => {
        const piece = input.subarray(at, at + octets.length);
        octets.set(piece);
        at += piece.length;
        return piece.length;
    }, (file, octets) => (written[file].push(octets.slice()), octets.length));
    return { status, output: joined(written[1]), notes: new TextDecoder().decode(joined(written[2])) };
}
