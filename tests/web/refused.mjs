// refused.mjs FOLDER: makes each kind of stream, a search and a CADU, once for each room that is asked for with that one refused, over a
// module that only counts: it holds no more rooms then, nor an open handle. FOLDER has tmchan.mjs and layout.mjs. Prints how many.
import { pathToFileURL } from "node:url";

const [folder] = process.argv.slice(2);
const { Library, NoMemory } = await import(pathToFileURL(`${folder}/tmchan.mjs`));
const { CALLS, VERSION } = await import(pathToFileURL(`${folder}/layout.mjs`));

/** Exports of a module whose rooms stand one after the other, and of which room number `refusedRoom` is refused. */
function counting() {
    const held = new Set(), memory = new WebAssembly.Memory({ initial: 16 }), counts = { held, handles: 0, rooms: 0, refusedRoom: Infinity };
    let end = 16;
    const exports = Object.fromEntries(CALLS.map((name) => [`tmchan_${name}`, () => 0]));
    Object.assign(exports, {
        memory,
        tmchan_version: () => VERSION,
        tmchan_alloc: (size) => {
            if (++counts.rooms === counts.refusedRoom) return 0n;
            if (!held.size) end = 16;
            const at = BigInt(end);
            end += (Number(size) + 15) & -16;
            held.add(at);
            return at;
        },
        tmchan_free: (at) => {
            if (!held.delete(at)) throw new Error("a room is given back twice");
        },
        tmchan_close: () => (counts.handles -= 1),
        // (what an array has to hold, and the length of a frame)
        ...Object.fromEntries(["sender_room", "decoder_room", "window_room"].map((name) => [`tmchan_${name}`, () => 32n])),
        tmchan_receiver_room: (config, count, size, at) => {
            new DataView(memory.buffer).setBigUint64(Number(at), 64n, true);
            return 2n;
        },
        tmchan_frame_length: () => 3,
        tmchan_cadu_length: () => 7,
        ...Object.fromEntries(["sender", "decoder", "receiver"].map((kind) => [`tmchan_${kind}_open`, () => ((counts.handles += 1), 0)])),
    });
    return { library: new Library(exports), counts };
}

const KINDS = {
    link: (library) => library.link(),
    sender: (library) => library.link().sender(),
    decoder: (library) => library.link().decoder({ windows: true }),
    receiver: (library) => library.link().receiver({ windows: true }),
    search: (library) => library.search({ bits: 100, verify: 2 }),
    cadu: (library) => library.link().cadu(new Uint8Array(3)),
    encode: (library) => library.rsEncode(new Uint8Array(3)),
};

let refused = 0;
for (const [name, make] of Object.entries(KINDS))
    for (let room = 1; ; room += 1) {
        const { library, counts } = counting();
        counts.refusedRoom = room;
        try {
            make(library)?.close?.();
        } catch (error) {
            if (!(error instanceof NoMemory)) throw error;
        }
        if (counts.held.size || counts.handles) throw new Error(`${name}, room ${room}: ${counts.held.size} rooms and ${counts.handles} handles are left`);
        if (counts.rooms < room) break;
        refused += 1;
    }
console.log(refused);
