// What the page asks of the library, away from it, so that the page never hangs. A message has a number, and so has its answer.
import { example, learn, optionsOf, windowOf } from "./learn.mjs";
import { codeblockLine, endLine, receiveWords, windowLine } from "./lines.mjs";
import { Pass, sentences } from "./pass.mjs";
import { runOn } from "./program.mjs";
import { Symbols } from "./recordings.mjs";
import { hasMemory64, line, load, octetsOf } from "./tmchan.mjs";

const HEAD = 4096, SLICE = 1 << 20; // octets of a file that are read at once: the first ones, and others
const LINES = 4096; // of a report that are made at once
const PAUSE = 200; // milliseconds between two reports of progress, since to show one takes longer than to decode a megabyte
const MOST_WITHOUT = 10_000_000; // octets of a file that is taken without 64-bit memory, where the decoder is slow

const asked = new URL(self.location.href).searchParams;
const isWide = hasMemory64() && asked.get("module") !== "32";
const beside = (name) => new URL(name, import.meta.url);
let library, loading, program, pass, recording, stopped;

function loaded() {
    loading ??= octetsOf(beside(isWide ? "tmchan.wasm" : "tmchan32.wasm")).then(load).then((it) => (library = it));
    return loading;
}

const tasks = {
    async load() {
        const { version } = await loaded();
        return { version, isWide };
    },

    async learn(given) {
        return learn(await loaded(), given);
    },

    /** A window of the certificate that the program writes of these symbols. */
    async metrics({ soft, link, window }) {
        if (!isWide) throw new Error("The program's module needs memory of 64-bit addresses, which this browser lacks");
        program ??= await WebAssembly.compile(await octetsOf(beside("program.wasm")));
        const { words } = (await loaded()).recording(optionsOf(link));
        const { status, output, notes } = await runOn(program, ["certify", ...words], soft);
        if (status) throw new Error(`certify ended with ${status}: ${notes}`);
        return windowOf(output, link, window);
    },

    /** A recording to try the page with. */
    async example({ options }) {
        return example(await loaded(), options);
    },

    /** The words of options, or why they are refused. */
    async words({ options }) {
        try {
            return { words: (await loaded()).link(options).words };
        } catch (error) {
            if (error.name !== "Refused") throw error;
            return { refused: error.message };
        }
    },

    /** Receives a file. Progress is posted; frames go to the output, or to parts of a megabyte. */
    async receive({ file, start, length, form, swap, options, quality, output }, say) {
        stopped = false;
        const { size, name } = file, end = Math.min(size, start + (length ?? Infinity)), all = end - start;
        if (!isWide && all > MOST_WITHOUT)
            throw new Error(`Without memory of 64-bit addresses this page takes files up to ${MOST_WITHOUT / 1e6} MB`);
        const link = (await loaded()).link(options), receiver = link.receiver({ windows: quality });
        const { words, blockLength, frameLength } = link, made = new Pass({ name, words, options: link.options, blockLength, frameLength });
        const frames = await outputOf(output), began = performance.now();
        let at = start, next = 0;
        const told = () => ({ done: at - start, all, good: made.good, bad: made.bad, seconds: (performance.now() - began) / 1000 });
        try {
            for await (const batch of batchesOf({ file, start, end, form, swap, receiver, isStopped: () => stopped })) {
                made.push(batch.items, batch.windows);
                for (const it of batch.frames) await frames.write(it);
                ({ at } = batch);
                if (performance.now() < next) continue;
                next = performance.now() + PAUSE;
                say(told());
            }
        } finally {
            await frames.close();
        }
        Object.assign(made, { totals: receiver.totals, phase: receiver.phase });
        pass = made;
        recording = { file, start, end: at, form, swap, link };
        const shown = { summary: pass.summary(), said: sentences(pass), count: pass.length, columns: pass.columns };
        return { ...told(), ...shown, stopped: at < end, parts: frames.parts, pages: library.pages };
    },

    stop() {
        stopped = true;
    },

    rows({ from, count }) {
        const to = Math.min(pass.length, from + count);
        return Array.from({ length: Math.max(0, to - from) }, (_, k) => pass.item(from + k));
    },

    /** The report as the program writes it: parts of a file. */
    report() {
        const parts = [];
        for (let from = 0; from < pass.length; from += LINES) {
            const count = Math.min(LINES, pass.length - from);
            parts.push(new Blob([Array.from({ length: count }, (_, k) => `${line(pass.item(from + k), from + k)}\n`).join("")]));
        }
        return [pass.firstLines, ...parts, pass.lastLines];
    },

    /** The lines of tmchan-receive --json: parts of a file. Of windows there may be millions, so they are not kept: the recording is
     * received once more. Progress is posted. */
    async lines(_, say) {
        const { file, start, end, form, swap, link } = recording, { name } = file, made = await outputOf(null);
        const receiver = link.receiver({ windows: true }), text = new TextEncoder();
        let number = 0, next = 0;
        const write = (lines) => made.write(text.encode(lines.map((it) => `${it}\n`).join("")));
        for await (const { items, windows, at } of batchesOf({ file, start, end, form, swap, receiver, isStopped: () => false })) {
            write(windows.map((it) => windowLine(name, it)));
            write(Array.from(items, (it) => codeblockLine(name, number++, it)));
            if (performance.now() < next) continue;
            next = performance.now() + PAUSE;
            say({ done: at - start, all: end - start });
        }
        write([endLine(pass, receiveWords(link.options, form, swap))]);
        await made.close();
        return made.parts;
    },
};

/** What comes of a recording, a piece after the other, up to a stop: the codeblocks, their frames and the windows that a receiver gives,
 * and up to where the octets of the file were read. At the end the receiver is closed. */
async function* batchesOf({ file, start, end, form, swap, receiver, isStopped }) {
    const symbols = new Symbols(form, swap);
    let at = start;
    try {
        while (at < end && !isStopped()) {
            // Cut where tmchan-receive cuts it, so that lines of JSON come in its order.
            const to = Math.min(end, at < HEAD ? HEAD : at + SLICE - ((at - HEAD) % SLICE));
            const piece = new Uint8Array(await file.slice(at, to).arrayBuffer());
            at = to;
            const items = receiver.push(symbols.push(piece));
            yield { items, frames: [items.frames], windows: receiver.windows, at };
        }
        const items = receiver.push(symbols.finish()), { windows } = receiver, last = receiver.finish();
        yield { items: [...items, ...last], frames: [items.frames, last.frames], windows: [...windows, ...receiver.windows], at };
    } finally {
        receiver.close();
    }
}

/** Where frames go: to a file as they come, or to parts of a megabyte, which the browser may keep on its disk. */
async function outputOf(handle) {
    if (handle) {
        const file = await handle.createWritable();
        return { parts: null, write: (octets) => octets.length && file.write(octets), close: () => file.close() };
    }
    const parts = [];
    let waiting = [], size = 0;
    const flush = () => {
        if (size) parts.push(new Blob(waiting));
        waiting = [];
        size = 0;
    };
    return {
        parts,
        write(octets) {
            if (!octets.length) return;
            waiting.push(octets);
            size += octets.length;
            if (size >= SLICE) flush();
        },
        close: flush,
    };
}

self.addEventListener("message", async ({ data: { number, task, given } }) => {
    try {
        const made = await tasks[task](given, (said) => self.postMessage({ number, progress: said }));
        self.postMessage({ number, made });
    } catch (error) {
        const trapped = library?.hasTrapped || error instanceof WebAssembly.RuntimeError;
        self.postMessage({ number, error: { name: error.name, message: error.message, trapped } });
    }
});
