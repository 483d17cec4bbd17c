// Rows of the C library's tests, and drawn cases, over the modules for WebAssembly: in Node and in a browser. Each gives its number and
// those that differ.

const PIECE = 3000, CLOSED = -5;
const lines = (text) => text.split("\n").filter(Boolean).map((it) => it.split(/\s+/).filter(Boolean));
const octets = (digits) => Uint8Array.from(digits === "-" ? [] : digits.match(/../g) ?? [], (it) => parseInt(it, 16));
const same = (a, b) => a.length === b.length && a.every((it, k) => it === b[k]);
const text = (given) => new TextDecoder().decode(given);
const outcome = (all, wrong) => ({ all, wrong: wrong.slice(0, 9), failed: wrong.length });

function joined(parts) {
    const made = new Uint8Array(parts.reduce((sum, it) => sum + it.length, 0));
    parts.reduce((at, it) => (made.set(it, at), at + it.length), 0);
    return made;
}

// --- Calls that keep nothing: tests/library_rows.py, as tests/c/rows.c makes them ---

const CALLS = {
    encode: ["rs_encode", 2, "rw"], decode: ["rs_decode", 3, "w"], decode_erased: ["rs_decode_erased", 3, "wr"],
    take_column: ["take_column", 2, "rw"], put_column: ["put_column", 2, "wr"], cadu: ["cadu", 4, "rw"],
};
const number = (it) => Number(it) | 0;

/** Makes a call with arrays; answers what it answered, and what stands in the array that is written. */
function made(library, name, numbers, arrays, given) {
    const rooms = given.map((it) => library.put(it));
    const answer = library.call(name, ...numbers, ...rooms.flatMap((at, k) => [at, BigInt(given[k].length)]));
    const at = arrays.indexOf("w"), left = library.octets(rooms[at], given[at].length).slice();
    library.free(...rooms);
    return { answer, left };
}

function differs(library, call, ...words) {
    if (call === "randomize") {
        const [block, right] = words.map(octets);
        return !same(library.randomize(block), right);
    }
    const [name, count, arrays] = CALLS[call], numbers = words.slice(0, count).map(number);
    const right = octets(words.at(-1)), wanted = Number(words.at(-2));
    const given = words.slice(count, -2).map(octets);
    // (what is written is not in the row)
    if (given.length < arrays.length) given.push(new Uint8Array(right.length));
    const { answer, left } = made(library, name, numbers, arrays, given);
    if (call === "cadu" && library.call("cadu_length", numbers[0], numbers[1], BigInt(given[0].length)) !== right.length) return true;
    return answer !== wanted || !same(left, right) || !wrapped(library, call, words, given, wanted, right);
}

/** The same row by the classes, where they have the call. */
function wrapped(library, call, words, given, wanted, right) {
    const code = { 16: "rs16", 8: "rs8", 0: "none" }[words[0]], basis = { 0: "dual", 1: "poly" }[words[call === "cadu" ? 2 : 1]];
    try {
        if (call === "encode") return same(library.rsEncode(given[0], { code, basis }), right);
        if (call === "take_column") return same(library.takeColumn(Number(words[0]), Number(words[1]), given[0]), right);
        if (call === "put_column") return same(library.putColumn(Number(words[0]), Number(words[1]), given[0], given[1]), right);
        if (call === "cadu") {
            const options = { code, depth: Number(words[1]), basis, randomize: words[3] === "1", length: given[0].length };
            return same(library.link(options).cadu(given[0]), right);
        }
        const erased = given[1] ? [...given[1].keys()].filter((k) => given[1][k]) : null;
        const { word, wrong } = library.rsDecode(given[0], { code, basis, repair: Number(words[2]), erased });
        return wrong === wanted && same(word, right);
    } catch (error) {
        return call.startsWith("decode") && wanted === -1 && error.name === "Uncorrectable";
    }
}

/** Each refusal of each call: the tables of tests/c/rows.c, by name, with numbers in place of names. Nothing is written. */
function refusals(library, { encodings, words, columns, units }) {
    const wrong = [], seven = (size) => new Uint8Array(size).fill(7), zeros = (size) => new Uint8Array(size);
    let all = 0;
    const compare = (what, { answer, left }, wanted, right) => {
        all += 1;
        if (answer !== wanted || !same(left, right)) wrong.push(`${what}: ${answer}, ${wanted}`);
    };
    for (const [code, basis, data, checks, answer] of encodings)
        compare("rs_encode", made(library, "rs_encode", [code, basis], "rw", [zeros(data), seven(checks)]), answer, seven(checks));
    for (const [code, basis, repair, size, flags, answer] of words) {
        if (answer !== -3) compare("rs_decode", made(library, "rs_decode", [code, basis, repair], "w", [zeros(size)]), answer, zeros(size));
        const erased = made(library, "rs_decode_erased", [code, basis, repair], "wr", [zeros(size), zeros(flags)]);
        compare("rs_decode_erased", erased, answer, zeros(size));
    }
    for (const [depth, index, block, word, answer] of columns) {
        compare("take_column", made(library, "take_column", [depth, index], "rw", [zeros(block), zeros(word)]), answer, zeros(word));
        compare("put_column", made(library, "put_column", [depth, index], "wr", [zeros(block), seven(word)]), answer, zeros(block));
    }
    for (const [code, depth, basis, randomize, frame, unit, answer] of units) {
        if (answer >= -19 && answer <= -16) {
            all += 1;
            if (library.call("cadu_length", code, depth, BigInt(frame)) !== answer) wrong.push("cadu_length");
        }
        compare("cadu", made(library, "cadu", [code, depth, basis, randomize], "rw", [zeros(frame), seven(unit)]), answer, seven(unit));
    }
    return { all, wrong };
}

export function calls(library, rows, tables) {
    const all = lines(rows), wrong = all.flatMap((row, k) => (differs(library, ...row) ? [k + 1] : []));
    const refused = refusals(library, tables);
    return outcome(all.length + refused.all, [...wrong, ...refused.wrong]);
}

// --- Streams: tests/stream_rows.py, as tests/c/streams.py makes them, by the classes ---

const WORDS = {
    code: { 16: "rs16", 8: "rs8", 0: "none" },
    inner: { 0: "none", 12: "1/2", 23: "2/3", 34: "3/4", 56: "5/6", 78: "7/8" },
    invert: ["off", "on"],
    randomize: ["off", "on"],
    basis: ["dual", "poly"],
    soft: ["u8", "i8"],
    start: ["zero", "any"],
    phase: ["given", "find", "follow"],
    polarity: ["given", "find"],
    pack: ["off", "on"],
    rescan: ["off", "on"],
    bad: ["drop", "pass"],
};

function optionsOf(numbers, fields) {
    const options = {};
    fields.forEach((name, k) => {
        if (name === "workers" || name === "limit") return;
        const is = numbers[k];
        options[name] = is === 2n ** 64n - 1n ? null : WORDS[name] ? WORDS[name][is] : Number(is);
    });
    return options;
}

const pieces = (given) => Array.from({ length: Math.ceil(given.length / PIECE) }, (_, k) => given.subarray(PIECE * k, PIECE * k + PIECE));

const phaseLine = (phase) => (phase ? [`phase ${phase.skip} cost ${phase.cost}`] : []);

function receive(link, given, line) {
    const receiver = link.receiver(), frames = [], items = [];
    const take = (it) => (frames.push(it.frames), items.push(...it));
    let slips = 0;
    for (const piece of pieces(given)) {
        take(receiver.push(piece));
        void receiver.phase;
        slips = receiver.slips;
    }
    take(receiver.finish());
    const { totals, phase } = receiver, follows = link.options.phase === "follow";
    if (slips > totals.slips || (!follows && totals.slips)) throw new Error("slips");
    const bad = items.filter((it) => !it.good).length, fixed = items.reduce((sum, it) => sum + it.fixed, 0);
    const notes = [...phaseLine(phase), ...items.map(line), ...(follows ? [`slips ${totals.slips}`] : []),
        `frames ${items.length - bad} bad ${bad} fixed ${fixed} bits ${totals.bits}`];
    return { frames: joined(frames), items, notes, bits: totals.bits };
}

function decode(link, given) {
    const decoder = link.decoder(), bits = pieces(given).map((it) => decoder.push(it));
    bits.push(decoder.finish());
    return { bits: joined(bits), phase: decoder.phase };
}

const WINDOW = ["symbol", "dropped", "steps", "kept", "metric", "octets", "wrong", "distance", "squares"];

/** The lines of the windows that a decoder or a receiver counts, and of the places and symbols that it finds. */
function windows(stream, given) {
    const counted = [], items = [];
    const take = (made) => {
        counted.push(...stream.windows.map((it) => `${WINDOW.map((name) => it[name]).join(" ")}\n`));
        if (!(made instanceof Uint8Array)) items.push(...[...made].map(({ place, symbol }) => `${place} ${symbol}\n`));
    };
    for (const piece of pieces(given)) take(stream.push(piece));
    take(stream.finish());
    return [counted.join(""), items.join("")];
}

function plainBits({ soft, skip, pack }, given) {
    const eight = (it) => [7, 6, 5, 4, 3, 2, 1, 0].map((k) => (it >> k) & 1), one = (it) => (it >> 7) ^ (soft === "i8" ? 1 : 0);
    return Uint8Array.from((pack === "on" ? [...given].flatMap(eight) : [...given].map(one)).slice(skip));
}

/** Octets of bits, with zeros after them to a whole octet. */
function packed(bits) {
    const octets = new Uint8Array(Math.ceil(bits.length / 8));
    bits.forEach((bit, k) => (octets[k >> 3] |= bit << (7 - (k & 7))));
    return octets;
}

function search(library, link, name, array) {
    const { tolerance, fly, polarity, verify } = link.options;
    const it = library.search({ tolerance, fly, either: polarity === "find", bits: 8 * link.blockLength, verify }), found = it[name](array);
    it.close();
    return found.map((place) => JSON.stringify(place)).join();
}

function receives(library, link, given, wanted, notes, line) {
    const got = receive(link, given, line), decoded = decode(link, given);
    const bits = link.options.inner === "none" ? plainBits(link.options, given) : decoded.bits;
    const whole = bits.subarray(0, bits.length - (bits.length % 8));
    const places = got.items.map(({ place, distance, bridged, inverted }) => JSON.stringify({ place, distance, bridged, inverted })).join();
    const phase = phaseLine(decoded.phase).join();
    // With rescan places are found that stand inside codeblocks, which a search passes over.
    const isFound = link.options.rescan === "on" || search(library, link, "bits", bits) === places;
    return (wanted === null || same(got.frames, wanted)) && got.notes.join("\n") === notes && bits.length === got.bits
        && phase === got.notes.filter((it) => it.startsWith("phase")).join() && isFound
        && search(library, link, "octets", packed(whole)) === search(library, link, "bits", whole);
}

export function streams({ Refused, STRUCTS, line, DEFAULTS, recordingSettings }, library, rows) {
    const fields = Object.keys(STRUCTS.config.fields), wrong = [], all = lines(rows);
    all.forEach(([kind, ...words], k) => {
        const numbers = words.slice(0, fields.length).map(BigInt), given = words.slice(fields.length);
        let right = false;
        try {
            if (kind === "check") {
                const at = library.room(STRUCTS.config.size);
                numbers.forEach((it, j) => library.view(at, STRUCTS.config.size).setBigUint64(8 * j, it, true));
                right = library.call("config_check", at, BigInt(fields.length)) === Number(given[0]);
                library.free(at);
            } else if (kind === "recording") {
                const wanted = optionsOf(given.map(BigInt), fields);
                right = Object.entries(recordingSettings(wanted.inner)).every(([name, it]) => wanted[name] === it);
            } else {
                const link = library.link(optionsOf(numbers, fields));
                if (kind === "send") {
                    const sender = link.sender(), frames = octets(given[0]), sent = joined(pieces(frames).map((it) => sender.push(it)));
                    right = same(sent, octets(given[1])) && sender.finish() === frames.length % link.frameLength;
                } else if (kind === "windows") {
                    const symbols = octets(given[0]), [counted, places] = given.slice(1).map((it) => text(octets(it)));
                    const decoded = windows(link.decoder({ windows: true }), symbols), found = windows(link.receiver({ windows: true }), symbols);
                    right = decoded[0] === counted && found[0] === counted && found[1] === places;
                } else {
                    const wanted = given[1] === "*" ? null : octets(given[1]), notes = text(octets(given[2])).trimEnd();
                    if (kind === "receive") right = receives(library, link, octets(given[0]), wanted, notes, line);
                    else {
                        const { bits, phase } = decode(link, octets(given[0]));
                        const lines = [...phaseLine(phase), `bits ${bits.length}`].join("\n");
                        right = (wanted === null || same(packed(bits), wanted)) && lines === notes;
                    }
                }
            }
        } catch (error) {
            wrong.push(`${k + 1}: ${error.message}`);
            return;
        }
        if (!right) wrong.push(k + 1);
    });
    // The defaults, and a handle that is closed.
    const link = library.link({}), receiver = link.receiver();
    receiver.close();
    const closed = thrown(() => receiver.push(new Uint8Array(1)))?.name === "Closed";
    const at = library.room(STRUCTS.stream.size);
    const isClosed = closed && library.call("close", at) === CLOSED, isPlain = link.frameLength === 223 && !link.words.length;
    if (!isClosed || !isPlain || new Refused(-17, "").reason !== "depth" || DEFAULTS.depth !== 1) wrong.push("defaults");
    library.free(at);
    return outcome(all.length + 1, wrong);
}

// --- Drawn cases: command lines and inputs of tests/compare, with the answers of docs/reference ---

export async function cases(module, runOn, drawn) {
    const wrong = [];
    for (const [k, { words, input, output, notes, status }] of drawn.entries()) {
        const got = await runOn(module, words, octets(input));
        if (got.status !== status || !same(got.output, octets(output)) || got.notes !== text(octets(notes))) wrong.push(k);
    }
    return outcome(drawn.length, wrong);
}

/** Such cases that the library can do too: what is sent, received, or decoded to bits. */
export function libraryCases({ OPTIONS, line }, library, drawn) {
    const wrong = [];
    for (const [k, { options, command, input, output, notes }] of drawn.entries()) {
        const link = library.link(Object.fromEntries(Object.entries(options).map(([name, it]) => [name, OPTIONS[name] ? it : Number(it)])));
        const given = octets(input), right = octets(output);
        if (command === "encode") {
            if (!same(link.send(given), right)) wrong.push(k);
        } else if (command === "decode") {
            const got = receive(link, given, line);
            if (!same(got.frames, right) || `${got.notes.join("\n")}\n` !== text(octets(notes))) wrong.push(k);
        } else {
            const bits = link.options.inner === "none" ? plainBits(link.options, given) : decode(link, given).bits;
            if (!same(packed(bits), right)) wrong.push(k);
        }
    }
    return outcome(drawn.length, wrong);
}

// --- Streams of the host, and errors ---

/** What a call throws, or null. */
function thrown(call) {
    try {
        call();
    } catch (error) {
        return error;
    }
    return null;
}

export async function hostStreams({ Refused, Closed }, library) {
    const wrong = [];
    let count = 0;
    const check = (name, is) => {
        count += 1;
        if (!is) wrong.push(name);
    };
    const link = library.link({ depth: 2, length: 20, batch: 1 }), frames = Uint8Array.from({ length: 400 }, (_, k) => (k * 7) & 255);
    const symbols = link.send(frames);
    const readable = (given, size) => new ReadableStream({
        start(to) {
            for (let at = 0; at < given.length; at += size) to.enqueue(given.slice(at, at + size));
            to.close();
        },
    });
    const all = async (stream) => {
        const got = [];
        const reader = stream.getReader();
        for (let it = await reader.read(); !it.done; it = await reader.read()) got.push(it.value);
        return got;
    };
    check("sending", same(joined(await all(readable(frames, 33).pipeThrough(link.sending()))), symbols));
    const cut = readable(frames.subarray(1), 33).pipeThrough(link.sending());
    check("octets left over", await all(cut).then(() => false, (error) => error instanceof RangeError));
    check("an option that is undefined", library.recording({ tolerance: undefined }).options.tolerance === 3);
    const items = await all(readable(symbols, 777).pipeThrough(link.receiving()));
    check("receiving", same(joined(items.map((it) => it.frame)), frames) && items.every((it) => it.good && !it.fixed));
    check("decoding", same(joined(await all(readable(symbols, 100).pipeThrough(link.decoding()))), link.decode(symbols)));
    const iterated = [];
    for await (const item of link.receive(readable(symbols, 1000))) iterated.push(item.frame);
    check("receive", same(joined(iterated), frames));
    const refused = [[{ depth: 6 }, "depth"], [{ depth: 6, length: 0 }, "depth"], [{ inner: "1/3" }, "inner"], [{ length: 224 }, "length"],
        [{ verify: 8 }, "verify"], [{ keep: 63 }, "keep"], [{ fly: -1 }, "fly"]];
    for (const [options, reason] of refused) {
        const error = thrown(() => library.link(options));
        check(`refused: ${reason}`, error instanceof Refused && error.reason === reason);
    }
    for (const options of [{ depths: 1 }, { depth: "1" }, { depth: 1.5 }])
        check(JSON.stringify(options), thrown(() => library.link(options)) instanceof TypeError);
    check("a place that is none", thrown(() => library.rsDecode(new Uint8Array(255), { erased: [0.5] })) instanceof Refused);
    const receiver = link.receiver();
    receiver.finish();
    check("finished twice", thrown(() => receiver.finish()) instanceof Closed);
    // Memory that the host does not give is answered, and nothing is lost by it.
    const before = library.pages;
    for (const octets of [2n ** 32n, 2n ** 33n, 2n ** 40n, 2n ** 63n]) check(`no ${octets} octets`, library.call("alloc", octets) === 0n);
    check("pages as before", library.pages === before && same(link.send(frames), symbols));
    // Memory does not grow from stream to stream.
    const { pages } = library;
    for (let k = 0; k < 50; k++) {
        const it = link.receiver();
        it.push(symbols);
        if (k % 2) it.finish();
        else it.close();
    }
    check(`memory: ${pages}, ${library.pages}`, library.pages === pages);
    return outcome(count, wrong);
}
