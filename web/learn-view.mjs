// The first view: a text through both ends of the link.
import { histogram, legend, places, symbols as symbolsFigure } from "./figures.mjs";
import { counted, escaped } from "./text.mjs";

const FEW = 64; // symbols that are drawn
const REGISTERS = 64;
const BARRED = 1 << 24; // of a register at which no path may begin the excess is beyond this
// Channels to begin with: the values of the sliders, where they are not these.
const PLAIN = { noise: 1, slips: 0, flip: 100, gap: 0 };
const CHANNELS = {
    "No noise": { noise: 12 },
    Noise: {},
    "Near the limit": { noise: -1.75 },
    "Too much noise": { noise: -3 },
    "A symbol slip": { slips: 1 },
    "A phase flip": { flip: 50 },
    "A gap": { gap: 2 },
};

const find = (id) => document.getElementById(id);
const body = (stage) => find(stage).querySelector(":scope > .body");
const hex = (octet) => octet.toString(16).padStart(2, "0");
const plain = (text) => text.replace(/[\u0000-\u001f\u007f]/g, "\u00b7");
const text = (frame) => plain(new TextDecoder().decode(frame)).trimEnd();
const percent = (share) => `${(100 * share).toFixed(1)}\u00a0%`;

let asked, made, shown = 0, isChosen = false, seed = 1, isBusy = false, isStale = false;

function given() {
    const number = (id) => Number(find(id).value);
    return {
        text: find("text").value.slice(0, 4000),
        link: {
            code: find("learn-code").value,
            depth: number("learn-depth"),
            length: Math.min(120, Math.max(8, number("learn-length") || 36)),
            inner: find("learn-inner").value,
        },
        channel: {
            decibels: number("noise"),
            slips: number("slips"),
            flip: number("flip") / 100,
            gap: number("gap"),
            seed,
        },
    };
}

function sayChannel({ channel: { decibels, slips, flip, gap } }) {
    const said = {
        noise: `${decibels} dB`,
        slips: slips === 0 ? "none" : String(slips),
        flip: flip >= 1 ? "never" : `${Math.round(100 * flip)} % of the symbols`,
        gap: gap ? `as long as ${gap} ${gap === 1 ? "frame" : "frames"}` : "none",
    };
    for (const [name, it] of Object.entries(said)) {
        find(`${name}-said`).textContent = it;
        find(name).setAttribute("aria-valuetext", it);
    }
}

/** Asks for what is chosen now. While an answer is awaited nothing more is asked, and afterwards what was chosen last. */
async function change() {
    const said = find("learn-said");
    sayChannel(given());
    said.setAttribute("aria-busy", "true");
    isStale = true;
    if (isBusy) return;
    isBusy = true;
    while (isStale) {
        isStale = false;
        const wanted = given();
        try {
            made = { ...(await asked.ask("learn", wanted)), link: wanted.link };
            said.classList.remove("problem");
            draw();
        } catch (error) {
            said.textContent = error.message;
            said.classList.add("problem");
        }
    }
    isBusy = false;
    said.removeAttribute("aria-busy");
    if (find("metrics").open && made) drawMetrics();
}

function draw() {
    const { frames, found, given: at, slips, wrong, carried, phase, bits, words } = made;
    drawGlance();
    // Until one is chosen, the first frame in which something was repaired.
    if (!isChosen) shown = Math.max(0, at.findIndex((k) => found[k]?.fixed));
    shown = Math.min(shown, frames.length - 1);
    const choice = find("shown");
    if (choice.options.length !== frames.length) choice.replaceChildren(...frames.map((_, k) => new Option(`Frame ${k + 1}`, k)));
    choice.value = shown;
    drawFrames();
    drawDetail();
    body("stage-channel").innerHTML = `<p>${wrong.toLocaleString("en")} of ${counted(carried, "symbol")} `
        + `(${percent(wrong / carried)}) are on the wrong side.</p>${histogram(made.histogram)}`;
    body("stage-decoder").innerHTML = `<p>${phase ? `The symbol phase is ${phase.skip}. ` : ""}`
        + `${counted(bits, "bit was", "bits were")} received; `
        + `${slips ? `symbols were dropped before ${counted(slips, "window")}` : "no symbol was dropped"}.</p><p class="command">The program's words: `
        + `<code>tmchan decode ${escaped(words.join(" "))}</code></p>`;
    body("stage-markers").innerHTML = places(found, made.unit, bits) + table();
}

/** What came back, in a sentence, as text, and as a figure of each stage. */
function drawGlance() {
    const { frames, cadus, found, given: at, slips, wrong, carried, each, bits } = made;
    const came = at.filter((k) => found[k]?.good).length, fixed = found.reduce((sum, it) => sum + it.fixed, 0);
    const bad = found.filter((it) => !it.good).length, bridged = found.filter((it) => it.bridged).length;
    const share = percent(wrong / carried), extra = [
        `${counted(fixed, "octet was", "octets were")} repaired`,
        ...(bad ? [`${counted(bad, "codeblock is", "codeblocks are")} uncorrectable`] : []),
        ...(slips ? [`${counted(slips, "slip was", "slips were")} made good`] : []),
    ];
    find("learn-said").textContent = `${came} of ${counted(frames.length, "frame")} came back. ${share} of the symbols arrived `
        + `wrong; ${extra.join(", ")}.`;
    const figures = {
        "stage-frames": `${frames.length}, ${counted(frames[0].length, "octet")} each`,
        "stage-cadu": `${cadus[0].length} octets each`,
        "stage-symbols": `${Math.round(each).toLocaleString("en")} for each`,
        "stage-channel": `${share} wrong`,
        "stage-decoder": counted(bits, "bit"),
        "stage-markers": `${found.length - bridged} found${bridged ? `, ${bridged} bridged` : ""}`,
        "stage-words": `${counted(fixed, "octet")} repaired`,
        "stage-received": `${came} of ${frames.length}`,
    };
    for (const [stage, figure] of Object.entries(figures)) find("chain").querySelector(`[href="#${stage}"] + span`).textContent = figure;
    const decoder = new TextDecoder(), parts = at.map((k, number) => {
        const item = found[k];
        if (!item?.good) return `${plain(decoder.decode())}<span class="bad"> [frame ${number + 1} is lost] </span>`;
        const octets = item.frame.subarray(made.heads[number]), isLast = number === at.length - 1;
        const said = plain(decoder.decode(octets, { stream: !isLast }));
        return `<span class="${kind(item)}">${escaped(isLast ? said.trimEnd() : said)}</span>`;
    });
    find("came").innerHTML = parts.join("");
}

const kind = (item) => (item === undefined ? "missing" : !item.good ? "bad" : item.fixed ? "repaired" : "good");

function drawFrames() {
    const list = (rows) => `<ul class="frames">${rows.map(([name, it]) => `<li class="${name}">${escaped(it)}</li>`).join("")}</ul>`;
    body("stage-frames").innerHTML = list(made.frames.map((it) => ["", text(it)]));
    const rows = made.given.map((k, number) => {
        const item = made.found[k], name = `Frame ${number + 1}`;
        return [kind(item), !item ? `${name} is missing.` : item.good ? text(item.frame) : `${name} is uncorrectable.`];
    });
    // What came and is none of the frames that were sent, or comes a second time.
    const others = made.found.filter((_, k) => !made.given.includes(k))
        .map((it) => [kind(it), it.good ? `Not sent there: ${text(it.frame)}` : `Uncorrectable, at bit ${it.place}.`]);
    body("stage-received").innerHTML = list([...rows, ...others])
        + legend([["good", "nothing to repair"], ["repaired", "repaired"], ["bad", "uncorrectable"], ["missing", "missing"]]);
}

function table() {
    const heads = ["codeblock", "at bit", "marker", "wrong bits", "polarity"].map((it) => `<th scope="col">${it}</th>`);
    const rows = made.found.map((it, k) => {
        const cells = [k, it.place, it.bridged ? "bridged" : "found", it.distance, it.inverted ? "inverted" : "upright"];
        return `<tr class="${it.good ? "" : "bad"}">${cells.map((cell) => `<td>${cell}</td>`).join("")}</tr>`;
    });
    return `<div class="scroll" tabindex="0" role="region" aria-label="Places of codeblocks"><table>`
        + `<thead><tr>${heads.join("")}</tr></thead><tbody>${rows.join("")}</tbody></table></div>`;
}

const octets = (spans, label) => `<div class="octets" role="img" aria-label="${escaped(label)}">${spans.join("")}</div>`;

/** What is shown of one frame: its CADU, its first symbols, and the codewords of its codeblock. */
function drawDetail() {
    drawCadu();
    drawSymbols();
    drawWords();
}

function drawCadu() {
    const cadu = made.cadus[shown], size = made.frames[shown].length;
    const spans = Array.from(cadu, (it, k) => `<span class="${k < 4 ? "marker" : k < 4 + size ? "data" : "check"}">${hex(it)}</span>`);
    body("stage-cadu").innerHTML = `<p>Frame ${shown + 1}: ${cadu.length} octets.</p>`
        + octets(spans, `The CADU of frame ${shown + 1}, in hexadecimal`)
        + legend([["marker", "sync marker"], ["data", "frame, randomized"], ["check", "check symbols, randomized"]]);
}

function drawSymbols() {
    const from = Math.round(shown * made.each), sent = made.symbols.subarray(from, from + FEW), seen = made.soft.subarray(from, from + FEW);
    body("stage-symbols").innerHTML = `<p>${counted(Math.round(made.each), "symbol")} for each frame, at rate `
        + `${made.link.inner}. The first ${sent.length} of frame ${shown + 1}:</p>${symbolsFigure(sent, seen)}<p class="says">Below `
        + `stands what is received at the same place, which after a slip or a gap belongs to another symbol.</p>`;
}

function drawWords() {
    const item = made.found[made.given[shown]], place = body("stage-words");
    if (!item) return void (place.innerHTML = `<p>No codeblock was found for frame ${shown + 1}.</p>`);
    const words = item.columns.map((column, index) => codeword(column, index, item.columns.length));
    place.innerHTML = `<p>The codeblock of frame ${shown + 1}, with the randomizer taken off.</p>${words.join("")}`
        + legend([["wrong", "repaired"], ["data", "frame"], ["check", "check symbols"]]);
}

function codeword({ received, repaired }, index, count) {
    const checks = received.length - 2 * made.bound;
    const kinds = Array.from(received, (it, k) => (!repaired ? "lost" : it !== repaired[k] ? "wrong" : k < checks ? "data" : "check"));
    const spans = kinds.map((it, k) => `<span class="${it}">${hex((repaired ?? received)[k])}</span>`);
    const wrong = [...kinds.keys()].filter((k) => kinds[k] === "wrong");
    const says = repaired ? `${counted(wrong.length, "symbol")} repaired, of at most ${made.bound}`
        : `uncorrectable: no codeword is within ${made.bound} symbols`;
    const each = wrong.map((k) => `symbol ${k + 1} is ${hex(repaired[k])} and came as ${hex(received[k])}`).join(", ");
    return `<p>Codeword ${index + 1} of ${count}: ${says}.</p>${octets(spans, `Codeword ${index + 1}: ${says}`)}`
        + (each ? `<p class="says">Repaired: ${each}.</p>` : "");
}

/** Draws the metrics of a window: of each step their excess over the least, and the best path through the registers. */
function metricsOf({ steps, columns, start, bits, number }) {
    const wide = steps + 1, canvas = Object.assign(document.createElement("canvas"), { width: wide, height: REGISTERS });
    canvas.setAttribute("role", "img");
    canvas.setAttribute("aria-label", `Path metrics of window ${number}: ${REGISTERS} registers over ${steps} steps, and the best path`);
    const least = Array.from({ length: wide }, (_, t) => Math.min(...columns.subarray(REGISTERS * t, REGISTERS * (t + 1))));
    const excess = columns.map((it, k) => it - least[Math.floor(k / REGISTERS)]);
    const most = excess.reduce((a, b) => (b < BARRED ? Math.max(a, b) : a), 1);
    const context = canvas.getContext("2d"), image = context.createImageData(wide, REGISTERS);
    for (let t = 0, register = start; t < wide; t++) {
        for (let s = 0; s < REGISTERS; s++) {
            const light = 30 + 205 * (1 - (1 - Math.min(1, excess[REGISTERS * t + s] / most)) ** 2);
            image.data.set(s === register ? [235, 90, 40, 255] : [light * 0.55, light * 0.8, light, 255], 4 * (s * wide + t));
        }
        register = ((bits[t] ?? 0) << 5) | (register >> 1);
    }
    context.putImageData(image, 0, 0);
    return canvas;
}

async function drawMetrics() {
    const place = find("metrics").querySelector(".body"), window = Math.max(0, Number(find("window").value) || 0);
    try {
        const { shown: it, count } = await asked.ask("metrics", { soft: made.soft, link: made.link, window });
        find("window").max = Math.max(0, count - 1);
        if (!it) return void (place.innerHTML = `<p>There are ${count} windows, from 0 on.</p>`);
        place.innerHTML = `<p>Window ${it.number} of ${count}: ${it.steps} steps, of which ${it.kept} are kept; the best path costs `
            + `${it.metric.toLocaleString("en")}. Steps go from left to right, registers from 0 above to 63 below; dark is near the `
            + `least metric of a step, orange the best path.</p>`;
        place.append(metricsOf(it));
    } catch (error) {
        place.innerHTML = `<p class="problem">${escaped(error.message)}</p>`;
    }
}

/** A button that sets the sliders. */
function channelButton([name, values]) {
    const button = Object.assign(document.createElement("button"), { type: "button", textContent: name });
    button.addEventListener("click", () => {
        for (const [id, value] of Object.entries({ ...PLAIN, ...values })) find(id).value = value;
        change();
    });
    return button;
}

export function startLearning(it) {
    asked = it;
    find("channels").append(...Object.entries(CHANNELS).map(channelButton));
    find("chain").innerHTML = Array.from(document.querySelectorAll(".stages > li"), (stage) =>
        `<li><a href="#${stage.id}">${stage.querySelector("h3").innerHTML}</a> <span></span></li>`).join("");
    const form = find("learn-form");
    form.addEventListener("input", change);
    form.addEventListener("submit", (event) => event.preventDefault());
    find("again").addEventListener("click", () => {
        seed += 1;
        change();
    });
    find("shown").addEventListener("change", () => {
        shown = Number(find("shown").value);
        isChosen = true;
        if (made) drawDetail();
    });
    find("metrics").addEventListener("toggle", () => find("metrics").open && made && drawMetrics());
    find("window").addEventListener("input", () => made && drawMetrics());
    change();
}
