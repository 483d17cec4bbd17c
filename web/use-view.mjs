// The second view: the frames of a recording.
import { figure, pageOf, partsOf } from "./figures.mjs";
import { FORMS, formOfName, waveHeader } from "./recordings.mjs";
import { counted, escaped } from "./text.mjs";
import { DEFAULTS, OPTIONS, recordingSettings } from "./tmchan.mjs";

const find = (id) => document.getElementById(id);

// The options, those of the link first, and what each is. Soft octets and packing follow from the form.
const LINK = {
    code: "the Reed-Solomon code",
    depth: "interleaving depth",
    length: "octets of a frame, empty for the most",
    inner: "rate of the convolutional code",
    invert: "each second symbol inverted",
    randomize: "pseudo-randomizer",
    basis: "basis of the codewords' symbols",
};
const RECEIVER = {
    tolerance: "wrong bits that a marker may have",
    fly: "markers in a row that may be missing",
    start: "the encoder's first register",
    phase: "which symbols belong together",
    polarity: "whether all may be inverted",
    rescan: "look inside uncorrectable codeblocks",
    keep: "steps of a window that are kept",
    ahead: "steps after these",
    verify: "further markers that must match",
    repair: "symbols repaired in a codeword, empty for all that can be",
    skip: "symbols dropped first",
    batch: "codeblocks handed over at once",
    bad: "frames with an uncorrectable column",
};
const NAMES = Object.keys({ ...LINK, ...RECEIVER });
const ROWS = 100;
const megabytes = (octets) => (octets / 1e6).toFixed(1);

let asked, file = null, result = null, from = 0, wave = null;

function control(name, about) {
    const words = OPTIONS[name], id = `option-${name}`, label = `<label for="${id}"><code>${name}</code> ${escaped(about)}</label>`;
    if (!words) return `<p>${label}<input id="${id}" type="number" min="0"></p>`;
    const free = DEFAULTS[name] === null ? `<option value="">by the rate</option>` : "";
    return `<p>${label}<select id="${id}">${free}${words.map((it) => `<option>${escaped(it)}</option>`).join("")}</select></p>`;
}

function set(values) {
    for (const name of NAMES) if (name in values) find(`option-${name}`).value = values[name] ?? "";
}

/** The options that are chosen; an empty field is left to the library. */
function options() {
    const made = {};
    for (const name of NAMES) {
        const { value } = find(`option-${name}`);
        if (value !== "") made[name] = OPTIONS[name] ? value : Number(value);
    }
    if (made.inner === "none") made.pack = "off";
    return made;
}

async function sayWords() {
    const { words, refused } = await asked.ask("words", { options: options() }).catch((error) => ({ refused: error.message }));
    find("command").textContent = refused ? `refused: ${refused}` : ["tmchan", "decode", ...words].join(" ");
    find("command").classList.toggle("problem", Boolean(refused));
}

async function take(given) {
    file = given;
    wave = null;
    if (!file) return;
    try {
        wave = waveHeader(new Uint8Array(await file.slice(0, 4096).arrayBuffer()));
        find("form").value = wave?.form ?? formOfName(file.name);
        find("form").disabled = wave !== null;
        say(`${file.name}: ${counted(file.size, "octet")}${wave ? `, a WAV file of ${wave.form}` : ""}.`);
    } catch (error) {
        say(`${file.name}: ${error.message}.`, true);
        file = null;
    }
}

/** Makes a recording of a link with the options that are chosen. */
async function takeExample() {
    try {
        await take(new File([await asked.ask("example", { options: options() })], "example.u8"));
    } catch (error) {
        say(error.message, true);
    }
}

function say(text, isProblem = false) {
    const line = document.createElement("p");
    line.textContent = text;
    line.classList.toggle("problem", isProblem);
    find("use-said").replaceChildren(line);
}

/** What came of the last recording. */
export const last = () => result;

/** Receives a file with what is chosen, and shows what came; `output` is a file that frames go to, if there is one. */
export async function receive(output = null) {
    if (!file) return say("There is no recording yet: choose one, or drop it.", true);
    const progress = find("progress"), start = (wave?.start ?? 0) + Math.max(0, Number(find("from").value) || 0);
    find("receive").disabled = true;
    find("stop").disabled = false;
    find("results").hidden = true;
    find("progress-line").hidden = false;
    progress.value = 0;
    say("Receiving.");
    try {
        const length = wave && wave.length < Infinity ? Math.max(0, wave.start + wave.length - start) : null;
        const given = { file, start, length, form: find("form").value, swap: find("swap").checked, options: options(),
            quality: find("quality").checked, output };
        const tell = ({ done, all, good, bad }) => {
            progress.value = all ? done / all : 1;
            find("progress-said").textContent = `${megabytes(done)} of ${megabytes(all)} MB, ${counted(good, "frame")}, `
                + `${bad.toLocaleString("en")} uncorrectable`;
        };
        result = await asked.ask("receive", given, tell);
        tell({ ...result, ...result.summary });
        await show(output);
    } catch (error) {
        say(error.message, true);
    }
    find("receive").disabled = false;
    find("stop").disabled = true;
    // (what is disabled loses the focus)
    if (document.activeElement === document.body) find("receive").focus({ preventScroll: true });
}

/** A button that makes a file when it is pressed, and gives it to the browser. What is made says how far it is. */
function download(name, make, type = "application/octet-stream") {
    const button = Object.assign(document.createElement("button"), { type: "button", textContent: name });
    let isMaking = false;
    button.addEventListener("click", async () => {
        if (isMaking) return;
        isMaking = true;
        try {
            const parts = await make(({ done, all }) => (button.textContent = `${name}: ${Math.floor((100 * done) / all)} %`));
            const href = URL.createObjectURL(new Blob(parts, { type }));
            Object.assign(document.createElement("a"), { href, download: name }).click();
            setTimeout(() => URL.revokeObjectURL(href), 60_000);
        } catch (error) {
            say(error.message, true);
        }
        button.textContent = name;
        isMaking = false;
    });
    return button;
}

async function show(output) {
    const { summary, said, done, all, seconds, parts, count } = result, name = summary.name.replace(/\.[^.]*$/, "") || "recording";
    const lines = [...said];
    if (!count && summary.totals.bits)
        lines.push("Another form, rate or depth makes noise of a recording: tmchan-find of the Python package looks for those that fit.");
    if (result.stopped) lines.unshift(`Stopped after ${megabytes(done)} of ${megabytes(all)} MB.`);
    const megabits = (8 * summary.good * summary.frameLength) / 1e6;
    // (of a short recording it would be that of the beginning)
    if (seconds > 5) lines.push(`${(megabits / seconds).toFixed(1)} Mbit/s of frames.`);
    find("use-said").replaceChildren(...lines.map((it) => Object.assign(document.createElement("p"), { textContent: it })));
    const report = () => asked.ask("report"), jsonLines = (tell) => asked.ask("lines", {}, tell);
    const page = async () => [pageOf(summary, lines, await (await fetch(new URL("page.css", import.meta.url))).text())];
    const frames = output ? [] : [download(`${name}.frames`, () => parts)];
    find("downloads").replaceChildren("Download:", ...frames, download(`${name}.report.txt`, report, "text/plain"),
        download(`${name}.jsonl`, jsonLines, "application/jsonl"), download(`${name}.html`, page, "text/html"));
    find("figures").innerHTML = partsOf(summary).map((it) => figure(it, "h4")).join("");
    from = 0;
    await rows();
    find("results").hidden = false;
}

async function rows() {
    const { count, columns } = result, items = await asked.ask("rows", { from, count: ROWS });
    const each = Array.from({ length: columns }, (_, k) => `column ${k + 1}`);
    const heads = ["number", "at bit", "at symbol", "marker", "wrong bits", "polarity", ...each, "octets"];
    find("report").tHead.innerHTML = `<tr>${heads.map((it) => `<th scope="col">${it}</th>`).join("")}</tr>`;
    const cells = (it) => [it.number, it.place, it.symbol, it.bridged ? "bridged" : "found", it.distance,
        it.inverted ? "inverted" : "upright", ...it.repaired.map((symbols) => symbols ?? "uncorrectable"), it.length];
    const row = (it) => `<tr class="${it.good ? "" : "bad"}">${cells(it).map((cell) => `<td>${cell}</td>`).join("")}</tr>`;
    find("report").tBodies[0].innerHTML = items.map(row).join("");
    const shown = `Codeblocks ${from} to ${from + items.length - 1} of ${count.toLocaleString("en")}`;
    find("rows-said").textContent = count ? shown : "No codeblocks";
    find("earlier").disabled = from === 0;
    find("later").disabled = from + ROWS >= count;
}

function turn(by) {
    from = Math.max(0, from + by);
    rows().catch((error) => say(error.message, true));
}

/** Takes a file that is dropped anywhere on the page. */
function takeDrops() {
    const mark = (isOver) => find("drop").classList.toggle("over", isOver);
    for (const kind of ["dragenter", "dragover", "drop"])
        window.addEventListener(kind, (event) => {
            // (a text may be dragged to the first view's field)
            if (!event.dataTransfer.types.includes("Files")) return;
            event.preventDefault();
            mark(kind !== "drop");
        });
    window.addEventListener("dragleave", () => mark(false));
    window.addEventListener("drop", ({ dataTransfer }) => {
        if (!dataTransfer.files.length) return;
        location.hash = "#use";
        take(dataTransfer.files[0]);
    });
}

async function submit(event) {
    event.preventDefault();
    try {
        const name = `${file?.name ?? "recording"}.frames`;
        await receive(find("to-file").checked ? await window.showSaveFilePicker({ suggestedName: name }) : null);
    } catch (error) {
        say(error.name === "AbortError" ? "No file was chosen for the frames." : error.message, true);
    }
}

export function startUsing(it) {
    asked = it;
    find("form").append(...Object.entries(FORMS).map(([name, { text }]) => new Option(`${name}: ${text}`, name)));
    const controls = (rows) => rows.map(([name, about]) => control(name, about)).join(""), receiver = Object.entries(RECEIVER);
    find("link-options").innerHTML = controls(Object.entries(LINK));
    const recording = () => recordingSettings(find("option-inner").value);
    find("recording-options").innerHTML = controls(receiver.filter(([name]) => name in recordingSettings()));
    find("receiver-options").innerHTML = controls(receiver.filter(([name]) => !(name in recordingSettings())));
    set({ ...DEFAULTS, ...recordingSettings() });
    const strict = Object.fromEntries(receiver.map(([name]) => [name, DEFAULTS[name]]));
    find("recording").addEventListener("click", () => (set({ ...strict, ...recording() }), sayWords()));
    // The windows for a recording are others at another rate.
    find("option-inner").addEventListener("change", () => {
        const { keep, ahead } = recording();
        if (find("option-phase").value === "follow") set({ keep, ahead });
    });
    find("strict").addEventListener("click", () => (set(strict), sayWords()));
    find("use-form").addEventListener("change", sayWords);
    window.addEventListener("hashchange", () => location.hash === "#use" && sayWords());
    if (location.hash === "#use") sayWords();
    find("file").addEventListener("change", () => take(find("file").files[0]));
    find("example").addEventListener("click", takeExample);
    takeDrops();
    find("to-file-line").hidden = !("showSaveFilePicker" in window);
    find("use-form").addEventListener("submit", submit);
    find("stop").addEventListener("click", () => asked.ask("stop"));
    find("earlier").addEventListener("click", () => turn(-ROWS));
    find("later").addEventListener("click", () => turn(ROWS));
}
