// The lines of JSON of a recording, those of tmchan-receive --json: docs/GUIDE.md, "Lines of JSON", has their fields.
import { DEFAULTS, recordingSettings, wordsOf } from "./tmchan.mjs";

const VERSION = 1;
const line = (fields) => JSON.stringify({ version: VERSION, ...fields });
const finite = (number) => (Number.isFinite(number) ? number : null);

export function windowLine(file, window) {
    const { symbolErrorRate, esN0, atLeast } = window.quality;
    return line({ kind: "window", file, ...window, symbol_error_rate: finite(symbolErrorRate), es_n0: finite(esN0), at_least: atLeast });
}

export function codeblockLine(file, number, { place, symbol, good, frame, fixed, repaired, distance, bridged, inverted }) {
    const length = frame?.length ?? 0;
    return line({ kind: "codeblock", file, number, place, symbol, good, length, fixed, repaired, distance, bridged, inverted });
}

export function endLine({ name: file, good, bad, fixed, totals: { bits, slips } }, words) {
    return line({ kind: "end", file, good, bad, fixed, bits, slips, words });
}

// The options of a link, which tmchan-receive looks for where none is given.
const LINK = new Set(["code", "depth", "length", "inner", "invert", "randomize", "basis"]);

/** The words of tmchan-receive for a form and options, without those that it takes by itself; at least one of the link, so that it
 * looks for none. */
export function receiveWords(options, form, swap) {
    const { inner } = options, usual = { ...DEFAULTS, ...recordingSettings(inner), pack: inner === "none" ? "off" : "on" };
    const words = (ofLink) => wordsOf(Object.fromEntries(Object.entries(options).filter(([name]) => LINK.has(name) === ofLink)), usual);
    const link = words(true);
    return ["--input", form, ...(swap ? ["--swap"] : []), ...(link.length ? link : ["--code", "rs16"]), ...words(false)];
}
