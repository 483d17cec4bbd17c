// in-node.mjs PAGE ROOM: the rows and cases that stand in ROOM, over the modules in PAGE (a folder), in Node. Prints what came as JSON.
import { readFileSync } from "node:fs";
import { pathToFileURL } from "node:url";
import { calls, cases, hostStreams, libraryCases, streams } from "./rows.mjs";

const [page, room] = process.argv.slice(2), read = (name) => readFileSync(`${room}/${name}`, "utf8");
const tmchan = await import(pathToFileURL(`${page}/tmchan.mjs`)), { runOn } = await import(pathToFileURL(`${page}/program.mjs`));
const drawn = JSON.parse(read("cases.json")), drawnForLibrary = JSON.parse(read("library-cases.json")), made = {};
for (const name of ["tmchan.wasm", "tmchan32.wasm"]) {
    const library = await tmchan.load(readFileSync(`${page}/${name}`));
    made[`${name}: calls`] = calls(library, read("rows.txt"), JSON.parse(read("refusals.json")));
    made[`${name}: streams`] = streams(tmchan, library, read("streams.txt"));
    made[`${name}: drawn cases`] = libraryCases(tmchan, library, drawnForLibrary);
    made[`${name}: the host's streams, and errors`] = await hostStreams(tmchan, library);
}
made["program.wasm: drawn cases"] = await cases(await WebAssembly.compile(readFileSync(`${page}/program.wasm`)), runOn, drawn);
console.log(JSON.stringify(made));
