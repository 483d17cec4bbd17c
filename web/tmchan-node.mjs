#!/usr/bin/env node
// The program as a command for Node, on any system that it runs on: tmchan-node.mjs COMMAND OPTION.. < symbols > frames. docs/OPTIONS.md
// has commands and options. It has no threads, and says so where --workers asks for more than one.
import { spawnSync } from "node:child_process";
import { readFileSync, readSync, writeSync } from "node:fs";
import { fileURLToPath } from "node:url";
import { run } from "./program.mjs";
import { hasMemory64 } from "./tmchan.mjs";

const FLAG = "--experimental-wasm-memory64", file = fileURLToPath(import.meta.url), words = process.argv.slice(2);

// What stands in for a call that would have to wait: it is made again, a little later, until it can be.
const pause = new Int32Array(new SharedArrayBuffer(4));
function wait(call) {
    for (;;)
        try {
            return call();
        } catch (error) {
            if (error.code === "EOF") return 0;
            if (error.code !== "EAGAIN" && error.code !== "EINTR") return -1;
            Atomics.wait(pause, 0, 0, 2);
        }
}

function manyWorkers() {
    const at = words.indexOf("--workers"), text = at >= 0 ? words[at + 1] : words.find((it) => it.startsWith("--workers="))?.slice(10);
    return Number(text) > 1;
}

if (hasMemory64()) {
    if (manyWorkers()) process.stderr.write("tmchan-node: there are no threads here; one worker does the work of all\n");
    const module = readFileSync(new URL("program.wasm", import.meta.url));
    process.exitCode = await run(module, ["tmchan", ...words], (octets) => wait(() => readSync(0, octets)),
        (to, octets) => wait(() => writeSync(to, octets)));
} else if (!process.execArgv.includes(FLAG)) {
    // Node 20 and 22 have 64-bit memory behind a flag.
    const { status, signal, error } = spawnSync(process.execPath, [FLAG, file, ...words], { stdio: "inherit" });
    if (error) throw error;
    if (signal) process.kill(process.pid, signal);
    process.exitCode = status ?? 1;
} else {
    process.stderr.write("tmchan-node: this Node has no memory of 64-bit addresses; Node 20 and later have\n");
    process.exitCode = 8;
}
