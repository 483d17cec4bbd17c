// What is written over tmchan.d.ts, and what it has to refuse.
import { load, line, quality, Refused, OPTIONS, type Item } from "./tmchan.mjs";

const library = await load();
const link = library.link({ code: "rs16", depth: 5, inner: "1/2", length: null, randomize: true });
const symbols: Uint8Array = link.send(new Uint8Array(1115));
for await (const item of library.recording({ depth: 5 }).receive(symbols)) {
    const it: Item = item;
    console.log(line(it, 0), it.frame?.length, it.repaired[0] ?? "x");
}
const receiver = link.receiver();
for (const it of receiver.push(symbols)) console.log(it.place);
receiver.finish();
console.log(receiver.totals?.bits, receiver.phase?.skip, receiver.slips);
const counting = link.decoder({ windows: true });
counting.push(symbols);
const { symbolErrorRate, esN0, atLeast } = quality(counting.windows);
console.log(symbolErrorRate, esN0.toFixed(1), atLeast, counting.windows[0].quality.esN0);
export const { word, wrong } = library.rsDecode(new Uint8Array(255), { erased: [3], basis: "dual", repair: 3 });
try {
    library.link({ depth: 6 });
} catch (error) {
    if (error instanceof Refused) console.log(error.reason, error.answer, OPTIONS.depth);
}
export const items = (new Response(symbols).body as ReadableStream<Uint8Array>).pipeThrough(link.receiving());
const search = library.search({ bits: 100 });
console.log(search.bits(symbols)[0].place);
search.close();
// @ts-expect-error: no such rate
library.link({ inner: "1/3" });
// @ts-expect-error: no such option
library.link({ depths: 1 });
