// The page: its two views, and the worker that each of them asks.

const find = (id) => document.getElementById(id);

/** A worker with the library in it. One whose module trapped is thrown away, and the next question goes to a new one. */
class Asked {
    #worker = null;
    #waiting = new Map();
    #number = 0;

    ask(task, given = {}, told = null) {
        this.#worker ??= this.#begin();
        const number = ++this.#number;
        return new Promise((answer, refuse) => {
            this.#waiting.set(number, { answer, refuse, told });
            this.#worker.postMessage({ number, task, given });
        });
    }

    #begin() {
        const worker = new Worker(new URL(`worker.mjs${location.search}`, import.meta.url), { type: "module" });
        worker.addEventListener("message", ({ data: { number, progress, made, error } }) => {
            const waiting = this.#waiting.get(number);
            if (!waiting) return;
            if (progress) return waiting.told?.(progress);
            this.#waiting.delete(number);
            if (!error) return waiting.answer(made);
            if (error.trapped) this.throwAway();
            const trapped = "The module trapped, and was thrown away with what it had. The next try begins with a new one.";
            waiting.refuse(Object.assign(new Error(error.trapped ? trapped : error.message), { name: error.name }));
        });
        worker.addEventListener("error", (event) => {
            this.throwAway(new Error(event.message || "The worker could not be started"));
        });
        return worker;
    }

    /** Ends the worker. Whoever waits for it is told. */
    throwAway(why = new Error("The worker was ended")) {
        this.#worker?.terminate();
        this.#worker = null;
        const waiting = [...this.#waiting.values()];
        this.#waiting.clear();
        for (const it of waiting) it.refuse(why);
    }
}

const VIEWS = ["learn", "use"];
let shown = null;

/** Shows the view that the address names, and at first the first one; any other address, as that of a stage, leaves it. */
function show() {
    const named = VIEWS.find((name) => location.hash === `#${name}`);
    if (named || !shown) shown = named ?? VIEWS[0];
    for (const name of VIEWS) {
        find(name).hidden = name !== shown;
        if (name === shown) find(`to-${name}`).setAttribute("aria-current", "page");
        else find(`to-${name}`).removeAttribute("aria-current");
    }
}

async function start() {
    const learning = new Asked(), using = new Asked(), loaded = learning.ask("load");
    window.addEventListener("hashchange", () => {
        const before = shown;
        show();
        // (so that a screen reader begins with the view that came)
        if (shown !== before) find(`${shown}-title`).focus({ preventScroll: true });
    });
    show();
    // (while the worker begins)
    const begun = Promise.all([import("./learn-view.mjs"), import("./use-view.mjs")]).then(([{ startLearning }, { startUsing }]) => {
        startLearning(learning);
        startUsing(using);
    });
    try {
        const { version, isWide } = await loaded;
        find("module").textContent = isWide ? `Library ${version}, with vectors and memory of 64-bit addresses.`
            : `Library ${version}. This browser has no WebAssembly memory of 64-bit addresses (Chrome and Edge have it since version `
                + "133, Firefox since 134), so a slower module without vectors is used: for this page's first view, and for files up "
                + "to 10 MB.";
    } catch (error) {
        find("module").textContent = `The library cannot be loaded: ${error.message}`;
        find("module").className = "problem";
    }
    await begun;
}

start();
