// Words and numbers as the page shows them.

/** A text that may stand in HTML. */
export const escaped = (text) => String(text).replace(/[&<>"']/g, (it) => `&#${it.charCodeAt(0)};`);

/** A number and what it counts: "1 frame", "2,000 frames". */
export const counted = (count, one, many = `${one}s`) => `${count.toLocaleString("en")} ${count === 1 ? one : many}`;

/** A number, shortly: "443 k". */
export function short(count) {
    for (const [by, letter] of [[1e9, "G"], [1e6, "M"], [1e3, "k"]])
        if (count >= by) return `${Number((count / by).toPrecision(3))} ${letter}`;
    return String(Number(count.toPrecision(3)));
}
