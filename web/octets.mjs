/** Arrays of octets as one, in their order. */
export function joined(parts) {
    const made = new Uint8Array(parts.reduce((sum, it) => sum + it.length, 0));
    parts.reduce((at, it) => (made.set(it, at), at + it.length), 0);
    return made;
}
