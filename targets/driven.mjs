// A driver beside the shipped module, in node and, written into a page, in a browser. The driver is a module of its own that works in the memory of the first
// and calls its exports, so that what is driven is the very file that is shipped.

/** Of the bytes of both and of the list: the driver's calls, the memory, and where in it the list begins. */
export function driven(module, driver, list) {
    const core = new WebAssembly.Instance(new WebAssembly.Module(module));
    const { memory } = core.exports;
    const base = 1 << 20; // where the driver's own data begin
    memory.grow((base + (12 << 20)) / 65536 - memory.buffer.byteLength / 65536);
    const drive = new WebAssembly.Instance(new WebAssembly.Module(driver), { env: core.exports }).exports;
    const at = drive.__heap_base.value;
    new Uint8Array(memory.buffer).set(list, at);
    return { drive, memory, at };
}

/** The least time of a tick, in whole nanoseconds: so many turns of so many ticks. */
export function leastTick({ drive, at }, turns, ticks) {
    drive.ready(at);
    let least = Infinity;
    for (let turn = 0; turn < turns; turn++) {
        const start = performance.now();
        for (let k = 0; k < ticks; k++) drive.one_tick();
        least = Math.min(least, (performance.now() - start) / ticks);
    }
    return (1e6 * least).toFixed(0);
}
