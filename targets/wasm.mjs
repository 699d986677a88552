// `node targets/wasm.mjs MODULE DRIVER LIST ROUNDS`: what a driver says of the module, and the time of a tick in nanoseconds. Without ROUNDS it writes a page
// that says the time of a tick in a browser.
import { readFileSync } from 'node:fs';
import { driven, leastTick } from './driven.mjs';
const [module, driver, list, rounds] = process.argv.slice(2);
const files = [module, driver, list].map((file) => readFileSync(file));
if (rounds === undefined) {
    const code = readFileSync(new URL('driven.mjs', import.meta.url), 'utf8').replaceAll('export function', 'function');
    const bytes = files.map((file) => `Uint8Array.from(atob('${file.toString('base64')}'), (c) => c.charCodeAt(0))`);
    // a browser's clock moves by a tenth of a millisecond, so a turn is longer
    const say = `document.getElementById('said').textContent = \`time of a tick: \${leastTick(driven(${bytes}), 100, 40000)} ns\`;`;
    process.stdout.write(`<!doctype html>\n<meta charset="utf-8">\n<pre id="said">nothing</pre>\n<script>\n${code}\n${say}\n</script>\n`);
} else {
    const all = driven(...files);
    const text = all.drive.report(all.at, files[2].length, Number(rounds));
    const bytes = new Uint8Array(all.memory.buffer);
    process.stdout.write(new TextDecoder().decode(bytes.subarray(text, bytes.indexOf(0, text))));
    process.stdout.write(`time of a tick: ${leastTick(all, 40, 1000)} ns\n`);
}
