// node web/inline.mjs PAGE FOLDER > SINGLE: the page as one file. From a disk (file://) a browser refuses to import and to fetch other files;
// so what the page names in single quotes, './fosavalo.js' and the WebAssembly that lies in FOLDER, comes to stand in it as data: URLs.

import { readFile } from 'node:fs/promises';

const [page, folder] = process.argv.slice(2);
if (folder === undefined) {
    console.error('node web/inline.mjs PAGE FOLDER > SINGLE: FOLDER holds fosavalo.wasm and fosavalo_desk.wasm');
    process.exit(2);
}
const files = {
    './fosavalo.js': [new URL('fosavalo.js', import.meta.url), 'text/javascript'],
    './fosavalo.wasm': [`${folder}/fosavalo.wasm`, 'application/wasm'],
    './fosavalo_desk.wasm': [`${folder}/fosavalo_desk.wasm`, 'application/wasm'],
};
let text = await readFile(page, 'utf8');
for (const [name, [file, type]] of Object.entries(files)) {
    if (text.includes(`'${name}'`)) text = text.replaceAll(`'${name}'`, `'data:${type};base64,${await readFile(file, 'base64')}'`);
}
process.stdout.write(text);
