// An adapter of the conformance kit: it reads a line and answers one (CONFORMANCE.md). Here for the WebAssembly modules; in another's place stand his calls.
//   ./conform node adapter.mjs FOLDER [FOLDER]      the first holds fosavalo.wasm and fosavalo_desk.wasm, and fosavalo.js if there is no second

import { readFile } from 'node:fs/promises';
import { createInterface } from 'node:readline';
import { resolve } from 'node:path';
import { pathToFileURL } from 'node:url';

const folder = resolve(process.argv[2] ?? '.');
const { Core, DeskCore } = await import(pathToFileURL(`${process.argv[3] ? resolve(process.argv[3]) : folder}/fosavalo.js`));
const { calls: core } = await Core.from(await readFile(`${folder}/fosavalo.wasm`));
const { calls: desk } = await DeskCore.from(await readFile(`${folder}/fosavalo_desk.wasm`));

// The bytes of a word: parts joined by +, each hexadecimal digits, *N behind them for so many times; - for none.
const bytesOf = (word) => {
    const parts = word === '-' ? [] : word.split('+').map((part) => part.split('*'));
    return new Uint8Array(Buffer.concat(parts.map(([digits, times = 1]) => Buffer.alloc((digits.length >> 1) * times, digits, 'hex'))));
};
const hex = (bytes) => Buffer.from(bytes).toString('hex') || '-';
const float = (bytes) => new DataView(bytes.buffer).getFloat32(0, true);
const whole = (bytes) => new DataView(bytes.buffer).getUint32(0, true);

// What goes from line to line.
let [image, deskImage, buffer, logLength] = [new Uint8Array(396), new Uint8Array(60), new Uint8Array(0), 0];
const log = () => buffer.subarray(0, logLength);

// A call's number; and what it wrote, into the line's own word, told in any case, or else into so many bytes, told where the number is 0.
const into = (lent, own, call) => {
    const to = lent === undefined ? new Uint8Array(own) : bytesOf(lent);
    const number = call(to);
    return lent === undefined && number !== 0 ? [number] : [number, hex(to)];
};
const CALLS = {
    setup: (input) => [core.setup(image, bytesOf(input))],
    exchange: (leg) => [core.exchange(image, bytesOf(leg))],
    tick: (input, room) => into(room, 40, (to) => core.tick(image, bytesOf(input), to)),
    route: (input, route, room) => into(room, 40, (to) => core.routeTick(image, bytesOf(input), bytesOf(route), to)),
    sample: (route, time, room) => into(room, 52, (to) => core.routeSample(bytesOf(route), float(bytesOf(time)), to)),
    refusal: (input, answer) => [core.tickRefusal(image, BigInt(input), BigInt(answer))],
    image: (given) => (given === undefined ? [0, hex(image)] : ((image = bytesOf(given)), [0])),
    log: (given = '00*8+6c000000', room = '00*43200') => {
        const parts = [bytesOf(given), bytesOf(room)];
        [buffer, logLength] = [new Uint8Array(Buffer.concat(parts)), parts[0].length];
        return [0];
    },
    append: (input, answer, length = logLength) => {
        const number = core.logAppend(buffer, BigInt(length), bytesOf(input), bytesOf(answer));
        if (number === 0) logLength += 108;
        return [number];
    },
    bytes: (from, count) => [0, hex(buffer.subarray(Number(from), Number(from) + Number(count)))],
    count: (room) => into(room, 4, (to) => core.logCount(log(), to)),
    record: (place, room) => into(room, 108, (to) => core.logRecord(log(), BigInt(place), to)),
    check: (profile, enter, exit, room) => into(room, 4, (to) => core.logCheck(log(), whole(bytesOf(profile)), float(bytesOf(enter)), float(bytesOf(exit)), to)),
    flags: (margins, enter, exit, room) => into(room, bytesOf(margins).length >> 2, (to) => core.flags(bytesOf(margins), float(bytesOf(enter)), float(bytesOf(exit)), to)),
    expand: (pattern, room, written) => {
        const [route, length] = [bytesOf(room ?? '00*2440'), bytesOf(written ?? '00000000')];
        const number = core.patternExpand(bytesOf(pattern), route, length);
        if (room !== undefined) return [number, hex(route), hex(length)];
        return number === 0 ? [0, hex(route.subarray(0, whole(length)))] : [number];
    },
    desksetup: (input) => [desk.setup(deskImage, bytesOf(input))],
    centre: () => [desk.centre(deskImage)],
    desk: (sticks, input, room) => {
        const given = bytesOf(input);
        const told = into(room, 40, (to) => desk.tick(deskImage, bytesOf(sticks), image, given, to));
        return room === undefined ? told : [...told, hex(given)];
    },
    deskroute: (sticks, input, route, room) => {
        const given = bytesOf(input);
        const told = into(room, 40, (to) => desk.routeTick(deskImage, bytesOf(sticks), image, given, bytesOf(route), to));
        return room === undefined ? told : [...told, hex(given)];
    },
    deskimage: (given) => (given === undefined ? [0, hex(deskImage)] : ((deskImage = bytesOf(given)), [0])),
};

for await (const line of createInterface({ input: process.stdin })) {
    const [call, ...words] = line.split(' ');
    process.stdout.write(`${Object.hasOwn(CALLS, call) ? CALLS[call](...words).join(' ') : 'unsupported'}\n`);
}
