// The oracle's stored answers (crates/replay/stdin; docs/ORACLE.md has their form), and the calls among them run again. It needs nothing of
// node's, so that a page can run it too.

import { ANSWER_BYTES, DESK_BYTES, IMAGE_BYTES, LOG_RIGHT, RECORD_BYTES, SAMPLE_BYTES, TICK_BYTES } from './fosavalo.js';
import { Desk, Image, Log, Profile, Refusal, Route, TickInput } from './fosavalo.js';

/** The first section of the desk's calls, which have six buffers and no `at`; and which buffers a call may change, by how many it has. */
const DESK = 512;
const CHANGED = { 4: [0, 2], 6: [0, 2, 3, 5] };

const same = (x, y) => x.length === y.length && x.every((byte, at) => byte === y[at]);

/**
 * The sections: number, name and rows. A row of a routine is its words; one of a call its buffers, `at`, the number that it gives, each buffer as
 * it leaves it, and all that is answered, in bytes that are the list's own.
 */
export const read = (list) => {
    const view = new DataView(list.buffer, list.byteOffset, list.byteLength);
    let next = 0;
    const bytes = (count) => list.subarray(next, (next += count));
    const word = () => view.getUint32((next += 4) - 4, true);
    const words = (count) => Array.from({ length: count }, word);
    const [magic, sections, answers] = words(3);
    if (magic !== 0x57534e41) throw new Error('the list does not begin with ANSW');
    const buffer = () => {
        const [stored, lent] = words(2);
        return { stored: bytes(4 * stored), lent };
    };
    const callRow = (count) => () => {
        const buffers = Array.from({ length: count }, buffer);
        const at = count === 4 ? word() : null;
        const start = next;
        const number = bytes(4);
        const left = buffers.map(({ stored }, k) => (CHANGED[count].includes(k) ? bytes(stored.length) : stored));
        return { buffers, at, number, left, all: list.subarray(start, next) };
    };
    const read = Array.from({ length: sections }, () => {
        const [number, given, answered, rows] = words(4);
        const name = String.fromCharCode(...bytes(48)).trimEnd();
        const row = number < 500 ? () => ({ given: words(given), answered: words(answered) }) : callRow(number < DESK ? 4 : 6);
        return { number, name, rows: Array.from({ length: rows }, row) };
    });
    const count = read.reduce((sum, { rows }) => sum + rows.length, 0);
    if (next !== list.length || count !== answers) throw new Error('the list is cut, too long or of another form');
    return read;
};

const viewOf = (bytes) => new DataView(bytes.buffer, bytes.byteOffset, bytes.byteLength);
const float = ({ stored }, at) => viewOf(stored).getFloat32(4 * at, true);
const word = ({ stored }, at) => viewOf(stored).getUint32(4 * at, true);
const numberOf = (row) => viewOf(row.number).getUint32(0, true);

/** What each section calls: with pointer and length of each buffer, and the row. */
const EXPORTS = {
    500: ['setup', ([a, b]) => [a, b]],
    501: ['tick', ([a, b, c]) => [a, b, c]],
    502: ['route_tick', ([a, b, c, d]) => [a, b, d, c]],
    503: ['log_append', ([a, b, , d], { at }) => [a, BigInt(at), b, d]],
    504: ['log_count', ([, b, c]) => [b, c]],
    505: ['log_record', ([, b, c], { at }) => [b, BigInt(at), c]],
    506: ['exchange', ([a, b]) => [a, b]],
    507: ['flags', ([, b, c], { buffers: [, , , d] }) => [b, float(d, 0), float(d, 1), c]],
    508: ['route_sample', ([, , c, d], { buffers: [, b] }) => [d, float(b, 0), c]],
    509: ['tick_refusal', ([, b], { buffers: [, , , d] }) => [b, BigInt(word(d, 0)), BigInt(word(d, 1))]],
    510: ['log_check', ([, , c, d], { buffers: [, b] }) => [d, word(b, 0), float(b, 1), float(b, 2), c]],
    511: ['pattern_expand', ([a, , c, d]) => [d, a, c]],
    512: ['desk_tick', ([desk, sticks, image, input, , answer]) => [desk, sticks, image, input, answer]],
    513: ['desk_route_tick', (six) => six],
    514: ['desk_setup', ([desk, sticks]) => [desk, sticks]],
    515: ['desk_centre', ([desk]) => [desk]],
};

/** Whether the bare export gives the stored answer: its number, every stored byte, lent or not, and no byte changed around the buffers. */
export const bare = (exports, section, row) => {
    const [base, gap] = [exports.__heap_base.value, 32];
    let length = gap;
    const places = row.buffers.map(({ stored }) => (length += stored.length + gap) - stored.length - gap);
    const laid = (memory, contents) => {
        memory.fill(0xa5);
        contents.forEach((bytes, k) => memory.set(bytes, places[k]));
        return memory;
    };
    const short = base + length - exports.memory.buffer.byteLength;
    if (short > 0) exports.memory.grow(Math.ceil(short / 65536));
    const memory = laid(new Uint8Array(exports.memory.buffer, base, length), row.buffers.map(({ stored }) => stored));
    const [name, args] = EXPORTS[section];
    const lent = row.buffers.map(({ lent }, k) => [base + places[k], BigInt(lent)]);
    const number = exports[`fosavalo_${name}`](...args(lent, row).flat());
    return number === numberOf(row) && same(memory, laid(new Uint8Array(length), row.left));
};

/** The number of a call's refusal, and what it gave where that is 0. */
const asked = (call) => {
    try {
        return { number: 0, gave: call() };
    } catch (error) {
        if (error instanceof Refusal) return { number: error.number };
        throw error;
    }
};

/** The same through the typed calls: whether the answer is the stored one, or null where they cannot lend such buffers. */
export const typed = (core, deskCore, section, row) => {
    const lent = row.buffers.map(({ stored, lent }) => stored.slice(0, lent));
    const left = row.left.map((bytes, k) => bytes.slice(0, lent[k].length));
    const number = numberOf(row);
    return section < DESK ? typedCore(core, section, row, number, lent, left) : typedDesk(core, deskCore, section, number, lent, left);
};

const givesOf = (number) => (call, expected) => {
    const { number: said, gave } = asked(call);
    return said === number && (number !== 0 || same(gave, expected));
};

const typedCore = (core, section, row, number, [a, b, c, d], [newA, , newC]) => {
    const gives = givesOf(number);
    const onImage = (call) => {
        const { number: said, gave: image } = asked(() => Image.fromBytes(core, a));
        if (said !== 0) return said === number;
        return gives(() => call(image)?.asBytes() ?? newC, newC) && same(image.asBytes(), newA);
    };
    switch (section) {
        case 500:
            return a.length === IMAGE_BYTES ? gives(() => Image.setUp(core, b).asBytes(), newA) : null;
        case 501:
        case 502: {
            if (c.length !== ANSWER_BYTES) return null;
            // by its fields where it has them, so that the words go through these too
            const input = b.length === TICK_BYTES ? { ...TickInput.fromBytes(b) } : b;
            if (section === 501) return onImage((image) => image.tick(input));
            // a route is refused when it is made for what a tick refuses it for
            const made = ![0, 5, 6, 7].includes(number) || asked(() => Route.fromBytes(core, d)).number === number;
            return made && onImage((image) => image.routeTick(input, d));
        }
        case 503: {
            // its room is its own, so it lacks none; and bytes that are no log are refused before there is anything to append
            if (number === 9 || row.at > a.length) return null;
            const { number: said, gave: log } = asked(() => Log.fromBytes(core, a.slice(0, row.at)));
            if (said !== 0) return number === said || null;
            return gives(() => (log.append(b, d), log.asBytes()), newA.slice(0, row.at + RECORD_BYTES));
        }
        case 504:
            return c.length === 4 ? gives(() => new Uint8Array(Uint32Array.of(Log.fromBytes(core, b).length).buffer), newC) : null;
        case 505: {
            if (c.length !== RECORD_BYTES) return null;
            const record = () => Log.fromBytes(core, b).get(row.at) ?? Refusal.check(13);
            return gives(() => record().asBytes(), newC);
        }
        case 506:
            return onImage((image) => image.exchange(b));
        case 507: {
            if (c.length !== b.length >> 2) return null;
            const [, , , thresholds] = row.buffers;
            const pilots = () => core.slowFlags(b, float(thresholds, 0), float(thresholds, 1));
            return gives(() => pilots().map((pilot) => Number(pilot === 'fallback')), newC);
        }
        case 508:
            return c.length === SAMPLE_BYTES ? gives(() => core.sample(d, float(row.buffers[1], 0)).asBytes(), newC) : null;
        case 509: {
            const lengths = [0, 1].map((at) => word(row.buffers[3], at));
            if (lengths[0] !== TICK_BYTES || lengths[1] !== ANSWER_BYTES) return core.calls.tickRefusal(b, ...lengths) === number;
            return asked(() => Image.fromBytes(core, b).check()).number === number;
        }
        case 510: {
            const [, given] = row.buffers;
            const profile = Object.values(Profile)[word(given, 0)];
            if (c.length !== 4 || profile === undefined) return null;
            const checked = () => Log.fromBytes(core, d).check(profile, float(given, 1), float(given, 2));
            return gives(() => new Uint8Array(Uint32Array.of(checked().wrongAt ?? LOG_RIGHT).buffer), newC);
        }
        default: {
            // its room is for any route
            if (c.length !== 4 || number === 9) return null;
            return gives(() => Route.expand(core, d).asBytes(), newA.slice(0, viewOf(newC).getUint32(0, true)));
        }
    }
};

const typedDesk = (core, deskCore, section, number, [desk, sticks, image, input, route, answer], left) => {
    const gives = givesOf(number);
    if (section === 514) return desk.length === DESK_BYTES ? gives(() => Desk.setUp(deskCore, sticks).asBytes(), left[0]) : null;
    const { number: noDesk, gave: own } = asked(() => Desk.fromBytes(deskCore, desk));
    if (noDesk !== 0) return noDesk === number;
    if (section === 515) return gives(() => (own.centre(), own.asBytes()), left[0]);
    // an image is refused when it is made, so before sticks
    const { number: noImage, gave: held } = asked(() => Image.fromBytes(core, image));
    if (answer.length !== ANSWER_BYTES || (noImage !== 0 && number === 16)) return null;
    if (noImage !== 0) return noImage === number;
    const flown = () => (section === 512 ? own.tick(sticks, held, input) : own.routeTick(sticks, held, input, route));
    const after = () => [own.asBytes(), sticks, held.asBytes(), input].every((bytes, k) => same(bytes, left[k]));
    return gives(() => flown().asBytes(), left[5]) && after();
};
