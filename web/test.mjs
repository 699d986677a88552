// node web/test.mjs FOLDER [--damage]: the module on the WebAssembly in FOLDER (fosavalo.wasm, fosavalo_desk.wasm). A line for each group
// of checks, and last `N passed, 0 failed`. What is expected comes from the documents, the headers, the Rust crate's examples and the
// oracle's stored answers. With --damage one bit of one stored answer is changed, and it has to fail.

import assert from 'node:assert/strict';
import { readFile } from 'node:fs/promises';
import * as fosavalo from './fosavalo.js';
import { bare, read, typed } from './answers.mjs';

const { Answer, Core, Desk, DeskCore, DeskSetUp, Image, Leg, Log, LogSeries, Pattern } = fosavalo;
const { Pilot, Profile, Record, Refusal, Route, Sample, SeriesCheck, SetUp, Sticks, TickInput } = fosavalo;
const folder = process.argv.slice(2).find((word) => !word.startsWith('--'));
if (folder === undefined) {
    console.error('node web/test.mjs FOLDER [--damage]: FOLDER holds fosavalo.wasm and fosavalo_desk.wasm');
    process.exit(2);
}
const here = (path) => readFile(new URL(`../${path}`, import.meta.url));
const text = async (path) => String(await here(path));
const [wasm, deskWasm] = [await readFile(`${folder}/fosavalo.wasm`), await readFile(`${folder}/fosavalo_desk.wasm`)];
const headers = (await text('include/fosavalo.h')) + (await text('include/fosavalo_desk.h'));
const list = new Uint8Array(await here('crates/replay/stdin'));
const sections = read(list);

// the memory of the core, to see whether it grows
const { instantiate } = WebAssembly;
let memory;
WebAssembly.instantiate = async (module) => {
    const instance = await instantiate(module);
    ({ memory } = instance.exports);
    return instance;
};
const core = await Core.from(wasm);
WebAssembly.instantiate = instantiate;
const deskCore = await DeskCore.from(deskWasm);
const { exports } = await WebAssembly.instantiate(await WebAssembly.compile(wasm));
const { exports: deskExports } = await WebAssembly.instantiate(await WebAssembly.compile(deskWasm));

const counts = { passed: 0, failed: 0 };
const group = async (name, check) => {
    try {
        const said = await check();
        counts.passed++;
        console.log(`ok      ${name}${said === undefined ? '' : `: ${said}`}`);
    } catch (error) {
        counts.failed++;
        console.log(`FAILED  ${name}: ${error.name}: ${error.message.replace(/\s+/g, ' ')}`);
    }
};

const bytes = (length, value = 0) => new Uint8Array(length).fill(value);
const wordsOf = (bytes) => [...new Uint32Array(new Uint8Array(bytes).buffer)];
const float = (word) => new Float32Array(Uint32Array.of(word).buffer)[0];
const bits = (x) => new Uint32Array(Float32Array.of(x).buffer)[0];
const put = (bytes, at, word) => (new DataView(bytes.buffer).setUint32(4 * at, word, true), bytes);
const refused = (number, call) => assert.throws(call, (error) => error instanceof Refusal && error.number === number, `refused (${number})`);
const quad = SetUp.falconQuad();
const rest = quad.segment;
const still = TickInput.default();

/** The numbers that the headers define, and the places of words; of those that take an axis or a stick, the first three. */
const numbers = [...headers.matchAll(/#define FOSAVALO_(\w+) (0x[0-9a-f]+|\d+)u?\b/g)];
const defined = Object.fromEntries(numbers.map(([, name, x]) => [name, Number(x)]));
const threes = [...headers.matchAll(/#define FOSAVALO_(\w+)\((?:axis|stick)\) \((?:(\d+) \+ )?(\d+) \* \((?:axis|stick)\)\)/g)];
threes.forEach(([, name, first = '0', each]) => (defined[name] = [0, 1, 2].map((k) => Number(first) + k * Number(each))));

await group("the headers' numbers", () => {
    const names = Object.keys(fosavalo).filter((name) => /_(BYTES|LEGS|RECORDS|MARGINS|REPEAT|RIGHT)$/.test(name) || /^MOST_/.test(name));
    assert.equal(names.length, 17);
    names.forEach((name) => assert.equal(fosavalo[name], defined[name], name));
    assert.equal(fosavalo.VERSION, ['MAJOR', 'MINOR', 'PATCH'].map((part) => defined[`VERSION_${part}`]).join('.'));
    return `${names.length} and the version, ${fosavalo.VERSION}`;
});

await group('the types name what there is', async () => {
    const types = await text('web/fosavalo.d.ts');
    const names = [...types.matchAll(/^export (?:class|const) (\w+)/gm)].map(([, name]) => name);
    assert.deepEqual(names.sort(), Object.keys(fosavalo).sort());
    const members = (name) => types.match(new RegExp(`^export (?:class|interface) ${name} .*\\{\\n((?: .*\\n)*)\\}`, 'm'))[1];
    const listed = (name) => [...members(name).matchAll(/^    (?:static |readonly )*(\w+)[(:]/gm)].map(([, member]) => member);
    assert.deepEqual(listed('Calls').sort(), Object.keys(core.calls).sort());
    assert.deepEqual(listed('DeskCalls').sort(), Object.keys(deskCore.calls).sort());
    for (const type of [Image, Route, Pattern, Log, LogSeries, SeriesCheck, Desk]) {
        listed(type.name).forEach((member) => assert.ok(member in type || member in type.prototype, `${type.name}.${member}`));
    }
    return `${names.length} names`;
});

await group("the headers' parameters", () => {
    const prototypes = [...headers.matchAll(/^(?:uint32_t|float) fosavalo_(desk_)?(\w+)\(([^)]*)\);/gm)];
    const camelCase = (name) => name.replace(/_(.)/g, (_, letter) => letter.toUpperCase());
    for (const [, desk, name, parameters] of prototypes) {
        const call = (desk ? deskCore : core).calls[camelCase(name)];
        const all = parameters === 'void' ? [] : parameters.split(', ').map((parameter) => parameter.match(/^(.*?)(\w+)$/).slice(1));
        // a pointer and its length are one
        const pointers = all.filter(([type]) => type.includes('*')).map(([, name]) => `${name}_len`);
        const taken = all.filter(([, name]) => !pointers.includes(name));
        const right = taken.map(([type]) => (type.includes('*') ? bytes(0) : 0));
        taken.forEach(([, name], k) => {
            const message = new RegExp(`^${camelCase(name)} has to be`);
            assert.throws(() => call(...right.slice(0, k)), { name: 'TypeError', message });
        });
        assert.equal(typeof call(...right), 'number', name);
    }
    assert.equal(prototypes.length, Object.keys({ ...core.calls }).length + Object.keys({ ...deskCore.calls }).length);
    return `${prototypes.length} calls`;
});

await group("the headers' words for refusals", () => {
    const cases = [...headers.matchAll(/case FOSAVALO_(\w+):\s*return ((?:\s*"[^"]*"|\s*FOSAVALO_TEXT\(\w+\))+);/g)];
    const numbers = cases.map(([, name, parts]) => {
        const texts = [...parts.matchAll(/"([^"]*)"|FOSAVALO_TEXT\(FOSAVALO_(\w+)\)/g)];
        const said = texts.map(([, words, number]) => words ?? defined[number]).join('');
        const refusal = new Refusal(defined[name]);
        assert.equal(Refusal.meaning(defined[name]), said);
        assert.deepEqual([refusal.number, refusal.meaning, refusal.leg, refusal.name], [defined[name], said, null, 'Refusal']);
        assert.equal(refusal.message, `refused (${defined[name]}): ${said}`);
        return defined[name];
    });
    assert.deepEqual(numbers.sort((x, y) => x - y), Array.from({ length: 17 }, (_, number) => number));
    const [, other] = headers.match(/default:\s*return "([^"]*)";/);
    assert.equal(Refusal.meaning(77), other);
    return `${numbers.length} numbers`;
});

await group('where each word stands', () => {
    // word k is k + 1, but for the names
    const counted = (length) => new Uint8Array(Float32Array.from({ length: length / 4 }, (_, k) => k + 1).buffer);
    const seen = [];
    const holds = (prefix, name, value) => {
        const [place, values] = [defined[`${prefix}_${name}`], [value].flat()];
        const places = Array.isArray(place) ? place : values.map((_, k) => place + k);
        assert.deepEqual(values, places.map((at) => at + 1), `${prefix}_${name}`);
        seen.push(`${prefix}_${name}`);
    };
    const all = (prefix, fields) => Object.entries(fields).forEach(([name, value]) => holds(prefix, name, value));
    const there = (type, bytes) => {
        const value = type.fromBytes(bytes);
        assert.deepEqual(type.toBytes(structuredClone(value)), bytes);
        assert.deepEqual([type.toBytes(value), value.asBytes()], [bytes, bytes]);
        return value;
    };
    const leg = there(Leg, counted(76));
    all('LEG', { P0: leg.p0, V0: leg.v0, A0: leg.a0, PF: leg.pf, VF: leg.vf, AF: leg.af, T: leg.t });
    const input = there(TickInput, counted(68));
    all('TICK', { GYRO: input.gyro, ATTITUDE: input.attitude, TRACKING_ERROR: input.trackingError, YAW: input.yaw });
    all('TICK', { YAW_RATE: input.yawRate, DT: input.dt, PLANNER: input.planner, DELIVERED: input.delivered });
    const answer = there(Answer, put(counted(40), defined.ANSWER_FLAG, 1));
    all('ANSWER', { TORQUE: answer.torque, COMMAND: answer.command, TIME: answer.time, PSI: answer.psi, MARGIN: answer.margin });
    assert.deepEqual([answer.pilot, there(Answer, bytes(40)).pilot], [Pilot.fallback, Pilot.planner]);
    const { gains, set, governor, adrc, filter, ...more } = there(SetUp, put(counted(204), defined.SETUP_PROFILE, 1));
    all('SETUP', { K_R: gains.kR, K_OMEGA: gains.kOmega, J: gains.j, SET_K_R: set.kR, LAMBDA_J: set.lambdaJ, PSI_MAX: set.psiMax });
    all('SETUP', { ENTER: more.enter, EXIT: more.exit, ERR_LO: governor.errLo, ERR_HI: governor.errHi, G_MIN: governor.gMin });
    all('SETUP', { LEG: more.segment.p0, FC: filter.fc, FS: filter.fs });
    all('SETUP', { OMEGA_O: adrc.map((axis) => axis.omegaO), OMEGA_C: adrc.map((axis) => axis.omegaC) });
    all('SETUP', { B0: adrc.map((axis) => axis.b0), TAU: adrc.map((axis) => axis.tau) });
    assert.deepEqual([more.profile, there(SetUp, bytes(204)).profile], [Profile.lostRotor, Profile.whole]);
    const image = Image.fromBytes(core, put(put(counted(396), defined.IMAGE_ENGAGED, 0), defined.IMAGE_PROFILE, 1));
    all('IMAGE', { ENTER: image.enter, EXIT: image.exit, TIME: image.time, PEAKS: image.peakAbsJerk });
    assert.deepEqual([image.pilot, image.profile, Image.fromBytes(core, bytes(396, 2)).profile], ['planner', 'lostRotor', null]);
    const sample = there(Sample, put(counted(52), defined.SAMPLE_LEG, 7));
    all('SAMPLE', { POSITION: sample.position, VELOCITY: sample.velocity, ACCELERATION: sample.acceleration, JERK: sample.jerk });
    assert.equal(sample.leg, 7);
    const sticks = Object.values(there(DeskSetUp, counted(36)));
    all('DESK_SETUP', { OMEGA_N: sticks.map(({ omegaN }) => omegaN), MAX_MAG: sticks.map(({ maxMag }) => maxMag) });
    all('DESK_SETUP', { MAX_RATE: sticks.map(({ maxRate }) => maxRate) });
    const { heading, turn, zoom } = there(Sticks, counted(12));
    assert.deepEqual([heading, turn, zoom], [defined.STICK_HEADING, defined.STICK_TURN, defined.STICK_ZOOM].map((at) => at + 1));
    const desk = Desk.fromBytes(deskCore, counted(60));
    all('DESK', { VALUE: [desk.heading, desk.turn, desk.zoomRate] });
    const record = there(Record, put(counted(108), 17 + defined.ANSWER_FLAG, 1));
    assert.deepEqual([record.input.asBytes(), record.answer.asBytes()], [record.asBytes().slice(0, 68), record.asBytes().slice(68)]);
    // those that are left are lengths, and the three whole numbers
    const named = Object.keys(defined).filter((name) => /^(LEG|TICK|ANSWER|SAMPLE|SETUP|DESK_SETUP)_/.test(name) && !seen.includes(name));
    assert.deepEqual(named.filter((name) => !/_(BYTES|FLAG|PROFILE|SAMPLE_LEG)$/.test(`_${name}`)), []);
    return `${seen.length} names of the headers`;
});

await group('words go in and out as bits', () => {
    const words = (x) => TickInput.toBytes({ ...still, yaw: x }).slice(32, 36);
    const zeros = [[-0, 0x80000000], [0, 0], [1e-45, 1]];
    const expected = [...zeros, [0.1, 0x3dcccccd], [1e39, 0x7f800000], [-Infinity, 0xff800000], [NaN, 0x7fc00000]];
    expected.forEach(([x, word]) => assert.deepEqual(wordsOf(words(x)), [word], String(x)));
    // a NaN of other bits: kept where the very value is given, and the core's where its fields are
    const odd = put(TickInput.toBytes(still), defined.TICK_YAW, 0xffc12345);
    const [log, value] = [new Log(core), TickInput.fromBytes(odd)];
    [odd, value, { ...value }].forEach((input) => log.append(input, bytes(40, 0xff)));
    assert.deepEqual(Array.from(log, (record) => record.input.words()[8]), [0xffc12345, 0xffc12345, 0x7fc00000]);
    assert.deepEqual(log.get(0).asBytes(), Uint8Array.of(...odd, ...bytes(40, 0xff)));
    assert.deepEqual([log.get(0).answer.pilot, log.get(0).answer.words()[6]], [Pilot.fallback, 0xffffffff]);
    const lost = Image.setUp(core, quad).tick({ ...still, yaw: NaN });
    assert.deepEqual([lost.pilot, lost.words()[8], lost.words()[9]], [Pilot.fallback, 0x7fc00000, 0xff800000]);
    // what is taken and what is given out are copies, and what was read is frozen; a slice of node's Buffer would be none
    const source = Buffer.from(Image.setUp(core, quad).asBytes());
    const image = Image.fromBytes(core, source);
    [source, image.asBytes(), log.asBytes()].forEach((copy) => copy.fill(0));
    image.check();
    assert.deepEqual([log.length, log.get(0).input.words()[8]], [3, 0xffc12345]);
    assert.throws(() => { lost.margin = 1; }, TypeError);
    assert.throws(() => { lost.torque[0] = 1; }, TypeError);
});

await group('falconQuad is the Rust crate\'s', () => {
    const stored = (name) => sections.find((section) => section.name === name).rows[0].answered;
    const words = wordsOf(SetUp.toBytes(quad));
    assert.deepEqual(words.slice(0, 9), stored('GeoGains::FALCON_QUAD'));
    // relay's rate control, axis by axis: five words of state, then the gains
    const gains = stored('AdrcRate::falcon_quad');
    assert.deepEqual(words.slice(36, 48), [0, 1, 2].flatMap((axis) => gains.slice(9 * axis + 5, 9 * axis + 9)));
    // the crate: a set of (1, 1, 1.75), enter 0.5, exit 1, a governor of 0.2, 1 and 0.25, at the origin for 1 s, 80 Hz of 1000, all rotors
    const others = [1, 1, 1.75, 0.5, 1, 0.2, 1, 0.25, ...Array(18).fill(0), 1].map(bits);
    assert.deepEqual([words.slice(9, 36), words.slice(48)], [others, [bits(80), bits(1000), 0]]);
    quad.adrc.forEach((axis, k) => quad.adrc.slice(k + 1).forEach((other) => assert.notEqual(axis, other)));
    assert.notEqual(SetUp.falconQuad().gains.kR, quad.gains.kR);
    assert.notEqual(TickInput.default().gyro, still.gyro);
    assert.notEqual(Sticks.default(), Sticks.default());
});

await group('a core of another version, and what is none', async () => {
    const number = (defined.VERSION_MAJOR << 16) + (defined.VERSION_MINOR << 8) + defined.VERSION_PATCH;
    assert.deepEqual([core.calls.version(), deskCore.calls.version()], [number, number]);
    // `i32.const number; end`, in groups of seven bits: its lowest bit changed
    const groups = [number & 127, (number >> 7) & 127, (number >> 14) & 127];
    while (groups.at(-1) === 0 && groups.at(-2) < 64) groups.pop();
    const code = Buffer.from([0x41, ...groups.map((seven, k) => seven | (k < groups.length - 1 ? 128 : 0)), 0x0b]);
    const version = [defined.VERSION_MAJOR, defined.VERSION_MINOR, defined.VERSION_PATCH ^ 1].join('.');
    for (const [type, name, module] of [[Core, 'the flight core', wasm], [DeskCore, "the operator's desk", deskWasm]]) {
        const at = module.indexOf(code);
        assert.ok(at > 0 && module.indexOf(code, at + 1) < 0, 'the version stands in one place');
        const other = Uint8Array.from(module);
        other[at + 1] ^= 1;
        const message = `${name} is of version ${version}, this module of ${fosavalo.VERSION}: take both of one release`;
        await assert.rejects(type.from(other), { message });
    }
    await assert.rejects(Core.from(deskWasm), { message: 'this is not the WebAssembly of the flight core: it has no fosavalo_version' });
    const noDesk = "this is not the WebAssembly of the operator's desk: it has no fosavalo_desk_version";
    await assert.rejects(DeskCore.from(wasm), { message: noDesk });
    await assert.rejects(Core.from(wasm.subarray(1)), WebAssembly.CompileError);
    await assert.rejects(Core.from('fosavalo.wasm'), TypeError);
    await Core.from(await WebAssembly.compile(wasm));
});

// document 01: at 1e38 and 3e38 the filter's b are 0.5, 1 and 0.5, and a1 is -0.0; so its first answer is half of what it is given
const halving = { ...quad, filter: { fc: 1e38, fs: 3e38 } };
const tilted = (x, y, z) => [Math.sqrt(1 - x * x - y * y - z * z), x, y, z];

await group("document 01's figures", () => {
    const tick = (setUp, ...inputs) => {
        const image = Image.setUp(core, setUp);
        const answers = inputs.map((input) => image.tick({ ...still, ...input }));
        return { image, answer: answers.at(-1), at: (name, axis) => float(image.words()[defined[`IMAGE_${name}`][axis]]) };
    };
    // psi is twice the square of the quaternion's vector
    const margins = [[[2, 2, 2], [0.25, 0.25, 0], 0.25, 0.5], [[1, 1, 0], [0.75, 0.5, 0.25], 1.75, 0]];
    margins.forEach(([gyro, vector, psi, margin]) => {
        const { answer } = tick(halving, { gyro, attitude: tilted(...vector) });
        assert.deepEqual([answer.psi, answer.margin], [psi, margin]);
    });
    const gates = [[1, 1], [2, 0.625], [3, 0.25], [NaN, 0.25]];
    const governor = { errLo: 1, errHi: 3, gMin: 0.25 };
    gates.forEach(([trackingError, gate]) => {
        const { image, answer } = tick({ ...quad, governor }, { trackingError, dt: 1 });
        assert.deepEqual([answer.time, image.time], [gate, gate]);
    });
    const { image, at } = tick({ ...quad, segment: { ...rest, pf: [1, 0, 0], t: 2 } });
    assert.deepEqual(['C5', 'C4', 'C3', 'T_END'].map((name) => at(name, 0)), [0.1875, -0.9375, 1.25, 2]);
    assert.deepEqual(image.peakAbsJerk, [97.5, 0, 0]);
    // the second input leaves the filter at 1: half of it, and all of the first
    const [once, twice] = [{ gyro: [2, 0, 0], dt: 0.0625 }, { gyro: [-2, 0, 0], dt: 0.0625, delivered: [0.5, 1, 1] }];
    const adrc = [{ omegaO: 4, omegaC: 2, b0: 2, tau: 0 }, ...quad.adrc.slice(1)];
    [[[once], 0.5, 1, -1], [[once, twice], 0.75, 1.5, -1.5]].forEach(([inputs, z1, z2, u]) => {
        const { answer, at } = tick({ ...halving, adrc }, ...inputs);
        assert.deepEqual([at('Z1', 0), at('Z2', 0), answer.torque[0], answer.pilot], [z1, z2, u, Pilot.planner]);
    });
    const stick = { omegaN: 2, maxMag: 1, maxRate: 0.125 };
    const desk = Desk.setUp(deskCore, { heading: stick, turn: stick, zoom: { ...stick, maxMag: -1 } });
    desk.tick({ heading: 1, turn: -1, zoom: 5 }, Image.setUp(core, quad), { ...still, dt: 0.0625 });
    assert.deepEqual([desk.heading, desk.turn, desk.zoomRate], [0.0078125, -0.0078125, 0]);
    // on a route of one leg as on that leg, desk and all
    const legs = [{ ...rest, pf: [1, 0, 0], t: 2 }];
    const flown = [(desk, image, input) => desk.tick(Sticks.default(), image, input), (desk, image, input) => desk.routeTick(Sticks.default(), image, input, new Route(core, legs))];
    const [plain, routed] = flown.map((fly) => fly(Desk.setUp(deskCore, bytes(36)), Image.setUp(core, { ...quad, segment: legs[0] }), { ...still, yaw: 1 }));
    assert.deepEqual(routed, plain);
    // from rest to rest over 1 m in 2 s: half way at 15/16 m/s, no acceleration, a jerk of -30/8
    const half = { leg: 0, position: [0.5, 0, 0], velocity: [0.9375, 0, 0], acceleration: [0, 0, 0], jerk: [-3.75, 0, 0] };
    [legs[0], new Route(core, legs), new Route(core, legs).asBytes()].forEach((route) => assert.deepEqual({ ...core.sample(route, 1) }, half));
    assert.deepEqual(core.sample(new Route(core, [...legs, { ...rest, p0: [1, 0, 0], pf: [1, 0, 0] }]), NaN).leg, 1);
    const kept = Image.setUp(core, { ...quad, enter: NaN, exit: -1 });
    assert.deepEqual([kept.enter, kept.exit], [0.1, 0.2].map(Math.fround));
});

const table = (await text('crates/shieldtable/stdout')).trim().split('\n').map((line) => line.split(' '));

await group("shieldtable's ten lines", () => {
    refused(Number(table[0][0]), () => Image.fromBytes(core, bytes(396)).tick(still));
    const rows = table.slice(1).map(([, margin, flag]) => ({ margin: float(parseInt(margin, 16)), pilot: Object.values(Pilot)[flag] }));
    assert.equal(rows.length, 9);
    const pilots = rows.map(({ pilot }) => pilot);
    const margins = rows.map(({ margin }) => margin);
    assert.deepEqual(core.slowFlags(margins, 0.5, 1), pilots);
    assert.deepEqual(core.slowFlags(Float32Array.from(margins), 0.5, 1), pilots);
    assert.deepEqual(core.slowFlags(new Uint8Array(Float32Array.from(margins).buffer), 0.5, 1), pilots);
    // flown: attitudes of these margins, 1.75 less psi; what is no number comes as a heading that is none
    const vectors = { 1: [0.5, 0.25, 0.25], 1.5: [0.25, 0.25, 0], 0.75: [0.5, 0.5, 0], 0.5: [0.75, 0.25, 0], 0.25: [0.5, 0.5, 0.5] };
    const [image, log] = [Image.setUp(core, quad), new Log(core)];
    rows.forEach(({ margin, pilot }) => {
        const input = Number.isFinite(margin) ? { ...still, attitude: tilted(...vectors[margin]) } : { ...still, yaw: NaN };
        const answer = image.tick(input);
        assert.deepEqual([answer.margin, answer.pilot, image.pilot], [Number.isFinite(margin) ? margin : -Infinity, pilot, pilot]);
        log.append(input, answer);
    });
    assert.deepEqual(log.check(Profile.whole, 0.5, 1), { right: true, wrongAt: null });
    // a box of another's that writes the table, with one flag the other way
    for (let wrong = 0; wrong <= rows.length; wrong++) {
        const box = new Log(core);
        rows.forEach(({ margin, pilot }, k) => {
            const other = pilot === Pilot.planner ? Pilot.fallback : Pilot.planner;
            box.append(still, { torque: [0, 0, 0], command: [0, 0, 0], pilot: k === wrong ? other : pilot, time: 0, psi: 0, margin });
        });
        const expected = wrong === rows.length ? { right: true, wrongAt: null } : { right: false, wrongAt: wrong };
        assert.deepEqual(box.check('whole', 0.5, 1), expected);
    }
});

await group('sine and cosine', () => {
    // 2^-23, and what the double's own are off by
    const near = (x, y) => assert.ok(Math.abs(x - y) <= 2 ** -23 + 1e-10, `${x} for ${y}`);
    for (let k = -4096; k <= 4096; k++) {
        const x = Math.fround(k * 1.9999);
        near(core.sinf(x), Math.sin(x));
        near(core.cosf(x), Math.cos(x));
    }
    const none = [8192.001, -1e9, Infinity, -Infinity, NaN];
    none.forEach((x) => assert.ok(Object.is(core.sinf(x), 0) && Object.is(core.cosf(x), 0), String(x)));
    assert.ok(Object.is(core.sinf(-0), -0) && Object.is(core.sinf(0), 0) && core.cosf(-0) === 1);
});

/** A route's bytes. */
const routeBytes = (legs, count = legs.length, back = 76 * legs.length) =>
    Uint8Array.of(...legs.flatMap((leg) => [...Leg.toBytes(leg)]), ...new Uint8Array(Uint32Array.of(count, back).buffer));
const emptyLog = new Log(core).asBytes();

await group('refusals in their order, and nothing changed', () => {
    const { calls } = core;
    const image = Image.setUp(core, quad).asBytes();
    const good = { image, input: TickInput.toBytes(still), answer: bytes(40) };
    let count = 0;
    // everything is wrong at first; with each number what it was for is put right
    const order = (call, names, wrong, ...steps) => {
        const args = { ...wrong };
        for (const [number, right] of steps) {
            const lent = names.split(' ').map((name) => (args[name] instanceof Uint8Array ? args[name].slice() : args[name]));
            const before = structuredClone(lent);
            assert.equal(call(...lent), number, `${names}: ${number}`);
            if (number !== 0) assert.deepEqual(lent, before);
            Object.assign(args, right);
            count++;
        }
    };
    const setUp = (profile, fc) => put(SetUp.toBytes({ ...quad, filter: { fc, fs: 1000 } }), defined.SETUP_PROFILE, profile);
    const [noImage, noInput, noAnswer] = [bytes(395, 1), bytes(67, 1), bytes(39, 1)];
    order(calls.setup, 'image input', { image: noImage, input: bytes(203) }, [1, { image: bytes(396) }], [2, { input: setUp(2, 0) }],
        [10, { input: setUp(0, 0) }], [11, { input: setUp(0, 80) }], [0]);
    const toImage = [[1, { image: bytes(396) }], [2, { input: good.input }], [3, { answer: good.answer }], [4, { image }]];
    order(calls.tick, 'image input answer', { image: noImage, input: noInput, answer: noAnswer }, ...toImage, [0]);
    const apart = [rest, { ...rest, p0: [1, 0, 0] }];
    order(calls.routeTick, 'image input route answer', { image: noImage, input: noInput, answer: noAnswer, route: bytes(7) }, ...toImage,
        [6, { route: routeBytes([], 33) }], [5, { route: routeBytes([]) }], [5, { route: routeBytes(apart, 2, 76) }],
        [6, { route: routeBytes(apart) }], [7, { route: routeBytes([rest, rest]) }], [0]);
    order(calls.routeSample, 'route time sample', { route: bytes(7), time: NaN, sample: bytes(51) }, [3, { sample: bytes(52) }],
        [6, { route: routeBytes([], 33) }], [5, { route: routeBytes([]) }], [5, { route: routeBytes(apart, 2, 76) }],
        [6, { route: routeBytes(apart) }], [7, { route: routeBytes([rest, rest]) }], [0]);
    order(calls.tickRefusal, 'image input answer', { image: noImage, input: 67, answer: 39 }, [1, { image: bytes(396) }],
        [2, { input: 68 }], [3, { answer: 40 }], [4, { image }], [0]);
    order(calls.exchange, 'image leg', { image: noImage, leg: bytes(75) }, [1, { image: bytes(396) }], [2, { leg: bytes(76) }],
        [4, { image }], [0]);
    const log = Uint8Array.of(...emptyLog, ...bytes(107));
    order(calls.logAppend, 'log at input answer', { log: bytes(119), at: 12, input: noInput, answer: noAnswer }, [2, { input: good.input }],
        [3, { answer: good.answer }], [8, { log }], [9, { log: Uint8Array.of(...log, 0) }], [0]);
    order(calls.logCount, 'log count', { log: bytes(12), count: bytes(3) }, [2, { count: bytes(4) }], [8, { log: emptyLog }], [0]);
    const one = new Log(core);
    one.append(good.input, good.answer);
    order(calls.logRecord, 'log at record', { log: bytes(12), at: 1n, record: bytes(107) }, [14, { record: bytes(108) }],
        [8, { log: one.asBytes() }], [13, { at: 0n }], [0]);
    order(calls.logCheck, 'log profile enter exit verdict', { log: bytes(12), profile: 2, enter: 0.5, exit: 1, verdict: bytes(3) },
        [2, { verdict: bytes(4) }], [8, { log: emptyLog }], [10, { profile: 1 }], [0]);
    order(calls.flags, 'margins enter exit flags', { margins: bytes(4 * 65536), enter: 0.5, exit: 1, flags: bytes(65536, 7) },
        [9, { margins: bytes(7), flags: bytes(2, 7) }], [9, { margins: bytes(8) }], [0]);
    const pattern = (legs) => Uint8Array.of(...legs.flatMap((leg) => [0, ...Leg.toBytes(leg)]));
    order(calls.patternExpand, 'pattern route written', { pattern: Uint8Array.of(2), route: bytes(159), written: bytes(3) },
        [2, { written: bytes(4) }], [12, { pattern: pattern([]) }], [5, { pattern: pattern(apart) }], [9, { route: bytes(160) }],
        [7, { pattern: pattern([rest, rest]) }], [0]);
    order(deskCore.calls.setup, 'desk input', { desk: bytes(59), input: bytes(35) }, [15, { desk: bytes(60) }],
        [16, { input: bytes(36) }], [0]);
    order(deskCore.calls.centre, 'desk', { desk: bytes(61, 1) }, [15, { desk: bytes(60, 1) }], [0]);
    const noTick = { desk: bytes(59), sticks: bytes(11), image: noImage, input: noInput, answer: noAnswer };
    order(deskCore.calls.tick, 'desk sticks image input answer', noTick, [15, { desk: bytes(60) }],
        [16, { sticks: bytes(12) }], ...toImage, [0]);
    order(deskCore.calls.routeTick, 'desk sticks image input route answer', { ...noTick, route: bytes(7) }, [15, { desk: bytes(60) }],
        [16, { sticks: bytes(12) }], ...toImage, [6, { route: routeBytes([]) }], [5, { route: routeBytes(apart) }],
        [7, { route: routeBytes([rest, rest]) }], [0]);
    return `${count} calls`;
});

await group('the same by the typed calls', () => {
    const image = Image.setUp(core, quad);
    const before = image.asBytes();
    const off = { ...quad, filter: { fc: 0, fs: 1000 } };
    refused(1, () => Image.fromBytes(core, bytes(384)));
    refused(2, () => Image.setUp(core, bytes(203)));
    refused(2, () => image.tick(bytes(67)));
    refused(2, () => image.exchange(bytes(75)));
    refused(2, () => Leg.fromBytes(bytes(75)));
    refused(3, () => Answer.fromBytes(bytes(41)));
    refused(3, () => Sample.fromBytes(bytes(51)));
    refused(6, () => core.sample(bytes(7), 0));
    refused(4, () => Image.fromBytes(core, bytes(396)).check());
    refused(4, () => Image.fromBytes(core, bytes(396)).exchange(rest));
    refused(5, () => new Route(core, []));
    refused(5, () => new Route(core, Array(33).fill(rest)));
    refused(6, () => image.routeTick(still, bytes(7)));
    refused(7, () => image.routeTick(still, routeBytes([rest, { ...rest, p0: [1, 0, 0] }])));
    refused(8, () => Log.fromBytes(core, bytes(12)));
    const taken = memory.buffer.byteLength;
    refused(8, () => Log.fromBytes(core, bytes(65536 * 108 + 12)));
    assert.equal(memory.buffer.byteLength, taken, 'what is longer than any log takes no memory');
    refused(9, () => core.slowFlags(Array(65536).fill(0), 0.5, 1));
    refused(9, () => core.slowFlags(bytes(7), 0.5, 1));
    refused(10, () => SetUp.fromBytes(bytes(204, 2)));
    refused(10, () => Image.setUp(core, bytes(204, 2)));
    refused(11, () => Image.setUp(core, off));
    refused(12, () => Pattern.fromBytes(core, Uint8Array.of(1, 10, 0, 0)));
    refused(14, () => Record.fromBytes(bytes(107)));
    refused(15, () => Desk.fromBytes(deskCore, bytes(59)));
    refused(16, () => Desk.setUp(deskCore, bytes(35)));
    assert.deepEqual(image.asBytes(), before);
    // a refused append leaves the log, a refused desk tick desk, image and input
    const log = new Log(core);
    refused(2, () => log.append(bytes(67), bytes(40)));
    refused(3, () => log.append(still, bytes(41)));
    assert.deepEqual([log.asBytes(), log.length, log.get(0), [...log]], [emptyLog, 0, undefined, []]);
    const [desk, blank, input] = [Desk.fromBytes(deskCore, bytes(60, 1)), Image.fromBytes(core, bytes(396)), { ...still, yaw: 0.25 }];
    refused(4, () => desk.tick(Sticks.default(), blank, input));
    refused(16, () => desk.tick(bytes(11), image, input));
    refused(7, () => desk.routeTick(Sticks.default(), image, input, routeBytes([rest, { ...rest, p0: [1, 0, 0] }])));
    assert.throws(() => desk.tick({ heading: 1, turn: 1, zoom: 1 }, image, Object.freeze({ ...still })), TypeError);
    assert.deepEqual([desk.asBytes(), blank.asBytes(), input.yaw, image.asBytes()], [bytes(60, 1), bytes(396), 0.25, before]);
});

await group('arguments that are none', () => {
    const image = Image.setUp(core, quad);
    const before = image.asBytes();
    const named = (call, name, words) =>
        assert.throws(call, (error) => error instanceof TypeError && error.message.startsWith(`${name} ${words}`), name);
    let count = 0;
    /** Each number, name and list of a value, by its path; then the value with another in its place. */
    const each = function* (value, path = []) {
        for (const [key, part] of Object.entries(value)) {
            yield [...path, key];
            if (typeof part === 'object') yield* each(part, [...path, key]);
        }
    };
    const spoilt = (value, path, part) => {
        const copy = structuredClone(value);
        const last = path.slice(0, -1).reduce((inner, key) => inner[key], copy);
        if (part === undefined) delete last[path.at(-1)];
        else last[path.at(-1)] = part;
        return copy;
    };
    const answer = structuredClone(image.tick(still));
    const stick = { omegaN: 1, maxMag: 1, maxRate: 1 };
    const deskSetUp = { heading: { ...stick }, turn: { ...stick }, zoom: { ...stick } };
    const restored = Image.fromBytes(core, before);
    const [desk, log] = [Desk.setUp(deskCore, deskSetUp), new Log(core)];
    const values = [
        ['setUp', quad, (value) => Image.setUp(core, value)],
        ['input', still, (value) => restored.tick(value)],
        ['input', still, (value) => restored.routeTick(value, new Route(core, [rest]))],
        ['input', still, (value) => desk.tick(Sticks.default(), restored, value)],
        ['input', still, (value) => desk.routeTick(Sticks.default(), restored, value, new Route(core, [rest]))],
        ['input', still, (value) => log.append(value, answer)],
        ['answer', answer, (value) => log.append(still, value)],
        ['leg', rest, (value) => restored.exchange(value)],
        ['leg', rest, (value) => new Pattern(core).leg(value)],
        ['leg', rest, (value) => core.sample(value, 0)],
        ['legs[1]', rest, (value) => new Route(core, [rest, value])],
        ['deskSetUp', deskSetUp, (value) => Desk.setUp(deskCore, value)],
        ['sticks', Sticks.default(), (value) => desk.tick(value, restored, still)],
    ];
    for (const [argument, value, call] of values) {
        for (const path of each(value)) {
            const name = argument + path.map((key) => (/^\d+$/.test(key) ? `[${key}]` : `.${key}`)).join('');
            const held = path.reduce((inner, key) => inner[key], value);
            const others = [undefined, null, '1', true, 1n, () => 1, Symbol('x'), typeof held === 'number' ? [1] : 1, {}];
            const wrong = Array.isArray(held) ? [...others, held.slice(1), [...held, 1], new Float32Array(held.length + 1)] : others;
            // an empty object lacks its first field
            const plain = typeof held === 'object' && !Array.isArray(held);
            wrong.forEach((part) => {
                const fields = plain && part && typeof part === 'object' && !Array.isArray(part);
                named(() => call(spoilt(value, path, part)), fields ? `${name}.${Object.keys(held)[0]}` : name, fields ? '' : 'has to be');
                count++;
            });
            if (plain) named(() => call(spoilt(value, [...path, 'yawrate'], 1)), `${name}.yawrate`, 'is no field');
        }
        [undefined, null, 5, '', [value], Float32Array.of(1)].forEach((other) => named(() => call(other), argument, 'has to be an object'));
        named(() => call({ ...value, yawrate: 1 }), `${argument}.yawrate`, 'is no field');
        count += 7;
    }
    const others = [
        ['core', () => Image.setUp(quad)],
        ['core', () => new Route(undefined, [rest])],
        ['core', () => new Log()],
        ['core', () => new Pattern(deskCore)],
        ['core', () => Desk.setUp(core, deskSetUp)],
        ['bytes', () => Image.fromBytes(core)],
        ['bytes', () => Image.fromBytes(core, [1, 2])],
        ['bytes', () => Log.fromBytes(core, 'log')],
        ['bytes', () => Log.fromBytes(core, new ArrayBuffer(12))],
        ['bytes', () => Pattern.fromBytes(core, null)],
        ['bytes', () => Route.fromBytes(core, [rest])],
        ['bytes', () => TickInput.fromBytes(new Float32Array(17))],
        ['legs', () => new Route(core, rest)],
        ['route', () => image.routeTick(still, [rest])],
        ['image', () => desk.tick(Sticks.default(), before, still)],
        ['route', () => desk.routeTick(Sticks.default(), restored, still, [rest])],
        ['time', () => core.sample(rest, '0')],
        ['inner', () => new Pattern(core).repeat(2, [rest])],
        ['count', () => new Pattern(core).repeat(1.5, new Pattern(core))],
        ['count', () => new Pattern(core).repeat('2', new Pattern(core))],
        ['pattern', () => Route.expand(core, new Pattern(core))],
        ['place', () => log.get(-1)],
        ['place', () => log.get(0.5)],
        ['place', () => log.get('0')],
        ['place', () => log.get(1n << 64n)],
        ['profile', () => log.check(0, 0.5, 1)],
        ['enter', () => log.check('whole')],
        ['exit', () => log.check('whole', 0.5, '1')],
        ['margins', () => core.slowFlags(1, 0.5, 1)],
        ['margins[1]', () => core.slowFlags([1, '1'], 0.5, 1)],
        ['margins[0]', () => core.slowFlags(Array(1), 0.5, 1)],
        ['enter', () => core.slowFlags([1], null, 1)],
        ['x', () => core.sinf('1')],
        ['x', () => core.cosf()],
        ['image', () => core.calls.tick([...before], bytes(68), bytes(40))],
        ['answer', () => core.calls.tick(before, bytes(68))],
        ['inputLen', () => core.calls.tickRefusal(before, -1, 40)],
        ['profile', () => core.calls.logCheck(emptyLog, 2 ** 32, 0.5, 1, bytes(4))],
    ];
    others.forEach(([name, call]) => named(call, name, 'has to be'));
    assert.deepEqual([restored.asBytes(), log.asBytes(), desk.asBytes()], [before, emptyLog, Desk.setUp(deskCore, deskSetUp).asBytes()]);
    return `${count + others.length} named`;
});

await group("the Rust crate's examples", () => {
    const image = Image.setUp(core, quad);
    const fly = (x) => [image.tick({ ...still, attitude: tilted(x, 0, 0) })].map(({ margin, pilot }) => [margin, pilot])[0];
    const flew = [[0.96875, 'fallback'], [1.25, 'planner'], [0.96875, 'planner'], [0.4296875, 'fallback']];
    assert.deepEqual([0.625, 0.5, 0.625, 0.8125].map(fly), flew);

    const lost = Image.setUp(core, { ...quad, profile: Profile.lostRotor });
    const spinning = lost.tick({ ...still, gyro: [0, 0, 20], yaw: NaN, planner: [0.5, 0, 2] });
    assert.deepEqual([spinning.pilot, spinning.margin, spinning.command, spinning.torque[2]], ['planner', 1.75, [0.5, 0, 0], 0]);
    assert.equal(lost.profile, Profile.lostRotor);

    const other = Image.setUp(core, quad);
    other.tick({ ...still, dt: 0.5 });
    assert.deepEqual([other.time, other.pilot], [0.5, 'planner']);
    other.exchange({ ...rest, pf: [1, 0, 0], t: 2 });
    assert.deepEqual([other.time, other.pilot, other.peakAbsJerk], [0, 'planner', [97.5, 0, 0]]);

    const out = { ...rest, pf: [3, 0, 0], vf: [0.5, 0, 0], t: 4 };
    const home = { ...rest, p0: out.pf, v0: out.vf, pf: [0, 0, 0], t: 6 };
    const route = new Route(core, [rest, out, home]);
    assert.equal(Image.setUp(core, quad).routeTick({ ...still, dt: 2 }, route).time, 2);
    const meaning = 'leg 3 of the route does not start where leg 2 ends';
    assert.throws(() => new Route(core, [rest, out, rest]), { number: 7, leg: 2, meaning, message: `refused (7): ${meaning}` });
    const three = new Route(core, Array(3).fill(rest));
    assert.equal(three.asBytes().length, 3 * 76 + 8);
    assert.deepEqual(Route.fromBytes(core, three.asBytes()).asBytes(), three.asBytes());
    refused(6, () => Route.fromBytes(core, three.asBytes().slice(1)));

    const [there, back] = [{ ...rest, pf: [3, 0, 0], t: 4 }, { ...rest, p0: [3, 0, 0], t: 6 }];
    const pattern = new Pattern(core).leg(rest).repeat(3, new Pattern(core).leg(there).leg(back));
    const flown = [rest, there, back, there, back, there, back];
    assert.deepEqual(structuredClone(pattern.expand().legs()), flown);
    assert.deepEqual([pattern.expand().length, pattern.expand().asBytes()], [7, routeBytes(flown)]);
    refused(7, () => new Pattern(core).repeat(2, new Pattern(core).leg(there)).expand());
    refused(5, () => Pattern.fromBytes(core, Uint8Array.of(1, 9, 0, 0)).expand());
    const deep = [1, 2, 3, 4].reduce((inner, count) => new Pattern(core).repeat(count, inner), new Pattern(core));
    assert.deepEqual([...deep.asBytes()], [1, 4, 12, 0, 1, 3, 8, 0, 1, 2, 4, 0, 1, 1, 0, 0]);
    refused(12, () => new Pattern(core).repeat(1, deep));
    [0, 10, 256, 257].forEach((count) => refused(12, () => deep.repeat(count, new Pattern(core))));
    // 852 legs of zeros are more than a repeat can say that it holds
    refused(12, () => deep.repeat(1, Pattern.fromBytes(core, bytes(77 * 852))));
    assert.equal(deep.asBytes().length, 16);

    const [night, log] = [Image.setUp(core, quad), new Log(core)];
    [0.5, NaN, -0].forEach((roll) => {
        const input = { ...still, planner: [roll, 0, 0] };
        log.append(input, night.tick(input));
    });
    assert.deepEqual(log.check(Profile.whole, 0.5, 1), { right: true, wrongAt: null });
    log.append(still, { ...night.tick(still), pilot: Pilot.fallback });
    assert.deepEqual(log.check(Profile.whole, 0.5, 1), { right: false, wrongAt: 3 });
    const read = Log.fromBytes(core, log.asBytes());
    assert.deepEqual([read.length, read.get(4), Array.from(read, ({ input }) => input.planner[0])], [4, undefined, [0.5, NaN, -0, 0]]);
    refused(8, () => Log.fromBytes(core, log.asBytes().slice(1)));

    // half a turn at most, and no faster than 0.5 rad/s
    const stick = { omegaN: 2, maxMag: Math.fround(3.1), maxRate: 0.5 };
    const desk = Desk.setUp(deskCore, { heading: stick, turn: { ...stick, maxMag: 0.5 }, zoom: stick });
    const [input, sticks] = [{ ...still, dt: 0.0625 }, { heading: 1, turn: 0, zoom: -1 }];
    const [byDesk, byHand, byBytes] = Array.from({ length: 3 }, () => Image.setUp(core, quad));
    const fresh = desk.asBytes();
    const answer = desk.tick(sticks, byDesk, input);
    assert.deepEqual([desk.heading, desk.turn, desk.zoomRate, input.yaw, input.yawRate], [0.015625, 0, -0.015625, 0.015625, 0]);
    // the core has ticked on the input that was written
    assert.deepEqual([byHand.tick(input).words(), byHand.asBytes()], [answer.words(), byDesk.asBytes()]);
    const written = TickInput.toBytes({ ...still, dt: 0.0625 });
    Desk.fromBytes(deskCore, fresh).tick(sticks, byBytes, written);
    assert.deepEqual([written, byBytes.asBytes()], [TickInput.toBytes(input), byDesk.asBytes()]);
    desk.centre();
    assert.deepEqual([desk.heading, desk.zoomRate, Desk.fromBytes(deskCore, bytes(60, 255)).heading], [0, 0, NaN]);
});

await group('a log of 65,535 records, and memory', () => {
    const [image, log] = [Image.setUp(core, quad), new Log(core)];
    const small = memory.buffer.byteLength;
    const input = TickInput.toBytes(still);
    for (let k = 0; k < 2000; k++) image.tick(still);
    assert.equal(memory.buffer.byteLength, small, 'ticks take no memory');
    let last;
    for (let k = 0; k < 65535; k++) log.append(input, (last = image.tick(input)));
    refused(9, () => log.append(input, last));
    assert.deepEqual([log.length, log.asBytes().length, log.get(65535)], [65535, 65535 * 108 + 12, undefined]);
    assert.deepEqual([log.get(65534).answer.words(), log.get(65534).input.asBytes()], [last.words(), input]);
    assert.deepEqual(log.check('whole', quad.enter, quad.exit), { right: true, wrongAt: null });
    const large = memory.buffer.byteLength;
    const read = Log.fromBytes(core, log.asBytes());
    // nothing that a call left in the memory is read again
    core.calls.logCount(bytes(65535 * 108, 0xa5), bytes(4));
    // times never fall, so the records come in their order
    let [count, time] = [0, 0];
    for (const { answer } of read) {
        assert.ok(answer.time >= time);
        [count, time] = [count + 1, answer.time];
    }
    assert.deepEqual([count, read.asBytes()], [65535, log.asBytes()]);
    const wrong = read.asBytes();
    wrong[108 * 65534 + 68 + 24] ^= 1;
    assert.deepEqual(Log.fromBytes(core, wrong).check('whole', 0.5, 1), { right: false, wrongAt: 65534 });
    assert.equal(memory.buffer.byteLength, large, 'a second such log takes no more');
    return `${small >> 10} KiB, with the log ${large >> 10} KiB`;
});

/** A record's bytes: its flag, its margin and the word of its command's first part; all else is 0. */
const recordOf = (flag, margin, command = 0) => {
    const view = new DataView(new ArrayBuffer(108));
    view.setUint32(80, command, true);
    view.setUint32(92, flag, true);
    view.setFloat32(104, margin, true);
    return new Uint8Array(view.buffer);
};
/** A log of these records' bytes, one after another. */
const logOf = (data) => {
    const all = new Uint8Array(data.length + 12);
    all.set(data);
    [data.length / 108, data.length, 108].forEach((word, k) => new DataView(all.buffer).setUint32(data.length + 4 * k, word, true));
    return Log.fromBytes(core, all);
};
const together = (logs, ...rule) => {
    const check = new SeriesCheck(core, ...rule);
    logs.forEach((log) => check.log(log));
    return check.verdict;
};

await group('logs that go on, cut anywhere, get the verdict of the whole', () => {
    let state = 88172645;
    const below = (n) => {
        state = Math.imul(state ^ (state >>> 15), 0x2c1b3c6d) + 0x9e3779b9 | 0;
        return (state >>> 8) % n;
    };
    const of = (list) => list[below(list.length)];
    const margins = [0.25, 0.5, 0.75, 1, 1.5, NaN, Infinity, -Infinity, -1, Math.fround(3.4028234663852886e38), 0.1, 0.15, 0.3, 1e-45, 3e-45];
    const thresholds = [[0.5, 1], [0.5, Math.fround(3.4028234663852886e38)], [NaN, 1], [0.5, 0.25], [1e-45, 3e-45], [3e38, 0]];
    let [right, wrong, carried] = [0, 0, 0];
    for (let turn = 0; turn < 6000; turn++) {
        const [[enter, exit], profile] = [of(thresholds), of(['whole', 'lostRotor'])];
        const image = Image.setUp(core, { ...quad, enter, exit });
        let [data, engaged] = [[], true];
        for (let k = below(14); k > 0; k--) {
            const margin = Math.fround(of(margins));
            engaged = engaged ? !(Number.isFinite(margin) && margin > image.exit) : !Number.isFinite(margin) || margin < image.enter;
            const flag = turn % 3 && below(12) === 0 ? below(3) : Number(engaged);
            data.push(recordOf(flag, margin, turn % 3 && below(40) === 0 ? of([1, 0x7fc00000]) : 0));
        }
        const bytesOf = (from, to) => Uint8Array.of(...data.slice(from, to).flatMap((record) => [...record]));
        const whole = logOf(bytesOf(0, data.length)).check(profile, enter, exit);
        const cuts = [0, ...Array.from({ length: below(5) }, () => below(data.length + 1)), data.length].sort((a, b) => a - b);
        const logs = cuts.slice(1).map((cut, k) => logOf(bytesOf(cuts[k], cut)));
        assert.deepEqual(together(logs, profile, enter, exit), whole, `round ${turn}, ${cuts}`);
        whole.right ? right++ : wrong++;
        carried += Number(cuts.some((cut) => cut > 0 && cut < data.length && data[cut - 1][92] === 0));
    }
    assert.ok(Math.min(right, wrong, carried) > 600, `${[right, wrong, carried]}`);
    return `${right} right, ${wrong} wrong, ${carried} cut where the planner flies`;
});

await group('full logs of other boxes, and a series of our own', () => {
    const most = 65535;
    const records = new Uint8Array(108 * 3 * most);
    for (let k = 0; k < 3 * most; k++) records.set(recordOf(0, k === 0 ? 1.5 : 0.75), 108 * k);
    const logs = () => [0, 1, 2].map((k) => logOf(records.subarray(108 * most * k, 108 * most * (k + 1))));
    assert.deepEqual(together(logs(), 'whole', 0.5, 1), { right: true, wrongAt: null });
    for (const place of [0, 1, most - 1, most, 2 * most - 2, 2 * most - 1, 2 * most, 3 * most - 1]) {
        const before = records.slice(108 * place, 108 * place + 108);
        records.set(recordOf(1, 0.75, 0x7f800000), 108 * place);
        assert.deepEqual(together(logs(), 'whole', 0.5, 1), { right: false, wrongAt: place });
        records.set(before, 108 * place);
    }

    const series = new LogSeries(core);
    assert.deepEqual([series.length, series.logs().map((log) => log.asBytes()), series.check('whole', 0.5, 1).right], [0, [emptyLog], true]);
    const [image, flown] = [Image.setUp(core, quad), []];
    // still for a while, then a roll with a margin in the band: the planner flies across the first seam. Then one below enter: the fallback across the second
    const inputs = [0, 1.75, 2.2].map((roll) => TickInput.toBytes({ ...still, gyro: [roll, 0, 0] }));
    for (let tick = 0; tick < 2 * 65534 + 4466; tick++) {
        const input = inputs[(tick > 1000) + (tick > 100000)];
        const answer = image.tick(input).asBytes();
        series.append(input, answer);
        if (tick % 9973 === 0) flown.push([tick, answer]);
    }
    assert.deepEqual(series.logs().map((log) => log.length), [65534, 65534, 4466]);
    assert.deepEqual([series.length, series.check('whole', 0.5, 1)], [2 * 65534 + 4466, { right: true, wrongAt: null }]);
    flown.forEach(([tick, answer]) => assert.deepEqual(series.logs()[Math.floor(tick / 65534)].get(tick % 65534).answer.asBytes(), answer));
    // by itself, as if a flight began there, the second is wrong at once
    assert.deepEqual(series.logs().map((log) => log.check('whole', 0.5, 1).wrongAt), [null, 0, null]);
    let [count, time] = [0, 0];
    for (const { answer } of series) [count, time] = [count + 1, answer.time];
    assert.deepEqual([count, time], [series.length, image.time]);
});

await group('a check of a series: who flies, where it is wrong, what does not count', () => {
    const [first, second] = [logOf(recordOf(0, 1.5)), logOf(Uint8Array.of(...recordOf(0, 0.75), ...recordOf(0, 0.25)))];
    const check = new SeriesCheck(core, 'whole', 0.5, 1);
    assert.deepEqual([check.verdict, check.pilot], [{ right: true, wrongAt: null }, 'fallback']);
    assert.deepEqual([check.log(first), check.pilot], [{ right: true, wrongAt: null }, 'planner']);
    refused(8, () => check.log(bytes(12)));
    assert.deepEqual([check.verdict.right, check.pilot], [true, 'planner']);
    assert.deepEqual([second.check('whole', 0.5, 1).wrongAt, check.log(second.asBytes()), check.log(first)], [0, { right: false, wrongAt: 2 }, check.verdict]);
    const series = new LogSeries(core);
    for (let k = 0; k < 65534; k++) series.append(bytes(68), bytes(40));
    refused(2, () => series.append(bytes(67), bytes(40)));
    refused(3, () => series.append(bytes(68), bytes(41)));
    assert.deepEqual(series.logs().map((log) => log.length), [65534]);
    series.append(bytes(68), bytes(40));
    assert.deepEqual(series.logs().map((log) => log.length), [65534, 1]);
    for (const [name, call] of [
        ['core', () => new LogSeries()],
        ['core', () => new SeriesCheck(undefined, 'whole', 0.5, 1)],
        ['profile', () => new SeriesCheck(core, 0, 0.5, 1)],
        ['exit', () => new SeriesCheck(core, 'whole', 0.5)],
        ['bytes', () => check.log('log')],
    ]) assert.throws(call, (error) => error instanceof TypeError && error.message.startsWith(`${name} has to be`), name);
});

const lines = (await text('crates/replay/stdout')).split('\n');
const expected = new Map(lines.map((line) => [line.slice(0, 48).trimEnd(), parseInt(line.slice(48), 10)]));
const calls = sections.filter(({ number }) => number >= 500);
const exportsOf = (number) => (number < 512 ? exports : deskExports);
if (process.argv.includes('--damage')) {
    // one bit of one answer, which are the list's own bytes
    const { rows } = calls.find(({ number }) => number === 501);
    rows[700].all[rows[700].all.length - 9] ^= 4;
}
for (const { number, name, rows } of calls) {
    await group(`stored answers, ${number} ${name}`, () => {
        assert.equal(rows.length, expected.get(name), 'rows as in crates/replay/stdout');
        const differ = rows.map((row, k) => (bare(exportsOf(number), number, row) ? -1 : k)).filter((k) => k >= 0);
        assert.deepEqual(differ, [], `the bare calls differ in rows ${differ}`);
        const said = rows.map((row) => typed(core, deskCore, number, row));
        assert.deepEqual(said.filter((right) => right === false).length, 0, `the typed calls differ in row ${said.indexOf(false)}`);
        return `${rows.length} compared, 0 differ; by the typed calls ${said.filter((right) => right).length}, 0 differ`;
    });
}

await group('one bit changed in each stored answer', () => {
    assert.deepEqual(calls.map(({ number }) => number), Array.from({ length: 16 }, (_, k) => 500 + k));
    let count = 0;
    for (const { number, rows } of calls) {
        rows.forEach((row, k) => {
            const at = (7919 * k) % row.all.length;
            row.all[at] ^= 1 << k % 8;
            assert.equal(bare(exportsOf(number), number, row), false, `${number}, row ${k}`);
            row.all[at] ^= 1 << k % 8;
            count++;
        });
    }
    return `${count} rows, and every one is found`;
});

console.log(`${counts.passed} passed, ${counts.failed} failed`);
process.exitCode = counts.failed === 0 ? 0 : 1;
