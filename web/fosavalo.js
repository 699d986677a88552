// Fosavalo in JavaScript: the proved flight core as WebAssembly, in the shape of the Rust crate (host/fosavalo). README.md has its use,
// fosavalo.d.ts says what each thing is.
//
// All state is bytes on this side. A call works on copies of its buffers, which stand in the core's memory behind __heap_base while it
// runs, and what it wrote is copied back only where it returns 0. So a refused call changes nothing, and that memory keeps nothing from
// call to call.

/** This module's version; a core of another is refused. */
export const VERSION = '0.15.0';

export const [IMAGE_BYTES, SETUP_BYTES, TICK_BYTES, ANSWER_BYTES] = [396, 204, 68, 40];
export const [LEG_BYTES, ROUTE_TRAILER_BYTES, MOST_LEGS, SAMPLE_BYTES, DEEPEST_REPEAT] = [76, 8, 32, 52, 4];
export const [RECORD_BYTES, LOG_TRAILER_BYTES, MOST_RECORDS, MOST_MARGINS, LOG_RIGHT] = [108, 12, 65535, 65535, 0xffffffff];
/** What a LogSeries puts into a log, one fewer than fit: so each can be checked behind one record more. */
export const IN_SERIES_MOST = MOST_RECORDS - 1;
export const [DESK_BYTES, DESK_SETUP_BYTES, STICKS_BYTES] = [60, 36, 12];

const MEANINGS = [
    'done',
    `the image is not ${IMAGE_BYTES} bytes long`,
    `the input is not ${SETUP_BYTES} bytes long at set-up, ${LEG_BYTES} at an exchange, ${TICK_BYTES} at a tick and in a log, ` +
        "or what takes a log's count, its verdict or a route's length is not 4",
    `the answer is not ${ANSWER_BYTES} bytes long, or the sample not ${SAMPLE_BYTES}`,
    'the image is none that set-up, a tick or an exchange leaves',
    `a route has 1 to ${MOST_LEGS} legs`,
    `the route's length or its bytes back do not go with its count of legs of ${LEG_BYTES} bytes, with ${ROUTE_TRAILER_BYTES} more`,
    'a leg of the route does not start where the one before it ends',
    `the log's length, its count, its bytes back and its last word, ${RECORD_BYTES}, do not go together`,
    `the buffer has no room for ${RECORD_BYTES} bytes more, or the log has ${MOST_RECORDS} records; or there is not a flag for each ` +
        `margin, or more than ${MOST_MARGINS} of them; or a pattern's route does not fit its buffer`,
    'the profile is neither 0 nor 1',
    'the gyro would not be filtered: the cut-off fc has to be above 0 and below half of the sample rate fs; one below fs / 25586 would switch the gyro off',
    'the pattern has a tag, a count, a depth or a length that none has',
    'the log has no record at that place',
    `the record is not ${RECORD_BYTES} bytes long`,
    `the desk is not ${DESK_BYTES} bytes long`,
    `what is said of the sticks is not ${DESK_SETUP_BYTES} bytes long at set-up, ${STICKS_BYTES} at a tick`,
];

export class Refusal extends Error {
    constructor(number, leg = null) {
        const meaning = leg === null ? Refusal.meaning(number) : `leg ${leg + 1} of the route does not start where leg ${leg} ends`;
        super(`refused (${number}): ${meaning}`);
        Object.assign(this, { name: 'Refusal', number, meaning, leg });
    }

    static meaning(number) { return MEANINGS[number] ?? 'a number that this version has no words for'; }
    static check(number) { if (number !== 0) throw new Refusal(number); }
}

// Arguments: each of these hands on what is right, and says of anything else by its name what it has to be.
const told = (x) => {
    if (Array.isArray(x) || ArrayBuffer.isView(x)) return `${x.constructor.name} of length ${x.length}`;
    return ['object', 'function', 'undefined'].includes(typeof x) ? `${x && typeof x}` : `the ${typeof x} ${String(x)}`;
};
const need = (right, x, name, asked) => {
    if (right) return x;
    throw new TypeError(`${name} has to be ${asked}, not ${told(x)}`);
};
const typed = (type, x, name) => need(x instanceof type, x, name, `a ${type.name}`);
const among = (names, x, name) => names.indexOf(need(names.includes(x), x, name, `one of ${names.join(', ')}`));
const isList = (x) => [Array, Float32Array, Float64Array].some((type) => x instanceof type);
const NUMBERS = {
    f32: (x, name) => need(typeof x === 'number', x, name, 'a number'),
    u32: (x, name) => need(Number.isInteger(x) && x >= 0 && x < 2 ** 32, x, name, 'a whole number of 32 bits'),
    u64: (x, name) => {
        const right = typeof x === 'bigint' ? x >= 0n && x < 1n << 64n : Number.isSafeInteger(x) && x >= 0;
        return BigInt(need(right, x, name, 'a whole number of 64 bits'));
    },
};

export const Pilot = Object.freeze({ planner: 'planner', fallback: 'fallback' });
export const Profile = Object.freeze({ whole: 'whole', lostRotor: 'lostRotor' });
const [PILOTS, PROFILES] = [Object.values(Pilot), Object.values(Profile)];

// Words in bytes, little-endian. What they are is told by a sample: a number is a float, a bigint a whole number, a name stands by its place in its list, and
// an array or an object has its parts one after another.
const viewOf = (bytes) => new DataView(bytes.buffer, bytes.byteOffset, bytes.byteLength);
const wordAt = (bytes, at) => viewOf(bytes).getUint32(4 * at, true);
const floatAt = (bytes, at) => viewOf(bytes).getFloat32(4 * at, true);
const concat = (...parts) => {
    const all = new Uint8Array(parts.reduce((sum, part) => sum + part.length, 0));
    parts.reduce((at, part) => (all.set(part, at), at + part.length), 0);
    return all;
};
const namesOf = (sample) => (PILOTS.includes(sample) ? PILOTS : PROFILES);
const sizeOf = (sample) => (typeof sample === 'object' ? Object.values(sample).reduce((sum, part) => sum + sizeOf(part), 0) : 4);

/** Writes a value from a place on, and gives the place behind it. */
const put = (sample, value, name, view, at) => {
    if (typeof sample === 'number') {
        view.setFloat32(at, NUMBERS.f32(value, name), true);
        // whichever NaN an engine would write: the core's own
        if (Number.isNaN(value)) view.setUint32(at, 0x7fc00000, true);
        return at + 4;
    }
    if (typeof sample === 'bigint') return view.setUint32(at, NUMBERS.u32(value, name), true), at + 4;
    if (typeof sample === 'string') return view.setUint32(at, among(namesOf(sample), value, name), true), at + 4;
    if (Array.isArray(sample)) {
        need(isList(value) && value.length === sample.length, value, name, `an array of length ${sample.length}`);
        return sample.reduce((at, part, k) => put(part, value[k], `${name}[${k}]`, view, at), at);
    }
    need(typeof value === 'object' && value !== null && !isList(value), value, name, 'an object');
    const kept = Words.kept(sample, value);
    if (kept) return new Uint8Array(view.buffer).set(kept, at), at + kept.length;
    // a misspelt name would leave the field that was meant as it is
    const unknown = Object.keys(value).find((key) => !Object.hasOwn(sample, key));
    if (unknown !== undefined) throw new TypeError(`${name}.${unknown} is no field; the fields are ${Object.keys(sample).join(', ')}`);
    return Object.keys(sample).reduce((at, key) => put(sample[key], value[key], `${name}.${key}`, view, at), at);
};
const written = (sample, value, name) => {
    const bytes = new Uint8Array(sizeOf(sample));
    put(sample, value, name, viewOf(bytes), 0);
    return bytes;
};
const take = (sample, view, at) => {
    if (typeof sample === 'number') return view.getFloat32(at, true);
    if (typeof sample === 'bigint') return view.getUint32(at, true);
    if (typeof sample === 'string') {
        const [names, word] = [namesOf(sample), view.getUint32(at, true)];
        // a flag that is neither 0 nor 1, which no tick writes, counts as the fallback's
        if (names === PROFILES && word > 1) throw new Refusal(10);
        return names[word && 1];
    }
    let next = at;
    const parts = Object.entries(sample).map(([key, part]) => [key, take(part, view, (next += sizeOf(part)) - sizeOf(part))]);
    if (Array.isArray(sample)) return Object.freeze(parts.map(([, value]) => value));
    return new Words(sample, new Uint8Array(view.buffer, view.byteOffset + at, next - at), Object.fromEntries(parts));
};

let own; // for this module: the bytes themselves
/** Bytes that are kept, and given out as copies. */
class Held {
    #bytes;

    constructor(bytes, length = bytes.length, refusal = 0) {
        if (typed(Uint8Array, bytes, 'bytes').length !== length) throw new Refusal(refusal);
        this.#bytes = new Uint8Array(bytes);
    }

    static { own = (held) => held.#bytes; }
    static fromBytes(core, bytes) { return new this(core, typed(Uint8Array, bytes, 'bytes')); }
    asBytes() { return new Uint8Array(this.#bytes); }
    words() { return Uint32Array.from({ length: this.#bytes.length >> 2 }, (_, at) => wordAt(this.#bytes, at)); }
}

/** Fields that were read from bytes, frozen; where such a value is given, its very bits are. */
class Words extends Held {
    #sample;

    constructor(sample, bytes, parts) {
        super(bytes);
        this.#sample = sample;
        Object.freeze(Object.assign(this, parts));
    }

    static kept(sample, value) { return #sample in value && value.#sample === sample ? own(value) : null; }
}

const struct = (name, sample, refusal, more) => Object.freeze({
    toBytes: (value) => written(sample, value, name),
    fromBytes(bytes) {
        if (typed(Uint8Array, bytes, 'bytes').length !== sizeOf(sample)) throw new Refusal(refusal);
        return take(sample, viewOf(bytes), 0);
    },
    ...more,
});
/** A Uint8Array is the bytes themselves, of any bits and any length, and the core judges it. */
const given = (type, value) => (value instanceof Uint8Array ? value : type.toBytes(value));

const FALCON_QUAD = {
    gains: { kR: [0.6, 0.6, 0.15], kOmega: [0.12, 0.12, 0.35], j: [0.0217, 0.0217, 0.04] },
    set: { kR: 1, lambdaJ: 1, psiMax: 1.75 },
    enter: 0.5,
    exit: 1,
    governor: { errLo: 0.2, errHi: 1, gMin: 0.25 },
    segment: { p0: [0, 0, 0], v0: [0, 0, 0], a0: [0, 0, 0], pf: [0, 0, 0], vf: [0, 0, 0], af: [0, 0, 0], t: 1 },
    adrc: [
        { omegaO: 40, omegaC: 12, b0: 60, tau: 0.0125 },
        { omegaO: 40, omegaC: 12, b0: 60, tau: 0.0125 },
        { omegaO: 30, omegaC: 3, b0: 18, tau: 0.025 },
    ],
    filter: { fc: 80, fs: 1000 },
    profile: Profile.whole,
};
const STILL = {
    gyro: [0, 0, 0], attitude: [1, 0, 0, 0], trackingError: 0, yaw: 0, yawRate: 0, dt: 0.001, planner: [0, 0, 0], delivered: [1, 1, 1],
};
const LEG = FALCON_QUAD.segment;
const ANSWER = { torque: [0, 0, 0], command: [0, 0, 0], pilot: Pilot.planner, time: 0, psi: 0, margin: 0 };
const [STICK, STICKS] = [{ omegaN: 0, maxMag: 0, maxRate: 0 }, { heading: 0, turn: 0, zoom: 0 }];
export const Leg = struct('leg', LEG, 2);
export const SetUp = struct('setUp', FALCON_QUAD, 2, { falconQuad: () => structuredClone(FALCON_QUAD) });
export const TickInput = struct('input', STILL, 2, { default: () => structuredClone(STILL) });
export const Answer = struct('answer', ANSWER, 3);
export const Sample = struct('sample', { leg: 0n, position: [0, 0, 0], velocity: [0, 0, 0], acceleration: [0, 0, 0], jerk: [0, 0, 0] }, 3);
export const Record = struct('record', { input: STILL, answer: ANSWER }, 14);
export const DeskSetUp = struct('deskSetUp', { heading: STICK, turn: STICK, zoom: STICK }, 16);
export const Sticks = struct('sticks', STICKS, 16, { default: () => structuredClone(STICKS) });

// The C calls; `mut` is a buffer that is written.
const CORE_CALLS = {
    version: [],
    sinf: ['x f32'],
    cosf: ['x f32'],
    setup: ['image mut', 'input'],
    exchange: ['image mut', 'segment'],
    tick: ['image mut', 'input', 'answer mut'],
    route_tick: ['image mut', 'input', 'route', 'answer mut'],
    route_sample: ['route', 'time f32', 'sample mut'],
    tick_refusal: ['image', 'inputLen u64', 'answerLen u64'],
    log_append: ['buffer mut', 'logLen u64', 'input', 'answer'],
    log_count: ['log', 'count mut'],
    log_record: ['log', 'place u64', 'record mut'],
    log_check: ['log', 'profile u32', 'enter f32', 'exit f32', 'verdict mut'],
    flags: ['margins', 'enter f32', 'exit f32', 'flags mut'],
    pattern_expand: ['pattern', 'route mut', 'written mut'],
};
const DESK_CALLS = {
    version: [],
    setup: ['desk mut', 'input'],
    centre: ['desk mut'],
    tick: ['desk mut', 'sticks', 'image mut', 'input mut', 'answer mut'],
    route_tick: ['desk mut', 'sticks', 'image mut', 'input mut', 'route', 'answer mut'],
};

/** A buffer of which these ranges alone are copied: it is lent to a call that looks at no other byte and writes none. */
class Part {
    constructor(bytes, ...ranges) { Object.assign(this, { bytes, ranges }); }
}

/** The calls on byte arrays of any length and content; each gives its number. Those of another version are refused. */
const load = async (source, what, prefix, table) => {
    // with await: a browser may refuse to compile at once on the page's own thread
    const module = source instanceof WebAssembly.Module ? source : await WebAssembly.compile(source);
    const { exports } = await WebAssembly.instantiate(module);
    const missing = ['memory', '__heap_base', ...Object.keys(table).map((name) => prefix + name)].find((name) => !(name in exports));
    if (missing) throw new Error(`this is not the WebAssembly of ${what}: it has no ${missing}`);
    const { memory } = exports;
    const call = (entry, parameters, args) => {
        const lent = [];
        let end = exports.__heap_base.value;
        const flat = parameters.flatMap(([name, kind], k) => {
            if (kind in NUMBERS) return [NUMBERS[kind](args[k], name)];
            const { bytes, ranges } = args[k] instanceof Part ? args[k] : new Part(typed(Uint8Array, args[k], name), [0, Infinity]);
            const at = end;
            end += 16 * Math.ceil(bytes.length / 16);
            ranges.forEach(([from, to]) => lent.push({ bytes: bytes.subarray(from, to), at: at + from, mut: kind === 'mut' }));
            return [at, BigInt(bytes.length)];
        });
        const short = end - memory.buffer.byteLength;
        if (short > 0) memory.grow(Math.ceil(short / 65536));
        const all = new Uint8Array(memory.buffer);
        lent.forEach(({ bytes, at }) => all.set(bytes, at));
        const number = entry(...flat);
        if (number === 0) lent.filter(({ mut }) => mut).forEach(({ bytes, at }) => bytes.set(all.subarray(at, at + bytes.length)));
        return number;
    };
    const bound = Object.entries(table).map(([name, list]) => {
        const parameters = list.map((parameter) => `${parameter} bytes`.split(' '));
        const camelCase = name.replace(/_(.)/g, (_, letter) => letter.toUpperCase());
        return [camelCase, (...args) => call(exports[prefix + name], parameters, args)];
    });
    const calls = Object.freeze(Object.fromEntries(bound));
    const number = calls.version();
    const version = [number >>> 16, (number >>> 8) & 255, number & 255].join('.');
    if (version !== VERSION) throw new Error(`${what} is of version ${version}, this module of ${VERSION}: take both of one release`);
    return calls;
};

/** What a call writes into a buffer of this length. */
const filled = (length, call) => {
    const bytes = new Uint8Array(length);
    Refusal.check(call(bytes));
    return bytes;
};

/** It keeps no state: one serves any number of images. */
export class Core {
    constructor(calls) { Object.freeze(Object.assign(this, { calls, sinf: calls.sinf, cosf: calls.cosf })); }

    static async from(source) { return new Core(await load(source, 'the flight core', 'fosavalo_', CORE_CALLS)); }

    sample(route, time) {
        const bytes = route instanceof Uint8Array ? route : route instanceof Route ? own(route) : routeOf(Leg.toBytes(route));
        return Sample.fromBytes(filled(SAMPLE_BYTES, (sample) => this.calls.routeSample(bytes, time, sample)));
    }

    slowFlags(margins, enter, exit) {
        need(margins instanceof Uint8Array || isList(margins), margins, 'margins', 'an array');
        const words = margins instanceof Uint8Array ? margins : written(Array(margins.length).fill(0), margins, 'margins');
        const flags = filled(words.length >> 2, (flags) => this.calls.flags(words, enter, exit, flags));
        return Array.from(flags, (flag) => PILOTS[flag]);
    }
}

export class Image extends Held {
    #calls;

    constructor(core, bytes) {
        super(bytes, IMAGE_BYTES, 1);
        this.#calls = typed(Core, core, 'core').calls;
    }

    static setUp(core, setUp) {
        const { calls } = typed(Core, core, 'core');
        return new Image(core, filled(IMAGE_BYTES, (image) => calls.setup(image, given(SetUp, setUp))));
    }

    tick(input) {
        return Answer.fromBytes(filled(ANSWER_BYTES, (answer) => this.#calls.tick(own(this), given(TickInput, input), answer)));
    }

    routeTick(input, route) {
        const legs = route instanceof Uint8Array ? route : own(typed(Route, route, 'route'));
        return Answer.fromBytes(filled(ANSWER_BYTES, (answer) => this.#calls.routeTick(own(this), given(TickInput, input), legs, answer)));
    }

    exchange(leg) { Refusal.check(this.#calls.exchange(own(this), given(Leg, leg))); }
    check() { Refusal.check(this.#calls.tickRefusal(own(this), TICK_BYTES, ANSWER_BYTES)); }
    get enter() { return floatAt(own(this), 13); }
    get exit() { return floatAt(own(this), 14); }
    get pilot() { return PILOTS[wordAt(own(this), 15) && 1]; }
    get time() { return floatAt(own(this), 16); }
    get profile() { return PROFILES[wordAt(own(this), 95)] ?? null; }
    get peakAbsJerk() { return [96, 97, 98].map((at) => floatAt(own(this), at)); }
}

const routeOf = (legs) => {
    const trailer = new Uint8Array(ROUTE_TRAILER_BYTES);
    [legs.length / LEG_BYTES, legs.length].forEach((word, at) => viewOf(trailer).setUint32(4 * at, word, true));
    return concat(legs, trailer);
};

/** Checked when it is made, by a sample of the core's: so no second judge has to agree with it. */
export class Route extends Held {
    constructor(core, legs) {
        super(legs instanceof Uint8Array ? legs : routeOf(written(Array(typed(Array, legs, 'legs').length).fill(LEG), legs, 'legs')));
        const { calls } = typed(Core, core, 'core');
        const ask = (route) => calls.routeSample(route, 0, new Uint8Array(SAMPLE_BYTES));
        const number = ask(own(this));
        // which leg: each two are asked about in turn
        const two = (leg) => routeOf(own(this).subarray(LEG_BYTES * (leg - 1), LEG_BYTES * (leg + 1)));
        for (let leg = 1; number === 7 && leg < this.length; leg++) if (ask(two(leg)) === 7) throw new Refusal(7, leg);
        Refusal.check(number);
    }

    static expand(core, pattern) {
        const { calls } = typed(Core, core, 'core');
        const bytes = new Uint8Array(MOST_LEGS * LEG_BYTES + ROUTE_TRAILER_BYTES);
        const length = wordAt(filled(4, (length) => calls.patternExpand(pattern, bytes, length)), 0);
        return new Route(core, bytes.subarray(0, length));
    }

    get length() { return Math.floor(own(this).length / LEG_BYTES); }
    legs() { return take(Array(this.length).fill(LEG), viewOf(own(this)), 0); }
}

export class Pattern {
    #core;
    #bytes = new Uint8Array(0);

    constructor(core) { this.#core = typed(Core, core, 'core'); }
    static fromBytes(core, bytes) { return new Pattern(core).#add(typed(Uint8Array, bytes, 'bytes')); }
    leg(leg) { return this.#add([0], Leg.toBytes(leg)); }
    repeat(count, inner) {
        const { length } = typed(Pattern, inner, 'inner').#bytes;
        if (NUMBERS.u32(count, 'count') > 255 || length > 65535) throw new Refusal(12);
        return this.#add([1, count, length & 255, length >> 8], inner.#bytes);
    }

    #add(...parts) {
        // items behind a pattern make one if they are one by themselves; that is judged before the room for a route, of which there is none
        const items = concat(...parts);
        if (this.#core.calls.patternExpand(items, new Uint8Array(0), new Uint8Array(4)) === 12) throw new Refusal(12);
        this.#bytes = concat(this.#bytes, items);
        return this;
    }

    expand() { return Route.expand(this.#core, this.#bytes); }
    asBytes() { return new Uint8Array(this.#bytes); }
}

/** To append, count and read, a call looks at the log's last three words and one record, so no more is copied, however long the log is. */
export class Log {
    #calls;
    #buffer = Uint8Array.of(0, 0, 0, 0, 0, 0, 0, 0, RECORD_BYTES, 0, 0, 0);
    #end = LOG_TRAILER_BYTES;

    constructor(core) { this.#calls = typed(Core, core, 'core').calls; }
    static fromBytes(core, bytes) {
        const log = new Log(core);
        // it is none if it is longer than any: no memory is taken to be told so
        if (typed(Uint8Array, bytes, 'bytes').length > MOST_RECORDS * RECORD_BYTES + LOG_TRAILER_BYTES) throw new Refusal(8);
        Refusal.check(log.#calls.logCount(bytes, new Uint8Array(4)));
        [log.#buffer, log.#end] = [new Uint8Array(bytes), bytes.length];
        return log;
    }

    append(input, answer) {
        const end = this.#end + RECORD_BYTES;
        if (end > this.#buffer.length) {
            const longer = new Uint8Array(2 * end);
            longer.set(this.#buffer);
            this.#buffer = longer;
        }
        const buffer = new Part(this.#buffer.subarray(0, end), [this.#end - LOG_TRAILER_BYTES, end]);
        Refusal.check(this.#calls.logAppend(buffer, this.#end, given(TickInput, input), given(Answer, answer)));
        this.#end = end;
    }

    #lent(...ranges) { return new Part(this.#buffer.subarray(0, this.#end), ...ranges, [this.#end - LOG_TRAILER_BYTES, this.#end]); }
    get length() { return wordAt(filled(4, (count) => this.#calls.logCount(this.#lent(), count)), 0); }
    get(place) {
        const record = new Uint8Array(RECORD_BYTES);
        const at = Math.min(RECORD_BYTES * Number(NUMBERS.u64(place, 'place')), this.#end);
        const number = this.#calls.logRecord(this.#lent([at, at + RECORD_BYTES]), place, record);
        if (number === 13) return undefined;
        Refusal.check(number);
        return Record.fromBytes(record);
    }

    *[Symbol.iterator]() { for (let place = 0, record; (record = this.get(place)); place++) yield record; }
    check(profile, enter, exit) {
        const [log, profileWord] = [this.#buffer.subarray(0, this.#end), among(PROFILES, profile, 'profile')];
        const word = wordAt(filled(4, (verdict) => this.#calls.logCheck(log, profileWord, enter, exit, verdict)), 0);
        return word === LOG_RIGHT ? { right: true, wrongAt: null } : { right: false, wrongAt: word };
    }

    asBytes() { return this.#buffer.slice(0, this.#end); }
}

export class LogSeries {
    #core;
    #logs;

    constructor(core) { [this.#core, this.#logs] = [core, [new Log(core)]]; }
    append(input, answer) {
        const last = this.#logs.at(-1);
        if (last.length < IN_SERIES_MOST) return last.append(input, answer);
        const next = new Log(this.#core);
        next.append(input, answer);
        this.#logs.push(next);
    }

    logs() { return [...this.#logs]; }
    get length() { return this.#logs.reduce((sum, log) => sum + log.length, 0); }
    *[Symbol.iterator]() { for (const log of this.#logs) yield* log; }
    check(profile, enter, exit) {
        const check = new SeriesCheck(this.#core, profile, enter, exit);
        this.#logs.forEach((log) => check.log(log));
        return check.verdict;
    }
}

/** A record that releases a fresh shield: the greatest margin of all. Where exit is as great it releases nothing; but then no margin does, and nobody asks for it. */
const RELEASE = Uint8Array.of(...new Uint8Array(RECORD_BYTES - 4), 0xff, 0xff, 0x7f, 0x7f);

export class SeriesCheck {
    #core;
    #rule;
    #pilot = 'fallback';
    #records = 0;
    #wrongAt = null;

    constructor(core, profile, enter, exit) {
        among(PROFILES, profile, 'profile');
        [this.#core, this.#rule] = [typed(Core, core, 'core'), [profile, NUMBERS.f32(enter, 'enter'), NUMBERS.f32(exit, 'exit')]];
    }

    log(log) {
        const own = log instanceof Log ? log : Log.fromBytes(this.#core, log);
        const data = own.asBytes().subarray(0, own.length * RECORD_BYTES);
        let [pilot, records, wrongAt, at] = [this.#pilot, this.#records, this.#wrongAt, 0];
        while (at < data.length && wrongAt === null) {
            const carried = pilot === 'planner' ? RELEASE : new Uint8Array(0);
            const piece = data.subarray(at, at + MOST_RECORDS * RECORD_BYTES - carried.length);
            const count = (carried.length + piece.length) / RECORD_BYTES;
            const trailer = new Uint8Array(LOG_TRAILER_BYTES);
            [count, count * RECORD_BYTES, RECORD_BYTES].forEach((word, k) => viewOf(trailer).setUint32(4 * k, word, true));
            const checked = Log.fromBytes(this.#core, concat(carried, piece, trailer));
            const verdict = checked.check(...this.#rule);
            if (verdict.right) pilot = checked.get(count - 1).answer.pilot;
            else wrongAt = records + Math.max(verdict.wrongAt - carried.length / RECORD_BYTES, 0);
            at += piece.length;
            records += piece.length / RECORD_BYTES;
        }
        [this.#pilot, this.#records, this.#wrongAt] = [pilot, records, wrongAt];
        return this.verdict;
    }

    get verdict() { return { right: this.#wrongAt === null, wrongAt: this.#wrongAt }; }
    get pilot() { return this.#pilot; }
}

export class DeskCore {
    constructor(calls) { Object.freeze(Object.assign(this, { calls })); }
    static async from(source) { return new DeskCore(await load(source, "the operator's desk", 'fosavalo_desk_', DESK_CALLS)); }
}

export class Desk extends Held {
    #calls;

    constructor(core, bytes) {
        super(bytes, DESK_BYTES, 15);
        this.#calls = typed(DeskCore, core, 'core').calls;
    }

    static setUp(core, setUp) {
        const { calls } = typed(DeskCore, core, 'core');
        return new Desk(core, filled(DESK_BYTES, (desk) => calls.setup(desk, given(DeskSetUp, setUp))));
    }

    centre() { Refusal.check(this.#calls.centre(own(this))); }
    tick(sticks, image, input) { return this.#fly(this.#calls.tick, sticks, image, input); }
    routeTick(sticks, image, input, route) {
        return this.#fly(this.#calls.routeTick, sticks, image, input, route instanceof Uint8Array ? route : own(typed(Route, route, 'route')));
    }

    #fly(call, sticks, image, input, ...route) {
        const [desk, held] = [this.asBytes(), typed(Image, image, 'image').asBytes()];
        const [flown, answer] = [new Uint8Array(given(TickInput, input)), new Uint8Array(ANSWER_BYTES)];
        Refusal.check(call(desk, given(Sticks, sticks), held, flown, ...route, answer));
        // the input first: one that is frozen throws here, and nothing has changed
        if (input instanceof Uint8Array) input.set(flown);
        else Object.assign(input, { yaw: floatAt(flown, 8), yawRate: floatAt(flown, 9) });
        own(this).set(desk);
        own(image).set(held);
        return Answer.fromBytes(answer);
    }

    get heading() { return floatAt(own(this), 3); }
    get turn() { return floatAt(own(this), 8); }
    get zoomRate() { return floatAt(own(this), 13); }
}
