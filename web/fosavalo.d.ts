// The types of fosavalo.js. The Rust crate's pages (`make docs`) and include/fosavalo.h say more of what each number means.
//
// Where a call's type says so, a Uint8Array may stand in place of a value: the words themselves, of any bits and any length, which the core
// judges. Numbers become the nearest 32-bit float, so 0.1 reads back as 0.10000000149011612, and a NaN becomes 7fc00000. A field that is
// missing, unknown or of another type is a TypeError that names it. A refused call throws a Refusal and has changed nothing.

export const VERSION: string;
export const IMAGE_BYTES: 396;
export const SETUP_BYTES: 204;
export const TICK_BYTES: 68;
export const ANSWER_BYTES: 40;
export const LEG_BYTES: 76;
export const ROUTE_TRAILER_BYTES: 8;
export const MOST_LEGS: 32;
export const SAMPLE_BYTES: 52;
export const DEEPEST_REPEAT: 4;
export const RECORD_BYTES: 108;
export const LOG_TRAILER_BYTES: 12;
export const MOST_RECORDS: 65535;
/** The most that a LogSeries puts into a log. */
export const IN_SERIES_MOST: 65534;
export const MOST_MARGINS: 65535;
export const LOG_RIGHT: 0xffffffff;
export const DESK_BYTES: 60;
export const DESK_SETUP_BYTES: 36;
export const STICKS_BYTES: 12;

/** Why a call was refused: the documents' number, with its meaning in words. */
export class Refusal extends Error {
    readonly name: 'Refusal';
    readonly number: number;
    readonly meaning: string;
    /** Of number 7 where a Route is made: the leg that does not start where the one before it ends, counted from 0. Else null. */
    readonly leg: number | null;
    constructor(number: number, leg?: number | null);
    /** What a call's number means, in words. */
    static meaning(number: number): string;
    /** Throws the refusal of a call's number, unless it is 0. */
    static check(number: number): void;
}

/** Whose rate command is flown: the flag's 0 and 1. */
export type Pilot = 'planner' | 'fallback';
export const Pilot: { readonly planner: 'planner'; readonly fallback: 'fallback' };

/** What there is to fly with: all rotors, or all but one. */
export type Profile = 'whole' | 'lostRotor';
export const Profile: { readonly whole: 'whole'; readonly lostRotor: 'lostRotor' };

export type Three = readonly [number, number, number] | Float32Array | Float64Array;
export type Four = readonly [number, number, number, number] | Float32Array | Float64Array;
type Numbers = readonly number[] | Float32Array | Float64Array;

/** What was read from bytes: frozen, with its bits. Given to a call it goes there bit for bit; `{ ...value }` is its fields alone. */
export interface Bits {
    asBytes(): Uint8Array;
    words(): Uint32Array;
}

/** A value's words, to and from bytes. Those of a wrong length are refused. */
interface Struct<Given, Read> {
    toBytes(value: Given): Uint8Array;
    fromBytes(bytes: Uint8Array): Read & Bits;
}

/** A flight from one state to another along a quintic on each axis: north, east, down, in metres and seconds (TickInput tells the axes). */
export interface Leg {
    p0: Three;
    v0: Three;
    a0: Three;
    pf: Three;
    vf: Three;
    af: Three;
    t: number;
}
export type Segment = Leg;
export const Leg: Struct<Leg, Readonly<Leg>>;

export interface SetUp {
    gains: { kR: Three; kOmega: Three; j: Three };
    set: { kR: number; lambdaJ: number; psiMax: number };
    /** Below this margin the fallback takes over. Kept if finite and above 0, else 0.1. */
    enter: number;
    /** Above this margin the planner gets control back. Kept if finite and above enter, else twice enter. */
    exit: number;
    governor: { errLo: number; errHi: number; gMin: number };
    segment: Leg;
    adrc: readonly AdrcGains[];
    /** Refused unless fc is above 0 and below half of fs. */
    filter: { fc: number; fs: number };
    profile: Profile;
}
export interface AdrcGains {
    omegaO: number;
    omegaC: number;
    b0: number;
    tau: number;
}
export const SetUp: Struct<SetUp, Readonly<SetUp>> & {
    /** relay's own gains for its quadrotor, hovering at the origin; a new object each time. */
    falconQuad(): SetUp;
};

/**
 * What a tick is given.
 *
 * Axes, signs, units. The world's axes are north, east and down, in metres and seconds. The body's are forward (x), right (y) and down (z). The attitude takes the body's axes to the world's: a unit
 * quaternion of Hamilton's form, w x y z; it is not normalised here. A heading is in rad, clockwise from north as seen from above. Rates are about the body's axes, rad/s, by the right hand: a
 * roll above 0 lowers the right side, a pitch above 0 raises the nose, a yaw above 0 turns it to the right. A torque has the same signs and is no moment in N m: one unit is what turns
 * its axis by b0 of the set-up, rad/s^2. The thrust is not the core's. docs/axes.svg of the repository draws the axes.
 */
export interface TickInput {
    /** rad/s about the body's axes, as measured, not filtered. */
    gyro: Three;
    /** The estimated attitude: a quaternion, w x y z, body to north-east-down. */
    attitude: Four;
    /** How far the aircraft is from the trajectory, m. */
    trackingError: number;
    /** The wanted heading, rad, clockwise from north; one that is no number leaves the fallback to fly. */
    yaw: number;
    yawRate: number;
    /** Since the last tick, s. */
    dt: number;
    /** What the planner wants, rad/s. */
    planner: Three;
    /** Which part of the last answer's torque the motors delivered. */
    delivered: Three;
}
export const TickInput: Struct<TickInput, Readonly<TickInput>> & {
    /** Level and still at a millisecond's step, the planner wanting nothing, everything delivered; a new object each time. */
    default(): TickInput;
};

/** What a tick answers; TickInput tells the axes, signs and units. */
export interface Answer {
    /** About the body's axes, in units of b0 rad/s^2. */
    readonly torque: Three;
    /** rad/s: the pilot's command, its non-finite numbers made zero. */
    readonly command: Three;
    readonly pilot: Pilot;
    /** Along the trajectory, s. */
    readonly time: number;
    /** One minus the cosine of the attitude's error; NaN where no attitude is wanted. */
    readonly psi: number;
    /** What is left before the set is lost; minus infinity where that is not known. */
    readonly margin: number;
}
export const Answer: Struct<Answer, Answer>;

/** Where a route is at a time: north, east, down, in metres and seconds. Its distance from the aircraft is a tick's tracking error. */
export interface Sample {
    /** The leg flown, counted from 0. */
    readonly leg: number;
    readonly position: Three;
    readonly velocity: Three;
    /** With the jerk what a tick at that time is guided by. */
    readonly acceleration: Three;
    readonly jerk: Three;
}
export const Sample: Struct<Sample, Sample>;

/** One tick of a log: what it was given and what it answered. */
export interface Record {
    readonly input: Readonly<TickInput> & Bits;
    readonly answer: Answer & Bits;
}
export const Record: Struct<{ input: TickInput; answer: Answer }, Record>;

/** The C calls (include/fosavalo.h), on bytes of any length and content. Each gives its number; no byte changes unless that is 0. */
export interface Calls {
    version(): number;
    sinf(x: number): number;
    cosf(x: number): number;
    setup(image: Uint8Array, input: Uint8Array): number;
    exchange(image: Uint8Array, segment: Uint8Array): number;
    tick(image: Uint8Array, input: Uint8Array, answer: Uint8Array): number;
    routeTick(image: Uint8Array, input: Uint8Array, route: Uint8Array, answer: Uint8Array): number;
    routeSample(route: Uint8Array, time: number, sample: Uint8Array): number;
    tickRefusal(image: Uint8Array, inputLen: number | bigint, answerLen: number | bigint): number;
    logAppend(buffer: Uint8Array, logLen: number | bigint, input: Uint8Array, answer: Uint8Array): number;
    logCount(log: Uint8Array, count: Uint8Array): number;
    logRecord(log: Uint8Array, place: number | bigint, record: Uint8Array): number;
    logCheck(log: Uint8Array, profile: number, enter: number, exit: number, verdict: Uint8Array): number;
    flags(margins: Uint8Array, enter: number, exit: number, flags: Uint8Array): number;
    patternExpand(pattern: Uint8Array, route: Uint8Array, written: Uint8Array): number;
}

/** The flight core. It keeps no state: one serves any number of images. */
export class Core {
    private constructor();
    /** From the bytes of fosavalo.wasm, or its compiled module. Refuses another version than VERSION. */
    static from(source: BufferSource | WebAssembly.Module): Promise<Core>;
    readonly calls: Calls;
    /** In radians: within 2^-23 up to 8192 in size; +0 beyond it and for what is no number. */
    readonly sinf: (x: number) => number;
    readonly cosf: (x: number) => number;
    /** Where a route, or a leg by itself, is at a time on the governor's clock: below 0 its start; past the end, and at NaN, its end. */
    sample(route: Route | Readonly<Leg> | Uint8Array, time: number): Sample & Bits;
    /** Who flies at each of these margins, by looking back; refused (9) above MOST_MARGINS. */
    slowFlags(margins: Numbers | Uint8Array, enter: number, exit: number): Pilot[];
}

/** The state that goes from tick to tick. */
export class Image {
    private constructor();
    static setUp(core: Core, setUp: SetUp | Uint8Array): Image;
    /** Refused (1) unless it is 396 bytes; whether it is broken, check() and the next call tell. */
    static fromBytes(core: Core, bytes: Uint8Array): Image;
    tick(input: Readonly<TickInput> | Uint8Array): Answer & Bits;
    /** One tick toward a route in place of the segment. */
    routeTick(input: Readonly<TickInput> | Uint8Array, route: Route | Uint8Array): Answer & Bits;
    /** Another segment in flight: the time is 0 again, who flies goes on. */
    exchange(leg: Readonly<Leg> | Uint8Array): void;
    /** Throws what a tick on this image would be refused for. */
    check(): void;
    /** The thresholds, as set-up left them. */
    readonly enter: number;
    readonly exit: number;
    /** Who flew at the last tick; the fallback before the first. */
    readonly pilot: Pilot;
    readonly time: number;
    /** null where the word is no profile's: then the image is broken. */
    readonly profile: Profile | null;
    /** The bound on the size of the segment's jerk, axis by axis. */
    readonly peakAbsJerk: [number, number, number];
    /** A copy. */
    asBytes(): Uint8Array;
    words(): Uint32Array;
}

/** 1 to 32 legs, each of which starts where the one before it ends; checked when it is made. */
export class Route {
    constructor(core: Core, legs: readonly Readonly<Leg>[]);
    static fromBytes(core: Core, bytes: Uint8Array): Route;
    /** From a pattern's bytes. */
    static expand(core: Core, pattern: Uint8Array): Route;
    readonly length: number;
    legs(): readonly (Readonly<Leg> & Bits)[];
    asBytes(): Uint8Array;
    words(): Uint32Array;
}

/** Legs and repeats of 1 to 9, four deep at most, before they are a route. */
export class Pattern {
    constructor(core: Core);
    static fromBytes(core: Core, bytes: Uint8Array): Pattern;
    leg(leg: Readonly<Leg>): this;
    /** Refused (12) where the count is not 1 to 9, or what it holds is too long or too deep. */
    repeat(count: number, inner: Pattern): this;
    /** The legs in the order in which they are flown. */
    expand(): Route;
    asBytes(): Uint8Array;
}

/** Every record is right, or the place of the first that is not, counted from 0. */
export type Verdict = { right: true; wrongAt: null } | { right: false; wrongAt: number };

/** A flight kept tick by tick, up to 65,535 records; its bytes are what goes to a file. */
export class Log implements Iterable<Record & Bits> {
    constructor(core: Core);
    static fromBytes(core: Core, bytes: Uint8Array): Log;
    append(input: Readonly<TickInput> | Uint8Array, answer: Answer | Uint8Array): void;
    /** How many records. */
    readonly length: number;
    /** The record at a place, counted from 0; undefined from the count on. */
    get(place: number | bigint): (Record & Bits) | undefined;
    [Symbol.iterator](): Iterator<Record & Bits>;
    /** Whether the log follows the shield's rule, with the thresholds and the profile of its flight, which a log does not tell. */
    check(profile: Profile, enter: number, exit: number): Verdict;
    asBytes(): Uint8Array;
}

/** A flight of any length, kept tick by tick: logs that go on, in their order. All but the last have 65,534 records. */
export class LogSeries implements Iterable<Record & Bits> {
    constructor(core: Core);
    append(input: Readonly<TickInput> | Uint8Array, answer: Answer | Uint8Array): void;
    /** The logs, in their order; the first is there from the start. */
    logs(): Log[];
    /** How many records, in all logs. */
    readonly length: number;
    [Symbol.iterator](): Iterator<Record & Bits>;
    /** As a log's, places counted over all logs: SeriesCheck. */
    check(profile: Profile, enter: number, exit: number): Verdict;
}

/**
 * Logs that go on, of whatever box, checked one after another as the one flight that they are; the first begins with the flight. At a seam the shield stands
 * as the last flag of the log before it says, which has been found right. So the whole gets the verdict that one log of all its records would get.
 */
export class SeriesCheck {
    constructor(core: Core, profile: Profile, enter: number, exit: number);
    /** The next log, or its bytes; what is then said of all of them. Once a record is wrong, nothing is looked at any more. A refused log does not count. */
    log(log: Log | Uint8Array): Verdict;
    /** What is said of the logs so far. */
    readonly verdict: Verdict;
    /** Who flies at the last right record; the fallback before the first. */
    readonly pilot: Pilot;
}

/** How a stick's filter follows it: bandwidth, and the limits of its value and of the value's rate. */
export interface Stick {
    omegaN: number;
    maxMag: number;
    maxRate: number;
}
export interface DeskSetUp {
    heading: Stick;
    turn: Stick;
    zoom: Stick;
}
export const DeskSetUp: Struct<DeskSetUp, Readonly<DeskSetUp>>;
export interface Sticks {
    /** rad */
    heading: number;
    /**
     * rad/s. Heading and turn are independent sticks: a heading that moves while turn is 0 is turning that nobody commanded, which the margin counts as
     * error. Let turn stand at the rate at which the heading is to move.
     */
    turn: number;
    zoom: number;
}
export const Sticks: Struct<Sticks, Readonly<Sticks>> & { default(): Sticks };

/** The C calls of include/fosavalo_desk.h. */
export interface DeskCalls {
    version(): number;
    setup(desk: Uint8Array, input: Uint8Array): number;
    centre(desk: Uint8Array): number;
    tick(desk: Uint8Array, sticks: Uint8Array, image: Uint8Array, input: Uint8Array, answer: Uint8Array): number;
    routeTick(desk: Uint8Array, sticks: Uint8Array, image: Uint8Array, input: Uint8Array, route: Uint8Array, answer: Uint8Array): number;
}

/** The desk's own WebAssembly. Another version than VERSION is refused. */
export class DeskCore {
    private constructor();
    static from(source: BufferSource | WebAssembly.Module): Promise<DeskCore>;
    readonly calls: DeskCalls;
}

/** An operator's desk: three sticks, each through a command filter. */
export class Desk {
    private constructor();
    static setUp(core: DeskCore, setUp: DeskSetUp | Uint8Array): Desk;
    static fromBytes(core: DeskCore, bytes: Uint8Array): Desk;
    /** The centre button: values and rates become 0. */
    centre(): void;
    /** The filters step, the heading and its rate are written into the input, and the core ticks on it. A frozen input is a TypeError. */
    tick(sticks: Readonly<Sticks> | Uint8Array, image: Image, input: TickInput | Uint8Array): Answer & Bits;
    /** The same toward a route in place of the segment. */
    routeTick(sticks: Readonly<Sticks> | Uint8Array, image: Image, input: TickInput | Uint8Array, route: Route | Uint8Array): Answer & Bits;
    readonly heading: number;
    readonly turn: number;
    readonly zoomRate: number;
    asBytes(): Uint8Array;
    words(): Uint32Array;
}
