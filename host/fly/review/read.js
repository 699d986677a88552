// What stands in the page or is dropped on it: files by name and bytes, made one flight. What a flight's file is, host/fly/src/flight_file.rs says.
const WORDS = 27, RECORD = 108, TRAILER = 12, DT = 10, PLANNER = 11, COMMAND = 20, FLAG = 23, TIME = 24, PSI = 25, MARGIN = 26, HOLDS = Math.fround(0.1);
const NAMES = ('gyro x,gyro y,gyro z,q w,q x,q y,q z,tracking error,yaw,yaw rate,dt,planner x,planner y,planner z,delivered x,delivered y,delivered z,' +
    'torque x,torque y,torque z,command x,command y,command z,flag,time,psi,margin').split(',');
// the fields of a set-up, and how many words each has, one after another
const FIELDS = ('k_r 3,k_omega 3,j 3,set 3,enter 1,exit 1,err_lo 1,err_hi 1,g_min 1,p0 3,v0 3,a0 3,pf 3,vf 3,af 3,t 1,' +
    'adrc_roll 4,adrc_pitch 4,adrc_yaw 4,fc 1,fs 1').split(',').map((field) => field.split(' '));
const NUMBERED = /^(.*)-(\d{3}|[1-9]\d{3,})\.log$/;
const no = (what) => { throw new Error(what); }, wordOf = (x) => new Uint32Array(Float32Array.of(x).buffer)[0];
/** The bits of a number: a decimal, nan, inf, -inf, or 0x and the bits. */
function bitsOf(word) {
    if (/^0x[0-9a-f]{1,8}$/i.test(word)) return parseInt(word, 16) >>> 0;
    const named = { nan: 0x7fc00000, inf: 0x7f800000, '-inf': 0xff800000 }[word.toLowerCase()];
    if (named !== undefined) return named;
    if (!/^[+-]?(\d+\.?\d*|\.\d+)(e[+-]?\d+)?$/i.test(word)) no(`\`${word}\` is no number`);
    return wordOf(Number(word));
}
/** Numbers as words in bytes. */
const wordsOf = (words, count, name) => (words.length === count ? u32s(...words.map(bitsOf)) : no(`${name}: takes ${count} numbers, here are ${words.length}`));
const joined = (parts) => Uint8Array.from(parts.flatMap((part) => [...part])), u32s = (...words) => new Uint8Array(Uint32Array.of(...words).buffer);
/** A flight's file; throws what is wrong with it. */
function flightFile(text) {
    const [setUp, legs, onRoute, exchanges, logs] = [{}, [], [], [], []];
    let ticks = null, profile = null;
    for (const [at, line] of text.split('\n').entries()) {
        const [name, ...words] = line.split('#')[0].trim().split(/\s+/), field = FIELDS.find(([own]) => own === name);
        if (at === 0 && (name !== 'flight' || words.join() !== '1')) no('no flight file: its first line is `flight 1`');
        else if (name === '' || at === 0) continue;
        else if (field) setUp[name] = wordsOf(words, Number(field[1]), name);
        else if (name === 'profile') profile = ['whole', 'lost-rotor'].indexOf(words[0]);
        else if (name === 'ticks') ticks = Number(words[0]);
        else if (name === 'leg') legs.push(wordsOf(words, 19, name));
        else if (name === 'route') onRoute.push(words.map((word) => Number(word) - 1));
        else if (name === 'exchange') exchanges.push([Number(words[0]) - 1, wordsOf(words.slice(1), 19, name)]);
        else if (name === 'log') logs.push([line.slice(line.indexOf(words[0]) + words[0].length).trim(), Number(words[0])]);
        else no(`line ${at + 1}: ${name}: no field of a flight file that is read here`);
    }
    const missing = FIELDS.find(([name]) => !setUp[name])?.[0] ?? (profile === null || profile < 0 ? 'profile' : null), told = logs.reduce((sum, [, count]) => sum + count, 0);
    if (missing) no(`${missing}: is not given: a flight file has all of its set-up`);
    if (told !== ticks) no(`ticks: ${ticks} are told of, and the logs have ${told}: a line may be lost`);
    const route = legs.length ? joined([...legs, u32s(legs.length, 76 * legs.length)]) : null;
    return { setUp: joined([...FIELDS.map(([name]) => setUp[name]), u32s(profile)]), profile, legs, route, onRoute, exchanges, logs };
}
/** Files by name and bytes as one flight: its logs in order, its file if there is one, and the log that goes before them if they begin in mid-flight. */
function together(files, core) {
    const own = files.find(({ name }) => name.endsWith('.flight')), file = own ? flightFile(new TextDecoder().decode(own.bytes)) : null;
    let logs = files.filter((each) => each !== own), before = null;
    const number = ({ name }) => Number(NUMBERED.exec(name)?.[2] ?? 0);
    const find = (name) => logs.find((log) => log.name === name.split('/').pop()) ?? no(`${name} is missing: drop it with its flight's file`);
    if (!file) {
        logs.sort((a, b) => number(a) - number(b));
        const stems = [...new Set(logs.map(({ name }) => NUMBERED.exec(name)?.[1] ?? name))], named = (n) => `${stems[0]}-${String(n).padStart(3, '0')}.log`;
        if (stems.length > 1) no('one flight at a time: a log, the logs of one name with numbers, or a flight\'s file and its logs');
        const gap = logs.find((log, at) => at > 0 && number(log) !== number(logs[at - 1]) + 1);
        if (gap) no(`a gap: ${named(number(gap) - 1)} is missing`);
        if (logs.length && number(logs[0]) > 1) before = named(number(logs[0]) - 1);
    } else logs = file.logs.map(([name, told]) => ({ ...find(name), told }));
    if (!logs.length) no('no log: drop one, or a flight\'s file and its logs');
    for (const log of logs) {
        const count = new Uint8Array(4), refused = core.calls.logCount(log.bytes, count);
        if (refused) no(`${log.name}: ${new Refusal(refused).message}`);
        log.count = new DataView(count.buffer).getUint32(0, true);
        if ((log.told ?? log.count) !== log.count) no(`${log.name}: it has ${log.count} records, and its flight's file tells of ${log.told}`);
    }
    const title = own?.name ?? (logs.length > 1 ? `${logs[0].name} to ${logs[logs.length - 1].name}` : logs[0].name);
    return { title, logs, file, before };
}
/** A column for each word of a record, and when each tick was: a dt that tells no time counts as a millisecond. */
function flightOf({ title, logs, file, before }) {
    const N = logs.reduce((sum, log) => sum + log.count, 0), bits = Array.from({ length: WORDS }, () => new Uint32Array(N)), seams = [];
    let k = 0;
    for (const { bytes, count } of logs) {
        if (k) seams.push(k);
        const view = new DataView(bytes.buffer, bytes.byteOffset);
        for (let at = 0; at < RECORD * count; k++) for (let w = 0; w < WORDS; w++, at += 4) bits[w][k] = view.getUint32(at, true);
    }
    const col = bits.map((words) => new Float32Array(words.buffer)), secs = new Float64Array(N + 1);
    const step = (dt) => (Number.isFinite(dt) && dt > 0 ? dt : 0.001);
    for (let k = 1; k <= N; k++) secs[k] = secs[k - 1] + (k < N ? step(col[DT][k]) : Math.min(step(col[DT][k - 1]), HOLDS));
    const exchanges = (file?.exchanges ?? []).map(([tick]) => tick), joins = [], ends = [];
    // a leg ends at the sum of the durations up to it, in the clock's own numbers
    for (const leg of file?.legs ?? []) ends.push(Math.fround((ends[ends.length - 1] ?? 0) + Math.max(new DataView(leg.buffer).getFloat32(72, true), 0.001)));
    for (const [from, to] of file?.onRoute ?? []) {
        const leg = (k) => Math.min(ends.filter((end) => !(col[TIME][k] < end)).length, ends.length - 1);
        for (let k = from + 1; k <= to && k < N; k++) if (col[TIME][k] !== col[TIME][k - 1] && leg(k) !== leg(k - 1)) joins.push(k);
    }
    return { title, logs, file, before, N, bits, col, secs, seams, exchanges, joins, flags: new Uint8Array(bits[FLAG].map((flag) => (flag === 0 ? 0 : 1))) };
}
