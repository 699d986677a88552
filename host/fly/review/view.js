// What is in view: which ticks fall into each column of the picture, and the least and the greatest of a word there. Nothing between ticks is lost.
const BLOCK = 64, LEFT = 78, AXIS = 22;
const state = { from: 0, to: 1, end: 1, cursor: 0, records: false, full: false, stretch: -1, frames: 0, drawn: 0 };
let flight = null, given = null, rule = null, stretches = [], wrong = null, turns, ruleTurns, changes = [], t, places, held = HOLDS, blocks = [];
let edge = [], since, width = 0, height = 0, ratio = 1;
/** How often a flag has changed up to each record. */
const turnsOf = (flags) => { let turns = 0; return new Int32Array(flags).map((flag, k) => (turns += k && flag !== flags[k - 1] ? 1 : 0)); };
/** Least and greatest of each block of ticks, and whether one is no number, so that a wide view reads few of them. */
function blocksOf(column) {
    const n = Math.ceil(column.length / BLOCK), low = new Float32Array(n), high = new Float32Array(n), odd = new Uint8Array(n);
    for (let b = 0, k = 0; b < n; b++) {
        let l = Infinity, h = -Infinity;
        for (const end = Math.min(k + BLOCK, column.length); k < end; k++) { const x = column[k]; if (x - x !== 0) odd[b] = 1; else { if (x < l) l = x; if (x > h) h = x; } }
        [low[b], high[b]] = [l, h];
    }
    return { low, high, odd };
}
/** The first from a to b, or b, of which it holds; it then holds of all that follow. */
function first(a, b, holds) {
    while (a < b) { const m = (a + b) >> 1; if (holds(m)) b = m; else a = m + 1; }
    return a;
}
const tickAt = (s) => first(0, flight.N, (k) => t[k] >= s);
const xOf = (s) => LEFT + (s - state.from) / (state.to - state.from) * (width - LEFT);
const secondsAt = (px) => state.from + (px - LEFT) / (width - LEFT) * (state.to - state.from);
/** Of each column the first tick that begins in it or later, and the first that is in it: the one before, if that still holds where the column begins. */
function edges(cols) {
    if (edge.length !== cols + 1) [edge, since] = [new Int32Array(cols + 1), new Int32Array(cols + 1)];
    for (let p = 0; p <= cols; p++) { const s = state.from + (state.to - state.from) * p / cols, a = (edge[p] = tickAt(s)); since[p] = a > 0 && s - t[a - 1] < held && s <= t[flight.N] ? a - 1 : a; }
}
/** Of a word, the least and the greatest in every column, and whether one is no number. */
function columns(w, cols) {
    const c = flight.col[w], { low, high, odd } = (blocks[w] ??= blocksOf(c)), least = new Float32Array(cols), most = new Float32Array(cols), odds = new Uint8Array(cols);
    for (let p = 0; p < cols; p++) {
        let k = since[p], l = Infinity, h = -Infinity, o = 0;
        for (const b = edge[p + 1]; k < b;) {
            const whole = k % BLOCK === 0 && k + BLOCK <= b, q = k / BLOCK, x = c[k], number = x - x === 0;
            if (whole) { if (low[q] < l) l = low[q]; if (high[q] > h) h = high[q]; o |= odd[q]; }
            else if (number) { if (x < l) l = x; if (x > h) h = x; } else o = 1;
            k += whole ? BLOCK : 1;
        }
        least[p] = l; most[p] = h; odds[p] = o;
    }
    return [least, most, odds];
}
const brief = (v) => (v === 0 ? '0' : Math.abs(v) >= 1e5 || Math.abs(v) < 1e-3 ? v.toExponential(1) : String(+v.toPrecision(4)));
/** A number in as few letters as give its bits back. */
function exactly(word) {
    const v = new Float32Array(Uint32Array.of(word).buffer)[0];
    if (v !== v) return word === 0x7fc00000 ? 'NaN' : '0x' + word.toString(16).padStart(8, '0');
    if (!Number.isFinite(v) || v === 0) return { Infinity: 'inf', '-Infinity': '-inf', 0: Object.is(v, -0) ? '-0' : '0' }[v];
    for (let digits = 1; ; digits++) { const text = v.toPrecision(digits); if (Math.fround(Number(text)) === v) return String(Number(text)); }
}
const word = (w, k) => (w === FLAG ? String(flight.bits[w][k]) : exactly(flight.bits[w][k]));
/** Seconds since the start, or the time of day where it is known when that was. */
function clock(s, digits = 3, starts = page.starts) {
    if (starts === null || s >= 1e6) return s < 1e6 ? `${s.toFixed(digits)} s` : `${s.toExponential(3)} s`;
    const day = Math.round((starts + s) * 10 ** digits) / 10 ** digits % 86400, two = (x) => String(Math.floor(x)).padStart(2, '0');
    return `${two(day / 3600)}:${two(day / 60 % 60)}:${(day % 60).toFixed(digits).padStart(digits ? 3 + digits : 2, '0')}`;
}
function show(from, to) {
    const span = Math.min(Math.max(to - from, state.records ? 0.5 : 1e-4), state.end);
    state.to = (state.from = Math.min(Math.max(from, 0), state.end - span)) + span;
    later();
}
const zoom = (by, at) => show(at - (at - state.from) * by, at + (state.to - at) * by);
function cursor(k, follow) {
    state.cursor = Math.min(Math.max(k, 0), Math.max(flight.N - 1, 0));
    const s = t[state.cursor], half = (state.to - state.from) / 2;
    if (follow && (s < state.from || s > state.to)) show(s - half, s + half); else overlay();
    if (follow) say(`record ${state.cursor + 1}, ${flight.bits[FLAG][state.cursor] ? 'fallback' : 'planner'}, margin ${word(MARGIN, state.cursor)}`);
}
function toStretch(i) {
    const [from, to] = stretches[i], room = Math.max((t[to + 1] - t[from]) * 0.15, state.records ? 5 : 0.005);
    show(t[state.cursor = from] - room, t[to + 1] + room);
}
/** By seconds, or by records where the clock tells little. */
function other() {
    const [a, b] = [tickAt(state.from), tickAt(state.to)];
    [t, held, state.records] = state.records ? [flight.secs, HOLDS, false] : [places, 1.5, true];
    state.end = Math.max(t[flight.N], 1e-6);
    show(t[a], t[Math.min(b, flight.N)]);
}
