// What is told about the picture: the verdict, the words under the cursor, the stretches, whether it flies again as the same.
let core = null, wanted = false, replay = null;
const say = (text) => (el('said').textContent = text), later = () => wanted || (wanted = true, requestAnimationFrame(() => { wanted = false; draw(); }));
const n = (v) => `<b>${v.toLocaleString('en')}</b>`, who = (flag) => (flag ? 'fallback' : 'planner'), hex = (word) => word.toString(16).padStart(8, '0');
function overlay() {
    over.setTransform(ratio, 0, 0, ratio, 0, 0);
    over.clearRect(0, 0, width + 1, height + 1);
    const k = state.cursor, paint = (x, w, alpha, { hex }) => { Object.assign(over, { globalAlpha: alpha, fillStyle: hex }); over.fillRect(x, 0, w, height - AXIS); };
    if (!flight?.N) return (el('values').textContent = flight ? 'no record' : '');
    if (xOf(t[k]) >= LEFT && xOf(t[k]) <= width) paint(xOf(t[k]), 1, 1, ink.text);
    if (state.drag) paint(Math.min(...state.drag), Math.abs(state.drag[1] - state.drag[0]), 0.2, ink.c0);
    const flag = flight.bits[FLAG][k], other = rule[k] === flag ? '' : `\tby the rule the ${who(rule[k])}`;
    el('values').innerHTML = `record ${k + 1} of ${flight.N}\t${clock(flight.secs[k], 6)}\n<b class="${flag ? 'f' : 'p'}">${flag > 1 ? `flag ${flag}` : who(flag)}</b>${other}\n` +
        NAMES.map((name, w) => `${name}\t${word(w, k)}`).join('\n');
    const a = first(0, stretches.length, (i) => stretches[i][1] >= k);
    if (a !== state.stretch) { state.stretch = a; rows(true); }
}
const ROW = 40, CAUSES = ['a fresh shield', 'above exit', 'below enter', 'not finite'];
function rowOf(i) {
    const [from, to, fallback, cause, differ] = stretches[i], command = (axis, k) => flight.col[COMMAND + axis][k];
    const jump = from ? ` jump ${brief(Math.hypot(...[0, 1, 2].map((axis) => command(axis, from) - command(axis, from - 1))))}` : '';
    const why = cause ? `${CAUSES[cause]} ${brief(flight.col[MARGIN][from])}` : flight.before ? 'as if a flight began here' : CAUSES[0];
    return `<div role="option" aria-selected="${i === state.stretch}" data-i="${i}" style="top:${i * ROW}px"><span class="${fallback ? 'f' : 'p'}">${who(fallback)}</span> ` +
        `${clock(flight.secs[from])} ${to - from + 1}×${differ ? ` <b class="bad">${differ} differ</b>` : ''}<br>${why}${jump}</div>`;
}
/** Only the rows that are seen are there. */
function rows(follow) {
    const list = el('list'), h = list.clientHeight, seen = state.stretch * ROW >= list.scrollTop && (state.stretch + 1) * ROW <= list.scrollTop + h;
    if (follow && !seen) list.scrollTop = state.stretch * ROW - h / 2;
    const a = Math.max(0, Math.floor(list.scrollTop / ROW) - 2), b = Math.min(stretches.length, a + Math.ceil(h / ROW) + 5);
    list.innerHTML = `<p style="height:${stretches.length * ROW}px"></p>` + Array.from({ length: Math.max(b - a, 0) }, (_, k) => rowOf(a + k)).join('');
}
function summary() {
    const { N, col, secs, flags } = flight, finite = Number.isFinite, count = (holds) => { let sum = 0; for (let k = 0; k < N; k++) if (holds(k)) sum++; return sum; };
    let worst = 0;
    for (let a = 0, b = 0; b < changes.length; b++) { while (secs[changes[b]] - secs[changes[a]] >= 1) a++; worst = Math.max(worst, b - a + 1); }
    const tells = (k) => col[DT][k] > 0 && finite(col[DT][k]), share = N ? (100 * count((k) => !flags[k]) / N).toFixed(1) : '–';
    const odd = count((k) => { for (let w = 0; w < 17; w++) if (!finite(col[w][k])) return true; return false; });
    const fit = allowed(flight), range = ([lo, hi], low, high) => [finite(lo) && `${low} ${exactly(wordOf(lo))}`, finite(hi) && `${high} ${exactly(wordOf(hi))}`].filter(Boolean).join(' and ') || 'anything';
    const told = fit ? `enter ${range(fit.enter, 'above', 'at most')}, exit ${range(fit.exit, 'at least', 'below')}` : 'none: they are no shield\'s';
    el('summary').innerHTML = `${n(N)} ticks, <b>${clock(secs[N], 3, null)}</b> · control changed hands ${n(changes.length)} times, ${n(worst)} in the worst second · planner <b>${share} %</b> · ` +
        `margin not finite ${n(count((k) => !finite(col[MARGIN][k])))} · inputs not finite ${n(odd)} · dt that tells no time ${n(count((k) => !tells(k)))}, ` +
        `pauses ${n(count((k) => tells(k) && col[DT][k] > HOLDS))}<br>thresholds that the flags allow: <b id="allowed">${told}</b>`;
}
function tell() {
    const as = flight.before ? `as if a flight began here (${flight.before} goes before it): ` : '', right = `right, ${flight.N.toLocaleString('en')} record${flight.N === 1 ? '' : 's'}`;
    el('verdict').textContent = given ? as + (wrong === null ? right : `wrong at record ${wrong + 1} (place ${wrong})`) : 'which thresholds? a log does not tell them';
    el('verdict').className = !given ? '' : wrong === null ? 'right' : 'wrong';
    [el('replay').textContent, document.title, el('title').textContent] = [replay ?? '', `${flight.title} – review`, flight.title];
}
/** Asks the core by these thresholds, where there are any; those that are given here are to be as set-up keeps them. */
function judge(own) {
    const mine = own && { profile: own.profile, enter: Math.fround(own.enter), exit: Math.fround(own.exit) };
    if (mine) {
        const image = new Uint8Array(IMAGE_BYTES);
        Refusal.check(core.calls.setup(image, SetUp.toBytes({ ...SetUp.falconQuad(), enter: mine.enter, exit: mine.exit })));
        const [enter, exit] = [52, 56].map((at) => new DataView(image.buffer).getFloat32(at, true)), kept = enter === mine.enter && exit === mine.exit;
        if (own === page.given && !kept) no(`no thresholds: set-up would have made them enter ${exactly(wordOf(enter))} and exit ${exactly(wordOf(exit))}`);
        Object.assign(mine, { enter, exit });
        for (const name of ['enter', 'exit']) el(name).value = exactly(wordOf(mine[name]));
    }
    given = mine;
    wrong = given ? verdictOf(core, flight, given) : null;
    rule = given ? ruled(core, flight, wrong, given) : flight.flags;
    [stretches, ruleTurns, state.stretch] = [stretchesOf(flight, rule), turnsOf(rule), -1];
    for (const then of [tell, rows, later]) then();
}
/** The flight flown again, between frames, so that nobody waits for it. */
async function flyAgain(own) {
    const ticks = again(core, own), words = ({ words }) => words.map(([w, was, is]) => `${NAMES[w]} was ${hex(was)} and is ${hex(is)}`).join('; ');
    for (let step = ticks.next(), told = performance.now(); own === flight; step = ticks.next()) {
        const { done, value } = step;
        replay = !done ? `flown again to record ${value.toLocaleString('en')}` : value ? `flown again: different from record ${value.place + 1} on: ${words(value)}` : 'flown again: the same';
        if (done) return tell();
        if (performance.now() - told > 40) { tell(); await new Promise((next) => setTimeout(next)); told = performance.now(); }
    }
}
