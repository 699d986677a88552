// The page at work: its size, keys, wheel, drag and touch, and what is dropped on it.
const attempt = (what) => { el('mistake').textContent = ''; try { what(); } catch (error) { el('mistake').textContent = error.message; } };
function open(files) {
    flight = flightOf(together(files, core));
    const { N, file, secs } = flight, float = (at) => new DataView(file.setUp.buffer).getFloat32(at, true);
    [blocks, turns, replay, changes, places] = [[], turnsOf(flight.flags), null, [], new Float64Array(N + 1).map((_, k) => k)];
    for (let k = 1; k < N; k++) if (turns[k] !== turns[k - 1]) changes.push(k);
    Object.assign(state, { records: false, cursor: 0, from: 0, end: Math.max(secs[N], 1e-6), to: Math.max(secs[N], 1e-6) });
    [t, held, el('drop').hidden, el('ask').hidden] = [secs, HOLDS, true, Boolean(file) && !page.given];
    judge(page.given ?? (file && { profile: file.profile, enter: float(48), exit: float(52) }));
    for (const then of [summary, draw]) then();
    if (file) flyAgain(flight);
}
async function dropped(list) {
    const files = await Promise.all(list.map(async (file) => ({ name: file.name, bytes: new Uint8Array(await file.arrayBuffer()) })));
    // a flight's file tells its own thresholds
    if (files.some(({ name }) => name.endsWith('.flight'))) page.given = null;
    attempt(() => open(files));
}
function resize() {
    [ratio, width, height] = [devicePixelRatio || 1, el('plot').clientWidth, el('plot').clientHeight];
    [W, H] = [Math.max(1, Math.round(width * ratio)), Math.max(1, Math.round(height * ratio))];
    for (const canvas of [el('under'), el('over')]) [canvas.width, canvas.height] = [W, H];
    pixels = new Uint32Array((image = under.createImageData(W, H)).data.buffer);
    for (const then of flight ? [colours, later, rows] : [colours]) then();
}
const span = () => state.to - state.from, inView = () => (t[state.cursor] >= state.from && t[state.cursor] <= state.to ? t[state.cursor] : (state.from + state.to) / 2);
const pan = (by) => show(state.from + by, state.to + by), to = (k) => k !== undefined && cursor(k, true);
const KEYS = {
    ArrowLeft: () => pan(-0.2 * span()), ArrowRight: () => pan(0.2 * span()), '+': () => zoom(0.6, inView()), '=': () => zoom(0.6, inView()), '-': () => zoom(1 / 0.6, inView()),
    0: () => show(0, state.end), Home: () => to(0), End: () => to(flight.N - 1), ',': () => to(state.cursor - 1), '.': () => to(state.cursor + 1), x: other,
    y: () => { state.full = !state.full; later(); }, Enter: () => stretches.length && toStretch(state.stretch),
    ']': () => to(changes.find((c) => c > state.cursor)), '[': () => to(changes.findLast((c) => c < state.cursor)),
};
const touch = new Map(), at = (e) => Math.min(Math.max(e.offsetX, LEFT), width), ground = el('over');
function moved(e) {
    const px = at(e), { down } = state;
    if (!down) return cursor(Math.max(0, tickAt(secondsAt(px) + 1e-12) - 1));
    touch.set(e.pointerId, px);
    down.moved ||= Math.abs(px - down.px) > 3;
    const by = (down.px - px) / (width - LEFT) * (down.to - down.from), [a, b] = [...touch.values()].map((x) => (x - LEFT) / (width - LEFT));
    // each of two fingers stays on its moment
    const [s, u] = down.pinch ?? [0, 0], wide = (u - s) / (b - a);
    if (down.pinch && touch.size > 1) { if (wide > 0) show(s - a * wide, s - a * wide + wide); }
    else if (!down.pan) { state.drag = [down.px, px]; overlay(); } else if (down.moved) show(down.from + by, down.to + by);
}
function up(e) {
    const drag = state.drag?.map(secondsAt);
    touch.delete(e.pointerId);
    [state.drag, state.down] = [null, null];
    if (drag) show(Math.min(...drag), Math.max(...drag));
}
const on = (what, kind, act, options) => what.addEventListener(kind, act, options), flown = (act) => (e) => flight && act(e);
on(window, 'keydown', flown((e) => { if (KEYS[e.key] && e.target.tagName !== 'INPUT' && !e.ctrlKey && !e.metaKey && !e.altKey) { KEYS[e.key](); e.preventDefault(); } }));
for (const [what, kind] of [[window, 'resize'], [matchMedia('(prefers-color-scheme: light)'), 'change']]) on(what, kind, resize);
on(el('list'), 'scroll', () => rows());
on(el('list'), 'click', (e) => { const row = e.target.closest('[data-i]'); if (row) toStretch(Number(row.dataset.i)); });
const typed = (name) => new Float32Array(Uint32Array.of(bitsOf(el(name).value.trim())).buffer)[0];
on(el('ask'), 'submit', (e) => { e.preventDefault(); attempt(() => judge((page.given = { profile: el('lost').checked ? 1 : 0, enter: typed('enter'), exit: typed('exit') }))); });
for (const kind of ['dragover', 'drop']) on(window, kind, (e) => { e.preventDefault(); if (kind === 'drop') dropped([...e.dataTransfer.files]); });
on(el('pick'), 'change', (e) => dropped([...e.target.files]));
const wheel = (e) => (e.shiftKey || Math.abs(e.deltaX) > Math.abs(e.deltaY) ? pan((e.deltaX || e.deltaY) / width * span()) : zoom(Math.exp(Math.max(-80, Math.min(80, e.deltaY)) * 0.004), secondsAt(at(e))));
on(ground, 'wheel', flown((e) => { e.preventDefault(); wheel(e); }), { passive: false });
on(ground, 'pointerdown', flown((e) => {
    if (e.button) return;
    touch.set(e.pointerId, at(e));
    ground.setPointerCapture(e.pointerId);
    state.down = { px: at(e), from: state.from, to: state.to, pan: !e.shiftKey, moved: false, pinch: touch.size > 1 ? [...touch.values()].map(secondsAt) : null };
}));
for (const [kind, act] of [['pointermove', moved], ['pointerup', up], ['pointercancel', up], ['dblclick', KEYS[0]]]) on(ground, kind, flown(act));
/** What stands in the page as text, as bytes. */
const decoded = (text) => Uint8Array.fromBase64?.(text) ?? Uint8Array.from(atob(text), (c) => c.charCodeAt(0));
async function begin() {
    resize();
    core = await Core.from(decoded(el('core').textContent));
    const held = [...document.querySelectorAll('script.file')], files = held.map((each) => ({ name: each.dataset.name, bytes: decoded(each.textContent) }));
    for (const each of held) each.textContent = '';
    if (files.length) attempt(() => open(files));
    // for the tests: what is shown, and what it is made of
    window.review = { now: () => ({ flight, stretches, replay, t }), state, show, cursor, draw, PANELS, ready: performance.now() };
}
begin().catch((error) => (el('mistake').textContent = error.message));
