// The picture: panels one below another, painted pixel by pixel, then names and the axis.
const RATES = ['gyro', 'planner', 'command'], XYZ = ['x', 'y', 'z'], panel = (name, h, words, labels = []) => ({ name, h, words, labels });
const PANELS = [
    { ...panel('who flew', 0.35), strip: () => [flight.flags, turns] }, { ...panel('by the rule', 0.35), strip: () => (wrong === null ? null : [rule, ruleTurns]) },
    { ...panel('margin', 2.2, [MARGIN]), band: true }, panel('psi', 1, [PSI]), ...['roll', 'pitch', 'yaw'].map((name, axis) => panel(`${name} rate`, 1, [axis, PLANNER + axis, COMMAND + axis], RATES)),
    panel('torque', 1, [17, 18, 19], XYZ), panel('tracking error, m', 0.7, [7]), panel('heading', 0.7, [8, 9], ['yaw', 'yaw rate']), panel('attitude', 0.7, [3, 4, 5, 6], ['w', ...XYZ]),
    panel('delivered', 0.6, [14, 15, 16], XYZ), panel('time, s', 0.6, [TIME]), panel('dt, s', 0.5, [DT]),
];
let W = 1, H = 1, image, pixels, ink = {};
const under = el('under').getContext('2d'), over = el('over').getContext('2d');
/** The colours of the theme, as the page has them and as pixels. */
function colours() {
    for (const name of ['bg', 'pane', 'line', 'text', 'dim', 'planner', 'fallback', 'mixed', 'bad', 'band', 'c0', 'c1', 'c2', 'c3']) {
        const hex = getComputedStyle(document.documentElement).getPropertyValue(`--${name}`).trim(), v = parseInt(hex.slice(1), 16);
        ink[name] = { hex, pixel: (0xff000000 | (v & 255) << 16 | v & 0xff00 | v >> 16) >>> 0 };
    }
}
function box(x0, y0, w, h, { pixel }) {
    const x1 = Math.min(W, x0 + w), y1 = Math.min(H, y0 + h);
    for (let y = Math.max(0, y0); y < y1; y++) for (let x = Math.max(0, x0), at = y * W + x; x < x1; x++) pixels[at++] = pixel;
}
function draw() {
    if (!flight || !image) return;
    const began = performance.now(), cols = Math.max(1, Math.round((width - LEFT) * ratio)), shown = PANELS.filter((panel) => !panel.strip || panel.strip());
    edges(cols);
    pixels.fill(ink.bg.pixel);
    const unit = (height - AXIS - 6 * shown.length) / shown.reduce((sum, panel) => sum + panel.h, 0);
    shown.reduce((top, panel) => {
        Object.assign(panel, { top, height: unit * panel.h });
        if (panel.strip) drawStrip(panel, cols, ...panel.strip()); else drawLines(panel, cols);
        return top + panel.height + 6;
    }, 4);
    under.setTransform(ratio, 0, 0, ratio, 0, 0);
    for (const then of [() => under.putImageData(image, 0, 0), () => shown.forEach(label), axis, overlay]) then();
    Object.assign(state, { frames: state.frames + 1, drawn: performance.now() - began });
}
function drawStrip(panel, cols, flags, turns) {
    const y = Math.round(panel.top * ratio), h = Math.round(panel.height * ratio), left = Math.round(LEFT * ratio);
    for (let p = 0; p < cols; p++) {
        const a = since[p], b = edge[p + 1];
        if (a < b) box(left + p, y, 1, h, turns[b - 1] - turns[a] > 1 ? ink.mixed : flags[b - 1] ? ink.fallback : ink.planner);
    }
}
function drawLines(panel, cols) {
    const y0 = Math.round(panel.top * ratio), h = Math.round(panel.height * ratio), left = Math.round(LEFT * ratio), thick = Math.max(1, Math.round(ratio));
    const kept = panel.words.map((w) => columns(w, cols)), band = panel.band && given;
    let [lo, hi] = [Infinity, -Infinity];
    for (const [l, m] of kept) for (let p = 0; p < cols; p++) { if (l[p] < lo) lo = l[p]; if (m[p] > hi) hi = m[p]; }
    Object.assign(panel, { least: lo, most: hi });
    if (band && !state.full) {
        const wide = Math.max(given.exit - given.enter, (hi - lo) / 14);
        [lo, hi] = [Math.max(Math.min(lo, given.enter), given.enter - 4 * wide), Math.min(Math.max(hi, given.exit), given.enter + 10 * wide)];
    }
    panel.shown = lo <= hi ? [lo, hi] : [0, 1];
    const room = (panel.shown[1] - panel.shown[0]) * 0.06 || Math.abs(panel.shown[1]) * 0.1 || 1, [from, to] = [panel.shown[0] - room, panel.shown[1] + room];
    const y = (panel.y = (v) => Math.round(y0 + h - (Math.min(Math.max(v, from), to) - from) / (to - from) * h));
    box(left, y0, cols, h, ink.pane);
    const { enter, exit } = given ?? {}, lines = band ? [[exit, y(enter) - y(exit), ink.band], [enter, 1, ink.mixed], [exit, 1, ink.mixed]] : [];
    for (const [v, thick, colour] of lines) box(left, y(v), cols, thick, colour);
    if (from < 0 && to > 0) box(left, y(0), cols, 1, ink.line);
    kept.forEach(([l, m, o], k) => {
        const colour = ink[`c${k}`];
        for (let p = 0; p < cols; p++) {
            if (l[p] <= m[p]) { const top = y(m[p]); box(left + p, top, 1, Math.max(y(l[p]) - top, thick), colour); }
            // what is no number has no place on the scale, so it is marked above
            if (o[p]) box(left + p, y0, 1, 4 * thick, ink.bad);
        }
    });
}
const write = (text, x, y, { hex }, more) => { Object.assign(under, { fillStyle: hex, ...more }); under.fillText(text, x, y); };
function label({ name, top, labels, strip, shown, band, y, height }) {
    Object.assign(under, { font: '11px system-ui', textAlign: 'left', textBaseline: 'top', globalAlpha: 0.75, fillStyle: ink.bg.hex });
    under.fillRect(LEFT + 1, top, under.measureText([name, ...labels].join('  ')).width + 14 + 4 * labels.length, 14);
    write(name, LEFT + 5, top + 1, ink.text, { globalAlpha: 1 });
    labels.reduce((at, label, k) => (write(label, at, top + 1, ink[`c${k}`]), at + under.measureText(label).width + 8), LEFT + 12 + under.measureText(name).width);
    if (strip) return;
    Object.assign(under, { font: '10px system-ui', textAlign: 'right', textBaseline: 'middle' });
    if (height > 26) [[1, 7], [0, height - 7]].forEach(([at, below]) => write(brief(shown[at]), LEFT - 5, top + below, ink.dim));
    if (band && given) for (const name of ['exit', 'enter']) write(`${name} ${brief(given[name])}`, LEFT - 5, y(given[name]) / ratio, ink.mixed);
}
/** The axis, and the marks of the flight as a whole: where a log begins, a segment was exchanged, a leg joins the next. */
function axis() {
    const rough = (state.to - state.from) / Math.max(2, (width - LEFT) / 110), unit = 10 ** Math.floor(Math.log10(rough));
    const step = [1, 2, 5, 10].map((m) => m * unit).find((s) => s >= rough), digits = Math.max(0, -Math.floor(Math.log10(step))), before = state.records ? 1 : page.starts ?? 0;
    Object.assign(under, { font: '11px system-ui', textAlign: 'center', textBaseline: 'bottom' });
    for (let s = Math.ceil((state.from + before) / step) * step - before; s <= state.to; s += step) {
        Object.assign(under, { globalAlpha: 0.15, fillStyle: ink.dim.hex });
        under.fillRect(xOf(s), 0, 1, height - AXIS);
        write(state.records ? (s + 1).toFixed(digits) : clock(s, digits), xOf(s), height - 4, ink.dim, { globalAlpha: 1 });
    }
    for (const [ticks, colour, name] of [[flight.seams, ink.text, 'log'], [flight.exchanges, ink.c2, 'exchange'], [flight.joins, ink.c3, 'leg']]) {
        for (const s of ticks.map((k) => t[k]).filter((s) => s >= state.from && s <= state.to)) { write(name, xOf(s) + 3, height - AXIS, colour, { textAlign: 'left' }); under.fillRect(xOf(s), 0, 1, height - AXIS); }
    }
}
