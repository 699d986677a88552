// What the proved core says of a flight: the verdict, who was to fly, and the flight flown again. Nothing of it is worked out by a script but where to ask.
/** The first wrong record of all logs, or null. At a seam the shield stands as the last flag of the log before it, which was found right, says. */
function verdictOf(core, flight, { profile, enter, exit }) {
    let planner = false, before = 0;
    for (const { bytes, count } of flight.logs) {
        for (let from = 0; from < count;) {
            const carried = planner ? 1 : 0, n = Math.min(count - from, MOST_RECORDS - carried);
            const log = carried || n < count ? behind(bytes.subarray(RECORD * from, RECORD * (from + n)), carried) : bytes, verdict = new Uint8Array(4);
            Refusal.check(core.calls.logCheck(log, profile, enter, exit, verdict));
            const place = new DataView(verdict.buffer).getUint32(0, true);
            if (place !== LOG_RIGHT) return before + place - carried;
            [before, from, planner] = [before + n, from + n, flight.bits[FLAG][before + n - 1] === 0];
        }
    }
    return null;
}
/** A log of these records, behind one that releases a fresh shield: zeros, and the greatest margin. */
function behind(records, carried) {
    const count = carried + records.length / RECORD, log = new Uint8Array(RECORD * count + TRAILER), view = new DataView(log.buffer);
    if (carried) view.setUint32(RECORD - 4, 0x7f7fffff, true);
    log.set(records, RECORD * carried);
    [count, RECORD * count, RECORD].forEach((word, at) => view.setUint32(RECORD * count + 4 * at, word, true));
    return log;
}
/** Who was to fly at each record, 1 for the fallback: as far as they are right the log's own flags, and from there on by looking back. */
function ruled(core, flight, wrong, { enter, exit }) {
    const rule = flight.flags.slice(), most = 4096;
    for (let k = wrong ?? flight.N; k < flight.N; k += most) {
        const margins = flight.bits[MARGIN].subarray(k, k + most), carried = k > 0 && rule[k - 1] === 0 ? [0x7f7fffff] : [], flags = new Uint8Array(margins.length + carried.length);
        Refusal.check(core.calls.flags(u32s(...carried, ...margins), enter, exit, flags));
        rule.set(flags.subarray(carried.length), k);
    }
    return rule;
}
/** Records with the same pilot by the rule: from which to which, whether the fallback's, why, and at how many the log's own flag is another. */
function stretchesOf(flight, rule) {
    const all = [], margin = flight.col[MARGIN];
    for (let from = 0, to; from < flight.N; from = to) {
        let differ = 0;
        for (to = from; to < flight.N && rule[to] === rule[from]; to++) if (flight.bits[FLAG][to] !== rule[to]) differ++;
        all.push([from, to - 1, rule[from], !rule[from] ? 1 : from === 0 ? 0 : Number.isFinite(margin[from]) ? 2 : 3, differ]);
    }
    return all;
}
/** The flight flown again from its file, so many ticks at a time: how far it is, and in the end the first record that is different with its words, or null. */
function* again(core, flight) {
    const { file, logs } = flight, image = new Uint8Array(IMAGE_BYTES), answer = new Uint8Array(ANSWER_BYTES), now = new DataView(answer.buffer);
    Refusal.check(core.calls.setup(image, file.setUp));
    let k = 0, exchange = 0, route = 0;
    for (const { bytes, count } of logs) {
        for (let at = 0; at < RECORD * count; at += RECORD, k++) {
            for (; file.exchanges[exchange]?.[0] === k; exchange++) Refusal.check(core.calls.exchange(image, file.exchanges[exchange][1]));
            while (file.onRoute[route]?.[1] < k) route++;
            const input = bytes.subarray(at, at + TICK_BYTES), on = file.route && file.onRoute[route]?.[0] <= k;
            Refusal.check(on ? core.calls.routeTick(image, input, file.route, answer) : core.calls.tick(image, input, answer));
            const words = [];
            for (let w = 17, is; w < WORDS; w++) if (flight.bits[w][k] !== (is = now.getUint32(4 * (w - 17), true))) words.push([w, flight.bits[w][k], is]);
            if (words.length) return { place: k, words };
            if (k % 2000 === 1999) yield k + 1;
        }
    }
    return null;
}
/** The thresholds that the flags themselves allow: enter above a and at most b, exit at least c and below d; null where there are none. */
function allowed(flight) {
    let [a, b, c, d] = [-Infinity, Infinity, -Infinity, Infinity];
    // of a part by itself nobody knows how it began
    for (let k = flight.before ? 1 : 0; k < flight.N; k++) {
        const flag = flight.bits[FLAG][k], engaged = k ? flight.bits[FLAG][k - 1] : 1, margin = flight.col[MARGIN][k], finite = Number.isFinite(margin);
        if (flag > 1 || (flag === 0 && !finite)) return null;
        if (flag === 0) { if (engaged) d = Math.min(d, margin); else b = Math.min(b, margin); }
        else if (finite) { if (engaged) c = Math.max(c, margin); else a = Math.max(a, margin); }
    }
    return a < b && c < d && a < d ? { enter: [a, b], exit: [c, d] } : null;
}
