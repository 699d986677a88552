//! Document 01's exact values, worked out here from its words and not from our steps.

/// P = 0x1921FB54442D1 / 2^48.
const P: i128 = 0x1_921F_B544_42D1;

/// x, at most 8192 in size and a multiple of 2^-100, in units of 2^-100: exact for every f32 of at least 2^-77 in size.
fn units(x: f32) -> i128 {
    let scaled = f64::from(x) * 2f64.powi(77);
    // an f32 of at least 2^-77 in size, times 2^100, is a whole number; the f64 has no fraction to lose
    (scaled as i128) << 23 | ((scaled - scaled.trunc()) * 2f64.powi(23)) as i128
}

/// n, the whole number nearest x / P, and r = x - n P as an f64.
fn reduce(x: f32) -> (i64, f64) {
    let p = P << 52; // in units of 2^-100
    let u = units(x.abs());
    let n = if 2 * u <= p { 0 } else { (2 * u + p) / (2 * p) };
    let r = (u - n * p) as f64 / 2f64.powi(100);
    if x < 0.0 {
        (-n as i64, -r)
    } else {
        (n as i64, r)
    }
}

/// The first eight terms of sine at r, smallest first.
fn sine_terms(r: f64) -> f64 {
    terms(r, r, 1)
}

fn cosine_terms(r: f64) -> f64 {
    terms(1.0, r, 0)
}

fn terms(first: f64, r: f64, odd: u32) -> f64 {
    let mut term = first;
    let mut all = [0.0; 8];
    for (i, slot) in all.iter_mut().enumerate() {
        *slot = term;
        let k = 2 * i as u32 + odd;
        term = -term * r * r / f64::from((k + 1) * (k + 2));
    }
    all.iter().rev().sum()
}

/// The exact sine and cosine of document 01 at an x that is finite and at most 8192 in size, to about 1e-16.
pub fn sincos(x: f32) -> (f64, f64) {
    if x.abs() < 2f32.powi(-60) {
        return (f64::from(x), 1.0);
    }
    let (n, r) = reduce(x);
    let (s, c) = (sine_terms(r), cosine_terms(r));
    match n.rem_euclid(4) {
        0 => (s, c),
        1 => (c, -s),
        2 => (-s, -c),
        _ => (-c, s),
    }
}

/// Whether r is the f32 nearest the root of a finite x above zero, by document 01's words: for each neighbour y of r,
/// (r + y)^2 against 4 x on whole numbers.
pub fn is_nearest_root(x: f32, r: f32) -> bool {
    if !(r.is_finite() && r > 0.0) {
        return false;
    }
    let up = f32::from_bits(r.to_bits() + 1);
    let down = f32::from_bits(r.to_bits() - 1);
    compare(r, up, x) == std::cmp::Ordering::Greater && compare(r, down, x) == std::cmp::Ordering::Less
}

/// m * 2^e with m a whole number.
fn parts(x: f32) -> (u128, i32) {
    let bits = x.to_bits();
    let (e, m) = ((bits >> 23) as i32, u128::from(bits & 0x7f_ffff));
    if e == 0 {
        (m, -149)
    } else {
        (m | 0x80_0000, e - 150)
    }
}

/// (r + y)^2 compared with 4 x, exactly, for neighbours r and y: below 2^52 after the common power of two is taken out.
fn compare(r: f32, y: f32, x: f32) -> std::cmp::Ordering {
    let ((mr, er), (my, ey)) = (parts(r), parts(y));
    let e = er.min(ey);
    let sum = (mr << (er - e)) + (my << (ey - e));
    let (square, es) = (sum * sum, 2 * e);
    let (mx, ex) = parts(x);
    let (four, ex) = (4 * mx, ex);
    // square * 2^es against four * 2^ex: both fit 128 bits at the smaller exponent where they are near each other
    let low = es.min(ex);
    let left = square.checked_shl((es - low) as u32).filter(|v| v >> (es - low) == square);
    let right = four.checked_shl((ex - low) as u32).filter(|v| v >> (ex - low) == four);
    match (left, right) {
        (Some(a), Some(b)) => a.cmp(&b),
        (None, _) => std::cmp::Ordering::Greater,
        (_, None) => std::cmp::Ordering::Less,
    }
}
