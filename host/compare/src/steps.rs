//! Our steps for sine and cosine written a second time, from docs/ANGLES.md and not from the Rattle text.

/// P in units of 2^-48.
const P: u64 = 0x1_921F_B544_42D1;

/// The size below which the sine is x.
const TINY: f32 = 1.0 / 4096.0;

/// The coefficients in units of 2^-32, innermost first.
const SINE: [u64; 4] = [11_772, 852_176, 35_791_394, 715_827_883];
const COSINE: [u64; 4] = [105_824, 5_965_232, 178_956_971, 2_147_483_648];

/// `whole` less its part z k(z), with the square z in units of 2^-32.
fn polynomial(whole: u64, z: u64, coefficients: [u64; 4]) -> u64 {
    let inner = coefficients.into_iter().fold(0, |t, k| k - ((z * t) >> 32));
    whole - (((whole >> 16) * ((z * inner) >> 32)) >> 16)
}

/// v / 2^48 as an f32, rounded once: an f64 holds it exactly.
fn rounded(v: u64) -> f32 {
    (v as f64 / 2f64.powi(48)) as f32
}

/// Sine and cosine of an x up to the limit.
pub fn sincos(x: f32) -> (f32, f32) {
    let a = x.abs();
    if a < TINY {
        return (x, 1.0);
    }
    let size = (f64::from(a) * 2f64.powi(48)) as u64;
    let n = (size + P / 2) / P;
    let r = size.abs_diff(n * P);
    let z = ((r >> 16) * (r >> 16)) >> 32;
    let s = rounded(polynomial(r, z, SINE));
    let s = if size < n * P { -s } else { s };
    let c = rounded(polynomial(1 << 48, z, COSINE));
    let (s, c) = match n % 4 {
        0 => (s, c),
        1 => (c, -s),
        2 => (-s, -c),
        _ => (-c, s),
    };
    (if x < 0.0 { -s } else { s }, c)
}
