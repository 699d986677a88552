//! What the published Rust asks of libm, by the standard library's own functions.
//! The root and the absolute value are fixed by IEEE 754, so there is nothing to choose; the others are not compared with anything here.

pub fn sqrtf(x: f32) -> f32 {
    x.sqrt()
}

pub fn fabsf(x: f32) -> f32 {
    x.abs()
}

pub fn atan2f(y: f32, x: f32) -> f32 {
    y.atan2(x)
}

pub fn acosf(x: f32) -> f32 {
    x.acos()
}

/// IEEE 754's remainder, for finite arguments.
pub fn remainderf(x: f32, y: f32) -> f32 {
    let (x, y) = (f64::from(x), f64::from(y));
    (x - y * (x / y).round_ties_even()) as f32
}
