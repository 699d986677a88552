//! 003: relay-pos, of which one routine is ported.

use crate::generate::{Part, Rng};
use crate::numbers::{EARLIER_LIMIT, LIMIT};
use crate::routine::Routine;
use archives::pos;

pub fn routines() -> Vec<Routine> {
    vec![Routine::new(
        "euler_to_quaternion",
        &[Part::Angle, Part::Angle, Part::Angle],
        |i| pos::euler_to_quaternion(i.get(), i.get(), i.get()),
        |i| oracle::pos::euler_to_quaternion(i.get(), i.get(), i.get()),
    )
    .near(halves_at_the_limit)]
}

/// Angles whose half is at the limit of sine and cosine.
fn halves_at_the_limit(rng: &mut Rng, words: &mut [f32]) {
    let at = rng.below(3);
    words[at] = rng.near_one(&[2.0 * LIMIT, 2.0 * EARLIER_LIMIT]);
}
