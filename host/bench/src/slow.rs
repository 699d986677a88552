//! The slow shield on its longest lists: one through which every margin looks back to the first, and one through which none does.

use compare::slow::{words, MOST};
use std::hint::black_box;
use std::time::Instant;

/// The longest that the first may take, s.
pub const BAR: f64 = 3.0;

/// Seconds of both, the least of some tries; none where a call is refused or a flag is wrong.
pub fn times() -> Option<[f64; 2]> {
    let mut within = vec![0.75; MOST];
    within[0] = 1.5;
    Some([least(&within, 0, 3)?, least(&vec![0.25; MOST], 1, 101)?])
}

fn least(margins: &[f32], flag: u8, tries: usize) -> Option<f64> {
    let (bytes, mut least) = (words(margins), f64::INFINITY);
    for _ in 0..tries {
        let mut flags = vec![7; margins.len()];
        let start = Instant::now();
        let number = archives::flags(black_box(&bytes), 0.5, 1.0, black_box(&mut flags));
        least = least.min(start.elapsed().as_secs_f64());
        if number != 0 || flags.iter().any(|own| *own != flag) {
            return None;
        }
    }
    Some(least)
}
