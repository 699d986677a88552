//! Patterns that are long: as many empty repeats as three repeats of 9 hold, and a million items.

use super::stack;
use compare::joint::bytes::{LEG, MOST_LEGS, TRAILER};
use std::hint::black_box;
use std::time::Instant;

/// The longest that the first may take, ms.
pub const BAR: f64 = 1.0;
/// How many items the second has beside its legs.
pub const MANY: usize = 1_000_000;
/// The most repeats of nothing that the lengths of three repeats around them allow.
const EMPTY: usize = 16_381;
const TRIES: usize = 101;

fn repeat(count: u8, inner: &[u8]) -> Vec<u8> {
    let [low, high, ..] = inner.len().to_le_bytes();
    [&[1, count, low, high], inner].concat()
}

/// A leg of zeros, which meets itself.
fn leg() -> Vec<u8> {
    vec![0; 1 + LEG]
}

/// These bytes in three repeats of this count.
fn thrice(count: u8, inner: &[u8]) -> Vec<u8> {
    repeat(count, &repeat(count, &repeat(count, inner)))
}

/// The patterns that are timed, and what is said of each: empty repeats alone; between two legs; and about a leg that is flown 27 times.
fn timed() -> [(Vec<u8>, u32); 3] {
    let empty = repeat(9, &[]);
    let nest = thrice(9, &empty.repeat(EMPTY));
    let half = empty.repeat((EMPTY - 20) / 2);
    [(nest.clone(), 5), ([&leg()[..], &nest, &leg()].concat(), 0), (thrice(3, &[&half[..], &leg(), &half].concat()), 0)]
}

/// Milliseconds of each, the least of many tries; none where another number is said.
pub fn times() -> Option<[f64; 3]> {
    let (patterns, mut least, mut route) = (timed(), [f64::INFINITY; 3], [0; MOST_LEGS * LEG + TRAILER]);
    for _ in 0..TRIES {
        for (least, (pattern, said)) in least.iter_mut().zip(&patterns) {
            let start = Instant::now();
            let number = archives::pattern_expand(black_box(pattern), black_box(&mut route), &mut [0; 4]);
            *least = least.min(start.elapsed().as_secs_f64() * 1e3);
            if number != *said {
                return None;
            }
        }
    }
    Some(least)
}

/// The stack of a pattern of legs as deep as they may stand, with so many items at the top, and below it so many of them as fit.
pub fn stack(items: usize) -> Option<usize> {
    let empty = repeat(9, &[]);
    let deep = thrice(2, &[repeat(2, &[leg(), leg()].concat()), empty.repeat(items.min(EMPTY - 40))].concat());
    let pattern = [deep, empty.repeat(items)].concat();
    let (mut route, mut number) = ([0; MOST_LEGS * LEG + TRAILER], 0);
    let depth = stack::depth(&mut || number = archives::pattern_expand(black_box(&pattern), black_box(&mut route), &mut [0; 4]))?;
    // one that is refused would walk less
    (number == 0).then_some(depth)
}
