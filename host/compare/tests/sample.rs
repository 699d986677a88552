//! Where a route is at a time: the archive's call against relay's own segments, byte by byte.

use compare::joint::bytes::{float, put, word, LEG, TRAILER};
use compare::joint::sample::{compare, expected, Fault, SAMPLE, WRONG};
use compare::portion;

const RUNS: u64 = 40_000;

#[test]
fn every_byte_is_the_rust_s() {
    let seen = compare(&archives::route_sample, portion::of(RUNS)).unwrap_or_else(|text| panic!("{text}"));
    println!("{seen}");
    // a run that never goes where the errors are shows nothing
    let often = [seen.past, seen.at_start, seen.wild].into_iter().chain(seen.odd).chain(seen.refused).chain(seen.legs);
    assert!(often.into_iter().all(|count| count > portion::least(1_000)), "{seen}");
}

#[test]
fn what_looks_right_but_is_wrong_is_caught() {
    let caught = |fault: &&Fault| match compare(&|route, time, sample| expected(**fault, route, time, sample), portion::of(RUNS)) {
        Err(text) => {
            println!("{fault:?}: {text:.200}");
            true
        }
        Ok(_) => false,
    };
    let missed: Vec<&Fault> = WRONG.iter().filter(|fault| !caught(fault)).collect();
    assert!(missed.is_empty(), "not caught: {missed:?}");
}

// Some by hand, through the archive; the model has no part in them.

/// Legs along the first axis from each place to the next, at rest there, a duration each.
fn along(places: &[f32], durations: &[f32]) -> Vec<u8> {
    let mut route = vec![0; LEG * durations.len() + TRAILER];
    for (leg, t) in durations.iter().enumerate() {
        [(0, places[leg]), (9, places[leg + 1]), (18, *t)].into_iter().for_each(|(at, x)| put(&mut route, 19 * leg + at, x.to_bits()));
    }
    let end = LEG * durations.len();
    put(&mut route[end..], 0, durations.len() as u32);
    put(&mut route[end..], 1, end as u32);
    route
}

fn sampled(route: &[u8], time: f32) -> (u32, [f32; 4]) {
    let mut sample = [0xa5; SAMPLE];
    assert_eq!(archives::route_sample(route, time, &mut sample), 0);
    assert!([2, 3, 5, 6, 8, 9, 11, 12].iter().all(|at| word(&sample, *at) == 0), "nothing happens on the other axes");
    (word(&sample, 0), [1, 4, 7, 10].map(|at| float(&sample, at)))
}

/// From rest to rest over d in T the quintic is d (10 s³ - 15 s⁴ + 6 s⁵), s = t/T; so at the middle it is half way, at 15/8 d/T, with no acceleration and a jerk of
/// -30 d/T³; at both ends the jerk is 60 d/T³. Here d is 2 and T is 2, and every number is exact.
#[test]
fn a_leg_by_hand() {
    let route = along(&[1.0, 3.0, 3.0], &[2.0, 1.0]);
    assert_eq!(sampled(&route, 0.0), (0, [1.0, 0.0, 0.0, 15.0]));
    assert_eq!(sampled(&route, 1.0), (0, [2.0, 1.875, 0.0, -7.5]));
    // at the end itself the next leg is flown, which rests
    assert_eq!(sampled(&route, 2.0), (1, [3.0, 0.0, 0.0, 0.0]));
    // below 0 it is the start; past the end, and for what is no number, the end
    for start in [-1.0, f32::NEG_INFINITY, -0.0] {
        assert_eq!(sampled(&route, start), (0, [1.0, 0.0, 0.0, 15.0]));
    }
    for end in [3.0, 4.0, f32::INFINITY, f32::NAN] {
        assert_eq!(sampled(&route, end), (1, [3.0, 0.0, 0.0, 0.0]));
    }
    assert_eq!(sampled(&along(&[1.0, 3.0], &[2.0]), 9.0), (0, [3.0, 0.0, 0.0, 15.0]));
}

#[test]
fn every_length_and_the_order() {
    let route = along(&[0.0, 1.0, 2.0], &[1.0, 1.0]);
    let apart = along(&[0.0, 1.0, 2.0], &[1.0, 1.0]).iter().enumerate().map(|(at, byte)| byte ^ u8::from(at == LEG)).collect::<Vec<u8>>();
    for length in 0..200 {
        let asked = |route: &[u8]| {
            let mut sample = vec![0xa5; length];
            let number = archives::route_sample(route, 0.5, &mut sample);
            assert_eq!(number == 0, sample.iter().any(|byte| *byte != 0xa5), "a refused call changes nothing");
            number
        };
        let wrong = length != SAMPLE;
        let or = |number| if wrong { 3 } else { number };
        assert_eq!([asked(&route), asked(&apart), asked(&route[1..]), asked(&[0; 8]), asked(&[0; 7]), asked(&[])], [or(0), or(7), or(6), or(5), or(6), or(6)]);
    }
}
