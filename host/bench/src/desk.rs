//! The desk tick beside the core's own tick of the input that the desk flies.

use super::joint::Run;
use super::stack;
use compare::desk::{DESK, DESK_SETUP, STICKS};
use compare::joint::bytes::{put, ANSWER, TICK};
use compare::joint::guide::{Guide, MIXED};
use fosavalo_desk::calls;
use std::hint::black_box;
use std::time::Instant;

/// How many plain ticks a desk tick may take.
pub const BAR: f64 = 1.25;

const TRIES: usize = 201;

type Sticks = [u8; STICKS];
type Input = [u8; TICK];

/// Each stick with limits that it now and then reaches.
fn set_up() -> Option<[u8; DESK]> {
    let (mut desk, mut given) = ([0; DESK], [0; DESK_SETUP]);
    (0..3).for_each(|stick| [2.0f32, 1.0, 0.5].iter().enumerate().for_each(|(k, x)| put(&mut given, 3 * stick + k, x.to_bits())));
    (calls::setup(&mut desk, &given) == 0).then_some(desk)
}

/// Sticks that go to and fro.
fn sticks(tick: usize) -> Sticks {
    let mut sticks = [0; STICKS];
    (0..3).for_each(|stick| put(&mut sticks, stick, (1.5 * (tick as f32 / (200.0 + 100.0 * stick as f32)).sin()).to_bits()));
    sticks
}

/// Nanoseconds of a desk tick and of a plain one on the same inputs, the least of many tries in turn; and the desk tick's stack, where it can be measured.
pub type Times = ((f64, f64), Option<usize>);

/// None where a call is refused or the two answer differently.
pub fn times(run: &Run) -> Option<Times> {
    let desk = set_up()?;
    let moved: Vec<Sticks> = (0..run.inputs.len()).map(sticks).collect();
    let flown = flown(run, desk, &moved)?;
    let mut least = (f64::INFINITY, f64::INFINITY);
    for _ in 0..TRIES {
        // the input is written: the same words each time, so that it need not be copied
        let (mut held, mut image, mut inputs, mut answer) = (desk, run.start, flown.clone(), [0; ANSWER]);
        let start = Instant::now();
        for (input, sticks) in inputs.iter_mut().zip(black_box(&moved)) {
            black_box(calls::tick(&mut held, sticks, &mut image, input, &mut answer));
            black_box(&answer);
        }
        least.0 = least.0.min(start.elapsed().as_nanos() as f64 / flown.len() as f64);
        let (mut image, start) = (run.start, Instant::now());
        for input in black_box(&flown) {
            black_box(archives::tick(&mut image, input, &mut answer));
            black_box(&answer);
        }
        least.1 = least.1.min(start.elapsed().as_nanos() as f64 / flown.len() as f64);
    }
    let (mut held, mut image, mut input, mut answer) = (desk, run.start, *flown.first()?, [0; ANSWER]);
    let depth = stack::depth(&mut || {
        black_box(calls::tick(&mut held, &sticks(1), &mut image, &mut input, &mut answer));
    });
    Some((least, depth))
}

/// The inputs as the desk flies them, each beside a plain tick of it.
fn flown(run: &Run, mut desk: [u8; DESK], moved: &[Sticks]) -> Option<Vec<Input>> {
    let [mut image, mut plain] = [run.start; 2];
    let each = |(input, sticks): (&Input, &Sticks)| {
        let (mut flown, mut answers) = (*input, [[0; ANSWER]; 2]);
        let number = calls::tick(&mut desk, sticks, &mut image, &mut flown, &mut answers[0]);
        let same = number == 0 && archives::tick(&mut plain, &flown, &mut answers[1]) == 0 && image == plain && answers[0] == answers[1];
        same.then_some(flown)
    };
    run.inputs.iter().zip(moved).map(each).collect()
}

/// The desk's ticks, on the segment and on a route.
pub const CALLS: [&str; 2] = ["fosavalo_desk_tick", "fosavalo_desk_route_tick"];

/// The stack that each of `CALLS` takes, the most over some ticks of a run, on a route of so many legs. None where it can't be measured or a tick is refused.
pub fn stacks(run: &Run, legs: usize) -> Option<[usize; CALLS.len()]> {
    let (mut desk, mut image, mut answer) = (set_up()?, run.start, [0; ANSWER]);
    let route = Guide::new(8 * legs as u64 - 1, MIXED).steady();
    run.inputs.iter().take(256).enumerate().try_fold([0; CALLS.len()], |most, (at, input)| {
        let (mut input, sticks, mut numbers) = (*input, sticks(at), [0; CALLS.len()]);
        let here = [
            stack::depth(&mut || numbers[0] = calls::tick(&mut desk, &sticks, &mut image, &mut input, &mut answer))?,
            stack::depth(&mut || numbers[1] = calls::route_tick(&mut desk, &sticks, &mut image, &mut input, &route, &mut answer))?,
        ];
        (numbers == [0; CALLS.len()]).then(|| std::array::from_fn(|k| most[k].max(here[k])))
    })
}

#[cfg(test)]
mod tests {
    use super::*;
    use compare::joint::bytes::MOST_LEGS;

    #[test]
    #[cfg(any(target_arch = "x86_64", target_arch = "aarch64"))]
    fn no_desk_tick_takes_more_stack_than_its_bar() {
        for legs in [1, MOST_LEGS] {
            let depths = stacks(&crate::joint::pass(), legs).expect("measured here");
            assert!(depths.into_iter().all(|depth| depth <= stack::BAR), "{depths:?} bytes, with {legs} legs");
        }
    }

    #[test]
    fn both_tick_alike_and_the_heading_moves() {
        let run = crate::joint::pass();
        let moved: Vec<Sticks> = (0..run.inputs.len()).map(sticks).collect();
        let flown = flown(&run, set_up().expect("it is set up"), &moved).expect("both answer alike");
        let headings: std::collections::BTreeSet<&[u8]> = flown.iter().map(|input| &input[32..40]).collect();
        assert!(headings.len() > 1_000, "{} headings", headings.len());
    }
}
