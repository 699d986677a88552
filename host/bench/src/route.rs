//! The route tick by how many legs the route has and which is flown: ours through the C call, theirs as the Rust's own calls on the same legs.
//! Their side makes segments of the legs up to the one flown; it looks at no length and at nothing of row 4, which is its gain.

use super::joint::Run;
use compare::joint::bytes::{float, put, Take, ANSWER, IMAGE, LEG, TICK};
use compare::joint::model::{self, Flight, Steps};
use compare::joint::route::{segment, Legs, Source};
use oracle::traj::Sample3;
use std::hint::black_box;
use std::time::Instant;

/// How many legs, and which of them is flown, counted from 0.
pub const CASES: [(usize, usize); 5] = [(1, 0), (8, 0), (8, 7), (32, 0), (32, 31)];
const TRIES: usize = 101;

/// How many plain ticks a tick on the one leg of a route may take.
pub const BAR: f64 = 1.1;

/// Where the clock starts, s, and its word in an image.
const START: f32 = 1.0;
const TIME: usize = 16;

type Image = [u8; IMAGE];
type Input = [u8; TICK];
type Answer = [u8; ANSWER];

/// A route of legs that meet, this one flown from `START` on for as long as anyone measures.
fn route(legs: usize, flown: usize) -> Vec<u8> {
    let mut bytes = vec![0; LEG * legs];
    for (at, leg) in bytes.chunks_exact_mut(LEG).enumerate() {
        put(leg, 0, (at as f32).to_bits());
        put(leg, 9, (at as f32 + 1.0).to_bits());
        put(leg, 18, if at < flown { START / legs as f32 } else { 1e4 }.to_bits());
    }
    [legs, LEG * legs].iter().for_each(|word| bytes.extend((*word as u32).to_le_bytes()));
    bytes
}

fn ours(image: &mut Image, input: &Input, route: &[u8], answer: &mut Answer) -> u32 {
    archives::route_tick(image, input, route, answer)
}

/// The model on a route of which nothing is kept: at each tick the Rust makes segments of the legs up to the one flown.
struct Unkept<'a>(&'a [u8]);

impl Legs for Unkept<'_> {}

impl Steps for Unkept<'_> {
    #[inline]
    fn sample(&self, flight: &Flight, source: &Source, time: f32) -> Sample3 {
        let (mut end, mut last) = (0.0, None);
        for words in self.0.chunks_exact(LEG) {
            let leg = segment(&mut Take::from(words, 0));
            let next = end + leg.duration();
            if time < next {
                return leg.eval(time - end);
            }
            end = next;
            last = Some(leg);
        }
        let (leg, at) = last.as_ref().map_or_else(|| self.flown(flight, source, time), |leg| (leg, leg.duration()));
        leg.eval(at)
    }
}

/// The Rust's objects, made from the bytes and written back. It compares the joins where it is asked to: relay's own calls know of none.
#[inline(never)]
fn theirs(joins: bool, image: &mut Image, input: &Input, route: &[u8], answer: &mut Answer) -> u32 {
    if joins && !meet(route) {
        return 7;
    }
    let mut flight = Flight::from_image(image);
    Unkept(route).tick(&mut flight, &Source::Segment, &model::Input::read(input)).write(answer);
    flight.write_but_peaks(image);
    0
}

fn meet(route: &[u8]) -> bool {
    let legs = || route.chunks_exact(LEG);
    legs().zip(legs().skip(1)).all(|(earlier, later)| (0..9).all(|k| float(earlier, 9 + k) == float(later, k)))
}

/// The image with the clock at `START`.
fn started(run: &Run) -> Image {
    let mut start = run.start;
    put(&mut start, TIME, START.to_bits());
    start
}

/// Nanoseconds a tick for each of the cases: ours, theirs, theirs with no join compared, and our plain tick of the same inputs; the least of many
/// short tries, all taking turns. None where the two answer differently.
pub fn times(run: &Run) -> Option<[[f64; 4]; CASES.len()]> {
    let routes = CASES.map(|(legs, flown)| route(legs, flown));
    let start = started(run);
    if !routes.iter().all(|route| alike(run, start, route)) {
        return None;
    }
    let timed = |each: &mut dyn FnMut(&mut Image, &Input, &mut Answer) -> u32| {
        let (mut image, mut answer, from) = (start, [0; ANSWER], Instant::now());
        for input in black_box(&run.inputs) {
            black_box(each(&mut image, input, &mut answer));
            black_box(&answer);
        }
        from.elapsed().as_nanos() as f64 / run.inputs.len() as f64
    };
    let mut least = [[f64::INFINITY; 4]; CASES.len()];
    for _ in 0..TRIES {
        for (least, route) in least.iter_mut().zip(&routes) {
            let now = [
                timed(&mut |image, input, answer| ours(image, input, black_box(route), answer)),
                timed(&mut |image, input, answer| theirs(true, image, input, black_box(route), answer)),
                timed(&mut |image, input, answer| theirs(false, image, input, black_box(route), answer)),
                timed(&mut |image, input, answer| archives::tick(image, input, answer)),
            ];
            least.iter_mut().zip(now).for_each(|(least, now)| *least = least.min(now));
        }
    }
    Some(least)
}

/// What is timed does the same: every answer and the image after it.
fn alike(run: &Run, start: Image, route: &[u8]) -> bool {
    let [mut ours_at, mut theirs_at] = [start; 2];
    run.inputs.iter().all(|input| {
        let mut answers = [[0; ANSWER]; 2];
        let number = ours(&mut ours_at, input, route, &mut answers[0]);
        let theirs = theirs(true, &mut theirs_at, input, route, &mut answers[1]);
        (number, theirs) == (0, 0) && answers[0] == answers[1] && ours_at == theirs_at
    })
}

#[cfg(test)]
mod tests {
    use super::*;
    use crate::joint;
    use compare::joint::model::Right;

    /// From the first tick to the last it is the leg that the case names.
    #[test]
    fn the_leg_of_the_case_is_flown() {
        let run = joint::pass();
        for (legs, flown) in CASES {
            let (bytes, mut image, mut answer) = (route(legs, flown), started(&run), [0; ANSWER]);
            let route = Right.route(&bytes[..LEG * legs]);
            for input in &run.inputs {
                assert_eq!(ours(&mut image, input, &bytes, &mut answer), 0);
                let place = Right.place(&route, float(&answer, 7));
                assert_eq!((place.leg, place.past), (flown, false));
            }
        }
    }

    #[test]
    fn both_sides_answer_alike() {
        let run = joint::headings();
        for (legs, flown) in CASES {
            let bytes = route(legs, flown);
            assert!(alike(&run, started(&run), &bytes), "{legs} legs, leg {flown}");
        }
    }
}
