//! The joint tick on bytes: ours through the C call, theirs as the Rust's own calls in document 01's order, on our sine and cosine.
//! Their side reads the same input and writes the same answer; it looks at no length and at nothing of row 4, which is its gain.

use super::tries::Taken;
use super::{pattern, stack};
use compare::generate::Rng;
use compare::joint::bytes::{put, ANSWER, IMAGE, MOST_LEGS, SETUP, TICK};
use compare::joint::guide::{Guide, MIXED};
use compare::joint::model::{Flight, Profile};
use compare::joint::pilot::Pilot;
use compare::joint::route::Source;
use compare::joint::sample::SAMPLE;
use compare::log::{model, RECORD, TRAILER};
use compare::numbers::LIMIT;
use compare::portion;
use std::hint::black_box;
use std::time::Instant;

const TICKS: usize = 4096;
const TRIES: usize = 201;

/// So few that most of them are over before the machine turns to something else: a median is then of undisturbed ones.
const SLICE: usize = 1024;

pub type Image = [u8; IMAGE];
pub type Input = [u8; TICK];
pub type Answer = [u8; ANSWER];

/// A set-up's image and what comes in after it.
pub struct Run {
    set_up: [u8; SETUP],
    pub start: Image,
    pub inputs: Vec<Input>,
}

/// A slow pass with all rotors.
pub fn pass() -> Run {
    run(Pilot::on_a_pass(Profile::Whole, 1), TICKS, |_, _| {})
}

/// The same with a rotor lost.
pub fn lost_rotor() -> Run {
    run(Pilot::on_a_pass(Profile::LostRotor, 1), TICKS, |_, _| {})
}

/// A slow pass whose image has a NaN in it, of a gain that no tick uses: what it reads and writes is then tested word by word.
pub fn with_a_nan() -> Run {
    let mut run = pass();
    put(&mut run.start, 4, 0x7fc0_0000);
    run
}

/// The same with any heading up to the limit and any attitude at each tick.
pub fn headings() -> Run {
    let heading = |rng: &mut Rng, input: &mut Input| {
        put(input, 8, rng.range(-LIMIT, LIMIT).to_bits());
        rng.direction::<4>().iter().enumerate().for_each(|(k, x)| put(input, 3 + k, x.to_bits()));
    };
    run(Pilot::on_a_pass(Profile::Whole, 1), TICKS, heading)
}

/// So many ticks of this pilot's, each input altered.
pub fn run(mut pilot: Pilot, ticks: usize, alter: impl Fn(&mut Rng, &mut Input)) -> Run {
    let (set_up, mut rng) = (pilot.set_up(), Rng::new("bench", 1));
    let mut flight = Flight::set_up(&set_up);
    let mut start = [0; IMAGE];
    flight.write(&mut start);
    let inputs = (0..ticks)
        .map(|_| {
            let mut input = pilot.next(&flight, &Source::Segment);
            alter(&mut rng, &mut input);
            flight.tick(&input, &mut [0; ANSWER]);
            input
        })
        .collect();
    Run { set_up, start, inputs }
}

/// One way to tick.
pub trait Side {
    fn begin(&mut self, start: &Image);
    fn tick(&mut self, input: &Input, answer: &mut Answer);
}

/// A call on an image's bytes, which begin a line of the cache: no row hangs on where they happen to lie.
#[repr(align(64))]
pub struct OnBytes<F>(pub Image, pub F);

impl<F: Fn(&mut Image, &Input, &mut Answer)> Side for OnBytes<F> {
    fn begin(&mut self, start: &Image) {
        self.0 = *start;
    }

    fn tick(&mut self, input: &Input, answer: &mut Answer) {
        (self.1)(&mut self.0, input, answer);
    }
}

/// The C call.
pub fn ours(image: &mut Image, input: &Input, answer: &mut Answer) {
    black_box(archives::tick(image, input, answer));
}

/// Rust objects made from the image's bytes at each tick, and written back.
macro_rules! made {
    ($name:ident of $flight:ty) => {
        #[inline(never)]
        pub fn $name(image: &mut Image, input: &Input, answer: &mut Answer) {
            let mut flight = <$flight>::from_image(image);
            flight.tick(input, answer);
            flight.write_but_peaks(image);
        }
    };
}

// on our sine and cosine, as the oracle is; and on relay's own, as it is flown
made!(made of Flight);
made!(published of compare_published::joint::model::Flight);

/// Rust objects that stay.
struct Kept(Option<Flight>);

impl Side for Kept {
    fn begin(&mut self, start: &Image) {
        self.0 = Some(Flight::from_image(start));
    }

    fn tick(&mut self, input: &Input, answer: &mut Answer) {
        #[inline(never)]
        fn call(flight: &mut Flight, input: &Input, answer: &mut Answer) {
            flight.tick(input, answer);
        }
        if let Some(flight) = &mut self.0 {
            call(flight, input, answer);
        }
    }
}

/// The C call of an earlier archive, on an image of its own length: before request Seven that was 96 words, before request Six 95.
#[cfg(before)]
struct Before {
    image: Image,
    len: usize,
}

#[cfg(before)]
impl Before {
    fn new(run: &Run) -> Self {
        let mut before = Before { image: run.start, len: IMAGE };
        for words in [99, 96, 95] {
            before.len = 4 * words;
            if before.call(&run.inputs[0], &mut [0; ANSWER]) != 1 {
                break;
            }
        }
        before
    }

    fn call(&mut self, input: &Input, answer: &mut Answer) -> u32 {
        extern "C" {
            fn fosavalo_tick_before(i: *mut u8, n: usize, input: *const u8, m: usize, answer: *mut u8, k: usize) -> u32;
        }
        let image = &mut self.image[..self.len];
        // SAFETY: each pointer goes with its own buffer's length, and all three live until the call is over.
        unsafe { fosavalo_tick_before(image.as_mut_ptr(), image.len(), input.as_ptr(), TICK, answer.as_mut_ptr(), ANSWER) }
    }
}

#[cfg(before)]
impl Side for Before {
    fn begin(&mut self, start: &Image) {
        self.image = *start;
        put(&mut self.image, 0, (self.len / 4) as u32);
    }

    fn tick(&mut self, input: &Input, answer: &mut Answer) {
        black_box(self.call(input, answer));
    }
}

/// Nanoseconds a tick: ours, theirs made from bytes, theirs kept. The least of many short tries, the sides taking turns, for a
/// machine that does other things as well only ever adds.
pub struct Times {
    pub ours: f64,
    pub made: f64,
    pub kept: f64,
    /// An earlier archive's, where there is one.
    pub before: Option<f64>,
}

pub fn times(run: &Run) -> Times {
    let mut sides: Vec<Box<dyn Side>> = vec![Box::new(OnBytes(run.start, ours)), Box::new(OnBytes(run.start, made)), Box::new(Kept(None))];
    #[cfg(before)]
    sides.push(Box::new(Before::new(run)));
    let least: Vec<f64> = turns(&mut sides, run, TRIES).iter().map(|taken| taken.least).collect();
    Times { ours: least[0], made: least[1], kept: least[2], before: least.get(3).copied() }
}

/// Nanoseconds a tick of each side, taking turns slice by slice of the run: the mean over the slices of what each took.
pub fn turns(sides: &mut [Box<dyn Side>], run: &Run, tries: usize) -> Vec<Taken> {
    let slices = run.inputs.chunks(SLICE);
    let mut taken = vec![vec![Vec::with_capacity(tries); slices.len()]; sides.len()];
    for _ in 0..tries {
        sides.iter_mut().for_each(|side| side.begin(&run.start));
        for (at, slice) in slices.clone().enumerate() {
            for (side, taken) in sides.iter_mut().zip(&mut taken) {
                taken[at].push(once(side.as_mut(), slice));
            }
        }
    }
    taken.into_iter().map(|slices| Taken::mean(slices.into_iter().map(Taken::of))).collect()
}

/// And of one side once.
fn once(side: &mut dyn Side, inputs: &[Input]) -> f64 {
    let (mut answer, start) = ([0; ANSWER], Instant::now());
    for input in black_box(inputs) {
        side.tick(input, &mut answer);
        black_box(&answer);
    }
    start.elapsed().as_nanos() as f64 / inputs.len() as f64
}

/// What is timed does the same: every answer of all three sides.
pub fn alike(run: &Run) -> bool {
    let (mut ours, mut made, mut kept) = (OnBytes(run.start, ours), OnBytes(run.start, made), Kept(None));
    kept.begin(&run.start);
    run.inputs.iter().all(|input| {
        let mut answers = [[0; ANSWER]; 3];
        ours.tick(input, &mut answers[0]);
        made.tick(input, &mut answers[1]);
        kept.tick(input, &mut answers[2]);
        answers[0] == answers[1] && answers[1] == answers[2] && ours.0 == made.0
    })
}

/// The C calls whose stack is measured, and the Rust's own calls of a tick beside them.
pub const CALLS: [&str; 15] = [
    "fosavalo_setup",
    "fosavalo_tick",
    "fosavalo_route_tick",
    "fosavalo_route_sample",
    "fosavalo_exchange",
    "fosavalo_tick_refusal",
    "fosavalo_sinf",
    "fosavalo_cosf",
    "fosavalo_log_append",
    "fosavalo_log_count",
    "fosavalo_log_record",
    "fosavalo_log_check",
    "fosavalo_flags",
    "fosavalo_pattern_expand",
    "the Rust calls of a tick",
];
/// Where in `CALLS` the tick stands, and the Rust's.
pub const TICKED: usize = 1;
pub const RUST: usize = CALLS.len() - 1;

/// The stack that each of `CALLS` takes, the most over some ticks of a run, on a thread of its own. None where it can't be measured. The
/// route has the most legs, the pattern a million items.
pub fn stacks(run: &Run) -> Option<[usize; CALLS.len()]> {
    stacks_on(run, &route(MOST_LEGS))
}

/// A route of so many legs.
fn route(legs: usize) -> Vec<u8> {
    Guide::new(8 * legs as u64 - 1, MIXED).steady()
}

fn stacks_on(run: &Run, route: &[u8]) -> Option<[usize; CALLS.len()]> {
    fn of<T>(mut call: impl FnMut() -> T) -> Option<usize> {
        stack::depth(&mut || {
            black_box(call());
        })
    }
    let measure = || {
        let [mut fresh, mut ours, mut routed, mut exchanged, mut theirs] = [run.start; 5];
        let leg = &run.set_up[4 * 17..4 * 36];
        let mut answer = [0; ANSWER];
        let (mut log, mut record) = ([0; TRAILER + RECORD], [0; RECORD]);
        // once: it takes as long as thousands of ticks, and no tick changes it
        let expanded = pattern::stack(pattern::MANY)?;
        run.inputs.iter().take(portion::of(256) as usize).try_fold([0; CALLS.len()], |most, input| {
            let yaw = f32::from_le_bytes(input[32..36].try_into().ok()?);
            log[..TRAILER].copy_from_slice(&model::written(&[]));
            let here = [
                of(|| archives::setup(&mut fresh, &run.set_up))?,
                of(|| archives::tick(&mut ours, input, &mut answer))?,
                of(|| archives::route_tick(&mut routed, input, route, &mut answer))?,
                of(|| archives::route_sample(route, yaw, &mut [0; SAMPLE]))?,
                of(|| archives::exchange(&mut exchanged, leg))?,
                of(|| archives::tick_refusal(&ours, TICK, ANSWER))?,
                of(|| archives::sinf(yaw))?,
                of(|| archives::cosf(yaw))?,
                of(|| archives::log_append(&mut log, TRAILER as u64, input, &answer))?,
                of(|| archives::log_count(&log, &mut [0; 4]))?,
                of(|| archives::log_record(&log, 0, &mut record))?,
                of(|| archives::log_check(&log, 0, 0.03, 0.07, &mut [0; 4]))?,
                // any words are margins
                of(|| archives::flags(input, 0.03, 0.07, &mut [0; TICK / 4]))?,
                expanded,
                of(|| made(&mut theirs, input, &mut answer))?,
            ];
            Some(std::array::from_fn(|k| most[k].max(here[k])))
        })
    };
    std::thread::scope(|scope| {
        let thread = std::thread::Builder::new().stack_size(stack::LEAST).spawn_scoped(scope, measure);
        thread.ok().and_then(|thread| thread.join().ok()).flatten()
    })
}

#[cfg(all(test, any(target_arch = "x86_64", target_arch = "aarch64")))]
mod tests {
    use super::*;

    /// Where in `CALLS` the route tick stands.
    const ROUTED: usize = 2;

    #[test]
    fn no_call_takes_more_stack_than_its_bar() {
        for run in [pass(), headings(), lost_rotor(), with_a_nan()] {
            let depths = stacks(&run).expect("measured on this machine");
            assert!((0..RUST).all(|k| depths[k] <= stack::BAR), "{depths:?}");
        }
    }

    #[test]
    fn a_route_tick_that_is_measured_is_a_tick() {
        let (run, mut answer) = (pass(), [0; ANSWER]);
        for legs in [1, MOST_LEGS] {
            let route = route(legs);
            assert_eq!(route.len(), legs * 76 + 8);
            assert_eq!(archives::route_tick(&mut run.start.clone(), &run.inputs[0], &route, &mut answer), 0);
        }
    }

    #[test]
    fn no_stack_grows_with_the_legs() {
        let run = pass();
        let [one, most] = [1, MOST_LEGS].map(|legs| stacks_on(&run, &route(legs)).expect("measured on this machine"));
        assert_eq!(one[ROUTED], most[ROUTED]);
    }

    /// Nor with the items of a pattern.
    #[test]
    fn no_stack_grows_with_the_items() {
        let [few, many] = [1, pattern::MANY].map(|items| pattern::stack(items).expect("measured on this machine"));
        assert_eq!(few, many);
    }

    #[test]
    fn an_exchange_that_is_measured_is_one() {
        let run = pass();
        assert_eq!(archives::exchange(&mut run.start.clone(), &run.set_up[4 * 17..4 * 36]), 0);
    }
}
