//! The joint tick beside relay as it is flown: its modules on the kernels that it publishes, where `joint` has them on our sine and cosine.

use super::joint::{self, ours, published, Input, OnBytes, Run};
use super::tries::{row, Bar, Taken};
use compare::generate::{self, Kind, Part, Rng};
use compare::joint::bytes::{float, raw, word, ANSWER, TICK};
use compare::joint::model::Profile;
use compare::joint::pilot::Pilot;
use compare::numbers::LIMIT;
use compare::println;
use std::hint::black_box;
use std::sync::atomic::{AtomicBool, Ordering::Relaxed};
use std::thread;

/// So many that no branch predictor learns them; no two of a run are alike.
const TICKS: usize = 20_480;
const TRIES: usize = 41;

/// A pass whose segment lasts longer than that, and whose shield has both hands fly at random inputs.
const PASS: u64 = 34;

/// An input's words: rate, attitude, tracking error, heading, its rate, step, command, fractions.
const ANY: [Part; 8] = [
    Part::Vector(3.0),
    Part::Quaternion,
    Part::Above(2.0),
    Part::Number(LIMIT),
    Part::Number(1.0),
    Part::Above(0.002),
    Part::Vector(2.0),
    Part::Gains(1.0),
];

fn pass(profile: Profile) -> Run {
    joint::run(Pilot::on_a_pass(profile, PASS), TICKS, |_, _| {})
}

/// The same set-up, with any such input at each tick.
fn random() -> Run {
    let any = |rng: &mut Rng, input: &mut Input| {
        let mut words = [0.0; TICK / 4];
        generate::fill_as(Kind::Flight, &ANY, None, 0, rng, &mut words);
        *input = raw(&words);
    };
    joint::run(Pilot::on_a_pass(Profile::Whole, PASS), TICKS, any)
}

fn runs() -> [(&'static str, Run, Bar); 3] {
    [
        ("slow pass", pass(Profile::Whole), Bar::Median(0.65)),
        ("random inputs", random(), Bar::Median(0.7)),
        ("slow pass, rotor lost", pass(Profile::LostRotor), Bar::None),
    ]
}

/// Ours and theirs.
fn times(run: &Run) -> [Taken; 2] {
    let times = joint::turns(&mut [Box::new(OnBytes(run.start, ours)), Box::new(OnBytes(run.start, published))], run, TRIES);
    [times[0], times[1]]
}

/// Relay's kernels have other last bits than ours: the flag is the same but in a tick of a thousand, at a margin next to a threshold, and the
/// command nearly the same where the flag is.
fn near(run: &Run) -> bool {
    let ([mut ours_at, mut theirs_at], mut parted) = ([run.start; 2], 0);
    let near = run.inputs.iter().all(|input| {
        let [mut a, mut b] = [[0; ANSWER]; 2];
        ours(&mut ours_at, input, &mut a);
        published(&mut theirs_at, input, &mut b);
        let same = word(&a, 6) == word(&b, 6);
        parted += usize::from(!same);
        !same || (3..6).all(|at| (float(&a, at) - float(&b, at)).abs() <= 1e-3)
    });
    near && 1000 * parted <= run.inputs.len()
}

/// Does this beside a thread that goes on with whole numbers and floats until it is done.
fn beside_a_busy_core(work: impl FnOnce()) {
    let done = AtomicBool::new(false);
    thread::scope(|scope| {
        scope.spawn(|| {
            // side by side: a chain alone would leave most of a core that two threads share to the other
            let mut chains = [(1u64, 1.0); 8];
            while !done.load(Relaxed) {
                for (n, x) in &mut chains {
                    *n = n.wrapping_mul(6_364_136_223_846_793_005).wrapping_add(1);
                    *x = 0.999 * *x + (*n >> 40) as f64;
                }
                black_box(&chains);
            }
        });
        work();
        done.store(true, Relaxed);
    });
}

/// The rows; false where one is over its bar. The bars are for a machine that does nothing else.
pub fn rows() -> bool {
    let (runs, mut good) = (runs(), true);
    println!("joint tick, against relay as it is flown, bytes to bytes: median / least");
    for (name, run, bar) in &runs {
        if !(joint::alike(run) && near(run)) {
            println!("{name}: the sides answer differently");
            good = false;
        }
        good &= row(name, times(run), *bar);
    }
    beside_a_busy_core(|| {
        for (name, run, _) in &runs {
            row(&format!("{name}, beside a busy core"), times(run), Bar::None);
        }
    });
    good
}

#[cfg(test)]
mod tests {
    use super::*;
    use std::collections::BTreeSet;

    /// No two ticks are alike, the hands change, and the segment is not over when they are.
    #[test]
    fn every_tick_is_another_on_the_segment() {
        for (name, run, _) in runs() {
            let (mut image, mut answer, mut hands) = (run.start, [0; ANSWER], [0; 2]);
            for input in &run.inputs {
                published(&mut image, input, &mut answer);
                hands[word(&answer, 6) as usize] += 1;
            }
            let [time, end] = [float(&answer, 7), float(&run.start, 26)];
            assert!(time > 1.0 && time < end, "{name}: {time} s of {end} s");
            assert!(hands.iter().all(|&ticks| ticks > TICKS / 10), "{name}: {hands:?}");
            assert_eq!(run.inputs.iter().collect::<BTreeSet<_>>().len(), TICKS, "{name}");
        }
    }

    #[test]
    fn the_sides_fly_nearly_alike() {
        for (name, run, _) in runs() {
            assert!(joint::alike(&run) && near(&run), "{name}");
        }
    }

    /// Nearly: by the last bits it is seen that the kernels are relay's own, not ours under their name.
    #[test]
    fn relay_has_its_own_kernels() {
        let (run, mut answer) = (random(), [0; ANSWER]);
        let [on_ours, on_its_own] = [joint::made, published].map(|tick: fn(&mut joint::Image, &Input, &mut joint::Answer)| {
            let mut image = run.start;
            run.inputs.iter().for_each(|input| tick(&mut image, input, &mut answer));
            image
        });
        assert_ne!(on_ours, on_its_own);
    }
}
