//! What keeps a state, over runs of two thousand steps: every field after each step.

use compare::runs::{self, Machine};
use compare::portion;
use compare::words::Words;
use archives::{adrc, geo};

const RUNS: u64 = 512;
const STEPS: u64 = 2000;

fn never_parts<O: Words + Copy, T: Words>(machine: Machine<O, T>) {
    if let Some(parted) = machine.run(portion::of(RUNS), STEPS) {
        panic!("{parted}");
    }
}

#[test]
fn simplex_shield() {
    never_parts(runs::simplex_shield());
}

#[test]
fn ref_governor() {
    never_parts(runs::ref_governor());
}

#[test]
fn adrc_axis() {
    never_parts(runs::adrc_axis());
}

#[test]
fn adrc_rate() {
    never_parts(runs::adrc_rate());
}

#[test]
fn biquad() {
    never_parts(runs::biquad());
}

#[test]
fn gyro_lpf() {
    never_parts(runs::gyro_lpf());
}

#[test]
fn command_filter() {
    never_parts(runs::command_filter());
}

#[test]
fn command_filter_3() {
    never_parts(runs::command_filter_3());
}

/// Runs can fail too: a shield that is released inside the band, and an axis that forgets the fraction.
#[test]
fn what_looks_right_but_is_wrong_parts() {
    let in_the_band = runs::simplex_shield().with_ours("step", |shield, i, o| {
        let mut answer = geo::simplexshield_step(geo::SimplexShield { exit: shield.enter, ..shield }, i.get(), i.get(), i.get());
        answer.shield.exit = shield.exit;
        (answer.command, answer.fallback).put(o);
        answer.shield
    });
    assert!(in_the_band.run(portion::of(RUNS), STEPS).is_some());
    let forgetful = runs::adrc_axis().with_ours("tick", |axis, i, o| {
        let mut answer = adrc::adrcaxis_tick(adrc::AdrcAxis { u_delivered_frac: 1.0, ..axis }, i.get(), i.get(), i.get());
        answer.axis.u_delivered_frac = axis.u_delivered_frac;
        answer.u.put(o);
        answer.axis
    });
    assert!(forgetful.run(portion::of(RUNS), STEPS).is_some());
}
