//! Versions that every tick shows.

use super::{act_and_then, is_tick, keep, versions};
use crate::joint::bytes::{ANSWER, IMAGE};
use crate::joint::lent::Lending;
use crate::joint::model::{Answer, Flight, Guidance, Input, Profile, Right, Steps};
use crate::joint::refusal::Refusals;
use crate::joint::route::Source;
use crate::joint::Call;
use oracle::adrc::AdrcRate;
use oracle::geo::{RecoverableSet, Vec3};
use oracle::traj::{Sample3, Segment3};
use std::cell::Cell;

versions! {
    /// Those that every tick shows.
    WRONG {
        ReleasedInTheBand: Steps = "released in the band";
        ReleasedAtExit: Steps = "released at exit itself";
        EngagedAtEnter: Steps = "engaged at enter itself";
        PsiZero: Steps = "psi 0 where there is no R_d";
        PlusZero: Steps = "+0.0 added where the feedforward refuses";
        InfiniteAtZero: Steps = "an infinite time sampled at 0";
        StepOfAdrc: Steps = "dt cleaned once for both, as ADRC does";
        StepOfGovernor: Steps = "dt cleaned once for both, as the governor does";
        FractionNow: Steps = "the fraction on this tick's command";
        FractionLate: Steps = "the fractions set after the tick";
        EngagedTwo: Refusals = "engaged = 2 accepted";
        FirstEndOnly: Refusals = "only the first t_end looked at";
        ShortestEnd: Refusals = "a t_end of 1e-3 itself refused";
        RawRate: Steps = "the margin of the gyro as it came";
        OtherGain: Steps = "the margin with the controller's k_r";
        NoCleaning: Steps = "a non-finite pick passed on";
        KeptNan: Steps = "a kept NaN left as it is";
        TimeBefore: Steps = "the time before the advance answered";
        RefusesAll: Refusals = "a sham that refuses every call";
        Constant: Steps = "a sham with one answer";
        Untouched: Steps = "a sham that leaves the image";
        Echo: Steps = "a sham that echoes its first answer";
    }
}

impl Steps for ReleasedInTheBand {
    fn pick(&self, flight: &mut Flight, margin: f32, planner: Vec3, fallback: Vec3) -> (Vec3, bool) {
        let [.., enter, _] = flight.shield.words();
        Right.pick(flight, if margin > enter { f32::MAX } else { margin }, planner, fallback)
    }
}

impl Steps for ReleasedAtExit {
    fn pick(&self, flight: &mut Flight, margin: f32, planner: Vec3, fallback: Vec3) -> (Vec3, bool) {
        let [.., exit] = flight.shield.words();
        Right.pick(flight, if margin == exit { f32::MAX } else { margin }, planner, fallback)
    }
}

impl Steps for EngagedAtEnter {
    fn pick(&self, flight: &mut Flight, margin: f32, planner: Vec3, fallback: Vec3) -> (Vec3, bool) {
        let [.., enter, _] = flight.shield.words();
        Right.pick(flight, if margin == enter { f32::NAN } else { margin }, planner, fallback)
    }
}

impl Steps for PsiZero {
    fn nowhere(&self, fallback: Vec3) -> Guidance {
        Guidance { psi: 0.0, ..Right.nowhere(fallback) }
    }
}

impl Steps for PlusZero {
    fn fallback(&self, desired_rate: Vec3, ahead: Option<Vec3>) -> Vec3 {
        Right.fallback(desired_rate, ahead.or(Some([0.0; 3])))
    }
}

impl Steps for InfiniteAtZero {
    fn flown<'a>(&self, flight: &'a Flight, source: &'a Source, time: f32) -> (&'a Segment3, f32) {
        match source {
            Source::Segment => (&flight.segment, time),
            Source::Route(_) => Right.flown(flight, source, time),
        }
    }
}

impl Steps for StepOfAdrc {
    fn tick(&self, flight: &mut Flight, source: &Source, i: &Input) -> Answer {
        let dt = if i.dt.is_finite() { i.dt.clamp(1e-4, 0.1) } else { 1e-3 };
        Right.tick(flight, source, &Input { dt, ..*i })
    }
}

impl Steps for StepOfGovernor {
    fn tick(&self, flight: &mut Flight, source: &Source, i: &Input) -> Answer {
        let dt = if i.dt.is_finite() && i.dt > 0.0 { i.dt } else { 0.0 };
        Right.tick(flight, source, &Input { dt, ..*i })
    }
}

impl Steps for FractionNow {
    fn tick(&self, flight: &mut Flight, source: &Source, i: &Input) -> Answer {
        let mut answer = Right.tick(flight, source, &Input { fraction: [1.0; 3], ..*i });
        Right.set_fractions(flight, i);
        let mut axes = flight.rate.words();
        let moved = if flight.profile == Profile::LostRotor { 2 } else { 3 };
        for (u, axis) in answer.torque.iter_mut().zip(&mut axes).take(moved) {
            *u *= axis[4];
            axis[2] = *u;
        }
        flight.rate = AdrcRate::from_words(axes);
        answer
    }
}

/// Another order, so two steps.
impl Steps for FractionLate {
    fn set_fractions(&self, _: &mut Flight, _: &Input) {}

    fn follow(&self, flight: &mut Flight, i: &Input, omega: Vec3, command: Vec3) -> Vec3 {
        let torque = Right.follow(flight, i, omega, command);
        Right.set_fractions(flight, i);
        torque
    }
}

impl Refusals for EngagedTwo {
    fn is_engaged(&self, word: u32) -> bool {
        word <= 2
    }
}

impl Refusals for FirstEndOnly {
    fn are_ends(&self, [first, ..]: [f32; 3]) -> bool {
        Right.are_ends([first; 3])
    }
}

impl Refusals for ShortestEnd {
    fn are_ends(&self, t_ends: [f32; 3]) -> bool {
        Right.are_ends(t_ends) && !t_ends.contains(&1e-3)
    }
}

impl Steps for RawRate {
    fn guide(&self, flight: &Flight, i: &Input, _: Vec3, sample: &Sample3) -> Guidance {
        Right.guide(flight, i, i.gyro, sample)
    }
}

impl Steps for OtherGain {
    fn margin(&self, flight: &Flight, psi: f32, squared: f32) -> f32 {
        let ([[k_r, ..], ..], set) = (flight.controller.words(), flight.set());
        RecoverableSet::new(k_r, set.lambda_j, set.psi_max).margin(psi, squared)
    }
}

impl Steps for NoCleaning {
    fn pick(&self, flight: &mut Flight, margin: f32, planner: Vec3, fallback: Vec3) -> (Vec3, bool) {
        let (_, flag) = Right.pick(flight, margin, planner, fallback);
        (if flag { fallback } else { planner }, flag)
    }
}

impl Steps for KeptNan {
    fn act(&self, call: Call, lent: &mut Lending<'_>) {
        act_and_then(call, lent, |old, lent| {
            if is_tick(call) {
                [4..60, 68..164].into_iter().for_each(|kept| keep(lent.image, old, kept));
            }
        });
    }
}

impl Steps for TimeBefore {
    fn tick(&self, flight: &mut Flight, source: &Source, i: &Input) -> Answer {
        let time = flight.governor.time();
        Answer { time, ..Right.tick(flight, source, i) }
    }
}

impl Refusals for RefusesAll {
    fn refused(&self, call: Call, lent: &Lending<'_>) -> u32 {
        Right.but_for_the_route(call, lent).max(1)
    }
}

impl Steps for Constant {
    fn act(&self, call: Call, lent: &mut Lending<'_>) {
        Right.act(call, lent);
        if is_tick(call) {
            lent.answer.fill(0);
        }
    }
}

impl Steps for Untouched {
    fn act(&self, call: Call, lent: &mut Lending<'_>) {
        act_and_then(call, lent, |old, lent| {
            if is_tick(call) {
                keep(lent.image, old, 0..IMAGE);
            }
        });
    }
}

thread_local! {
    /// What the echo says.
    static FIRST: Cell<Option<[u8; ANSWER]>> = const { Cell::new(None) };
}

impl Steps for Echo {
    fn act(&self, call: Call, lent: &mut Lending<'_>) {
        Right.act(call, lent);
        if call == Call::SetUp {
            FIRST.set(None);
        }
        if is_tick(call) {
            FIRST.get().into_iter().for_each(|first| lent.answer.copy_from_slice(&first));
            FIRST.set((&*lent.answer).try_into().ok());
        }
    }
}
