//! Versions of request Twelve: cut-offs that pass through.

use super::versions;
use crate::joint::bytes::{float, SETUP_FC};
use crate::joint::model::Right;
use crate::joint::refusal::Refusals;
use std::f32::consts::PI;

versions! {
    /// Those of cut-offs that pass through.
    WRONG_CUT_OFF {
        AnyCutOff: Refusals = "any cut-off taken";
        CutOffZero: Refusals = "a cut-off of at most 0 alone refused";
        CutOffPositive: Refusals = "a cut-off that is not above 0 alone refused";
        CutOffAboveHalf: Refusals = "half the sample rate itself taken";
        OverflowThrough: Refusals = "an angle that is not finite refused";
        ThroughFirst: Refusals = "11 before 10";
        TickThrough: Refusals = "an unfiltered image refused at a tick";
    }
}

impl Refusals for AnyCutOff {
    fn passes_through(&self, _: f32, _: f32) -> bool {
        false
    }
}

impl Refusals for CutOffZero {
    fn passes_through(&self, fc: f32, _: f32) -> bool {
        fc <= 0.0
    }
}

impl Refusals for CutOffPositive {
    fn passes_through(&self, fc: f32, _: f32) -> bool {
        !(fc > 0.0)
    }
}

impl Refusals for CutOffAboveHalf {
    fn passes_through(&self, fc: f32, fs: f32) -> bool {
        Right.passes_through(fc, fs) && fc != 0.5 * fs
    }
}

impl Refusals for OverflowThrough {
    fn passes_through(&self, fc: f32, fs: f32) -> bool {
        Right.passes_through(fc, fs) || !(2.0 * PI * fc / fs).is_finite()
    }
}

impl Refusals for ThroughFirst {
    fn of_setup(&self, image: usize, input: &[u8]) -> u32 {
        match Right.of_setup(image, input) {
            10 if Right.passes_through(float(input, SETUP_FC), float(input, SETUP_FC + 1)) => 11,
            number => number,
        }
    }
}

impl Refusals for TickThrough {
    fn is_broken(&self, image: &[u8]) -> bool {
        Right.is_broken(image) || float(image, 68) == 1.0
    }
}
