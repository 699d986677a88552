//! Versions of request Seven: the exchange and the peaks.

use super::{act_and_then, keep, versions};
use crate::joint::bytes::{float, word, IMAGE, PEAKS};
use crate::joint::lent::Lending;
use crate::joint::model::{Flight, Right, Steps};
use crate::joint::refusal::{stored, Refusals};
use crate::joint::Call;
use oracle::adrc::GyroLpf;
use oracle::geo::SimplexShield;
use oracle::traj::Segment3;

versions! {
    /// Those of the exchange and of the peaks.
    WRONG_EXCHANGE {
        ExchangeKeepsTime: Steps = "an exchange that keeps the time";
        ExchangeResetsShield: Steps = "an exchange that resets the shield";
        ExchangeReleases: Steps = "an exchange that gives the planner control";
        ExchangeResetsAdrc: Steps = "an exchange that resets ADRC";
        ExchangeResetsFilters: Steps = "an exchange that empties the filters";
        ExchangeKeepsPeaks: Steps = "an exchange that keeps the old peaks";
        ExchangeKeepsNan: Steps = "a NaN left as it is by an exchange";
        ExchangeUnmended: Steps = "a duration of an exchange that is not mended";
        ExchangeRepairs: Refusals = "a broken image repaired by an exchange";
        BrokenFirst: Refusals = "4 before 2 at an exchange";
        PeakOfFirst: Both = "the first axis's peak for all three";
        PeaksAsNumbers: Refusals = "stored peaks compared as numbers";
        PeaksUnread: Refusals = "any peaks taken";
        PeakOfFirstRead: Refusals = "the first stored peak alone looked at";
        NanPeakTaken: Refusals = "a stored NaN taken for infinity";
    }
}

impl Steps for ExchangeKeepsTime {
    fn exchange(&self, flight: &mut Flight, leg: &[u8]) {
        let governor = flight.governor;
        Right.exchange(flight, leg);
        flight.governor = governor;
    }
}

/// The fallback in control (1), or the planner (0).
fn engage(shield: &mut SimplexShield, engaged: f32) {
    let [k_r, lambda_j, psi_max, _, enter, exit] = shield.words();
    *shield = SimplexShield::from_words([k_r, lambda_j, psi_max, engaged, enter, exit]);
}

impl Steps for ExchangeResetsShield {
    fn exchange(&self, flight: &mut Flight, leg: &[u8]) {
        Right.exchange(flight, leg);
        engage(&mut flight.shield, 1.0);
    }
}

impl Steps for ExchangeReleases {
    fn exchange(&self, flight: &mut Flight, leg: &[u8]) {
        Right.exchange(flight, leg);
        engage(&mut flight.shield, 0.0);
    }
}

impl Steps for ExchangeResetsAdrc {
    fn exchange(&self, flight: &mut Flight, leg: &[u8]) {
        Right.exchange(flight, leg);
        flight.rate.reset();
    }
}

impl Steps for ExchangeResetsFilters {
    fn exchange(&self, flight: &mut Flight, leg: &[u8]) {
        Right.exchange(flight, leg);
        let mut filters = flight.lpf.words();
        filters.iter_mut().for_each(|filter| filter[5..].fill(0.0));
        flight.lpf = GyroLpf::from_words(filters);
    }
}

impl Steps for ExchangeKeepsPeaks {
    fn act(&self, call: Call, lent: &mut Lending<'_>) {
        act_and_then(call, lent, |old, lent| {
            if call == Call::Exchange {
                keep(lent.image, old, 4 * PEAKS..IMAGE);
            }
        });
    }
}

impl Steps for ExchangeKeepsNan {
    fn act(&self, call: Call, lent: &mut Lending<'_>) {
        act_and_then(call, lent, |old, lent| {
            if call == Call::Exchange {
                [4..60, 68..80, 164..380].into_iter().for_each(|kept| keep(lent.image, old, kept));
            }
        });
    }
}

impl Steps for ExchangeUnmended {
    fn exchange(&self, flight: &mut Flight, leg: &[u8]) {
        Right.exchange(flight, leg);
        let (t, mut axes) = (float(leg, 18), flight.segment.words());
        axes.iter_mut().for_each(|axis| axis[6] = if t >= 1e-3 { t } else { axis[6] });
        flight.segment = Segment3::from_words(axes);
    }
}

impl Refusals for ExchangeRepairs {
    fn of_exchange(&self, image: &[u8], segment: usize) -> u32 {
        match Right.of_exchange(image, segment) {
            4 => 0,
            number => number,
        }
    }
}

impl Refusals for BrokenFirst {
    fn of_exchange(&self, image: &[u8], segment: usize) -> u32 {
        match Right.of_exchange(image, segment) {
            2 if Right.is_broken(image) => 4,
            number => number,
        }
    }
}

/// What it writes, and what it looks for.
impl Steps for PeakOfFirst {
    fn peaks(&self, segment: &Segment3) -> [f32; 3] {
        let [first, ..] = Right.peaks(segment);
        [first; 3]
    }
}

impl Refusals for PeakOfFirst {
    fn are_peaks(&self, image: &[u8]) -> bool {
        let peaks = PeakOfFirst.peaks(&stored(image));
        peaks.into_iter().zip(PEAKS..).all(|(peak, at)| Right.is_peak(word(image, at), peak))
    }
}

impl Refusals for PeaksAsNumbers {
    fn is_peak(&self, stored: u32, peak: f32) -> bool {
        f32::from_bits(stored) == peak
    }
}

impl Refusals for PeaksUnread {
    fn are_peaks(&self, _: &[u8]) -> bool {
        true
    }
}

impl Refusals for PeakOfFirstRead {
    fn are_peaks(&self, image: &[u8]) -> bool {
        let [first, ..] = Right.peaks(&stored(image));
        Right.is_peak(word(image, PEAKS), first)
    }
}

impl Refusals for NanPeakTaken {
    fn is_peak(&self, stored: u32, peak: f32) -> bool {
        Right.is_peak(stored, peak) || peak.is_infinite() && f32::from_bits(stored).is_nan()
    }
}
