//! The documents' tables: which number a call gives, 0 where nothing is refused. Of 1 to 4 the lowest wins; a set-up's profile and its cut-off come after them, and
//! what is wrong with a route too, in an order of its own. Each test is a method, as in `model`.

use super::bytes::{
    canonical, float, word, Take, ANSWER, IMAGE, LEG, MOST_LEGS, PEAKS, PROFILE, SETUP, SETUP_FC, SETUP_PROFILE, TICK, TRAILER, WORDS,
};
use super::lent::Lending;
use super::Call;
use oracle::adrc::{private, Biquad};
use oracle::traj::Segment3;

pub trait Refusals {
    /// Of any call.
    fn refused(&self, call: Call, lent: &Lending<'_>) -> u32 {
        match self.but_for_the_route(call, lent) {
            0 if call == Call::RouteTick => self.of_route(lent.route),
            number => number,
        }
    }

    fn but_for_the_route(&self, call: Call, Lending { image, input, answer, .. }: &Lending<'_>) -> u32 {
        match call {
            Call::SetUp => self.of_setup(image.len(), input),
            Call::Tick | Call::RouteTick => self.of_tick(image, input.len(), answer.len()),
            Call::Exchange => self.of_exchange(image, input.len()),
        }
    }

    /// Request Six: "10 set-up word 51 not 0 or 1, after 2"; request Twelve: "11, after 10, at set-up alone".
    fn of_setup(&self, image: usize, input: &[u8]) -> u32 {
        if image != IMAGE {
            1
        } else if input.len() != SETUP {
            2
        } else if word(input, SETUP_PROFILE) > 1 {
            10
        } else if self.passes_through(float(input, SETUP_FC), float(input, SETUP_FC + 1)) {
            11
        } else {
            0
        }
    }

    /// "a cut-off that `Biquad::lowpass` would turn into a pass-through": what the Rust makes of it is one.
    fn passes_through(&self, fc: f32, fs: f32) -> bool {
        Biquad::lowpass(fc, fs).words() == private::passthrough().words()
    }

    /// Document 01's table.
    fn of_tick(&self, image: &[u8], input: usize, answer: usize) -> u32 {
        if image.len() != IMAGE {
            1
        } else if input != TICK {
            2
        } else if answer != ANSWER {
            3
        } else if self.is_broken(image) {
            4
        } else {
            0
        }
    }

    /// Request Seven: "the exchange gives 1, 2 (length not 76) and 4".
    fn of_exchange(&self, image: &[u8], segment: usize) -> u32 {
        if image.len() != IMAGE {
            1
        } else if segment != LEG {
            2
        } else if self.is_broken(image) {
            4
        } else {
            0
        }
    }

    /// Row 4, in its own order; then the profile and the peaks.
    fn is_broken(&self, image: &[u8]) -> bool {
        let (enter, exit, time) = (float(image, 13), float(image, 14), float(image, 16));
        !self.is_count(word(image, 0))
            || !enter.is_finite()
            || !(enter > 0.0)
            || !(exit > enter)
            || !self.is_engaged(word(image, 15))
            || time.is_nan()
            || time < 0.0
            || !self.are_ends([float(image, 26), float(image, 33), float(image, 40)])
            || !self.is_profile(word(image, PROFILE))
            || !self.are_peaks(image)
    }

    fn is_count(&self, word: u32) -> bool {
        word == WORDS as u32
    }

    fn is_engaged(&self, word: u32) -> bool {
        word <= 1
    }

    fn are_ends(&self, t_ends: [f32; 3]) -> bool {
        t_ends.iter().all(|t_end| t_end.is_finite() && !(*t_end < 1e-3))
    }

    fn is_profile(&self, word: u32) -> bool {
        word <= 1
    }

    /// "a stored peak whose bits differ from the worked-out one's, a worked-out NaN counting as 0x7FC00000"
    fn are_peaks(&self, image: &[u8]) -> bool {
        let [x, y, z] = stored(image).peak_abs_jerk();
        self.is_peak(word(image, PEAKS), x) && self.is_peak(word(image, PEAKS + 1), y) && self.is_peak(word(image, PEAKS + 2), z)
    }

    fn is_peak(&self, stored: u32, peak: f32) -> bool {
        stored == canonical(peak)
    }

    /// Document 02's own sentence: "6 a route below 8 bytes; 5 count 0 or above 8; 6 distance back not 76 times the count, or length not 8 more;
    /// 7 legs don't meet", and request Eight's: "5 now means 0 or above 32".
    fn of_route(&self, route: &[u8]) -> u32 {
        let Some((legs, count, back)) = parted(route) else { return 6 };
        if !(1..=self.most_legs()).contains(&count) {
            5
        } else if !self.is_formed(legs.len(), count, back) {
            6
        } else if self.apart(&legs[..LEG * count]).is_some() {
            7
        } else {
            0
        }
    }

    fn most_legs(&self) -> usize {
        MOST_LEGS
    }

    fn is_formed(&self, length: usize, count: usize, back: usize) -> bool {
        back == LEG * count && length == LEG * count
    }

    /// The first place at which two legs that follow each other do not meet.
    fn apart(&self, legs: &[u8]) -> Option<usize> {
        let (earlier, later) = (legs.chunks_exact(LEG), legs.chunks_exact(LEG).skip(1));
        earlier.zip(later).find_map(|(earlier, later)| self.apart_at(earlier, later))
    }

    /// Of nine: "each p0, v0, a0 equals the earlier leg's pf, vf, af as numbers".
    fn apart_at(&self, earlier: &[u8], later: &[u8]) -> Option<usize> {
        (0..9).find(|place| !self.meet(word(earlier, 9 + place), word(later, *place)))
    }

    fn meet(&self, end: u32, start: u32) -> bool {
        f32::from_bits(end) == f32::from_bits(start)
    }
}

/// The segment of an image.
pub fn stored(image: &[u8]) -> Segment3 {
    Segment3::from_words(Take::from(image, 20).axes())
}

/// A route's legs and its trailer: "the count, and how many bytes back the first leg starts".
pub fn parted(route: &[u8]) -> Option<(&[u8], usize, usize)> {
    let (legs, trailer) = route.split_at(route.len().checked_sub(TRAILER)?);
    Some((legs, word(trailer, 0) as usize, word(trailer, 1) as usize))
}
