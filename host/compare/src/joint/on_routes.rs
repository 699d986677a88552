//! What the ticks on routes of some runs came to.

use super::bytes::{float, word, EARLIER_LEGS, LEG, MOST_LEGS, TRAILER};
use super::model::Right;
use super::refusal::Refusals;
use super::route::{Legs, Route};
use crate::counts::counts;
use std::fmt;

counts! {
    pub struct OnRoutes {
        /// Accepted ticks by the count of legs, by the leg flown, both less one.
        pub counts: [u64; MOST_LEGS],
        pub legs: [u64; MOST_LEGS],
        /// Past all ends; at an end itself, one unit below one, one unit above one.
        pub past: u64,
        pub at_end: u64,
        pub below_end: u64,
        pub above_end: u64,
        /// With durations that are mended, lost in rounding, that sum to infinity: of up to 8 legs, of more.
        pub mended: [u64; 2],
        pub lost: [u64; 2],
        pub infinite: [u64; 2],
        /// With a join of two zeros of different signs, of two infinities.
        pub zeros: u64,
        pub infinities: u64,
        /// From one kind of tick to the other.
        pub switches: u64,
        /// By the number; and of 7, by the place that is apart.
        pub refused: [u64; 8],
        pub apart: [u64; 9],
    }
}

impl OnRoutes {
    pub fn accepted(&self) -> u64 {
        self.counts.iter().sum()
    }

    /// An accepted tick.
    pub fn take(&mut self, bytes: &[u8], route: &Route, time: f32) {
        let place = Right.place(route, time);
        let any = |is: &dyn Fn(&f32) -> bool| u64::from(route.ends.iter().any(is));
        let near = |is: &dyn Fn(&f32) -> bool| any(&|end| time.is_finite() && is(end));
        self.counts[route.ends.len() - 1] += 1;
        self.legs[place.leg] += 1;
        self.past += u64::from(place.past);
        self.at_end += near(&|end| time == *end);
        self.below_end += near(&|end| time.next_up() == *end);
        self.above_end += near(&|end| time == end.next_up());
        let long = usize::from(route.ends.len() > EARLIER_LEGS);
        self.infinite[long] += any(&|end| end.is_infinite());
        self.lost[long] += u64::from(route.ends.windows(2).any(|two| two[0] == two[1]));
        let legs: Vec<&[u8]> = bytes.chunks_exact(LEG).collect();
        self.mended[long] += u64::from(legs.iter().map(|leg| float(leg, 18)).any(|t| !(t.is_finite() && t > 1e-3)));
        let join = |is: &dyn Fn(u32, u32) -> bool| {
            u64::from(legs.windows(2).any(|two| (0..9).any(|place| is(word(two[0], 9 + place), word(two[1], place)))))
        };
        self.zeros += join(&|a, b| a != b);
        self.infinities += join(&|a, _| f32::from_bits(a).is_infinite());
    }

    /// A refused one.
    pub fn refuse(&mut self, number: u32, route: &[u8]) {
        self.refused[number as usize] += 1;
        if number == 7 {
            Right.apart(&route[..route.len() - TRAILER]).into_iter().for_each(|place| self.apart[place] += 1);
        }
    }
}

impl fmt::Display for OnRoutes {
    fn fmt(&self, f: &mut fmt::Formatter<'_>) -> fmt::Result {
        writeln!(
            f,
            "{} ticks on routes, {} changes to or from plain ones; of 1 to {MOST_LEGS} legs {:?}",
            self.accepted(),
            self.switches,
            self.counts
        )?;
        writeln!(f, "by the leg flown {:?}, {} past all ends", self.legs, self.past)?;
        writeln!(f, "{} at an end itself, {} one unit below one, {} one above", self.at_end, self.below_end, self.above_end)?;
        writeln!(
            f,
            "of up to {EARLIER_LEGS} legs and of more: {:?} with mended durations, {:?} with lost ones, {:?} with an infinite end",
            self.mended, self.lost, self.infinite
        )?;
        writeln!(f, "{} with zeros of two signs at a join, {} with infinities", self.zeros, self.infinities)?;
        write!(f, "refused with 4 to 7: {:?}; of 7 by the place: {:?}", &self.refused[4..], self.apart)
    }
}
