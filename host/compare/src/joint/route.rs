//! What is expected of a route: document 02's sentences, with the Rust's own segments and durations. Each step is a method, as in `model`.

use super::bytes::{Take, LEG};
use super::Call;
use oracle::traj::Segment3;

/// A route that is not refused.
pub struct Route {
    pub(super) legs: Vec<Segment3>,
    pub ends: Vec<f32>,
}

/// What a tick follows.
pub enum Source {
    Segment,
    Route(Route),
}

/// Where on the route a time is.
pub struct Place {
    pub leg: usize,
    pub at: f32,
    pub past: bool,
}

pub trait Legs {
    /// What a call follows.
    fn source(&self, call: Call, route: &[u8]) -> Source {
        match call {
            Call::RouteTick => Source::Route(self.route(route)),
            Call::SetUp | Call::Tick | Call::Exchange => Source::Segment,
        }
    }

    fn route(&self, bytes: &[u8]) -> Route {
        Route::of(bytes)
    }

    /// "The leg flown is the first whose end is above the governor time, at the time less the end before it; past all ends it is the last leg
    /// at its duration."
    fn place(&self, route: &Route, time: f32) -> Place {
        for (leg, end) in route.ends.iter().enumerate() {
            if self.is_above(*end, time) {
                return Place { leg, at: time - route.start(leg), past: false };
            }
        }
        let leg = route.legs.len() - 1;
        Place { leg, at: route.legs[leg].duration(), past: true }
    }

    fn is_above(&self, end: f32, time: f32) -> bool {
        end > time
    }
}

impl Route {
    /// "Leg ends are the running f32 sum of mended durations."
    fn of(bytes: &[u8]) -> Self {
        let mut sum = 0.0;
        let leg = |words| {
            let leg = segment(&mut Take::from(words, 0));
            sum += leg.duration();
            (leg, sum)
        };
        let (legs, ends) = bytes.chunks_exact(LEG).map(leg).unzip();
        Route { legs, ends }
    }

    /// The end before this leg.
    pub(super) fn start(&self, leg: usize) -> f32 {
        if leg == 0 {
            0.0
        } else {
            self.ends[leg - 1]
        }
    }
}

/// 19 words: p0, v0, a0, pf, vf, af, t.
#[inline]
pub fn segment(i: &mut Take<'_>) -> Segment3 {
    Segment3::new(i.floats(), i.floats(), i.floats(), i.floats(), i.floats(), i.floats(), i.float())
}

#[cfg(test)]
mod tests {
    use super::*;
    use crate::joint::bytes::put;
    use crate::joint::model::Right;

    fn of(durations: &[f32]) -> Route {
        let mut bytes = vec![0; LEG * durations.len() + 8];
        durations.iter().enumerate().for_each(|(leg, t)| put(&mut bytes, 19 * leg + 18, t.to_bits()));
        Right.route(&bytes)
    }

    fn flown(durations: &[f32], time: f32) -> (usize, f32, bool) {
        let place = Right.place(&of(durations), time);
        (place.leg, place.at, place.past)
    }

    #[test]
    fn at_an_end_the_next_leg_flies() {
        assert_eq!(flown(&[1.0, 2.0], 0.0), (0, 0.0, false));
        assert_eq!(flown(&[1.0, 2.0], 1.0f32.next_down()), (0, 1.0f32.next_down(), false));
        assert_eq!(flown(&[1.0, 2.0], 1.0), (1, 0.0, false));
        assert_eq!(flown(&[1.0, 2.0], 3.0), (1, 2.0, true));
        assert_eq!(flown(&[1.0, 2.0], f32::INFINITY), (1, 2.0, true));
        // the mended first leg ends at 1e-3
        assert_eq!(flown(&[f32::NAN, 2.0], 1e-3), (1, 0.0, false));
    }

    #[test]
    fn ends_that_are_infinite_or_lost() {
        assert_eq!(of(&[3e38, 3e38, 1.0]).ends, [3e38, f32::INFINITY, f32::INFINITY]);
        assert_eq!(flown(&[3e38, 3e38, 1.0], f32::MAX), (1, f32::MAX - 3e38, false));
        assert_eq!(flown(&[3e38, 3e38, 1.0], f32::INFINITY), (2, 1.0, true));
        // legs 1 and 2 are lost in the sum
        assert_eq!(of(&[16777216.0, 0.5, 1.0, 4.0]).ends, [16777216.0, 16777216.0, 16777216.0, 16777220.0]);
        assert_eq!(flown(&[16777216.0, 0.5, 1.0, 4.0], 16777216.0), (3, 0.0, false));
    }
}
