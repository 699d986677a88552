//! Versions of requests One and Eight: route ticks alone.

use super::profile::tick_whole;
use super::versions;
use crate::joint::bytes::{float, EARLIER_LEGS, LEG, MOST_LEGS, TRAILER};
use crate::joint::lent::Lending;
use crate::joint::model::{Answer, Flight, Input, Right, Steps};
use crate::joint::refusal::{parted, Refusals};
use crate::joint::route::{Legs, Place, Route, Source};
use crate::joint::Call;
use oracle::traj::{RefGovernor, Segment3};

versions! {
    /// And those of route ticks alone.
    WRONG_ON_ROUTES {
        WholeOnRoutes: Steps = "route ticks by the old rules at either profile";
        EarlierAtEnd: Legs = "a time equal to an end flies the earlier leg";
        RawDurations: Legs = "raw durations summed";
        WideSum: Legs = "ends summed in f64";
        WholeTime: Legs = "the time on the leg not reduced";
        LastAtZero: Legs = "past all ends the last leg at 0";
        LastAtTime: Legs = "past all ends the last leg at the time less its start";
        LocalKept: Steps = "the time on the leg kept as the governor's";
        SegmentFlown: Steps = "the image's segment flown";
        FormFirst: Refusals = "5 after 6";
        RouteFirst: Refusals = "the route before the image";
        OneLegMore: Refusals = "a leg more than the most taken";
        EarlierLimit: Refusals = "the limit left at 8 legs";
        BackFromEnd: Refusals = "bytes back from the end of the route";
        AnyLength: Refusals = "a longer route taken";
        JoinBits: Refusals = "joins compared in bits";
        JoinNotFinite: Refusals = "what is not finite meets everything";
        JoinPlace: Refusals = "places alone compared at joins";
        JoinFirst: Refusals = "the first join alone compared";
    }
}

impl Steps for WholeOnRoutes {
    fn tick(&self, flight: &mut Flight, source: &Source, i: &Input) -> Answer {
        match source {
            Source::Segment => Right.tick(flight, source, i),
            Source::Route(_) => tick_whole(flight, source, i),
        }
    }
}

impl Legs for EarlierAtEnd {
    fn is_above(&self, end: f32, time: f32) -> bool {
        end >= time
    }
}

impl Legs for RawDurations {
    fn route(&self, bytes: &[u8]) -> Route {
        let mut sum = 0.0;
        let ends = bytes.chunks_exact(LEG).map(|words| {
            sum += float(words, 18);
            sum
        });
        Route { ends: ends.collect(), ..Right.route(bytes) }
    }
}

impl Legs for WideSum {
    fn route(&self, bytes: &[u8]) -> Route {
        let (Route { legs, .. }, mut sum) = (Right.route(bytes), 0.0);
        let ends = legs.iter().map(|leg| {
            sum += f64::from(leg.duration());
            sum as f32
        });
        Route { ends: ends.collect(), legs }
    }
}

impl Legs for WholeTime {
    fn place(&self, route: &Route, time: f32) -> Place {
        let place = Right.place(route, time);
        Place { at: if place.past { place.at } else { time }, ..place }
    }
}

impl Legs for LastAtZero {
    fn place(&self, route: &Route, time: f32) -> Place {
        let place = Right.place(route, time);
        Place { at: if place.past { 0.0 } else { place.at }, ..place }
    }
}

impl Legs for LastAtTime {
    fn place(&self, route: &Route, time: f32) -> Place {
        let place = Right.place(route, time);
        Place { at: time - route.start(place.leg), ..place }
    }
}

impl Steps for LocalKept {
    fn tick(&self, flight: &mut Flight, source: &Source, i: &Input) -> Answer {
        let answer = Right.tick(flight, source, i);
        let ((_, at), [_, err_lo, err_hi, g_min]) = (Right.flown(flight, source, answer.time), flight.governor.words());
        flight.governor = RefGovernor::from_words([at, err_lo, err_hi, g_min]);
        answer
    }
}

impl Steps for SegmentFlown {
    fn flown<'a>(&self, flight: &'a Flight, _: &'a Source, time: f32) -> (&'a Segment3, f32) {
        Right.flown(flight, &Source::Segment, time)
    }
}

impl Refusals for FormFirst {
    fn of_route(&self, route: &[u8]) -> u32 {
        match parted(route) {
            Some((legs, count, back)) if !Right.is_formed(legs.len(), count, back) => 6,
            _ => Right.of_route(route),
        }
    }
}

impl Refusals for RouteFirst {
    fn refused(&self, call: Call, lent: &Lending<'_>) -> u32 {
        match Right.of_route(lent.route) {
            number @ 1.. if call == Call::RouteTick => number,
            _ => Right.but_for_the_route(call, lent),
        }
    }
}

impl Refusals for OneLegMore {
    fn most_legs(&self) -> usize {
        MOST_LEGS + 1
    }
}

impl Refusals for EarlierLimit {
    fn most_legs(&self) -> usize {
        EARLIER_LEGS
    }
}

impl Refusals for BackFromEnd {
    fn is_formed(&self, length: usize, count: usize, back: usize) -> bool {
        back == LEG * count + TRAILER && length == LEG * count
    }
}

impl Refusals for AnyLength {
    fn is_formed(&self, length: usize, count: usize, back: usize) -> bool {
        back == LEG * count && length >= LEG * count
    }
}

impl Refusals for JoinBits {
    fn meet(&self, end: u32, start: u32) -> bool {
        end == start
    }
}

impl Refusals for JoinNotFinite {
    fn meet(&self, end: u32, start: u32) -> bool {
        Right.meet(end, start) || !(f32::from_bits(start) - f32::from_bits(end)).is_finite()
    }
}

impl Refusals for JoinPlace {
    fn apart_at(&self, earlier: &[u8], later: &[u8]) -> Option<usize> {
        Right.apart_at(earlier, later).filter(|place| *place < 3)
    }
}

impl Refusals for JoinFirst {
    fn apart(&self, legs: &[u8]) -> Option<usize> {
        Right.apart(&legs[..legs.len().min(2 * LEG)])
    }
}
