//! The joint tick, which is new, in both profiles, on its segment and on routes, and the exchange of the segment: the archive's calls beside the Rust's own calls made in the documents' order.
//!
//! `model` is what is expected, of Rust objects, `route` of a route; `refusal` the table of numbers; `image` the words; `wrong` has versions of these with one step
//! wrong; `pilot` what comes in, `guide` which calls and which routes; `runs` the comparison, every byte after every call; `demand` looks back over a run's
//! margins and asks who has to fly; `lengths` has every length of every buffer.

pub mod bytes;
pub mod demand;
mod flight;
pub mod frames;
pub mod guide;
pub mod image;
pub mod lengths;
pub mod lent;
pub mod model;
pub mod on_routes;
pub mod pilot;
pub mod refusal;
pub mod route;
pub mod runs;
pub mod sample;
pub mod wrong;

use lent::Lending;

/// The calls on an image.
#[derive(Clone, Copy, PartialEq, Eq, Debug)]
pub enum Call {
    SetUp,
    Tick,
    RouteTick,
    /// Of the segment; the leg is lent as the input.
    Exchange,
}

/// Who answers a call: the archive, or what stands in its place.
pub type Face<'a> = &'a (dyn Fn(Call, &mut Lending<'_>) -> u32 + Sync);

/// The proved archive.
pub fn archive(call: Call, Lending { image, input, route, answer }: &mut Lending<'_>) -> u32 {
    match call {
        Call::SetUp => archives::setup(image, input),
        Call::Tick => archives::tick(image, input, answer),
        Call::RouteTick => archives::route_tick(image, input, route, answer),
        Call::Exchange => archives::exchange(image, input),
    }
}
