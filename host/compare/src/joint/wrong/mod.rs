//! What looks right and is wrong: a version is the model with a step of its own. The comparison has to catch every version; one that cannot fail shows nothing.
//! Each file has a list of versions, each with what is wrong about it and the trait it departs from, and below it their steps.

mod cut_off;
mod error;
mod exchange;
mod on_routes;
mod profile;
mod tick;

pub use cut_off::*;
pub use error::*;
pub use exchange::*;
pub use on_routes::*;
pub use profile::*;
pub use tick::*;

use super::lent::Lending;
use super::model::{Right, Steps};
use super::refusal::Refusals;
use super::Call;
use std::fmt;
use std::ops::Range;

/// A version as the comparison has it.
#[derive(Clone, Copy)]
pub struct Version {
    /// What is wrong with it.
    pub name: &'static str,
    pub call: fn(Call, &mut Lending<'_>) -> u32,
}

impl fmt::Debug for Version {
    fn fmt(&self, f: &mut fmt::Formatter<'_>) -> fmt::Result {
        fmt::Debug::fmt(self.name, f)
    }
}

impl Right {
    /// What the others are made from.
    pub const VERSION: Version = Version { name: "no fault", call: |call, lent| by(&Right, &Right, call, lent) };
}

/// Declares versions and their list: what is wrong with each, and the trait it departs from. One without a step of its own does not compile.
macro_rules! versions {
    ($(#[$note:meta])* $list:ident { $($version:ident: $departs:ident = $name:literal;)* }) => {
        $(
            #[doc = $name]
            pub struct $version;

            impl $version {
                pub const VERSION: super::Version = super::Version { name: $name, call: super::versions!($departs of $version) };
            }

            super::versions!(beside $departs: $version);
        )*

        $(#[$note])*
        pub const $list: &[super::Version] = &[$($version::VERSION),*];
    };
    (Refusals of $version:ident) => { |call, lent| super::by(&$version, &super::Right, call, lent) };
    (Both of $version:ident) => { |call, lent| super::by(&$version, &$version, call, lent) };
    ($steps:ident of $version:ident) => { |call, lent| super::by(&super::Right, &$version, call, lent) };
    (beside Refusals: $version:ident) => {};
    (beside Legs: $version:ident) => { impl crate::joint::model::Steps for $version {} };
    (beside $steps:ident: $version:ident) => { impl crate::joint::route::Legs for $version {} };
}
use versions;

/// A call on bytes by these. One that is taken and is to be refused gives 0 and does nothing, for the Rust may panic there; but not for peaks, which it does not read.
fn by(refusals: &impl Refusals, steps: &impl Steps, call: Call, lent: &mut Lending<'_>) -> u32 {
    let number = refusals.refused(call, lent);
    if number == 0 && PeaksUnread.refused(call, lent) == 0 {
        steps.act(call, lent);
    }
    number
}

/// What a right call leaves, and then something else, which is told the image as it was.
fn act_and_then(call: Call, lent: &mut Lending<'_>, then: impl FnOnce(&[u8], &mut Lending<'_>)) {
    let old = lent.image.to_vec();
    Right.act(call, lent);
    then(&old, lent);
}

fn is_tick(call: Call) -> bool {
    matches!(call, Call::Tick | Call::RouteTick)
}

/// Bytes of the image as they were.
fn keep(image: &mut [u8], old: &[u8], kept: Range<usize>) {
    image[kept.clone()].copy_from_slice(&old[kept]);
}
