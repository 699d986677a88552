//! A proved flight core for camera quadrotors: a shield that decides at each tick whether the planner or a fallback flies, with the
//! attitude, trajectory and rate control around it.
//!
//! ```
//! use fosavalo::{Image, Pilot, SetUp, TickInput};
//!
//! // the state that goes from tick to tick: 396 bytes, nothing allocated
//! let mut image = Image::set_up(&SetUp::falcon_quad())?;
//!
//! // level and still: the margin is far above `exit`, so the planner flies
//! let answer = image.tick(&TickInput::default())?;
//! assert_eq!(answer.pilot, Pilot::Planner);
//! assert_eq!(answer.margin, 1.75);
//! # Ok::<(), fosavalo::Refusal>(())
//! ```
//!
//! What is proved holds for every bit of every number here: nothing panics, a NaN is an input like any other, and what each call
//! answers is one equation (`docs/THEOREMS.md` in the repository names the theorems). The rule that the shield keeps:
//!
//! > The planner flies at a tick exactly if some tick, this one or an earlier one, had a finite margin above `exit`, and no tick after
//! > that one had a margin that was non-finite or below `enter`.
//!
//! | You have | You want |
//! |---|---|
//! | numbers | [`SetUp`], [`Image::set_up`], [`TickInput`], [`Image::tick`], [`Answer`] |
//! | an aircraft that has lost a rotor | [`Profile::LostRotor`] |
//! | a path of several legs | [`Leg`], [`Route`], [`Image::route_tick`] |
//! | where the aircraft should be | [`Segment::sample`], [`Route::sample`], [`Sample`] |
//! | loops that are flown several times | [`Pattern`], [`PatternItem`], [`Pattern::expand`] |
//! | another segment in flight, and the peaks of its jerk | [`Image::exchange`], [`Image::peak_abs_jerk`] |
//! | ticks to keep, or a flight to look at | [`Log`], [`LogView`], [`Record`] |
//! | a flight longer than a log | [`LogSeries`], [`SeriesCheck`] |
//! | a log from another box, to be checked | [`LogView::check`], [`Verdict`] |
//! | margins, to explain who flew | [`slow_flags`] |
//! | bytes of your own | [`calls`]: the C calls as they are, on slices |
//! | a refusal's number | [`Refusal`] |
//! | an angle | [`sinf`], [`cosf`] |
//!
//! It needs a floating-point environment that rounds to nearest and keeps subnormal numbers, on the calling thread; set-up and ticks
//! are refused in any other ([`FloatFault`]). Set-up is refused too where the archive is of another version than the crate ([`VersionFault`]). What set-up mends of the numbers that it is given, [`SetUp::mended`] tells.
//!
//! Words are little-endian, floats as their bits; `include/fosavalo.h` is the same face for C. The crate has no dependency but
//! `libfosavalo.a`, and needs no `std`. The feature `alloc`, on by default, has what takes memory, [`Log`], [`LogSeries`], [`SeriesCheck`], [`Pattern`] and
//! [`slow_flags`]; without it no allocator is needed, and these are calls on lent bytes ([`calls::log_append`], [`calls::flags`]) or read from them ([`LogView`], [`Route::expand`]). The archive is that of `make core` in a checkout, of `lib/` in an unpacked
//! distribution, or pkg-config's; the variable `FOSAVALO_LIB_DIR` names the folder of another.

#![no_std]
#![warn(missing_docs)]
// no input makes a call panic
#![deny(clippy::panic, clippy::unwrap_used, clippy::expect_used, clippy::indexing_slicing)]

#[cfg(feature = "alloc")]
extern crate alloc;

mod audit;
pub mod calls;
mod floats;
mod image;
mod items;
#[cfg(feature = "alloc")]
mod kept;
mod log;
mod mended;
#[cfg(feature = "alloc")]
mod pattern;
mod refusal;
mod route;
mod sample;
#[cfg(feature = "alloc")]
mod series;
mod setup;
#[cfg(feature = "alloc")]
mod slow;
mod tick;
mod version;
mod words;

pub use audit::Verdict;
pub use calls::{cosf, sinf};
pub use floats::FloatFault;
pub use image::Image;
#[cfg(feature = "alloc")]
pub use kept::Log;
pub use log::{LogView, Record, Records};
pub use mended::Mended;
#[cfg(feature = "alloc")]
pub use pattern::{Pattern, PatternItem};
pub use refusal::Refusal;
pub use route::{Leg, Route};
pub use sample::Sample;
#[cfg(feature = "alloc")]
pub use series::{LogSeries, SeriesCheck, MOST_IN_SERIES};
pub use setup::{AdrcGains, FilterDoubt, Gains, Governor, GyroFilter, Profile, RecoverableSet, Segment, SetUp};
#[cfg(feature = "alloc")]
pub use slow::slow_flags;
pub use tick::{Answer, BodyRate, Pilot, TickInput, Torque};
pub use version::VersionFault;

/// The length of an image.
pub const IMAGE_BYTES: usize = 396;
/// The length of what set-up is given.
pub const SETUP_BYTES: usize = 204;
/// The length of what a tick is given.
pub const TICK_BYTES: usize = 68;
/// The length of what a tick answers.
pub const ANSWER_BYTES: usize = 40;
/// The length of a leg in a route.
pub const LEG_BYTES: usize = 76;
/// The length of what stands behind the legs of a route.
pub const ROUTE_TRAILER_BYTES: usize = 8;
/// The most legs that a route has.
pub const MOST_LEGS: usize = 32;
/// The length of a sample of a route.
pub const SAMPLE_BYTES: usize = 52;
/// The length of a record of a log: a tick's input and its answer.
pub const RECORD_BYTES: usize = TICK_BYTES + ANSWER_BYTES;
/// The length of what stands behind the records of a log.
pub const LOG_TRAILER_BYTES: usize = 12;
/// The most records that a log has.
pub const MOST_RECORDS: usize = 65_535;
/// The most margins that are looked back through.
pub const MOST_MARGINS: usize = 65_535;
/// What the check of a log writes where every record is right: no record stands there.
pub const LOG_RIGHT: u32 = u32::MAX;
/// How deep the repeats of a pattern stand inside each other at most.
pub const DEEPEST_REPEAT: usize = 4;
/// A log of no record: no count, nothing back, and the length of a record.
pub const EMPTY_LOG: [u8; LOG_TRAILER_BYTES] = [0, 0, 0, 0, 0, 0, 0, 0, RECORD_BYTES as u8, 0, 0, 0];

/// What has a `from_bytes` is made by `try_from` as well.
macro_rules! try_from_bytes {
    ($($type:ty),*) => {
        $(impl TryFrom<&[u8]> for $type {
            type Error = Refusal;

            fn try_from(bytes: &[u8]) -> Result<Self, Refusal> {
                <$type>::from_bytes(bytes)
            }
        })*
    };
}

try_from_bytes!(Image, SetUp, TickInput, Answer, Route, Sample, Record);
#[cfg(feature = "alloc")]
try_from_bytes!(Pattern, Log);

impl<'a> TryFrom<&'a [u8]> for LogView<'a> {
    type Error = Refusal;

    fn try_from(bytes: &'a [u8]) -> Result<Self, Refusal> {
        LogView::from_bytes(bytes)
    }
}
