//! An operator's desk above the flight core: three sticks, each through a command filter with limits, whose values are a heading, its rate and
//! the rate of the zoom.
//!
//! ```
//! use fosavalo::{Image, SetUp, TickInput};
//! use fosavalo_desk::{Desk, DeskSetUp, Stick, Sticks};
//!
//! // half a turn at most, and no faster than 0.5 rad/s; the zoom alike
//! let stick = Stick { omega_n: 2.0, max_mag: 3.1, max_rate: 0.5 };
//! let turn = Stick { max_mag: 0.5, ..stick };
//! let mut desk = Desk::set_up(&DeskSetUp { heading: stick, turn, zoom: stick })?;
//! let mut image = Image::set_up(&SetUp::falcon_quad())?;
//!
//! // the heading's stick to its end, and turn at the rate at which the heading will move;
//! // what is flown is the filters' values, not the sticks'
//! let sticks = Sticks { heading: 1.0, turn: 0.5, zoom: -1.0 };
//! let mut input = TickInput { dt: 0.0625, ..TickInput::default() };
//! desk.tick(&sticks, &mut image, &mut input)?;
//! assert_eq!((desk.heading(), desk.turn()), (0.015625, 0.0078125));
//! // so a log of `input` keeps what was flown
//! assert_eq!((input.yaw, input.yaw_rate), (0.015625, 0.0078125));
//! assert_eq!(desk.zoom_rate(), -0.015625);
//!
//! // the button
//! desk.centre()?;
//! assert_eq!((desk.heading(), desk.zoom_rate()), (0.0, 0.0));
//! # Ok::<(), fosavalo_desk::Refusal>(())
//! ```
//!
//! What is proved holds for every bit of every number: for finite limits at or above zero, each value and each rate stays within its limit after any
//! sequence of sticks, steps and buttons; the heading and its rate that the core flies are always finite; and a refused tick changes nothing, of the
//! desk, the image or the input (`docs/THEOREMS.md` in the repository names the theorems).
//!
//! On a path of several legs it is [`Desk::route_tick`]. `include/fosavalo_desk.h` is the same face for C. The crate needs `libfosavalo_desk.a`, which `make archives` builds, and the crate `fosavalo`; it has no other
//! dependency, and needs no `std`.

#![no_std]
#![warn(missing_docs)]
// no input makes a call panic
#![deny(clippy::panic, clippy::unwrap_used, clippy::expect_used, clippy::indexing_slicing)]

pub mod calls;
mod desk;
mod refusal;

pub use desk::{Desk, DeskSetUp, Stick, Sticks};
pub use refusal::Refusal;

/// The length of a desk.
pub const DESK_BYTES: usize = 60;
/// The length of what a desk's set-up is given.
pub const DESK_SETUP_BYTES: usize = 36;
/// The length of the sticks.
pub const STICKS_BYTES: usize = 12;
