//! The C calls as they are, on slices of any length and content. Each gives the number of the refusal, 0 for none; unless it is 0, no
//! byte is changed. They do not ask for the floating-point environment ([`FloatFault`](fosavalo::FloatFault)).
//!
//! ```
//! use fosavalo::{calls::setup, SetUp, ANSWER_BYTES, IMAGE_BYTES, TICK_BYTES};
//! use fosavalo_desk::{calls, DESK_BYTES, DESK_SETUP_BYTES, STICKS_BYTES};
//!
//! let (mut desk, mut image, mut input) = ([0; DESK_BYTES], [0; IMAGE_BYTES], [0xff; TICK_BYTES]);
//! assert_eq!(calls::setup(&mut desk, &[0; DESK_SETUP_BYTES]), 0);
//!
//! // a blank image is broken: the core's number, and the input is as it was
//! let (sticks, mut answer) = ([0; STICKS_BYTES], [0; ANSWER_BYTES]);
//! let mut tick = |image: &mut [u8], input: &mut [u8]| {
//!     calls::tick(&mut desk, &sticks, image, input, &mut answer)
//! };
//! assert_eq!(tick(&mut image, &mut input), 4);
//! assert_eq!(input, [0xff; TICK_BYTES]);
//!
//! setup(&mut image, &SetUp::falcon_quad().to_bytes());
//! assert_eq!(tick(&mut image, &mut input), 0);
//! assert_eq!(input[32..40], [0; 8]);
//! ```

// in the module a length is 64 bits wide, whatever an address is
mod raw {
    extern "C" {
        pub fn fosavalo_desk_version() -> u32;
        pub fn fosavalo_desk_setup(desk: *mut u8, desk_len: u64, input: *const u8, input_len: u64) -> u32;
        pub fn fosavalo_desk_centre(desk: *mut u8, desk_len: u64) -> u32;
        pub fn fosavalo_desk_tick(
            desk: *mut u8,
            desk_len: u64,
            sticks: *const u8,
            sticks_len: u64,
            image: *mut u8,
            image_len: u64,
            input: *mut u8,
            input_len: u64,
            answer: *mut u8,
            answer_len: u64,
        ) -> u32;
        pub fn fosavalo_desk_route_tick(
            desk: *mut u8,
            desk_len: u64,
            sticks: *const u8,
            sticks_len: u64,
            image: *mut u8,
            image_len: u64,
            input: *mut u8,
            input_len: u64,
            route: *const u8,
            route_len: u64,
            answer: *mut u8,
            answer_len: u64,
        ) -> u32;
    }
}

/// The desk's archive's version: 65536 times its first number, 256 times its second, and its third.
#[inline]
pub fn version() -> u32 {
    // SAFETY: a number out; the function is proved total.
    unsafe { raw::fosavalo_desk_version() }
}

/// Writes a fresh desk; what stood in it is not read. Gives 0, 15 or 16.
#[inline]
pub fn setup(desk: &mut [u8], input: &[u8]) -> u32 {
    // SAFETY: each pointer goes with its slice's own length, the function is proved to stay within them, and borrowing keeps
    // the slices apart.
    unsafe { raw::fosavalo_desk_setup(desk.as_mut_ptr(), desk.len() as u64, input.as_ptr(), input.len() as u64) }
}

/// The centre button: it resets the filters and steps none. Gives 0 or 15.
#[inline]
pub fn centre(desk: &mut [u8]) -> u32 {
    // SAFETY: as above.
    unsafe { raw::fosavalo_desk_centre(desk.as_mut_ptr(), desk.len() as u64) }
}

/// One desk tick, which writes the heading and its rate into the input. Gives 0; 15, then 16, then 1 to 4.
#[inline]
pub fn tick(desk: &mut [u8], sticks: &[u8], image: &mut [u8], input: &mut [u8], answer: &mut [u8]) -> u32 {
    let (desk_len, image_len, input_len, answer_len) = (desk.len() as u64, image.len() as u64, input.len() as u64, answer.len() as u64);
    // SAFETY: as above.
    unsafe {
        raw::fosavalo_desk_tick(
            desk.as_mut_ptr(),
            desk_len,
            sticks.as_ptr(),
            sticks.len() as u64,
            image.as_mut_ptr(),
            image_len,
            input.as_mut_ptr(),
            input_len,
            answer.as_mut_ptr(),
            answer_len,
        )
    }
}

/// One desk tick toward a route in place of the image's segment. Gives 0; 15, then 16, then 1 to 7.
#[inline]
pub fn route_tick(desk: &mut [u8], sticks: &[u8], image: &mut [u8], input: &mut [u8], route: &[u8], answer: &mut [u8]) -> u32 {
    let (desk_len, image_len, input_len, answer_len) = (desk.len() as u64, image.len() as u64, input.len() as u64, answer.len() as u64);
    // SAFETY: as above.
    unsafe {
        raw::fosavalo_desk_route_tick(
            desk.as_mut_ptr(),
            desk_len,
            sticks.as_ptr(),
            sticks.len() as u64,
            image.as_mut_ptr(),
            image_len,
            input.as_mut_ptr(),
            input_len,
            route.as_ptr(),
            route.len() as u64,
            answer.as_mut_ptr(),
            answer_len,
        )
    }
}
