//! The C calls as they are, on slices of any length and content. Each gives the number of the refusal, 0 for none; unless it is 0, no
//! byte is changed. They do not ask for the floating-point environment ([`FloatFault`](crate::FloatFault)).
//!
//! ```
//! use fosavalo::{calls, Refusal, SetUp, ANSWER_BYTES, IMAGE_BYTES, TICK_BYTES};
//!
//! let mut image = [0; IMAGE_BYTES];
//! assert_eq!(calls::setup(&mut image, &SetUp::falcon_quad().to_bytes()), 0);
//!
//! // an answer that is a byte short: number 3, and the image is as it was
//! let before = image;
//! let number = calls::tick(&mut image, &[0; TICK_BYTES], &mut [0; ANSWER_BYTES - 1]);
//! assert_eq!(Refusal::from_number(number), Err(Refusal::AnswerLength));
//! assert_eq!(image, before);
//! ```

/// The number as one that no compiler knows: nothing is worked out with it before the program runs, and it is there before the next call.
#[inline]
pub(crate) fn hidden(x: f32) -> f32 {
    // SAFETY: a reference may be read.
    unsafe { core::ptr::read_volatile(&x) }
}

// in the module a length is 64 bits wide, whatever an address is
mod raw {
    extern "C" {
        pub fn fosavalo_version() -> u32;
        pub fn fosavalo_sinf(x: f32) -> f32;
        pub fn fosavalo_cosf(x: f32) -> f32;
        pub fn fosavalo_setup(image: *mut u8, image_len: u64, input: *const u8, input_len: u64) -> u32;
        pub fn fosavalo_exchange(image: *mut u8, image_len: u64, segment: *const u8, segment_len: u64) -> u32;
        pub fn fosavalo_tick(image: *mut u8, image_len: u64, input: *const u8, input_len: u64, answer: *mut u8, answer_len: u64) -> u32;
        pub fn fosavalo_route_tick(
            image: *mut u8,
            image_len: u64,
            input: *const u8,
            input_len: u64,
            route: *const u8,
            route_len: u64,
            answer: *mut u8,
            answer_len: u64,
        ) -> u32;
        pub fn fosavalo_route_sample(route: *const u8, route_len: u64, time: f32, sample: *mut u8, sample_len: u64) -> u32;
        pub fn fosavalo_tick_refusal(image: *const u8, image_len: u64, input_len: u64, answer_len: u64) -> u32;
        pub fn fosavalo_log_append(
            buffer: *mut u8,
            buffer_len: u64,
            log_len: u64,
            input: *const u8,
            input_len: u64,
            answer: *const u8,
            answer_len: u64,
        ) -> u32;
        pub fn fosavalo_log_count(log: *const u8, log_len: u64, count: *mut u8, count_len: u64) -> u32;
        pub fn fosavalo_log_record(log: *const u8, log_len: u64, place: u64, record: *mut u8, record_len: u64) -> u32;
        pub fn fosavalo_log_check(
            log: *const u8,
            log_len: u64,
            profile: u32,
            enter: f32,
            exit: f32,
            verdict: *mut u8,
            verdict_len: u64,
        ) -> u32;
        pub fn fosavalo_pattern_expand(
            pattern: *const u8,
            pattern_len: u64,
            route: *mut u8,
            route_len: u64,
            written: *mut u8,
            written_len: u64,
        ) -> u32;
        pub fn fosavalo_flags(margins: *const u8, margins_len: u64, enter: f32, exit: f32, flags: *mut u8, flags_len: u64) -> u32;
    }
}

/// The archive's version: 65536 times its first number, 256 times its second, and its third. The crate's own is of the same form.
///
/// ```
/// let parts = env!("CARGO_PKG_VERSION").split('.').map(|part| part.parse::<u32>().unwrap());
/// let own = parts.fold(0, |all, part| 256 * all + part);
/// assert_eq!(fosavalo::calls::version(), own);
/// ```
#[inline]
pub fn version() -> u32 {
    // SAFETY: a number out; the function is proved total.
    unsafe { raw::fosavalo_version() }
}

/// The sine of x, in radians: within 2⁻²³ of the exact value up to 8192 in size, +0.0 beyond it and for what is no number.
///
/// ```
/// assert_eq!(fosavalo::sinf(-0.0).to_bits(), (-0.0f32).to_bits());
/// assert_eq!(fosavalo::sinf(f32::NAN), 0.0);
/// ```
#[inline]
pub fn sinf(x: f32) -> f32 {
    // SAFETY: a number in, a number out; the function is proved total.
    unsafe { raw::fosavalo_sinf(x) }
}

/// The cosine of x, in radians: within 2⁻²³ of the exact value up to 8192 in size, +0.0 beyond it and for what is no number.
///
/// ```
/// assert_eq!(fosavalo::cosf(0.0), 1.0);
/// assert_eq!(fosavalo::cosf(8192.001), 0.0);
/// ```
#[inline]
pub fn cosf(x: f32) -> f32 {
    // SAFETY: as above.
    unsafe { raw::fosavalo_cosf(x) }
}

/// Writes a fresh image; what stood in it is not read. Gives 0, 1, 2, 10 or 11.
#[inline]
pub fn setup(image: &mut [u8], input: &[u8]) -> u32 {
    // SAFETY: each pointer goes with its slice's own length, the function is proved to stay within them, and borrowing keeps
    // the slices apart.
    unsafe { raw::fosavalo_setup(image.as_mut_ptr(), image.len() as u64, input.as_ptr(), input.len() as u64) }
}

/// Another segment in flight, from a leg's 76 bytes. Gives 0, 1, 2 or 4.
///
/// ```
/// use fosavalo::{calls, SetUp, IMAGE_BYTES, LEG_BYTES};
///
/// let mut image = [0; IMAGE_BYTES];
/// assert_eq!(calls::exchange(&mut image, &[0; LEG_BYTES]), 4); // a broken image is not repaired
/// calls::setup(&mut image, &SetUp::falcon_quad().to_bytes());
/// assert_eq!(calls::exchange(&mut image, &[0; LEG_BYTES]), 0);
/// assert_eq!(calls::exchange(&mut image, &[0; LEG_BYTES + 1]), 2);
/// ```
#[inline]
pub fn exchange(image: &mut [u8], segment: &[u8]) -> u32 {
    // SAFETY: as above.
    unsafe { raw::fosavalo_exchange(image.as_mut_ptr(), image.len() as u64, segment.as_ptr(), segment.len() as u64) }
}

/// One joint tick. Gives 0 to 4.
#[inline]
pub fn tick(image: &mut [u8], input: &[u8], answer: &mut [u8]) -> u32 {
    // SAFETY: as above.
    unsafe {
        raw::fosavalo_tick(
            image.as_mut_ptr(),
            image.len() as u64,
            input.as_ptr(),
            input.len() as u64,
            answer.as_mut_ptr(),
            answer.len() as u64,
        )
    }
}

/// One joint tick toward a route in place of the image's segment. Gives 0 to 7.
///
/// ```
/// use fosavalo::{calls, SetUp, ANSWER_BYTES, IMAGE_BYTES, TICK_BYTES};
///
/// let mut image = [0; IMAGE_BYTES];
/// calls::setup(&mut image, &SetUp::falcon_quad().to_bytes());
/// let (input, mut answer) = ([0; TICK_BYTES], [0; ANSWER_BYTES]);
/// let mut fly = |route: &[u8]| calls::route_tick(&mut image, &input, route, &mut answer);
/// assert_eq!(fly(&[0; 7]), 6); // too short for a trailer
/// assert_eq!(fly(&[0; 8]), 5); // no leg
/// ```
#[inline]
pub fn route_tick(image: &mut [u8], input: &[u8], route: &[u8], answer: &mut [u8]) -> u32 {
    let (image_len, answer_len) = (image.len() as u64, answer.len() as u64);
    // SAFETY: as above.
    unsafe {
        raw::fosavalo_route_tick(
            image.as_mut_ptr(),
            image_len,
            input.as_ptr(),
            input.len() as u64,
            route.as_ptr(),
            route.len() as u64,
            answer.as_mut_ptr(),
            answer_len,
        )
    }
}

/// The leg of a route that is flown at a time, and where the route is then, into 52 bytes. Gives 0; 3, then 5 to 7.
///
/// ```
/// use fosavalo::{calls, Route, SetUp, SAMPLE_BYTES};
///
/// let route = Route::new(&[SetUp::falcon_quad().segment])?;
/// let mut sample = [0xa5; SAMPLE_BYTES];
/// assert_eq!(calls::route_sample(route.as_bytes(), 0.5, &mut sample), 0);
/// assert_eq!(sample, [0; SAMPLE_BYTES]); // leg 0, at rest at the origin
/// assert_eq!(calls::route_sample(&[0; 7], 0.5, &mut sample[1..]), 3);
/// assert_eq!(calls::route_sample(&[0; 7], 0.5, &mut sample), 6);
/// # Ok::<(), fosavalo::Refusal>(())
/// ```
#[inline]
pub fn route_sample(route: &[u8], time: f32, sample: &mut [u8]) -> u32 {
    // SAFETY: as above.
    unsafe { raw::fosavalo_route_sample(route.as_ptr(), route.len() as u64, time, sample.as_mut_ptr(), sample.len() as u64) }
}

/// What [`tick`] would give on this image with an input and an answer of these lengths. Nothing is changed.
///
/// ```
/// use fosavalo::{calls, ANSWER_BYTES, IMAGE_BYTES, TICK_BYTES};
///
/// let blank = [0; IMAGE_BYTES];
/// assert_eq!(calls::tick_refusal(&blank, TICK_BYTES, ANSWER_BYTES), 4); // it is broken
/// assert_eq!(calls::tick_refusal(&blank, TICK_BYTES, 0), 3); // the lowest number wins
/// ```
#[inline]
pub fn tick_refusal(image: &[u8], input_len: usize, answer_len: usize) -> u32 {
    // SAFETY: as above.
    unsafe { raw::fosavalo_tick_refusal(image.as_ptr(), image.len() as u64, input_len as u64, answer_len as u64) }
}

/// Appends a tick's input and its answer to the log in the first `log_len` bytes of the buffer, which is then 108 bytes longer; no other byte
/// is changed. Gives 0, 2, 3, 8 or 9.
///
/// ```
/// use fosavalo::{calls, ANSWER_BYTES, EMPTY_LOG, TICK_BYTES};
///
/// // room for one record
/// let mut buffer = [0; 120];
/// buffer[..12].copy_from_slice(&EMPTY_LOG);
/// let (input, answer) = ([1; TICK_BYTES], [2; ANSWER_BYTES]);
/// let mut append = |log_len| calls::log_append(&mut buffer, log_len, &input, &answer);
/// assert_eq!(append(121), 8); // longer than the buffer
/// assert_eq!(append(12), 0);
/// assert_eq!(append(120), 9); // no room
/// ```
#[inline]
pub fn log_append(buffer: &mut [u8], log_len: u64, input: &[u8], answer: &[u8]) -> u32 {
    let buffer_len = buffer.len() as u64;
    // SAFETY: as above.
    unsafe {
        raw::fosavalo_log_append(
            buffer.as_mut_ptr(),
            buffer_len,
            log_len,
            input.as_ptr(),
            input.len() as u64,
            answer.as_ptr(),
            answer.len() as u64,
        )
    }
}

/// How many records these bytes have as a log, into four bytes. Gives 0, 2 or 8.
///
/// ```
/// let mut count = [0xa5; 4];
/// assert_eq!(fosavalo::calls::log_count(&fosavalo::EMPTY_LOG, &mut count), 0);
/// assert_eq!(u32::from_le_bytes(count), 0);
/// assert_eq!(fosavalo::calls::log_count(&[0; 12], &mut count), 8);
/// ```
#[inline]
pub fn log_count(log: &[u8], count: &mut [u8]) -> u32 {
    // SAFETY: as above.
    unsafe { raw::fosavalo_log_count(log.as_ptr(), log.len() as u64, count.as_mut_ptr(), count.len() as u64) }
}

/// The record at a place, counted from 0, into 108 bytes. Gives 0, 8, 13 or 14.
///
/// ```
/// use fosavalo::{calls, EMPTY_LOG, RECORD_BYTES};
///
/// assert_eq!(calls::log_record(&EMPTY_LOG, 0, &mut [0; RECORD_BYTES]), 13); // it has none
/// assert_eq!(calls::log_record(&EMPTY_LOG, 0, &mut [0; RECORD_BYTES - 1]), 14);
/// ```
#[inline]
pub fn log_record(log: &[u8], place: u64, record: &mut [u8]) -> u32 {
    // SAFETY: as above.
    unsafe { raw::fosavalo_log_record(log.as_ptr(), log.len() as u64, place, record.as_mut_ptr(), record.len() as u64) }
}

/// Whether every record of a log is right, into four bytes: [`LOG_RIGHT`](crate::LOG_RIGHT), or the place of the first that is not, counted from 0. The profile is
/// 0 or 1. Gives 0, 2, 8 or 10.
///
/// ```
/// use fosavalo::{calls, EMPTY_LOG, LOG_RIGHT};
///
/// let mut verdict = [0; 4];
/// assert_eq!(calls::log_check(&EMPTY_LOG, 0, 0.5, 1.0, &mut verdict), 0);
/// assert_eq!(u32::from_le_bytes(verdict), LOG_RIGHT);
/// assert_eq!(calls::log_check(&EMPTY_LOG, 2, 0.5, 1.0, &mut verdict), 10);
/// assert_eq!(calls::log_check(&[], 2, 0.5, 1.0, &mut verdict), 8);
/// ```
#[inline]
pub fn log_check(log: &[u8], profile: u32, enter: f32, exit: f32, verdict: &mut [u8]) -> u32 {
    // SAFETY: as above.
    unsafe { raw::fosavalo_log_check(log.as_ptr(), log.len() as u64, profile, enter, exit, verdict.as_mut_ptr(), verdict.len() as u64) }
}

/// Who flies at each margin of a list, by looking back: margins as words in, a byte for each out, 1 the fallback and 0 the planner. Gives 0 or 9.
///
/// ```
/// let margins = [1.5f32, 0.75, 0.25].map(f32::to_le_bytes).concat();
/// let mut flags = [7; 3];
/// assert_eq!(fosavalo::calls::flags(&margins, 0.5, 1.0, &mut flags), 0);
/// assert_eq!(flags, [0, 0, 1]);
/// // a word that is short of a byte
/// assert_eq!(fosavalo::calls::flags(&margins[1..], 0.5, 1.0, &mut flags), 9);
/// ```
#[inline]
pub fn flags(margins: &[u8], enter: f32, exit: f32, flags: &mut [u8]) -> u32 {
    // SAFETY: as above.
    unsafe { raw::fosavalo_flags(margins.as_ptr(), margins.len() as u64, enter, exit, flags.as_mut_ptr(), flags.len() as u64) }
}

/// Expands a pattern: its legs in the order in which they are flown, as a route in the first bytes of the buffer, whose other bytes stay; the route's
/// length, as a word, into four bytes. Gives 0, 2, 12, 5, 9 or 7, the first of these that holds.
///
/// ```
/// use fosavalo::calls;
///
/// // three times a leg of zeros, which meets itself
/// let pattern = [&[1, 3, 77, 0], &[0; 77][..]].concat();
/// let (mut route, mut written) = ([0xa5; 240], [0; 4]);
/// assert_eq!(calls::pattern_expand(&pattern, &mut route, &mut written), 0);
/// assert_eq!(u32::from_le_bytes(written), 3 * 76 + 8);
/// assert_eq!(route[236..], [0xa5; 4]);
///
/// assert_eq!(calls::pattern_expand(&pattern[1..], &mut route, &mut written), 12);
/// assert_eq!(calls::pattern_expand(&[], &mut route, &mut written), 5);
/// assert_eq!(calls::pattern_expand(&pattern, &mut route[..235], &mut written), 9);
/// ```
#[inline]
pub fn pattern_expand(pattern: &[u8], route: &mut [u8], written: &mut [u8]) -> u32 {
    let (route_len, written_len) = (route.len() as u64, written.len() as u64);
    // SAFETY: as above.
    unsafe {
        raw::fosavalo_pattern_expand(
            pattern.as_ptr(),
            pattern.len() as u64,
            route.as_mut_ptr(),
            route_len,
            written.as_mut_ptr(),
            written_len,
        )
    }
}
