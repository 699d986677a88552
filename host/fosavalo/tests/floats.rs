//! Floating-point environments that the core does not compute in: each is told, and nothing is made or changed.
#![cfg(any(target_arch = "x86_64", target_arch = "aarch64"))]

use fosavalo::{calls, slow_flags, FloatFault, GyroFilter, Image, Leg, Log, Profile, Refusal, Route, SetUp, TickInput, IMAGE_BYTES};
use unit::{control, load, FLUSHED, WRONG};

/// The processor's word for it, MXCSR.
#[cfg(target_arch = "x86_64")]
mod unit {
    use fosavalo::FloatFault;
    use std::arch::asm;

    /// Operands that are subnormal count as zero, results that are become zero, and the direction of rounding.
    const OPERANDS: u32 = 1 << 6;
    const RESULTS: u32 = 1 << 15;
    const DOWN: u32 = 1 << 13;
    const UP: u32 = 2 << 13;
    const TO_ZERO: u32 = 3 << 13;

    /// Subnormal operands count as zero.
    pub const FLUSHED: u32 = OPERANDS;

    pub const WRONG: [(u32, FloatFault); 9] = [
        (DOWN, FloatFault::Rounding),
        (UP, FloatFault::Rounding),
        (TO_ZERO, FloatFault::Rounding),
        (OPERANDS, FloatFault::Subnormals),
        (RESULTS, FloatFault::Subnormals),
        (OPERANDS | RESULTS, FloatFault::Subnormals),
        (DOWN | RESULTS, FloatFault::Both),
        (UP | OPERANDS, FloatFault::Both),
        (TO_ZERO | OPERANDS | RESULTS, FloatFault::Both),
    ];

    pub fn control() -> u32 {
        let mut word = 0u32;
        // SAFETY: it writes the four bytes.
        unsafe { asm!("stmxcsr [{}]", in(reg) &mut word, options(nostack)) };
        word
    }

    pub fn load(word: u32) {
        // SAFETY: every bit set is one that the processor has. No float is worked out in Rust until the old word is back.
        unsafe { asm!("ldmxcsr [{}]", in(reg) &word, options(nostack)) };
    }
}

/// FPCR. One bit is for operands and results; of 32-bit Arm's FPSCR these bits are the same ones.
#[cfg(target_arch = "aarch64")]
mod unit {
    use fosavalo::FloatFault;
    use std::arch::asm;

    const UP: u32 = 1 << 22;
    const DOWN: u32 = 2 << 22;
    const TO_ZERO: u32 = 3 << 22;

    /// Subnormal operands count as zero, and results that are become zero.
    pub const FLUSHED: u32 = 1 << 24;

    pub const WRONG: [(u32, FloatFault); 7] = [
        (DOWN, FloatFault::Rounding),
        (UP, FloatFault::Rounding),
        (TO_ZERO, FloatFault::Rounding),
        (FLUSHED, FloatFault::Subnormals),
        (DOWN | FLUSHED, FloatFault::Both),
        (UP | FLUSHED, FloatFault::Both),
        (TO_ZERO | FLUSHED, FloatFault::Both),
    ];

    pub fn control() -> u32 {
        let word: u64;
        // SAFETY: it is only read.
        unsafe { asm!("mrs {}, fpcr", out(reg) word, options(nostack)) };
        word as u32
    }

    pub fn load(word: u32) {
        // SAFETY: as on x86-64.
        unsafe { asm!("msr fpcr, {}", in(reg) u64::from(word), options(nostack)) };
    }
}

/// This thread's environment for as long as it lives.
struct Set(u32);

impl Set {
    fn with(bits: u32) -> Self {
        let before = control();
        load(before | bits);
        Set(before)
    }
}

impl Drop for Set {
    fn drop(&mut self) {
        load(self.0);
    }
}

/// What a computation gives in an environment, and what is told of that.
fn under<T>(bits: u32, what: impl FnOnce() -> T) -> (T, Result<(), FloatFault>) {
    let set = Set::with(bits);
    let said = FloatFault::check();
    let given = what();
    drop(set);
    (given, said)
}

#[test]
fn every_wrong_environment_is_told() {
    assert_eq!(under(0, || ()).1, Ok(()));
    for (bits, fault) in WRONG {
        assert_eq!(under(bits, || ()).1, Err(fault), "{bits:x}");
        assert_eq!(FloatFault::check(), Ok(()), "and it is put back");
    }
}

/// It matters: the core's own bits are others there. Enter is subnormal, exit twice that, and the filter's coefficients are rounded.
#[test]
fn the_core_is_another_there() {
    let set_up =
        SetUp { enter: f32::from_bits(0x0001_16c2), exit: -1.0, filter: GyroFilter { fc: 80.0, fs: 1000.0 }, ..SetUp::falcon_quad() };
    let image = |bits| {
        let (input, mut image) = (set_up.to_bytes(), [0; IMAGE_BYTES]);
        let (number, _) = under(bits, || calls::setup(&mut image, &input));
        assert_eq!(number, 0);
        image
    };
    let right = image(0);
    for (bits, _) in WRONG {
        assert!(image(bits) != right, "{bits:x}");
    }
}

#[test]
fn what_computes_is_refused_there() {
    let fresh = Image::set_up(&SetUp::falcon_quad()).expect("the environment is right");
    let legs = [SetUp::falcon_quad().segment; 2];
    let route = Route::new(&legs).expect("the legs meet");
    let log = Log::new();
    for (bits, fault) in WRONG {
        let (mut image, refused) = (fresh.clone(), Some(Refusal::Floats(fault)));
        let (said, _) = under(bits, || {
            [
                Image::set_up(&SetUp::falcon_quad()).err(),
                image.tick(&TickInput::default()).err(),
                image.route_tick(&TickInput::default(), &route).err(),
                image.check().err(),
                Route::new(&legs).err(),
                Route::from_bytes(route.as_bytes()).err(),
                log.check(Profile::Whole, 0.5, 1.0).err(),
                slow_flags(&[], 0.5, 1.0).err(),
            ]
        });
        assert_eq!(said, [refused; 8], "{bits:x}");
        assert_eq!(image, fresh, "nothing is changed");
        // bytes alone are taken: nothing is computed
        let (taken, _) = under(bits, || Image::from_bytes(fresh.as_bytes()));
        assert_eq!(taken, Ok(fresh.clone()));
    }
}

/// Legs that are subnormally apart meet where subnormal numbers are zero: hence a route is not made there.
#[test]
fn legs_that_only_seem_to_meet() {
    let rest = SetUp::falcon_quad().segment;
    let near = Leg { p0: [f32::from_bits(1), 0.0, 0.0], ..rest };
    assert_eq!(Route::new(&[rest, rest, near]), Err(Refusal::LegsApart(Some(2))));
    assert_eq!(under(FLUSHED, || Route::new(&[rest, near])).0, Err(Refusal::Floats(FloatFault::Subnormals)));
}

/// A thread has its own.
#[test]
fn the_thread_that_ticks_is_asked() {
    let mut image = Image::set_up(&SetUp::falcon_quad()).expect("the environment is right");
    let elsewhere = std::thread::spawn(move || under(FLUSHED, || image.tick(&TickInput::default()).err()).0);
    assert_eq!(elsewhere.join().ok(), Some(Some(Refusal::Floats(FloatFault::Subnormals))));
    assert_eq!(FloatFault::check(), Ok(()));
}
