//! A stride of what `make exhaustive` runs in full, and the cases that have a line of their own in document 01.

use compare::{exact, numbers};

fn none_wrong(found: numbers::Found) {
    assert_eq!(found.wrong, None, "of {} patterns", found.cases);
}

/// A prime, so that every field of the pattern varies.
const STRIDE: u32 = 251;

#[test]
fn root_size_and_finiteness_are_the_hardware_s() {
    none_wrong(numbers::hardware(STRIDE));
}

#[test]
fn angles_up_to_the_limit_have_their_signs() {
    none_wrong(numbers::angles(STRIDE));
}

#[test]
fn angles_beyond_the_limit_are_plus_zero() {
    none_wrong(numbers::far(STRIDE));
}

#[test]
fn angles_meet_document_01() {
    none_wrong(numbers::document(STRIDE));
}

/// Request Five: every f32 up to 128, of either sign. It takes some seconds, and a stride would need another stored number.
#[test]
fn no_bit_up_to_128_moved() {
    let found = numbers::checksum();
    assert_eq!((found.cases, found.sum), (0x4300_0001, numbers::EARLIER_SUM));
}

#[test]
fn roots_are_nearest_by_document_01_s_words() {
    let mut cases = 0;
    let mut b = 1u32;
    while b < 0x7f80_0000 {
        let x = f32::from_bits(b);
        assert!(exact::is_nearest_root(x, archives::sqrtf(x)), "root of {b:08x}");
        cases += 1;
        b += 4099;
    }
    assert!(cases > 500_000);
    // the test itself can fail: one unit off is not nearest
    for x in [2.0f32, 4.0, 0.3, 1e-40, 3e38] {
        let r = archives::sqrtf(x).to_bits();
        assert!(!exact::is_nearest_root(x, f32::from_bits(r + 1)));
        assert!(!exact::is_nearest_root(x, f32::from_bits(r - 1)));
    }
}

#[test]
fn figures_of_document_01() {
    assert_eq!(archives::sqrtf(4.0), 2.0);
    assert_eq!(archives::sqrtf(f32::from_bits(1)).to_bits(), 0x1a35_04f3);
    // near a midpoint, the largest subnormal, each zero, below zero, both infinities
    for (x, r) in [
        (0x3f7f_ffff, 0x3f7f_ffff),
        (0x3f80_0001, 0x3f80_0000),
        (0x007f_ffff, 0x1fff_ffff),
        (0, 0),
        (0x8000_0000, 0x8000_0000),
        (0x7f80_0000u32, 0x7f80_0000u32),
    ] {
        assert_eq!(archives::sqrtf(f32::from_bits(x)).to_bits(), r, "root of {x:08x}");
    }
    assert!(archives::sqrtf(-f32::from_bits(1)).is_nan() && archives::sqrtf(f32::NEG_INFINITY).is_nan() && archives::sqrtf(f32::NAN).is_nan());
    for zero in [0.0f32, -0.0] {
        assert_eq!(archives::sinf(zero).to_bits(), zero.to_bits());
        assert_eq!(archives::cosf(zero), 1.0);
    }
    // the limit is served, one unit beyond it is not, for both signs
    for sign in [0, 0x8000_0000u32] {
        let at = |b: u32| f32::from_bits(b | sign);
        for served in [0x4300_0000, 0x4300_0001, 0x4600_0000] {
            assert!(archives::cosf(at(served)) != 0.0 && archives::sinf(at(served)) != 0.0, "{served:08x}");
        }
        assert_eq!([archives::sinf(at(0x4600_0001)).to_bits(), archives::cosf(at(0x4600_0001)).to_bits()], [0, 0]);
    }
}
