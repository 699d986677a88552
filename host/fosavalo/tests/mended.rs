//! What set-up mends, held to the image that the core makes.

use fosavalo::{calls, FilterDoubt, GyroFilter, Image, Mended, Refusal, SetUp, IMAGE_BYTES, SETUP_BYTES};

/// Floats on and next to what mending decides by, and any bits.
fn float(next: &mut impl FnMut() -> u64) -> f32 {
    const NEAR: [f32; 13] =
        [0.0, -0.0, f32::NAN, f32::INFINITY, f32::NEG_INFINITY, f32::MAX, 1e-45, 1e-3, 0.1, 0.2, 1.0, 2.0, 1.7014118e38];
    let x = next();
    let near = NEAR[(x >> 8) as usize % NEAR.len()].to_bits().wrapping_add((x >> 32) as u32 % 3).wrapping_sub(1);
    f32::from_bits(if x & 1 == 0 { near } else { (x >> 32) as u32 })
}

/// The words of the image that hold a number of the set-up as it was kept: enter, exit; c0, c1, t_end of each axis.
fn in_the_image(image: &[u8; IMAGE_BYTES], set_up: &SetUp) {
    let word = |at: usize| u32::from_le_bytes([image[4 * at], image[4 * at + 1], image[4 * at + 2], image[4 * at + 3]]);
    assert_eq!([word(13), word(14)], [set_up.enter, set_up.exit].map(f32::to_bits));
    for axis in 0..3 {
        let own = [set_up.segment.p0[axis], set_up.segment.v0[axis], set_up.segment.t].map(f32::to_bits);
        assert_eq!([25, 24, 26].map(|at| word(at + 7 * axis)), own);
    }
}

#[test]
fn of_any_bits() {
    let mut x = 7u64;
    let mut next = || {
        x = x.wrapping_mul(6364136223846793005).wrapping_add(1442695040888963407);
        x ^ (x >> 29)
    };
    let mut told = [0u32; 2];
    for _ in 0..100_000 {
        let mut bytes = [0; SETUP_BYTES];
        bytes.chunks_exact_mut(4).for_each(|four| four.copy_from_slice(&float(&mut next).to_le_bytes()));
        bytes[200..].copy_from_slice(&((next() >> 32) as u32 & 1).to_le_bytes());
        // what it refuses is another test's
        [80f32, 1000.0].iter().zip(48..).for_each(|(x, at)| bytes[4 * at..4 * at + 4].copy_from_slice(&x.to_le_bytes()));
        let given = SetUp::from_bytes(&bytes).expect("it is a set-up's");
        let kept = given.kept();
        let mut images = [[0; IMAGE_BYTES]; 2];
        assert_eq!(calls::setup(&mut images[0], &bytes) + calls::setup(&mut images[1], &kept.to_bytes()), 0);
        assert_eq!(images[0], images[1], "{given:?}");
        in_the_image(&images[0], &kept);
        assert_eq!(kept.mended().count(), 0);
        // each is told once, and put in its place it is the kept one
        let mended: Vec<Mended> = given.mended().collect();
        let has = |field| mended.iter().any(|mended| mended.field == field) as u32;
        told = [told[0] + has("exit"), told[1] + has("pf")];
        let names: std::collections::HashSet<_> = mended.iter().map(|mended| (mended.field, mended.axis)).collect();
        assert_eq!(names.len(), mended.len());
        assert!(mended.iter().all(|mended| mended.given != mended.kept && !mended.kept.is_nan()));
        let differ = given.to_bytes().chunks(4).zip(kept.to_bytes().chunks(4)).filter(|(a, b)| a != b).count();
        assert_eq!(differ, mended.len());
    }
    assert!(told.iter().all(|count| *count > 10_000), "{told:?}");
}

#[test]
fn in_words() {
    let mut set_up = SetUp { enter: -1.0, exit: f32::NAN, ..SetUp::falcon_quad() };
    set_up.segment.p0[1] = 3.0;
    set_up.segment.pf = [0.0, f32::INFINITY, 0.0];
    set_up.segment.t = 0.0;
    let said: Vec<String> = set_up.mended().map(|mended| mended.to_string()).collect();
    let expected = [
        "enter: given -1, kept 0.1: it has to be finite and above 0",
        "exit: given NaN, kept 0.2: it has to be finite and above enter",
        "pf[1]: given inf, kept 3: it has to be finite",
        "t: given 0, kept 0.001: it has to be finite and above 0.001",
    ];
    assert_eq!(said, expected);
    let image = Image::set_up(&set_up).expect("its gyro is filtered");
    assert_eq!((image.enter(), image.exit()), (0.1, 0.2));
    assert_eq!(SetUp::falcon_quad().mended().count(), 0);
}

/// A filter that is none is refused and not mended, and the sentence says what to do.
#[test]
fn no_filter_is_refused() {
    for fc in [0.0, -0.0, -80.0, 500.0, f32::NAN, f32::INFINITY] {
        let set_up = SetUp { filter: GyroFilter { fc, fs: 1000.0 }, ..SetUp::falcon_quad() };
        assert_eq!((Image::set_up(&set_up), set_up.mended().count()), (Err(Refusal::PassThrough), 0));
    }
    let said =
        "refused (11): the gyro would not be filtered: the cut-off fc has to be above 0 and below half of the sample rate fs; one below \
                fs / 25586 would switch the gyro off";
    assert_eq!(Refusal::PassThrough.to_string(), said);
}

/// A filter is said to switch the gyro off exactly where all three b that the core stores are 0, whatever the sample rate.
#[test]
fn a_filter_that_switches_the_gyro_off() {
    let (mut off, mut on) = (0, 0);
    for fs in [1e-3, 50.0, 400.0, 1000.0, 8000.0, 1e30] {
        // through the bound, fs / 25586, in steps of 2^-20
        for step in -2000..2000i32 {
            let fc = fs / 25_586.0 * (1.0 + step as f32 / 1_048_576.0);
            let filter = GyroFilter { fc, fs };
            let image = Image::set_up(&SetUp { filter, ..SetUp::falcon_quad() }).expect("it is taken");
            let bytes = image.as_bytes();
            let word = |at: usize| u32::from_le_bytes([bytes[4 * at], bytes[4 * at + 1], bytes[4 * at + 2], bytes[4 * at + 3]]);
            let shut = [68, 69, 70].map(word) == [0; 3];
            assert_eq!(filter.doubt() == Some(FilterDoubt::SwitchesOff), shut, "{filter:?}");
            *if shut { &mut off } else { &mut on } += 1;
        }
    }
    assert!(off > 1000 && on > 1000, "{off} {on}");
    let doubt = |fc| GyroFilter { fc, fs: 1000.0 }.doubt();
    assert_eq!([0.0, -1.0, 500.0, f32::NAN, 1.0, 80.0, 450.0].map(doubt), [None; 7]);
    assert_eq!([451.0, 499.0].map(doubt), [Some(FilterDoubt::HardlyFilters); 2]);
}
