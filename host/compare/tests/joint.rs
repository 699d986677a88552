//! The joint tick: the archive's calls against the Rust's own calls in document 01's order, byte for byte, and the third
//! demand by looking back. FOSAVALO_TICKS asks for more ticks than the gate's five million.

use compare::generate::Rng;
use compare::joint::bytes::{float, put, raw, word, ANSWER, IMAGE, LEG, PEAKS, PROFILE, SETUP, SETUP_PROFILE, TICK, WORDS};
use compare::joint::guide::PLAIN;
use compare::joint::lent::Lending;
use compare::joint::model::{self, Flight, Profile, Right};
use compare::joint::pilot::Pilot;
use compare::joint::refusal::Refusals;
use compare::joint::runs::{self, caught, Seen, Watch};
use compare::joint::wrong::{self, WRONG, WRONG_CUT_OFF, WRONG_ERROR, WRONG_PROFILE};
use compare::joint::{archive, lengths, Call};
use compare::portion;
use std::time::Instant;

#[test]
fn every_tick_is_the_rust_s_and_the_look_back_s() {
    let (start, ticks) = (Instant::now(), runs::ticks());
    let (seen, parted) = runs::compare(&archive, ticks, Watch::All, PLAIN, |_| {});
    println!("{seen}\n{:.1} s", start.elapsed().as_secs_f32());
    if let Some(parted) = parted {
        panic!("{parted}");
    }
    assert!(seen.accepted() >= ticks && seen.looked_back >= ticks / 2);
    covered(&seen);
}

/// A run that never goes where the errors are shows nothing.
fn covered(seen: &Seen) {
    let ([many, some], part) = ([1000, 100].map(portion::least), portion::one_in(10));
    for ((profile, passes), [planner, fallback]) in [Profile::Whole, Profile::LostRotor].iter().zip(seen.passes()).zip(seen.band) {
        assert!(passes >= seen.accepted() / 8, "{profile:?}: {passes} ticks of passes");
        assert!(planner * part >= passes, "{profile:?}: the planner flew in the band for {planner} of {passes} ticks of passes");
        assert!(fallback * part >= passes, "{profile:?}: the fallback flew in the band for {fallback} of {passes} ticks of passes");
    }
    assert!(seen.changes > many && seen.edge > many);
    assert!(seen.no_attitude > many && seen.no_feedforward > many && seen.at_the_end > many);
    assert!(seen.no_axis > many && seen.any_heading > many, "{}, {}", seen.no_axis, seen.any_heading);
    assert!(seen.refused_set_ups.iter().all(|n| *n > some), "{:?}", seen.refused_set_ups);
    assert!(seen.turning.as_flattened().iter().all(|n| *n > many), "{:?}", seen.turning);
    for (at, [accepted, refused]) in seen.damaged.iter().enumerate() {
        // the words that row 4 looks at: of word 0 any other value is refused, and of the segment c5, c4, c3 and t_end are looked at by its peaks
        let of_a_peak = (20..41).contains(&at) && [0, 1, 2, 6].contains(&((at - 20) % 7));
        let looked_at = [0, 13, 14, 15, 16].contains(&at) || of_a_peak || at >= PROFILE;
        assert!(
            accepted + refused > many && (at == 0 || *accepted > some) && (*refused > some) == looked_at,
            "word {at}: {accepted}, {refused}"
        );
    }
}

#[test]
fn what_looks_right_but_is_wrong_is_caught() {
    let all = [WRONG, WRONG_ERROR, WRONG_PROFILE, WRONG_CUT_OFF].concat();
    let ticks = portion::of(runs::GATE);
    let missed: Vec<_> = all.into_iter().filter(|version| !caught(*version, ticks, Watch::All, PLAIN)).collect();
    assert!(missed.is_empty(), "not caught within {ticks} ticks: {missed:?}");
}

/// The look-back knows nothing of the model, and catches what the third demand is about.
#[test]
fn looking_back_alone_catches_what_is_about_the_flag_and_the_command() {
    for version in [
        wrong::ReleasedInTheBand::VERSION,
        wrong::ReleasedAtExit::VERSION,
        wrong::EngagedAtEnter::VERSION,
        wrong::NoCleaning::VERSION,
        wrong::PlannerThird::VERSION,
        wrong::Constant::VERSION,
        wrong::Untouched::VERSION,
        wrong::Echo::VERSION,
    ] {
        assert!(caught(version, portion::of(runs::GATE), Watch::LookBack, PLAIN), "{version:?}");
    }
}

/// What the wrong ones are made from is right.
#[test]
fn with_no_fault_nothing_differs() {
    assert!(!caught(Right::VERSION, portion::of(runs::GATE / 10), Watch::All, PLAIN));
}

#[test]
fn every_length_of_every_buffer() {
    let start = Instant::now();
    let setups = lengths::setups(&archive).unwrap_or_else(|text| panic!("{text}"));
    let exchanges = lengths::exchanges(&archive).unwrap_or_else(|text| panic!("{text}"));
    let ticks = lengths::ticks(&archive).unwrap_or_else(|text| panic!("{text}"));
    assert_eq!((setups, exchanges), (4 * 401 * 401, 2 * 401 * 401));
    assert!(ticks >= portion::of(2 * 401 * 401 * 401), "{ticks} ticks");
    println!("{setups} set-ups, {exchanges} exchanges and {ticks} ticks, {:.1} s", start.elapsed().as_secs_f32());
}

/// And the sweep can fail.
#[test]
fn a_wrong_length_taken_or_a_byte_changed_is_caught() {
    let longer = |call, lent: &mut Lending<'_>| {
        lent.input = &lent.input[..lent.input.len().min(TICK)];
        model::call(call, lent)
    };
    let writes = |call, lent: &mut Lending<'_>| {
        let byte = match call {
            Call::SetUp | Call::Exchange => lent.image.first_mut(),
            _ => lent.answer.last_mut().filter(|_| lent.input.len() % 64 == 4),
        };
        byte.into_iter().for_each(|byte| *byte ^= 1);
        model::call(call, lent)
    };
    let [profile, broken, through] =
        [wrong::ProfileFirst::VERSION, wrong::BrokenFirst::VERSION, wrong::ThroughFirst::VERSION].map(|version| version.call);
    assert!(lengths::exchanges(&writes).is_err() && lengths::exchanges(&broken).is_err());
    assert!(lengths::ticks(&longer).is_err() && lengths::ticks(&writes).is_err());
    assert!(lengths::setups(&writes).is_err() && lengths::setups(&profile).is_err() && lengths::setups(&through).is_err());
}

/// What a tick would be refused for, asked beforehand: of good images and damaged ones, at lengths that are right and that are not.
#[test]
fn a_tick_tells_beforehand_what_it_would_be_refused_for() {
    let mut whole = [0; IMAGE + 20];
    Flight::set_up(&Pilot::on_a_pass(Profile::Whole, 0).set_up()).write(&mut whole[..IMAGE]);
    let (mut rng, mut seen) = (Rng::new("tick_refusal", 1), [0u32; 5]);
    for round in 0..200_000 {
        let mut image = whole;
        if round % 4 != 0 {
            let bits = if rng.flag() { rng.special().to_bits() } else { rng.bits() as u32 >> rng.below(32) };
            put(&mut image, rng.below(IMAGE / 4), bits);
        }
        let mut near = |right: usize| {
            if rng.below(8) == 0 {
                rng.below(right + 20)
            } else {
                right
            }
        };
        let (i, n, a) = (near(IMAGE), near(TICK), near(ANSWER));
        let expected = Right.of_tick(&image[..i], n, a);
        assert_eq!(archives::tick_refusal(&image[..i], n, a), expected, "lengths {i}, {n}, {a}, image {image:02x?}");
        seen[expected as usize] += 1;
    }
    assert!(seen.iter().all(|&count| count > 1000), "{seen:?}");
}

// The layout and some lines of document 01 by hand, through the archive; the model has no part in them.

const NAN: u32 = 0x7fc0_0000;
const INFINITY: u32 = 0x7f80_0000;

/// Level at rest for 2 s: gains 1, 2, .. 9, the set (1, 1, 1.75), enter 0.5, exit 1, error 1 to 3, g_min 0.25, and document 01's filter
/// whose angle overflows, for its coefficients are plain.
fn set_up() -> [u8; SETUP] {
    let mut input = [0; SETUP];
    let mut at = 0;
    let mut add = |words: &[f32]| {
        for x in words {
            put(&mut input, at, x.to_bits());
            at += 1;
        }
    };
    add(&[1.0, 2.0, 3.0, 4.0, 5.0, 6.0, 7.0, 8.0, 9.0]);
    add(&[1.0, 1.0, 1.75, 0.5, 1.0, 1.0, 3.0, 0.25]);
    add(&[0.0; 18]);
    add(&[2.0]);
    add(&[[4.0, 2.0, 2.0, 0.0]; 3].concat());
    add(&[1e38, 3e38]);
    input
}

/// The same with a rotor lost.
fn lost_rotor() -> [u8; SETUP] {
    with(set_up(), &[(SETUP_PROFILE, 1)])
}

/// Standing still: identity, on track, a step of 1/16 s, the planner's 1, -0.0, NaN, everything delivered.
fn still() -> [u8; TICK] {
    let words: [f32; TICK / 4] = [0.0, 0.0, 0.0, 1.0, 0.0, 0.0, 0.0, 0.0, 0.0, 0.0, 0.0625, 1.0, -0.0, f32::NAN, 1.0, 1.0, 1.0];
    let mut input = [0; TICK];
    words.iter().enumerate().for_each(|(at, x)| put(&mut input, at, x.to_bits()));
    input
}

fn fresh(input: &[u8; SETUP]) -> [u8; IMAGE] {
    let mut image = [0xee; IMAGE];
    assert_eq!(archives::setup(&mut image, input), 0);
    image
}

/// The same with no filter, as an earlier release would have set it up: so the rates below are what the margin counts.
fn image_of(input: &[u8; SETUP]) -> [u8; IMAGE] {
    let through = [0x3f80_0000, 0, 0, 0, 0];
    let filters = [68, 77, 86].into_iter().flat_map(|axis| (axis..).zip(through));
    with(fresh(input), &filters.collect::<Vec<_>>())
}

fn tick(image: &mut [u8; IMAGE], input: &[u8; TICK]) -> [u8; ANSWER] {
    let mut answer = [0xee; ANSWER];
    assert_eq!(archives::tick(image, input, &mut answer), 0);
    answer
}

/// `bytes` with words replaced.
fn with<const N: usize>(mut bytes: [u8; N], words: &[(usize, u32)]) -> [u8; N] {
    words.iter().for_each(|(at, word)| put(&mut bytes, *at, *word));
    bytes
}

#[test]
fn the_image_by_hand() {
    let image = fresh(&set_up());
    assert_eq!((word(&image, 0), word(&image, 95)), (99, 0));
    assert_eq!(word(&image_of(&lost_rotor()), 95), 1);
    (1..10).for_each(|at| assert_eq!(float(&image, at), at as f32));
    let floats: Vec<f32> = (10..15).map(|at| float(&image, at)).collect();
    assert_eq!(floats, [1.0, 1.0, 1.75, 0.5, 1.0]);
    assert_eq!(word(&image, 15), 1);
    let floats: Vec<f32> = (16..95).map(|at| float(&image, at)).collect();
    let axis = [0.0, 0.0, 0.0, 0.0, 0.0, 0.0, 2.0];
    let adrc = [0.0, 0.0, 0.0, 0.0, 1.0, 4.0, 2.0, 2.0, 0.0];
    let filter = [0.5, 1.0, 0.5, -0.0, 1.0, 0.0, 0.0, 0.0, 0.0];
    let expected = [vec![0.0, 1.0, 3.0, 0.25], [axis; 3].concat(), [adrc; 3].concat(), [filter; 3].concat()].concat();
    assert_eq!(floats, expected);
    assert_eq!([71, 80, 89].map(|at| word(&image, at)), [0x8000_0000; 3]);
    assert_eq!([96, 97, 98].map(|at| word(&image, at)), [0; 3]);
}

#[test]
fn a_tick_by_hand() {
    let mut image = image_of(&set_up());
    // level and still: psi 0, margin 1.75, above exit, so the planner flies in this very tick
    let answer = tick(&mut image, &still());
    let command = [3, 4, 5].map(|at| word(&answer, at));
    assert_eq!(command, [1.0f32.to_bits(), 0x8000_0000, 0]);
    assert_eq!([6, 7, 8, 9].map(|at| word(&answer, at)), [0, 0.0625f32.to_bits(), 0, 1.75f32.to_bits()]);
    // kp (1 - 0) / b0
    assert_eq!([float(&answer, 0), float(&answer, 1), float(&answer, 2)], [1.0, 0.0, 0.0]);
    assert_eq!((word(&image, 15), float(&image, 16), float(&image, 43)), (0, 0.0625, 1.0));
    // a rate whose square is 3 leaves a margin of 0.99..: in the band, and the planner flies on; 3.9 engages the fallback
    let turning = |x: f32| with(still(), &[(0, x.to_bits())]);
    assert_eq!(word(&tick(&mut image, &turning(3.0f32.sqrt())), 6), 0);
    assert_eq!(word(&tick(&mut image, &turning(3.9f32.sqrt())), 6), 1);
    let answer = tick(&mut image, &turning(3.0f32.sqrt()));
    assert_eq!(word(&answer, 6), 1);
    // level: minus k_r times an error of +0.0, and the feedforward's +0.0 and -0.0
    assert!([3, 4, 5].iter().all(|at| float(&answer, *at) == 0.0));
}

#[test]
fn a_heading_that_is_no_number() {
    for yaw in [NAN, INFINITY, 0xff80_0000, 0x4600_0001, 0xffff_ffff] {
        let mut image = image_of(&set_up());
        let answer = tick(&mut image, &with(still(), &[(8, yaw)]));
        assert_eq!([3, 4, 5, 6].map(|at| word(&answer, at)), [0, 0, 0, 1]);
        assert_eq!([8, 9].map(|at| word(&answer, at)), [NAN, 0xff80_0000]);
    }
}

#[test]
fn a_step_that_is_no_number_moves_adrc_alone() {
    for dt in [NAN, INFINITY, 0xff80_0000] {
        let mut image = image_of(&set_up());
        let answer = tick(&mut image, &with(still(), &[(0, 1.0f32.to_bits()), (10, dt)]));
        assert_eq!(word(&answer, 7), 0);
        // z1 = 0.001 (8 * 1)
        assert_eq!(float(&image, 41), 0.001 * 8.0);
    }
}

/// The fraction of this tick scales the command of the last.
#[test]
fn a_fraction_is_of_the_last_command() {
    let mut image = image_of(&set_up());
    let half = with(still(), &[(14, 0.5f32.to_bits())]);
    assert_eq!(float(&tick(&mut image, &half), 0), 1.0);
    assert_eq!((float(&image, 43), float(&image, 44), float(&image, 45)), (1.0, 0.0, 0.5));
    tick(&mut image, &still());
    assert_eq!((float(&image, 44), float(&image, 45)), (1.0, 1.0));
    let u = float(&image, 43);
    tick(&mut image, &half);
    assert_eq!(float(&image, 44), 0.5 * u);
}

/// The thrust between 1e-9 and 1e-3, where there is an R_d and no feedforward; enter and exit beyond every margin.
fn falling() -> [u8; SETUP] {
    let a = (9.81f32 - 5e-4).to_bits();
    let (v, p) = ((2.0 * f32::from_bits(a)).to_bits(), (2.0 * f32::from_bits(a)).to_bits());
    // a0, pf, vf, af downwards over 2 s
    with(set_up(), &[(25, a), (28, p), (31, v), (34, a), (12, 5.0f32.to_bits()), (13, 9.0f32.to_bits())])
}

/// Nothing is added where there is no feedforward, so minus zeros stay.
#[test]
fn without_the_sum_is_not_plus_zero() {
    let mut image = image_of(&falling());
    let answer = tick(&mut image, &still());
    assert_eq!([3, 4, 5, 6].map(|at| word(&answer, at)), [0x8000_0000, 0x8000_0000, 0x8000_0000, 1]);
}

/// Request Four: at heading 0 with a yaw rate of 2 commanded.
#[test]
fn commanded_turning_is_no_error() {
    let margin = |set_up: &[u8; SETUP], attitude: [f32; 4], gyro: [f32; 3]| {
        let words: Vec<(usize, u32)> =
            gyro.iter().chain(&attitude).map(|x| x.to_bits()).enumerate().chain([(9, 2.0f32.to_bits())]).collect();
        float(&tick(&mut image_of(set_up), &with(still(), &words)), 9)
    };
    let level = [1.0, 0.0, 0.0, 0.0];
    // psi 0, cap 4: the error is 0, then 1 and 4 in size
    assert_eq!(margin(&set_up(), level, [0.0, 0.0, 2.0]), 1.75);
    assert_eq!(margin(&set_up(), level, [1.5, 0.0, 2.5]), 4.0 - 2.5);
    assert_eq!(margin(&set_up(), level, [0.0, 0.0, -2.0]), 4.0 - 16.0);
    // R has the rows 1 0 0, 0 -1 -2, 0 2 -1 (the quaternion is no unit), so psi is 2, the cap 0 and what is commanded (0, 4, -2)
    let tilted = [1.0, 1.0, 0.0, 0.0];
    assert_eq!(margin(&set_up(), tilted, [0.0, 4.0, -2.0]), -0.25);
    assert_eq!(margin(&set_up(), tilted, [0.0, -4.0, -2.0]), -64.0);
    // where the feedforward refuses, all of the rate counts
    assert_eq!(margin(&falling(), level, [1.5, 0.0, 2.0]), 4.0 - 6.25);
}

/// At twice the heading and far too long a quaternion entries of Rᵀ R_d overflow and psi does not. Zeros times them are no number.
#[test]
fn a_refused_feedforward_is_not_zeros() {
    let (long, yaw) = (1.2e19f32.to_bits(), std::f32::consts::FRAC_PI_4.to_bits());
    let input = with(still(), &[(3, long), (6, long), (8, yaw)]);
    for (set_up, known) in [(falling(), true), (set_up(), false)] {
        let answer = tick(&mut image_of(&set_up), &input);
        assert_eq!((float(&answer, 8).is_finite(), float(&answer, 9).is_finite()), (true, known));
    }
}

/// Request Six: with a rotor lost a spin is no error, no heading is read, and the third axis stands.
#[test]
fn a_rotor_lost_by_hand() {
    let spinning = |x: f32| with(still(), &[(0, x.to_bits()), (2, 20.0f32.to_bits()), (8, NAN), (9, NAN), (13, 2.0f32.to_bits())]);
    let mut image = image_of(&lost_rotor());
    let third: Vec<u32> = (59..68).map(|at| word(&image, at)).collect();
    let answer = tick(&mut image, &spinning(0.0));
    assert_eq!([3, 4, 5].map(|at| word(&answer, at)), [1.0f32.to_bits(), 0x8000_0000, 0]);
    assert_eq!([6, 8, 9].map(|at| word(&answer, at)), [0, 0, 1.75f32.to_bits()]);
    assert_eq!((float(&answer, 0), word(&answer, 2)), (1.0, 0));
    // the band as with all rotors; the filter, which passes, has seen the spin
    assert_eq!(word(&tick(&mut image, &spinning(3.0f32.sqrt())), 6), 0);
    let answer = tick(&mut image, &spinning(3.9f32.sqrt()));
    // level: minus k_r times an error of +0.0, of -0.0, and no number at all
    assert_eq!([3, 4, 5, 6].map(|at| word(&answer, at)), [0x8000_0000, 0, 0, 1]);
    assert_eq!((word(&answer, 2), float(&image, 93)), (0, 20.0));
    assert_eq!((59..68).map(|at| word(&image, at)).collect::<Vec<_>>(), third);
}

/// Tilts by quaternions that are no unit: of R the third column is (0, -2, -1), then (2, 0, -1), and Rᵀb3 (0, 2, -1), then (-2, 0, -1). So psi is 2,
/// and the fallback minus the gains 1 and 2, not the set's 1, times 4.
#[test]
fn toward_the_thrust_axis() {
    for (tilted, command) in [([1.0, 1.0, 0.0, 0.0], [-4.0f32, 0.0, 0.0]), ([1.0, 0.0, 1.0, 0.0], [-0.0, -8.0, 0.0])] {
        let mut image = image_of(&lost_rotor());
        let attitude: Vec<(usize, u32)> = tilted.iter().enumerate().map(|(k, x)| (3 + k, f32::to_bits(*x))).collect();
        let answer = tick(&mut image, &with(with(still(), &attitude), &[(9, 2.0f32.to_bits())]));
        assert_eq!([3, 4, 5, 6].map(|at| word(&answer, at)), [command[0].to_bits(), command[1].to_bits(), 0, 1]);
        assert_eq!((float(&answer, 8), float(&answer, 9)), (2.0, -0.25));
    }
}

/// In free fall there is no thrust axis.
#[test]
fn with_no_thrust_axis() {
    let (a, end) = (9.81f32.to_bits(), (2.0 * 9.81f32).to_bits());
    let falling = with(lost_rotor(), &[(25, a), (28, end), (31, end), (34, a)]);
    let answer = tick(&mut image_of(&falling), &still());
    assert_eq!([3, 4, 5, 6, 8, 9].map(|at| word(&answer, at)), [0, 0, 0, 1, NAN, 0xff80_0000]);
}

/// The third axis of ADRC keeps its nine words but for the pattern of a NaN, its fraction too, whatever fraction is told.
#[test]
fn the_third_axis_is_left_as_it_was() {
    let own: Vec<(usize, u32)> = [0.25f32, -3.0, 7.0, 1e30, 0.75, 30.0, 3.0, 18.0, f32::INFINITY]
        .map(f32::to_bits)
        .into_iter()
        .zip(59..)
        .map(|(w, at)| (at, w))
        .collect();
    let mut image = with(with(image_of(&lost_rotor()), &own), &[(60, 0xffc0_0001)]);
    let answer = tick(&mut image, &with(still(), &[(2, 1.0f32.to_bits()), (13, 5.0f32.to_bits()), (16, 0.5f32.to_bits())]));
    let expected: Vec<u32> = own.iter().map(|(at, word)| if *at == 60 { NAN } else { *word }).collect();
    assert_eq!((59..68).map(|at| word(&image, at)).collect::<Vec<_>>(), expected);
    assert_eq!(word(&answer, 2), 0);
}

/// "10 set-up word 51 not 0 or 1, after 2"; and images of before.
#[test]
fn profiles_by_hand() {
    let number = |image: usize, input: &[u8]| {
        let mut lent = vec![0xee; image];
        let number = archives::setup(&mut lent, input);
        assert!(number == 0 || lent.iter().all(|byte| *byte == 0xee));
        number
    };
    for profile in [2, 3, 256, 1 << 24, 1 << 31, f32::to_bits(1.0), NAN, u32::MAX] {
        let input = with(set_up(), &[(SETUP_PROFILE, profile)]);
        assert_eq!((number(396, &input), number(384, &input), number(396, &input[..203])), (10, 1, 2), "{profile:08x}");
        assert_eq!(number(396, &[&input[..], &[0]].concat()), 2);
    }
    assert_eq!((number(396, &set_up()), number(396, &lost_rotor()), number(396, &set_up()[..200])), (0, 0, 2));
    let old = with(image_of(&set_up()), &[(0, 96)]);
    assert_eq!(archives::tick(&mut old.clone(), &still(), &mut [0; ANSWER]), 4);
    assert_eq!(archives::tick(&mut old[..384].to_vec(), &still(), &mut [0; ANSWER]), 1);
}

/// "11, after 10, at set-up alone": by hand at and about what decides. Nothing of the image is changed.
#[test]
fn cut_offs_by_hand() {
    let number = |fc: f32, fs: f32, profile: u32, len: usize| {
        let mut lent = [0xee; IMAGE];
        let input = with(set_up(), &[(48, fc.to_bits()), (49, fs.to_bits()), (SETUP_PROFILE, profile)]);
        let number = archives::setup(&mut lent, &input[..len]);
        assert!((number == 0) == (lent != [0xee; IMAGE]));
        number
    };
    let half = 500.0f32;
    for (fc, fs, refused) in [
        (0.0, 1000.0, true),
        (-0.0, 1000.0, true),
        (-80.0, 1000.0, true),
        (f32::NAN, 1000.0, true),
        (f32::INFINITY, 1000.0, true),
        (half, 1000.0, true),
        (half.next_up(), 1000.0, true),
        (half.next_down(), 1000.0, false),
        (f32::from_bits(1), 1000.0, false),
        (80.0, 0.0, true),
        (80.0, -0.0, true),
        (80.0, -1000.0, true),
        (80.0, f32::NAN, true),
        (80.0, f32::NEG_INFINITY, true),
        (80.0, f32::INFINITY, false),
        (f32::MAX, f32::INFINITY, false),
        (f32::INFINITY, f32::INFINITY, true),
        (1e38, 3e38, false),
        // half of the smallest number rounds to 0
        (f32::from_bits(1), f32::from_bits(1), true),
        (f32::from_bits(1), f32::from_bits(2), true),
        (f32::from_bits(1), f32::from_bits(3), false),
    ] {
        for profile in [0, 1] {
            assert_eq!(number(fc, fs, profile, SETUP), if refused { 11 } else { 0 }, "{fc} {fs}");
        }
        assert_eq!((number(fc, fs, 2, SETUP), number(fc, fs, 0, SETUP - 1), number(fc, fs, 2, SETUP - 1)), (10, 2, 2), "{fc} {fs}");
    }
    assert_eq!(archives::setup(&mut [0; IMAGE - 1], &with(set_up(), &[(48, 0)])), 1);
}

/// Of the values of word 95 a tick takes two: looked at are the first million, all of at most three bits, and one in 4099.
#[test]
fn every_profile_word() {
    let few = (0..33 * 33 * 33u32)
        .map(|n| [n % 33, n / 33 % 33, n / 1089].into_iter().fold(0, |word, bit| word | 1u32.checked_shl(bit).unwrap_or(0)));
    let mut image = image_of(&set_up());
    for profile in (0..1 << 20).chain(few).chain((0..=u32::MAX).step_by(4099)) {
        put(&mut image, PROFILE, profile);
        assert_eq!(archives::tick_refusal(&image, TICK, ANSWER), if profile < 2 { 0 } else { 4 }, "{profile:08x}");
    }
}

#[test]
fn row_4_by_hand() {
    let good = image_of(&set_up());
    let number = |at: usize, word: u32| {
        let (mut image, mut answer) = (with(good, &[(at, word)]), [0xee; ANSWER]);
        let (before, number) = (image, archives::tick(&mut image, &still(), &mut answer));
        assert!(number == 0 || (image == before && answer == [0xee; ANSWER]));
        number
    };
    for (at, refused) in [
        (0, &[0, 95, 96, 98, 100, 99 << 8, 0x42c6_0000][..]),
        (13, &[0, 0x8000_0000, 0x8000_0001, INFINITY, NAN, 0x3f80_0000, 0xffff_ffff]),
        (14, &[0x3f00_0000, 0x3eff_ffff, 0, NAN, 0xff80_0000]),
        (15, &[2, 3, 256, 0x3f80_0000, 0x8000_0000, u32::MAX]),
        (16, &[NAN, 0xffff_ffff, 0x8000_0001, 0xff80_0000]),
        (26, &[0x3a83_126e, 0, NAN, INFINITY, 0xff80_0000]),
        (33, &[0x3a83_126e, 0, NAN, INFINITY, 0xbf80_0000]),
        (40, &[0x3a83_126e, 0, NAN, INFINITY, 0x8000_0000]),
        (20, &[0xffff_ffff, 0x3f80_0000]),
        (95, &[2, 3, 256, 0x3f80_0000, 0x8000_0000, NAN, u32::MAX]),
        (96, &[1, 0x8000_0000, NAN, INFINITY]),
        (97, &[1, 0x8000_0000, NAN, INFINITY]),
        (98, &[1, 0x8000_0000, NAN, INFINITY]),
    ] {
        refused.iter().for_each(|word| assert_eq!(number(at, *word), 4, "word {at} = {word:08x}"));
    }
    for (at, taken) in [
        (0, &[99][..]),
        (13, &[1, 0x3f7f_ffff]),
        (14, &[0x3f00_0001, INFINITY]),
        (15, &[0, 1]),
        (16, &[0x8000_0000, INFINITY, 0x7f7f_ffff]),
        (26, &[0x3a83_126f, 0x7f7f_ffff]),
        (33, &[0x3a83_126f]),
        (40, &[0x3a83_126f]),
        (1, &[NAN, 0xffff_ffff]),
        (23, &[0xffff_ffff]),
        (96, &[0]),
        (94, &[INFINITY]),
        (95, &[0, 1]),
    ] {
        taken.iter().for_each(|word| assert_eq!(number(at, *word), 0, "word {at} = {word:08x}"));
    }
    // the blank image of `shieldtable`
    assert_eq!(archives::tick(&mut [0; IMAGE], &still(), &mut [0; ANSWER]), 4);
}

/// A kept word that is a NaN of another pattern comes back as 7fc00000; at a refused call it stays.
#[test]
fn kept_words_have_one_nan() {
    let mut image = with(image_of(&set_up()), &[(4, 0xffc0_0001), (17, 0x7f80_0001)]);
    let refused = with(image, &[(0, 96)]);
    let mut same = refused;
    assert_eq!(archives::tick(&mut same, &still(), &mut [0; ANSWER]), 4);
    assert_eq!(same, refused);
    tick(&mut image, &still());
    assert_eq!((word(&image, 4), word(&image, 17)), (NAN, NAN));
}

/// A leg from rest to rest, from the origin.
fn leg(pf: [f32; 3], t: f32) -> [u8; LEG] {
    raw(&[&[0.0; 9][..], &pf, &[0.0; 6], &[t]].concat())
}

/// "A new call exchanges the segment in flight .. and sets governor time to 0"; "the exchange leaves shield, ADRC and filters as they were".
#[test]
fn an_exchange_by_hand() {
    let mut image = image_of(&set_up());
    let turning = with(still(), &[(0, 0.5f32.to_bits()), (1, 0.25f32.to_bits())]);
    for _ in 0..3 {
        tick(&mut image, &turning);
    }
    assert_eq!((word(&image, 15), float(&image, 16)), (0, 0.1875));
    // rest to rest from 0 to 1 in 2 s: the starred figures, peak 97.5; on the other axes nothing
    let before = with(image, &[(5, 0xffc0_0001)]);
    let mut image = before;
    assert_eq!(archives::exchange(&mut image, &leg([1.0, 0.0, -0.0], 2.0)), 0);
    assert_eq!([16, 20, 21, 22, 26].map(|at| float(&image, at)), [0.0, 0.1875, -0.9375, 1.25, 2.0]);
    assert_eq!([16, 96, 97, 98].map(|at| word(&image, at)), [0, 97.5f32.to_bits(), 0, 0]);
    let written = |at: &usize| *at == 16 || (20..41).contains(at) || *at >= PEAKS;
    for at in (0..WORDS).filter(|at| !written(at)) {
        assert_eq!(word(&image, at), if at == 5 { NAN } else { word(&before, at) }, "word {at}");
    }
    // a tick keeps the peaks
    tick(&mut image, &still());
    assert_eq!((float(&image, 16), word(&image, 96)), (0.0625, 97.5f32.to_bits()));
    // the planner flies on in the band, in which a fresh shield does not release
    let in_the_band = with(still(), &[(0, 3.0f32.sqrt().to_bits())]);
    assert_eq!(archives::exchange(&mut image, &leg([0.0; 3], 2.0)), 0);
    assert_eq!((word(&tick(&mut image, &in_the_band), 6), word(&tick(&mut image_of(&set_up()), &in_the_band), 6)), (0, 1));
    // mended as at set-up: a duration that is no number is 1e-3, a bad end position is the start
    assert_eq!(archives::exchange(&mut image, &leg([f32::NAN, 1.0, 1.0], f32::NAN)), 0);
    assert_eq!([26, 33, 40].map(|at| float(&image, at)), [1e-3; 3]);
    assert_eq!(word(&image, 96), 0);
    // an infinite peak
    assert_eq!(archives::exchange(&mut image, &leg([0.0, 4.6e35, 0.0], 1.0)), 0);
    assert_eq!([96, 97, 98].map(|at| word(&image, at)), [0, INFINITY, 0]);
    tick(&mut image, &still());
    assert_eq!(archives::tick(&mut with(image, &[(97, NAN)]), &still(), &mut [0; ANSWER]), 4);
}

/// "the exchange gives 1, 2 (length not 76) and 4", in this order; a broken image is not repaired.
#[test]
fn exchanges_refused_by_hand() {
    let (good, new) = (image_of(&set_up()), leg([1.0, 0.0, 0.0], 2.0));
    let number = |image: &[u8], segment: &[u8]| {
        let mut lent = image.to_vec();
        let number = archives::exchange(&mut lent, segment);
        assert!(number == 0 || lent == image);
        number
    };
    assert_eq!(number(&good, &new), 0);
    assert_eq!((number(&good[1..], &new[1..]), number(&good, &new[1..]), number(&good, &[&new[..], &[0]].concat())), (1, 2, 2));
    for (at, word) in
        [(0, 96), (13, 0), (14, 0), (15, 2), (16, NAN), (26, NAN), (33, 0), (40, INFINITY), (95, 2), (96, 0x8000_0000), (98, 1)]
    {
        let broken = with(good, &[(at, word)]);
        assert_eq!((number(&broken, &new), number(&broken, &new[1..]), number(&broken[1..], &new)), (4, 2, 1), "word {at}");
    }
}
