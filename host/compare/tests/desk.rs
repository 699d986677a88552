//! The operator's desk: the archive's calls against relay's command filter and the joint tick, byte by byte.

use compare::desk::{archive, compare, every_length, expected, Call, Fault, Lent, ANSWER, DESK, IMAGE, WRONG};
use compare::joint::bytes::SETUP;
use compare::joint::model::Flight;
use compare::portion;

const TICKS: u64 = 3_000_000;

#[test]
fn every_byte_is_the_rust_s() {
    let seen = compare(&archive, portion::of(TICKS), |_| {}).unwrap_or_else(|text| panic!("{text}"));
    println!("{seen}");
    // a run that never goes where the errors are shows nothing
    let often = [seen.on_routes, seen.buttons, seen.set_ups, seen.at_limit[0], seen.at_limit[1], seen.wild[0], seen.wild[1]];
    assert!(often.into_iter().chain(seen.refused).all(|count| count > portion::least(1_000)), "{seen}");
}

#[test]
fn what_looks_right_but_is_wrong_is_caught() {
    let caught = |fault: &Fault| match compare(&|call, lent| expected(*fault, call, lent), portion::of(TICKS), |_| {}) {
        Err(text) => {
            println!("{fault:?}: {text:.200}");
            true
        }
        Ok(_) => false,
    };
    let missed: Vec<&Fault> = WRONG.iter().filter(|fault| !caught(fault)).collect();
    assert!(missed.is_empty(), "not caught: {missed:?}");
}

#[test]
fn every_length_of_every_buffer() {
    println!("{} calls", every_length(&archive).unwrap_or_else(|text| panic!("{text}")));
}

/// Document 01's figure of `CommandFilter`: 2, 1, rate limit 0.125, input 1, dt 0.0625. The yaw rate is the second filter's value, not the first's rate, which is 0.125.
#[test]
fn the_figure_by_hand() {
    let words = |words: &[u32]| words.iter().flat_map(|word| word.to_le_bytes()).collect::<Vec<u8>>();
    let stick = [0x4000_0000, 0x3f80_0000, 0x3e00_0000];
    let (mut image, mut input) = (vec![0; IMAGE], vec![0; 68]);
    Flight::set_up(&[0; SETUP]).write(&mut image);
    input[12..16].copy_from_slice(&0x3f80_0000u32.to_le_bytes());
    input[40..44].copy_from_slice(&0x3d80_0000u32.to_le_bytes());
    let mut lent = Lent { desk: vec![0xa5; DESK], sticks: words(&stick.repeat(3)), image, input, route: Vec::new(), answer: vec![0; ANSWER] };
    assert_eq!(archive(Call::SetUp, &mut lent), 0);
    lent.sticks = words(&[0x3f80_0000, 0, 0]);
    assert_eq!(archive(Call::Tick, &mut lent), 0);
    assert_eq!(lent.input[32..40], words(&[0x3c00_0000, 0]));
    assert_eq!(lent.desk[12..20], words(&[0x3c00_0000, 0x3e00_0000]));
    assert_eq!(archive(Call::Centre, &mut lent), 0);
    assert_eq!(lent.desk, words(&[&stick[..], &[0, 0]].concat().repeat(3)));
}
