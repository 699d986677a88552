//! The slow shield: the archive's flags against relay's shield, flag by flag.

use compare::slow::{refused, stepped, sweep, words, MOST, RIGHT, WRONG};

#[test]
fn every_flag_is_the_stepping_shield_s() {
    let seen = sweep(&archives::flags).unwrap_or_else(|text| panic!("{text}"));
    println!("{seen}");
    // a sweep that never goes where the errors are shows nothing
    let often = [seen.flags[0], seen.flags[1], seen.at_enter, seen.at_exit, seen.non_finite, seen.refused];
    assert!(often.iter().all(|count| *count > 10_000), "{seen}");
}

#[test]
fn what_looks_right_but_is_wrong_is_caught() {
    let caught = |engine: &&compare::slow::Engine| match sweep(&|b, enter, exit, f| engine.flags(b, enter, exit, f)) {
        Err(text) => {
            println!("{}: {:.200}", engine.name, text);
            true
        }
        Ok(_) => false,
    };
    let missed: Vec<&str> = WRONG.iter().filter(|engine| !caught(engine)).map(|engine| engine.name).collect();
    assert!(missed.is_empty(), "not caught: {missed:?}");
    sweep(&|b, enter, exit, f| RIGHT.flags(b, enter, exit, f)).unwrap_or_else(|text| panic!("what they are made from: {text}"));
}

/// Document 01's `shieldtable`, by hand.
#[test]
fn the_table_by_hand() {
    let margins = [0x3f80_0000, 0x3fc0_0000, 0x3f40_0000, 0x3f00_0000, 0x3e80_0000, 0x3f40_0000, 0x3fc0_0000, 0x7fc0_0000, 0x7f80_0000u32];
    let mut flags = [7; 9];
    assert_eq!(archives::flags(&margins.map(u32::to_le_bytes).concat(), 0.5, 1.0, &mut flags), 0);
    assert_eq!(flags, [1, 0, 0, 0, 1, 1, 0, 1, 1]);
}

/// An empty list is taken; one flag without a margin, and a margin without a flag, are not.
#[test]
fn the_shortest() {
    assert_eq!(archives::flags(&[], 0.5, 1.0, &mut []), 0);
    refused(&archives::flags, &[], (0.5, 1.0), 1).expect("it is refused");
    refused(&archives::flags, &[0; 4], (0.5, 1.0), 0).expect("it is refused");
}

/// The thresholds' edges: the smallest enter, one whose double overflows so that the planner never flies, and none that is kept.
#[test]
fn thresholds_at_their_edges() {
    for (enter, exit) in [(f32::from_bits(1), f32::NAN), (f32::MAX, 0.0), (f32::NAN, f32::INFINITY), (-1.0, -2.0), (2.0, 1.0)] {
        let (low, high) = compare::slow::mended(enter, exit);
        let margins = [high, f32::MAX, f32::INFINITY, low, 0.0, f32::MAX, low, high, f32::NAN, high];
        let mut flags = [7; 10];
        assert_eq!(archives::flags(&words(&margins), enter, exit, &mut flags), 0);
        assert_eq!(flags[..], stepped(&margins, enter, exit), "enter {enter}, exit {exit}");
    }
}

/// It looks back to the very first: one release, then margins within the band for as long as there may be, with an engagement or without.
#[test]
fn as_far_back_as_there_is() {
    let mut margins = vec![0.75; 3_000];
    margins[0] = 1.5;
    let mut flags = vec![7; margins.len()];
    assert_eq!(archives::flags(&words(&margins), 0.5, 1.0, &mut flags), 0);
    assert!(flags.iter().all(|flag| *flag == 0));
    margins[1] = 0.25;
    assert_eq!(archives::flags(&words(&margins), 0.5, 1.0, &mut flags), 0);
    assert!(flags[0] == 0 && flags[1..].iter().all(|flag| *flag == 1));
    assert!(margins.len() < MOST);
}
