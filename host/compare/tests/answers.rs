//! The stored list that the program `replay` runs again, and that the program sees what is wrong with a list.

use compare::answers::{self, Section};
use compare::joint::bytes::{IMAGE, PROFILE};
use compare::joint::model::Right;
use compare::joint::route::Legs;
use std::fs::{self, File};
use std::process::Command;

/// What the oracle makes now, byte for byte.
#[test]
fn the_stored_list_is_the_oracle_s() {
    let stored = fs::read(answers::path().expect("a checkout")).expect("the stored list");
    let made = answers::list();
    let at = stored.iter().zip(&made).position(|(a, b)| a != b);
    assert!(
        stored == made,
        "{} bytes stored, {} made, the first difference at {at:?}: `make answers` makes it again",
        stored.len(),
        made.len()
    );
}

fn named<'a>(sections: &'a [Section], name: &str) -> &'a Section {
    sections.iter().find(|section| section.name.starts_with(name)).expect("a section of that name")
}

/// The figures that stand in the list have document 01's values.
#[test]
fn the_figures_are_document_01_s() {
    let sections = answers::sections();
    let is = |name: &str, expected: &[f32]| {
        let bits: Vec<u32> = expected.iter().map(|x| x.to_bits()).collect();
        assert_eq!(named(&sections, name).rows[0].answer, bits, "{name}");
    };
    is("01: axis [0,0,1]", &[1.0, 1.0, 0.0, 0.0, 0.0, 1.0, 0.0, 0.0, 0.0, 1.0]);
    is("01: axis [1,0,0]", &[0.0; 10]);
    is("01: acceleration [0,0,9.81]: damping only", &[-0.5, -0.5, 8.0]);
    is("01: acceleration [0,0,9.81]: rate of zeros", &[0.0; 3]);
    is("01: low-pass", &[0.5, 1.0, 0.5, -0.0, 1.0, 0.0, 0.0, 0.0, 0.0]);
}

/// A sample that leaves something out shows nothing of it.
#[test]
fn the_list_has_every_routine_every_number_and_both_controllers() {
    let sections = answers::sections();
    let all: usize = sections.iter().map(|section| section.rows.len()).sum();
    assert!(all >= 10_000, "{all} answers");
    // 82 of the table, the root and the size, five figures, and every call of the core and of the desk that is lent something
    assert_eq!(sections.len(), 82 + 2 + 5 + 16);
    let numbers = |name: &str, all: &[u32], least: usize| {
        let rows = &named(&sections, name).rows;
        let count = |number: &u32| rows.iter().filter(|row| row.answer[0] == *number).count();
        let counts: Vec<usize> = all.iter().map(count).collect();
        println!("{name}: {all:?} come {counts:?} times");
        assert!(counts.iter().all(|n| *n >= least) && counts.iter().sum::<usize>() == rows.len(), "{name}: {counts:?}");
    };
    numbers("set-up", &[0, 1, 2, 10, 11], 6);
    numbers("tick", &[0, 1, 2, 3, 4], 21);
    numbers("route tick", &[0, 1, 2, 3, 4, 5, 6, 7], 10);
    numbers("exchange", &[0, 1, 2, 4], 5);
    numbers("log append", &[0, 2, 3, 8, 9], 6);
    numbers("log count", &[0, 2, 8], 6);
    numbers("log record", &[0, 8, 13, 14], 6);
    numbers("flags", &[0, 9], 30);
    numbers("route sample", &[0, 3, 5, 6, 7], 9);
    numbers("tick refusal", &[0, 1, 2, 3, 4], 9);
    numbers("log check", &[0, 2, 8, 10], 9);
    numbers("pattern", &[0, 2, 5, 7, 9, 12], 9);
    numbers("desk tick", &[0, 1, 2, 3, 4, 15, 16], 2);
    numbers("desk route tick", &[0, 1, 2, 3, 4, 5, 6, 7, 15, 16], 2);
    numbers("desk set-up", &[0, 15, 16], 4);
    numbers("desk centre", &[0, 15], 4);
    // of an accepted tick: the flag, a margin of minus infinity, an infinite time; the answer stands after the number and the image
    let ticks = &named(&sections, "tick").rows;
    let seen = |at: usize, word: u32| ticks.iter().filter(|row| row.answer[0] == 0 && row.answer[ANSWER + at] == word).count();
    let seen = [seen(6, 0), seen(6, 1), seen(9, 0xff80_0000), seen(7, 0x7f80_0000), seen(9, 1.75f32.to_bits()), seen(9, 3.0f32.to_bits())];
    println!("planner, fallback, no R_d, infinite time, margin at enter, at exit: {seen:?}");
    assert!(seen.into_iter().all(|n| n >= 5), "{seen:?}");
    // by the profile, whose word stands in the image that is left, and the flag
    for name in ["tick", "route tick"] {
        let rows = || named(&sections, name).rows.iter().filter(|row| row.answer[0] == 0);
        let by =
            |profile: u32, flag: u32| rows().filter(|row| row.answer[1 + PROFILE] == profile && row.answer[ANSWER + 6] == flag).count();
        let seen = [by(0, 0), by(0, 1), by(1, 0), by(1, 1)];
        println!("{name}: planner and fallback by the old rules, with a rotor lost: {seen:?}");
        assert!(seen.into_iter().all(|n| n >= 3), "{name}: {seen:?}");
    }
}

/// The words of an image as it is stored, with one more behind it.
const STORED: usize = IMAGE / 4 + 1;

/// Where an answer of a tick stands in a row's: after the number and the image.
const ANSWER: usize = 1 + STORED;

/// Of the accepted route ticks: on the first leg, on a later one, at the very end of one, past all ends; on a route of more than eight legs.
#[test]
fn the_route_ticks_are_on_every_part_of_a_route() {
    let sections = answers::sections();
    let mut seen = [0; 5];
    for row in named(&sections, "route tick").rows.iter().filter(|row| row.answer[0] == 0) {
        // image, input and answer, each after two words of sizes
        let route = &row.given[2 + STORED + 2 + 18 + 2 + 11..];
        let bytes: Vec<u8> = route[2..].iter().flat_map(|word| word.to_le_bytes()).take(route[1] as usize).collect();
        let (route, time) = (Right.route(&bytes), f32::from_bits(row.answer[ANSWER + 7]));
        let place = Right.place(&route, time);
        let (within, long) = (!place.past, route.ends.len() > 8);
        let is = [within && place.leg == 0, within && place.leg > 0, route.ends.contains(&time), place.past, long];
        seen.iter_mut().zip(is).for_each(|(n, is)| *n += usize::from(is));
    }
    println!("first leg, later leg, at an end, past all, many legs: {seen:?}");
    assert!(seen.into_iter().all(|n| n >= 8), "{seen:?}");
}

/// Of the flags that were written: the planner's and the fallback's, a list with both, and a list with none.
#[test]
fn the_flags_are_of_both_kinds() {
    let sections = answers::sections();
    let mut seen = [0; 4];
    for row in named(&sections, "flags").rows.iter().filter(|row| row.answer[0] == 0) {
        // after the sizes of `a`, those of `b` and its words
        let lent = row.given[2 + 2 + row.given[2] as usize + 1] as usize;
        let flags: Vec<u8> = row.answer[1..].iter().flat_map(|word| word.to_le_bytes()).take(lent).collect();
        let [planner, fallback] = [0, 1].map(|flag| flags.iter().filter(|own| **own == flag).count());
        assert_eq!(planner + fallback, lent);
        let is = [planner, fallback, usize::from(planner > 0 && fallback > 0), usize::from(lent == 0)];
        seen.iter_mut().zip(is).for_each(|(n, is)| *n += is);
    }
    println!("planner, fallback, both in a list, empty lists: {seen:?}");
    assert!(seen[..3].iter().all(|n| *n >= 50) && seen[3] >= 1, "{seen:?}");
}

/// What the proved program prints of a list.
fn replayed(name: &str, list: &[u8]) -> Vec<String> {
    let run = checkout::root().expect("a checkout").join("tools/run");
    let path = checkout::scratch(&format!("replayed-{name}")).join("list");
    fs::write(&path, list).expect("the list is written");
    let run = Command::new(run).arg("replay").stdin(File::open(&path).expect("the list is read")).output().expect("tools/run begins");
    assert!(run.status.success(), "{}", String::from_utf8_lossy(&run.stderr));
    String::from_utf8(run.stdout).expect("text").lines().map(str::to_string).collect()
}

/// Every row with one bit of its answer changed, in another word from row to row: each is named, and nothing else is.
#[test]
fn a_wrong_answer_is_seen_in_every_row() {
    let mut sections = answers::sections();
    for row in sections.iter_mut().flat_map(|section| section.rows.iter_mut().enumerate()) {
        let (number, answer) = (row.0, &mut row.1.answer);
        let at = number % answer.len();
        answer[at] ^= 1 << (number % 32);
    }
    let count = |name: &str, rows: usize| format!("{name:48}{rows} compared, {rows} differ");
    let told = |section: &Section| {
        let rows = section.rows.len();
        (0..rows).map(|row| format!("row {row} differs")).chain([count(&section.name, rows)]).collect::<Vec<_>>()
    };
    let all = count("all", sections.iter().map(|section| section.rows.len()).sum());
    let expected: Vec<String> = sections.iter().flat_map(told).chain([all]).collect();
    let printed = replayed("wrong", &answers::list_of(&sections));
    assert_eq!(printed.iter().zip(&expected).find(|(a, b)| a != b), None);
    assert_eq!(printed.len(), expected.len());
}

/// Cut in a row of a call or of a routine, a byte too long, or no list at all.
#[test]
fn a_list_of_another_form_is_told() {
    let list = answers::list();
    let last = |name: &str, list: &[u8]| replayed(name, list).pop().expect("a line");
    assert!(last("whole", &list).ends_with(" 0 differ"));
    let amiss = "the list is cut, too long, or not of this form";
    for cut in [1, 500, list.len() / 2, list.len() - 200] {
        assert_eq!(last("cut", &list[..list.len() - cut]), amiss, "{cut} bytes cut");
    }
    assert_eq!(last("long", &[&list[..], &[0]].concat()), amiss);
    assert_eq!(last("other", &list[1..]), "not a list of answers");
}
