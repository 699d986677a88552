//! Every routine of the table against the Rust, and the proof that the comparison can fail.

use compare::generate::{self, Kind};
use compare::routine::{self, compare_all, Routine};
use compare::{portion, table};
use std::time::Instant;

#[test]
fn every_routine_is_the_rust_s_bit_for_bit() {
    let (start, n, table) = (Instant::now(), routine::cases(), table::all());
    let found = compare_all(&table, n);
    let rows: u64 = table.iter().map(|routine| routine.rows(n)).sum();
    println!("{} routines, {rows} rows, {:.1} s", table.len(), start.elapsed().as_secs_f32());
    found.iter().for_each(|mismatch| println!("{mismatch}"));
    assert!(found.is_empty(), "{} routines differ from the Rust; the first row of each is above", found.len());
}

/// The 80 of documents 000 to 003 that are ported, two for the joint tick, `thrust_attitude` and `feedforward_from` (the feedforward from an attitude
/// worked out before), and two over a lent state.
#[test]
fn the_table_has_every_routine_once() {
    let table = table::all();
    let mut names: Vec<&str> = table.iter().map(|routine| routine.name).collect();
    names.sort_unstable();
    names.dedup();
    assert_eq!(names.len(), table.len());
    assert_eq!(table.len(), 80 + 2 + 2);
}

#[test]
fn what_looks_right_but_is_wrong_is_caught() {
    let wrong = table::wrong::all();
    assert_eq!(wrong.len(), table::wrong::COUNT);
    let missed: Vec<&str> = wrong.iter().filter(|routine| first_difference(routine).is_none()).map(|routine| routine.name).collect();
    assert!(missed.is_empty(), "not caught within {} rows: {missed:?}", portion::of(routine::GATE));
}

fn first_difference(routine: &Routine) -> Option<u64> {
    let found = routine.compare(0, portion::of(routine::GATE))?;
    println!("{}: caught in row {}", routine.name, found.row);
    Some(found.row)
}

/// Rows near a threshold have to fall on both sides of it, and few on neither.
#[test]
fn rows_near_a_threshold_fall_on_both_sides() {
    for (name, flag) in [
        ("normalize", 0),
        ("desired_attitude", 0),
        ("thrust_axis_ned", 0),
        ("thrust_attitude", 0),
        ("flatness_omega_ff", 0),
        ("feedforward_from", 0),
        ("RecoverableSet::recoverable", 0),
        ("SimplexShield::filter", 9),
        ("SimplexShield::step", 9),
        ("AdrcGains::well_separated", 0),
        ("AdrcGains::eso_dt_stable", 0),
    ] {
        let table = table::all();
        let routine = table.iter().find(|routine| routine.name == name).expect("a name of the table");
        let edges: Vec<u64> = (0..50_000).filter(|row| generate::kind(*row) == Kind::Edge).collect();
        let given = edges.iter().filter(|row| routine.answer(**row)[flag] == 1.0).count();
        println!("{name}: {given} of {}", edges.len());
        assert!(given * 20 > edges.len() && given * 20 < edges.len() * 19, "{name}: {given} of {}", edges.len());
    }
}

/// A difference in the number of words is one too.
#[test]
fn a_missing_word_is_caught() {
    let short = Routine::new("short", &[], |_| 1.0f32, |_| [1.0f32, 2.0]);
    assert!(short.compare(0, 1).is_some());
}
