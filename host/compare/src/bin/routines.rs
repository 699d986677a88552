//! Every routine against the Rust, for longer than the gate does: `routines [rows a routine]`.

use compare::println;
use compare::routine::{compare_all, GATE};
use compare::table;
use std::time::Instant;

fn main() {
    let n = match std::env::args().nth(1).map(|text| text.parse::<u64>()) {
        None => GATE,
        Some(Ok(n)) if n > 0 => n,
        Some(_) => {
            eprintln!("routines [rows a routine, a whole number above 0]");
            std::process::exit(2);
        }
    };
    let mut differ = 0;
    for routine in table::all() {
        let (start, rows) = (Instant::now(), routine.rows(n));
        let (name, takes, gives) = (routine.name, routine.inputs(), routine.gives);
        let found = compare_all(&[routine], n);
        println!("{name:34} {takes:2} words in {gives:2} out  {rows:>12} rows  {:7.2} s", start.elapsed().as_secs_f64());
        for mismatch in &found {
            println!("{mismatch}");
        }
        differ += found.len();
    }
    println!("{differ} routines differ");
    if differ > 0 {
        std::process::exit(1);
    }
}
