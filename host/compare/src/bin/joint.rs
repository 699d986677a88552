//! The joint tick against the Rust's calls, for longer than the gate does: `joint [accepted ticks]`; then half as many mixed with routes.

use compare::joint::archive;
use compare::joint::guide::{MIXED, PLAIN};
use compare::joint::runs::{self, Watch};
use compare::println;
use compare::progress::Progress;
use std::time::Instant;

fn main() {
    let ticks = match std::env::args().nth(1).map(|text| text.parse::<u64>()) {
        None => runs::GATE,
        Some(Ok(n)) if n > 0 => n,
        Some(_) => {
            eprintln!("joint [accepted ticks, a whole number above 0]");
            std::process::exit(2);
        }
    };
    for (name, calls, ticks) in [("joint ticks", PLAIN, ticks), ("mixed with ticks on routes", MIXED, ticks.div_ceil(2))] {
        let (start, progress) = (Instant::now(), Progress::new(name, ticks));
        let (seen, parted) = runs::compare(&archive, ticks, Watch::All, calls, |n| progress.add(n));
        println!("{name}: {seen}");
        println!("{:.1} s", start.elapsed().as_secs_f64());
        match parted {
            None => println!("no tick differs"),
            Some(parted) => {
                println!("{parted}");
                std::process::exit(1);
            }
        }
    }
}
