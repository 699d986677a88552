//! `replay FLIGHT ..`: flights flown again from their set-up, and compared with their logs bit for bit.

use super::Subcommand;
use crate::arguments::{Arguments, JSON};
use crate::check::{files, on_a_line};
use crate::kept::Kept;
use crate::output::{note, print};
use crate::replay::Outcome;
use std::io::Write;

pub const SUBCOMMAND: Subcommand = Subcommand {
    name: "replay",
    takes: "FLIGHT .. [--json]",
    brief: "flights flown again from their set-up: the same bits, or the first record that differs",
    about: || {
        "Flies the inputs of flights again, from the set-up, the route and the exchanges that each one's file, NAME.flight, tells, and
compares the ten words of each answer with the log's, bit for bit. A line for each flight: the same; or the first record that
is different and those of its words that are. A folder is every file below it whose name ends in .flight."
            .to_string()
    },
    options: &[(&[JSON], "as JSON, an object on a line")],
    more: || {
        "Records are counted from 1. Ends with 0 if all are the same; with 1 if some differ; with 2 if some are refused or cannot be
read."
            .to_string()
    },
    run,
};

fn run(arguments: &Arguments) -> Result<u8, String> {
    if arguments.named.is_empty() {
        return Err(arguments.which("flight", "fosavalo replay flights/pass-shield.flight"));
    }
    let (mut counts, flights) = ([0; 3], Kept::named(&files(&arguments.named, &["flight"]), true));
    for flight in &flights {
        let (called, outcome) = match flight {
            Ok(kept) => (&kept.called, Outcome::of(kept)),
            Err((called, why)) => (called, Outcome::Trouble(why.clone())),
        };
        let line = match arguments.has(JSON) {
            true => outcome.json(called),
            false => format!("{}: {outcome}", on_a_line(called)),
        };
        print(|to| writeln!(to, "{line}"))?;
        counts[outcome.status()] += 1;
    }
    let [same, different, rest] = counts;
    if flights.len() > 1 {
        note(&format!("replay: {} flights: {same} the same, {different} different, {rest} refused or unreadable", flights.len()));
    }
    Ok(if rest > 0 { 2 } else { u8::from(different > 0) })
}
