//! `explain FLIGHT`: who flew from which record to which, and why, in words.

use super::{Subcommand, LOGS, NUMBER};
use crate::arguments::{Arguments, APART, CSV, ENTER, EXIT, JSON, PROFILE};
use crate::check::verdict;
use crate::explain::Explained;
use crate::output::print;

pub const SUBCOMMAND: Subcommand = Subcommand {
    name: "explain",
    takes: "FLIGHT [--csv | --json]\nLOG .. --enter NUMBER --exit NUMBER [--profile NAME] [--apart] [--csv | --json]",
    brief: "a flight in words: who flew from which record to which, and why",
    about: || {
        format!(
            "Explains a flight from its margins: a line for each stretch of records with the same pilot, which margin released or engaged
the shield, and the least and the greatest margin within; then where the log's own flags differ. As far as the check finds
its records right their flags tell who flew; from the first wrong one on it looks back from each record and keeps no latch.
{LOGS}"
        )
    },
    options: &[
        (&[ENTER, EXIT], "the shield's thresholds, which a log does not tell and a flight's file does"),
        (&[PROFILE], "as with `check`; it is the same who flew, and only sooner found"),
        (&[APART], "the log is a flight of its own, also where its name ends in -001, -002 .."),
        (&[CSV], "the stretches as CSV instead"),
        (&[JSON], "or as JSON, an object on a line"),
    ],
    more: || format!("{NUMBER}. Records are counted from 1."),
    run,
};

fn run(arguments: &Arguments) -> Result<u8, String> {
    let kept = arguments.flight("fosavalo explain flights/pass-shield.flight")?;
    let given = arguments.given(&kept)?.ok_or_else(|| arguments.no_thresholds(&kept))?;
    let of_flight = |what: &dyn std::fmt::Display| format!("{}: {what}", kept.called);
    let (verdict, _) = verdict(&kept, &given).map_err(|trouble| of_flight(&trouble))?;
    let records = kept.records().map_err(|trouble| of_flight(&trouble))?;
    let explained = Explained::of(&records, verdict, given.enter, given.exit).map_err(|refusal| of_flight(&refusal))?;
    let explained = Explained { logs: kept.logs.len(), as_if: kept.as_if(), ..explained };
    print(|to| match (arguments.has(CSV), arguments.has(JSON)) {
        (true, _) => explained.csv(to),
        (_, true) => explained.json(&kept.called, to),
        _ => explained.tell(to),
    })
    .map(|()| 0)
}
