//! `log FLIGHT`: a flight's records as CSV, and their picture.

use super::{Subcommand, LOGS, NUMBER};
use crate::arguments::{Arguments, ENTER, EXIT, OUT};
use crate::output::{csv, note, of_file, print, title};
use crate::picture::{Picture, Row};
use crate::ticks::Ticks;
use std::io;
use std::path::{Path, PathBuf};

const FOLDER: &str = "flights/drawn";

pub const SUBCOMMAND: Subcommand = Subcommand {
    name: "log",
    takes: "FLIGHT [--out FOLDER]\nLOG .. [--enter NUMBER --exit NUMBER] [--out FOLDER]",
    brief: "a flight's records as CSV, and their picture",
    about: || {
        format!(
            "Prints a flight as CSV on standard output, a record on a line under a line of names, and draws it where gnuplot is there.
{LOGS}"
        )
    },
    options: &[
        (
            &[ENTER, EXIT],
            "the shield's thresholds, which a log does not tell and a flight's file does: the picture has them and the
band between them",
        ),
        (
            &[OUT],
            "where the picture goes, `flights/drawn` if it is not given: NAME.svg and NAME.png, drawn from NAME.points;
NAME is the flight's",
        ),
    ],
    more: || NUMBER.to_string(),
    run,
};

fn run(arguments: &Arguments) -> Result<u8, String> {
    let kept = arguments.flight("fosavalo log flights/pass-shield.flight")?;
    let thresholds = arguments.given(&kept)?.map(|given| (given.enter, given.exit));
    let folder = arguments.path(OUT).unwrap_or(PathBuf::from(FOLDER));
    let records = kept.records().map_err(|trouble| format!("{}: {trouble}", kept.called))?;
    let ticks = Ticks::of(&records);
    print(|to| csv(ticks.iter().map(|tick| tick.seconds).zip(records), to))?;
    let said = draw(&kept.name, &folder, &ticks, thresholds).map_err(|error| of_file(&folder, error))?;
    note(&said);
    Ok(0)
}

fn draw(name: &str, folder: &Path, ticks: &Ticks, thresholds: Option<(f32, f32)>) -> io::Result<String> {
    std::fs::create_dir_all(folder)?;
    let title = title(name, ticks, thresholds);
    let row = Row { suffix: "", caption: "As the log has it", ticks, would: false, end: "" };
    Picture { title: &title, thresholds, rows: &[row] }.draw(&folder.join(name))
}
