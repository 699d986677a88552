//! `expand FILE`: a pattern's legs as they are flown, and its bytes.

use super::Subcommand;
use crate::arguments::{Arguments, OUT};
use crate::output::{self, note, of_file, print};
use crate::pattern::Expanded;
use crate::scenario::pattern;
use std::io;
use std::path::{Path, PathBuf};

pub const SUBCOMMAND: Subcommand = Subcommand {
    name: "expand",
    takes: "FILE [--out FOLDER]",
    brief: "a pattern of legs and repeats: its legs as they are flown, and its bytes",
    about: || {
        "Expands the pattern in FILE, plain text of legs and repeats as a scenario has them (docs/SCENARIOS.md), and lists its legs on
standard output as they are flown, each with its line; the list is itself a pattern, of legs alone. A mistake is named by its
line and field. FILE may be a pattern's bytes too, as NAME.pattern has them: each leg is then told by its place among those there.

  repeat N { .. }  legs and repeats that are flown N times, 1 to 9; four deep at most
  leg NUMBERS      p0 v0 a0 pf vf af t, nineteen numbers; each leg starts where the one flown before it ends"
            .to_string()
    },
    options: &[(
        &[OUT],
        "where the bytes go, `flights` if it is not given: NAME.pattern, and NAME.route, which a route tick takes;
NAME is the file's",
    )],
    more: String::new,
    run,
};

fn run(arguments: &Arguments) -> Result<u8, String> {
    let file = arguments.one("pattern", "fosavalo expand host/fly/scenarios/loop.txt")?;
    let folder = arguments.path(OUT).unwrap_or(PathBuf::from(output::FOLDER));
    let bytes = output::read_all(file).map_err(|error| of_file(file, error))?;
    // bytes begin with a leg's 0 or a repeat's 1, and text with neither
    let expanded = match bytes.first() {
        Some(0 | 1) => Expanded::of_bytes(&bytes).map_err(|refusal| of_file(file, refusal))?,
        _ => pattern(&bytes).map_err(|mistake| of_file(file, mistake))?,
    };
    let name = output::name(file);
    print(|to| expanded.list(&name, to))?;
    let said = write(&folder, &name, &expanded).map_err(|error| of_file(&folder, error))?;
    note(&said);
    Ok(0)
}

fn write(folder: &Path, name: &str, expanded: &Expanded) -> io::Result<String> {
    std::fs::create_dir_all(folder)?;
    let stem = folder.join(name);
    let file = |kind: &str| folder.join(format!("{name}.{kind}"));
    std::fs::write(file("pattern"), expanded.pattern.as_bytes())?;
    std::fs::write(file("route"), expanded.route.as_bytes())?;
    Ok(format!("the bytes: {0}.pattern, {0}.route", stem.display()))
}
