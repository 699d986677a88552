//! `review FLIGHT -o PAGE`: a flight as one page for any browser.

use super::{Subcommand, LOGS, NUMBER};
use crate::arguments::{Arguments, ENTER, EXIT, FILE, PROFILE, STARTS};
use crate::check::Given;
use crate::output::{note, of_file};
use crate::review::{can, files, page, Told};
use fosavalo::Profile;
use std::path::Path;

pub const SUBCOMMAND: Subcommand = Subcommand {
    name: "review",
    takes: "FLIGHT -o PAGE [--starts TIME]\nLOG .. --enter NUMBER --exit NUMBER [--profile NAME] -o PAGE [--starts TIME]\n-o PAGE",
    brief: "a flight as one page that any browser shows, with the proved core in it",
    about: || {
        format!(
            "Writes a flight as one page, which any browser shows from a disk and without a network: who flew, every word of every record,
the stretches, and, asked of the proved core in the page itself, the verdict and with a flight's file whether it flies
again as the same. Without a flight the page waits for what is dropped on it.
{LOGS}"
        )
    },
    options: &[
        (&[FILE], "the page that is written"),
        (&[STARTS], "when the flight began, as 20:31:07.250: the page shows the time of day"),
        (&[ENTER, EXIT], "the shield's thresholds, which a log does not tell and a flight's file does"),
        (&[PROFILE], "as with `check`"),
    ],
    more: || format!("{NUMBER}."),
    run,
};

fn run(arguments: &Arguments) -> Result<u8, String> {
    let example = "fosavalo review flights/pass-shield.flight -o pass.html";
    let to = arguments.path(FILE).ok_or_else(|| arguments.which("page is to be written", example))?;
    let starts = arguments.starts()?;
    if !can() {
        return Err("this program was built without the core as WebAssembly, which `make review` and `make dist` have in it".to_string());
    }
    let (files, given) = match arguments.named.is_empty() {
        true => {
            let profile = arguments.profile()?.unwrap_or(Profile::Whole);
            (Vec::new(), arguments.thresholds()?.map(|(enter, exit)| Given { profile, enter, exit }))
        }
        false => {
            let kept = arguments.flight(example)?;
            let given = arguments.given(&kept)?.ok_or_else(|| arguments.no_thresholds(&kept))?;
            let own = kept.file.is_some() && !arguments.has(ENTER) && !arguments.has(PROFILE);
            (files(&kept).map_err(|trouble| format!("{}: {trouble}", kept.called))?, (!own).then_some(given))
        }
    };
    let bytes = page(&files, Told { given, starts });
    let written = std::fs::create_dir_all(to.parent().unwrap_or(Path::new(""))).and_then(|()| std::fs::write(&to, &bytes));
    written.map_err(|error| of_file(&to, error))?;
    note(&format!("the page: {}, {} bytes", to.display(), bytes.len()));
    Ok(0)
}
