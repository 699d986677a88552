//! `check LOGS`: whether flights, of whatever box, are what the shield's rule allows.

use super::{Subcommand, LOGS, NUMBER};
use crate::arguments::{Arguments, APART, ENTER, EXIT, JSON, PROFILE};
use crate::check::{each, files, on_a_line, Task};
use crate::kept::Kept;
use crate::output::{note, print};
use std::collections::HashSet;
use std::io::{self, IsTerminal, Write};
use std::path::PathBuf;
use std::time::{Duration, Instant};

pub const SUBCOMMAND: Subcommand = Subcommand {
    name: "check",
    takes: "FLIGHT .. [--json]\nLOG .. --enter NUMBER --exit NUMBER [--profile NAME] [--apart] [--json]",
    brief: "logs of whatever box: whether each follows the shield's rule, or its first wrong record",
    about: || {
        format!(
            "Checks flights, of whatever box: whether each record's flag is the one that the log's own margins demand from a fresh
shield, whether each that is flagged 0 carries the planner's words, with what is not finite made zero, and whether each
flagged 1 carries finite ones. A line for each flight, in the order given: right; or the first wrong record, what is wrong
with it, and its words; or refused with the number and its meaning; or why it cannot be read. A folder is every file below
it whose name ends in .log, or, where no thresholds are given, in .flight. Flights are checked on all cores.
{LOGS}"
        )
    },
    options: &[
        (&[ENTER, EXIT], "the shield's thresholds, which a log does not tell and a flight's file does"),
        (
            &[PROFILE],
            "`whole` or 0, as it is if nothing tells it, or `lost-rotor` or 1: the third word that is passed on is then
zero",
        ),
        (&[APART], "each log is a flight of its own, also where names end in -001, -002 .."),
        (&[JSON], "as JSON, an object on a line"),
    ],
    more: || {
        format!(
            "{NUMBER}. Records are counted from 1, as the ticks of the CSV;
the place is counted from 0, as the core's verdict. Ends with 0 if all are right; with 1 if some are wrong; with 2 if some are
refused or cannot be read, or nothing was checked, and a line on standard error says why."
        )
    },
    run,
};

fn run(arguments: &Arguments) -> Result<u8, String> {
    if arguments.named.is_empty() {
        let example = "fosavalo check flights night/a.log --enter 0.03 --exit 0.07";
        return Err(arguments.which("logs", example) + "; the tests are `make test`");
    }
    arguments.profile()?;
    let tasks = tasks(arguments)?;
    let one_each = |task: &Task| task.as_ref().map_or(true, |(kept, _)| kept.file.is_none() && kept.logs.len() == 1);
    let what = if tasks.iter().all(one_each) { "logs" } else { "flights" };
    let (mut progress, mut written, mut counts) = (Progress::new(tasks.len()), Ok(()), [0; 3]);
    each(&tasks, |called, as_if, outcome| {
        progress.erase();
        if written.is_ok() {
            // at one go, so that processes which share the output mix no lines
            let line = match arguments.has(JSON) {
                true => outcome.json(called, as_if) + "\n",
                false => format!("{}: {}\n", on_a_line(called), outcome.told(as_if)),
            };
            written = print(|to| to.write_all(line.as_bytes()));
        }
        counts[outcome.status()] += 1;
        progress.show(counts);
    });
    progress.erase();
    let [right, wrong, rest] = counts;
    if tasks.len() > 1 {
        note(&format!("check: {} {what}: {right} right, {wrong} wrong, {rest} refused or unreadable", tasks.len()));
    }
    written?;
    Ok(if rest > 0 { 2 } else { u8::from(wrong > 0) })
}

/// The flights that are named, each with what it is checked by. Of a folder's logs those are left out, where no thresholds are given, that a flight's file names.
fn tasks(arguments: &Arguments) -> Result<Vec<Task>, String> {
    let endings = if arguments.thresholds()?.is_some() { &["log"][..] } else { &["flight", "log"] };
    let flights = Kept::named(&files(&arguments.named, endings), arguments.has(APART));
    let with_file = flights.iter().flatten().filter(|kept| kept.file.is_some());
    let told: HashSet<PathBuf> = with_file.flat_map(|kept| &kept.logs).map(|log| log.path.clone()).collect();
    let by_its_file = |kept: &Kept| {
        let found = |path: &PathBuf| told.contains(path) && !arguments.named.contains(path);
        kept.file.is_none() && kept.logs.iter().all(|log| found(&log.path))
    };
    let mut tasks: Vec<Task> = Vec::new();
    for flight in flights {
        match flight {
            Ok(kept) if by_its_file(&kept) => {}
            Ok(kept) => {
                let given = arguments.given(&kept)?.ok_or_else(|| arguments.no_thresholds(&kept))?;
                tasks.push(Ok((kept, given)));
            }
            Err(why) => tasks.push(Err(why)),
        }
    }
    Ok(tasks)
}

/// A line on standard error of how far it is, where that is a terminal and there are many files; gone when they are done.
struct Progress {
    all: usize,
    start: Instant,
    /// When it comes next; never where nobody looks.
    next: Option<Instant>,
    shown: bool,
}

/// It is not changed sooner than this after the last time.
const PAUSE: Duration = Duration::from_millis(200);

impl Progress {
    fn new(all: usize) -> Self {
        let start = Instant::now();
        Progress { all, start, next: (all > 1 && io::stderr().is_terminal()).then(|| start + PAUSE), shown: false }
    }

    fn show(&mut self, [right, wrong, rest]: [usize; 3]) {
        let now = Instant::now();
        if self.next.is_some_and(|next| now >= next) {
            let (done, seconds) = (right + wrong + rest, self.start.elapsed().as_secs());
            let _ = write!(io::stderr(), "{done} of {}: {right} right, {wrong} wrong, {rest} refused or unreadable; {seconds} s", self.all);
            (self.shown, self.next) = (true, Some(now + PAUSE));
        }
    }

    /// Before another line comes in its place.
    fn erase(&mut self) {
        if std::mem::take(&mut self.shown) {
            let _ = write!(io::stderr(), "\r\x1b[K");
        }
    }
}
