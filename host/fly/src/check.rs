//! Flights checked, of whatever box: the verdict is the archive's. What is wrong with the record that it names is worked out here, only to be told.

use crate::explain::mended;
use crate::json;
use crate::kept::{Found, Kept, Trouble};
use crate::output::{brief, FLAG};
use fosavalo::{Pilot, Profile, Record, Refusal, SeriesCheck, Verdict};
use std::collections::BTreeMap;
use std::fmt;
use std::path::{Path, PathBuf};
use std::sync::atomic::{AtomicUsize, Ordering};
use std::sync::mpsc;

/// Where in a record the planner's three words are, the command's three, and the margin.
const PLANNER: usize = 11;
const COMMAND: usize = 17 + 3;
const MARGIN: usize = 17 + 9;

/// What a log does not tell.
#[derive(Clone, Copy, Debug)]
pub struct Given {
    pub profile: Profile,
    pub enter: f32,
    pub exit: f32,
}

/// What became of one flight.
#[derive(Clone, Debug, PartialEq, Eq)]
pub enum Outcome {
    /// So many records, all right.
    Right(usize),
    /// The first wrong record, counted from 0; which of its log it is, where there are several; what is wrong with it, and it.
    Wrong {
        place: usize,
        in_log: Option<(String, usize)>,
        faults: Vec<String>,
        record: Record,
    },
    Trouble(Trouble),
}

/// The check of a whole flight, and how many records it looked at.
pub fn verdict(kept: &Kept, given: &Given) -> Result<(Verdict, usize), Trouble> {
    let (mut check, mut count) = (SeriesCheck::new(given.profile, given.enter, given.exit), 0);
    kept.pieces(|log| {
        count += log.len();
        Ok(check.log(log)?.is_right())
    })?;
    Ok((check.verdict(), count))
}

impl Outcome {
    pub fn of(kept: &Kept, given: &Given) -> Self {
        let found = verdict(kept, given).and_then(|(verdict, count)| match verdict {
            Verdict::Right => Ok(Outcome::Right(count)),
            Verdict::WrongAt(place) => Outcome::wrong(kept, given, place),
        });
        found.unwrap_or_else(Outcome::Trouble)
    }

    fn wrong(kept: &Kept, given: &Given, place: usize) -> Result<Self, Trouble> {
        let refused = |refusal| Trouble::Refused(None, refusal);
        let (mut margins, mut found, mut log) = (Vec::with_capacity(place + 1), None, 0);
        kept.each(|view| {
            found = view.get(place - margins.len()).map(|record| (record, log, place - margins.len()));
            margins.extend(view.iter().take(place + 1 - margins.len()).map(|record| record.answer().margin));
            log += 1;
            Ok(found.is_none())
        })?;
        let (record, log, at) = found.ok_or(refused(Refusal::NoRecord))?;
        let in_log = kept.logs.get(log).filter(|_| kept.logs.len() > 1).map(|log| (log.file_name(), at));
        let faults = faults(&margins, &record, given).map_err(refused)?;
        Ok(Outcome::Wrong { place, in_log, faults, record })
    }

    /// How the program ends: 0 for right, 1 for wrong, 2 for a file that nothing is said of.
    pub fn status(&self) -> usize {
        match self {
            Outcome::Right(_) => 0,
            Outcome::Wrong { .. } => 1,
            Outcome::Trouble(_) => 2,
        }
    }

    /// As an object of JSON.
    pub fn json(&self, flight: &str, as_if: Option<&str>) -> String {
        let told = match self {
            Outcome::Right(count) => format!("\"right\",\"records\":{count}"),
            Outcome::Wrong { place, in_log, faults, record } => {
                let all = record.words();
                let word = |at: usize| format!("\"{:08x}\"", all[at]);
                let three = |at: usize| json::list((at..at + 3).map(word));
                let in_log =
                    in_log.as_ref().map_or(String::new(), |(log, at)| format!("\"log\":{},\"record_of_log\":{},", json::text(log), at + 1));
                format!(
                    "\"wrong\",\"record\":{},\"place\":{place},{in_log}\"faults\":{},\"planner\":{},\"command\":{},\"flag\":{},\"margin\":{}",
                    place + 1,
                    json::list(faults.iter().map(|fault| json::text(fault))),
                    three(PLANNER),
                    three(COMMAND),
                    word(FLAG),
                    word(MARGIN)
                )
            }
            Outcome::Trouble(Trouble::Refused(log, refusal)) => {
                let number = refusal.number().map_or("null".to_string(), |number| number.to_string());
                let log = log.as_ref().map_or(String::new(), |log| format!("\"log\":{},", json::text(log)));
                format!("\"refused\",{log}\"number\":{number},\"why\":{}", json::text(&refusal.meaning().to_string()))
            }
            Outcome::Trouble(Trouble::Unreadable(why)) => format!("\"unreadable\",\"why\":{}", json::text(why)),
        };
        let as_if = as_if.map_or(String::new(), |as_if| format!(",\"as_if\":{}", json::text(as_if)));
        format!("{{\"flight\":{},\"verdict\":{told}{as_if}}}", json::text(flight))
    }

    /// As the rest of a line behind the flight's name.
    pub fn told(&self, as_if: Option<&str>) -> String {
        match (self, as_if) {
            (Outcome::Trouble(_), _) | (_, None) => self.to_string(),
            (_, Some(as_if)) => format!("{as_if}: {self}"),
        }
    }
}

impl fmt::Display for Outcome {
    fn fmt(&self, f: &mut fmt::Formatter<'_>) -> fmt::Result {
        match self {
            Outcome::Right(1) => f.write_str("right, 1 record"),
            Outcome::Right(count) => write!(f, "right, {count} records"),
            Outcome::Wrong { place, in_log, faults, record } => {
                write!(f, "wrong at record {} (place {place})", place + 1)?;
                if let Some((log, at)) = in_log {
                    write!(f, ", record {} of {log}", at + 1)?;
                }
                write!(f, ": {}; its words: {}", faults.join("; "), words(record))
            }
            Outcome::Trouble(Trouble::Unreadable(why)) => write!(f, "unreadable: {why}"),
            Outcome::Trouble(trouble) => trouble.fmt(f),
        }
    }
}

/// The words that are judged.
fn words(record: &Record) -> String {
    let all = record.words();
    let three = |at: usize| all.iter().skip(at).take(3).map(|word| format!(" {word:08x}")).collect::<String>();
    let (flag, margin) = (all[FLAG], all[MARGIN]);
    format!("planner{}, command{}, flag {flag:08x}, margin {margin:08x}", three(PLANNER), three(COMMAND))
}

/// A word as bits and as a number.
fn both(word: u32) -> String {
    format!("{word:08x} ({})", brief(f32::from_bits(word)))
}

/// What is wrong with a record behind these margins, the last of which is its own, each in words; records are counted from 1.
fn faults(margins: &[f32], record: &Record, given: &Given) -> Result<Vec<String>, Refusal> {
    let (enter, exit) = mended(given.enter, given.exit)?;
    // who flies by the margins, and since which of them
    let (mut pilot, mut since) = (Pilot::Fallback, None);
    for (at, margin) in margins.iter().copied().enumerate() {
        let next = match pilot {
            Pilot::Fallback if margin.is_finite() && margin > exit => Pilot::Planner,
            Pilot::Planner if !margin.is_finite() || margin < enter => Pilot::Fallback,
            same => same,
        };
        if next != pilot {
            (pilot, since) = (next, Some((at, margin)));
        }
    }
    let why = match since {
        None => format!("as a fresh shield does until a margin is above exit, {}", brief(exit)),
        Some((at, margin)) => {
            let margin_is = match pilot {
                Pilot::Planner => format!("above exit, {}", brief(exit)),
                Pilot::Fallback if margin.is_finite() => format!("below enter, {}", brief(enter)),
                Pilot::Fallback => "not finite".to_string(),
            };
            format!("since record {}, whose margin, {}, is {margin_is}", at + 1, brief(margin))
        }
    };
    let (all, mut found) = (record.words(), Vec::new());
    let flag = all[FLAG];
    match flag {
        0 | 1 => {
            let own = if flag == 0 { Pilot::Planner } else { Pilot::Fallback };
            if own != pilot {
                found.push(format!("its flag says that the {own} flies, and by the margins the {pilot} does, {why}"));
            }
        }
        _ => found.push(format!("its flag is {flag}, neither 0 nor 1; by the margins the {pilot} flies, {why}")),
    }
    for (axis, name) in ["x", "y", "z"].into_iter().enumerate() {
        let (wanted, own) = (all[PLANNER + axis], all[COMMAND + axis]);
        let (finite, lost) = (f32::from_bits(wanted).is_finite(), axis == 2 && given.profile == Profile::LostRotor);
        let (own_is, passed) = (format!("its command's {name} is {}", both(own)), if lost || !finite { 0 } else { wanted });
        match flag {
            0 if own == passed => {}
            0 if lost => found.push(format!("{own_is}, not the zero that is passed on with a rotor lost")),
            0 if !finite => found.push(format!("{own_is}, not the zero that is passed on for {wanted:08x}, which is not finite")),
            0 => found.push(format!("{own_is}, not the planner's {}", both(wanted))),
            1 if !f32::from_bits(own).is_finite() => found.push(format!("{own_is}, not finite")),
            _ => {}
        }
    }
    if found.is_empty() {
        found.push("this program finds no fault in it, and the core does".to_string());
    }
    Ok(found)
}

/// What is named, in order: a file as it is, and of a folder every file below it whose name ends so, by name; with what there is to say where there is none.
/// Links to folders below it are not followed.
pub fn files(named: &[PathBuf], endings: &[&str]) -> Vec<Found> {
    let mut all = Vec::new();
    for path in named {
        if !path.is_dir() {
            all.push((path.clone(), Ok(())));
            continue;
        }
        let before = all.len();
        below(path, endings, &mut all);
        if all.len() == before {
            all.push((path.clone(), Err(format!("no file below this folder ends in .{}", endings.join(" or .")))));
        }
    }
    all
}

fn below(folder: &Path, endings: &[&str], all: &mut Vec<Found>) {
    let entries = std::fs::read_dir(folder).and_then(|entries| entries.collect::<Result<Vec<_>, _>>());
    let mut paths: Vec<PathBuf> = match entries {
        Ok(entries) => entries.into_iter().map(|entry| entry.path()).collect(),
        Err(error) => return all.push((folder.to_path_buf(), Err(error.to_string()))),
    };
    paths.sort();
    for path in paths {
        if path.is_dir() {
            if !path.is_symlink() {
                below(&path, endings, all);
            }
        } else if path.extension().is_some_and(|own| endings.iter().any(|ending| own == *ending))
            && path.metadata().map_or(true, |about| about.is_file())
        {
            // a link that leads nowhere too: reading it says why
            all.push((path, Ok(())));
        }
    }
}

/// A flight to be checked, and by what; or how it is named, and why it cannot be.
pub type Task = Result<(Kept, Given), (String, String)>;

/// Checks flights on as many threads as the machine has, one at a time on each; what became of each is told in their order, as soon as it and all before it
/// are done: its name, what is said before the outcome, and that.
pub fn each(tasks: &[Task], mut tell: impl FnMut(&str, Option<&str>, &Outcome)) {
    let (next, (send, receive)) = (AtomicUsize::new(0), mpsc::channel());
    std::thread::scope(|scope| {
        for _ in 0..std::thread::available_parallelism().map_or(1, |n| n.get()).min(tasks.len()) {
            let (next, send) = (&next, send.clone());
            scope.spawn(move || loop {
                let at = next.fetch_add(1, Ordering::Relaxed);
                let Some(task) = tasks.get(at) else { break };
                let outcome = match task {
                    Ok((kept, given)) => Outcome::of(kept, given),
                    Err((_, why)) => Outcome::Trouble(Trouble::Unreadable(why.clone())),
                };
                if send.send((at, outcome)).is_err() {
                    break;
                }
            });
        }
        drop(send);
        // those that were done before one that stands ahead of them
        let (mut early, mut now) = (BTreeMap::new(), 0);
        for (at, outcome) in receive {
            early.insert(at, outcome);
            while let (Some(outcome), Some(task)) = (early.remove(&now), tasks.get(now)) {
                match task {
                    Ok((kept, _)) => tell(&kept.called, kept.as_if().as_deref(), &outcome),
                    Err((called, _)) => tell(called, None, &outcome),
                }
                now += 1;
            }
        }
    });
}

/// A name on one line, whatever is in it.
pub fn on_a_line(name: &str) -> String {
    let mut line = String::new();
    for c in name.chars() {
        match c.is_control() {
            true => line.extend(c.escape_default()),
            false => line.push(c),
        }
    }
    line
}
