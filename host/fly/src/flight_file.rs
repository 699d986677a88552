//! A flight's own file, NAME.flight, beside its logs: what these do not tell. Plain text, a field and its numbers on a line as in a scenario.
//!
//! ```text
//! flight 1                        # the form of this file, in its first line
//! ticks 20000                     # of all logs
//! k_r 0.1 0.1 0.1                 # the set-up: every field of a scenario's, each once, and the profile
//! profile whole
//! leg ..                          # a route's legs, and from which tick to which it was flown
//! route 1 20000
//! exchange 7001 ..                # before which tick the segment was exchanged, and for which: nineteen numbers
//! log 20000 pass-shield.log       # a log's records and its name, beside this file, to the end of the line
//! ```
//!
//! Ticks are counted from 1. Each number is written so that reading it gives the same bits.

use crate::flight::Flight;
use crate::pattern::{exactly, leg_words};
use crate::scenario::{self, lines, numbers, wrong, Mistake, Reader, Wrong, PROFILES};
use fosavalo::{Answer, Image, Leg, Refusal, Route, SetUp, TickInput, LEG_BYTES};
use std::fmt::Write;

const FORM: &str = "1";

#[derive(Clone, Debug, PartialEq)]
pub struct FlightFile {
    pub set_up: SetUp,
    pub route: Option<Route>,
    /// From which tick to which, counted from 0, both of them on the route.
    pub on_route: Vec<(usize, usize)>,
    /// Before which tick, counted from 0.
    pub exchanges: Vec<(usize, Leg)>,
    /// Each with its records, in order.
    pub logs: Vec<(String, usize)>,
}

impl FlightFile {
    pub fn of(flight: &Flight, logs: Vec<(String, usize)>) -> Self {
        let until = flight.exchanges.first().map_or(flight.ticks.len(), |(tick, _)| *tick);
        let last = until.checked_sub(1).filter(|_| flight.route.is_some());
        FlightFile {
            set_up: flight.set_up,
            route: flight.route.clone(),
            on_route: last.map(|last| (0, last)).into_iter().collect(),
            exchanges: flight.exchanges.clone(),
            logs,
        }
    }

    /// Of all logs.
    pub fn ticks(&self) -> usize {
        self.logs.iter().map(|(_, count)| count).sum()
    }

    /// As set-up left them.
    pub fn thresholds(&self) -> (f32, f32) {
        let SetUp { enter, exit, .. } = self.set_up.kept();
        (enter, exit)
    }

    pub fn text(&self) -> String {
        let mut text = format!("flight {FORM}\nticks {}\n", self.ticks());
        for (name, numbers) in scenario::set_up_words(&self.set_up) {
            let _ = writeln!(text, "{name} {}", numbers.into_iter().map(exactly).collect::<Vec<_>>().join(" "));
        }
        let profile = PROFILES.iter().find(|(_, profile)| *profile == self.set_up.profile).map_or("", |(name, _)| name);
        let _ = writeln!(text, "profile {profile}");
        for leg in self.route.iter().flat_map(Route::legs) {
            let _ = writeln!(text, "leg {}", leg_words(&leg));
        }
        for (from, to) in &self.on_route {
            let _ = writeln!(text, "route {} {}", from + 1, to + 1);
        }
        for (tick, leg) in &self.exchanges {
            let _ = writeln!(text, "exchange {} {}", tick + 1, leg_words(leg));
        }
        for (name, count) in &self.logs {
            let _ = writeln!(text, "log {count} {name}");
        }
        text
    }

    /// Never panics: any bytes are a flight file or a mistake.
    pub fn read(bytes: &[u8]) -> Result<Self, Mistake> {
        let mut draft =
            Draft { reader: Reader::new(), lines: 0, ticks: None, on_route: Vec::new(), exchanges: Vec::new(), logs: Vec::new() };
        lines(bytes, |line, name, rest, whole| draft.line(line, name, rest, whole))?;
        draft.finish()
    }

    /// Whether bytes that are no log are meant as this.
    pub fn is(bytes: &[u8]) -> bool {
        bytes.starts_with(b"flight ")
    }
}

struct Draft {
    reader: Reader,
    lines: usize,
    ticks: Option<usize>,
    on_route: Vec<(usize, usize)>,
    exchanges: Vec<(usize, Leg)>,
    logs: Vec<(String, usize)>,
}

/// A whole number.
fn whole(field: &str, word: &str) -> Result<usize, Wrong> {
    let bad = || (field.to_string(), format!("`{word}` is no whole number"));
    // more is no flight, and adds up to no number
    word.parse().ok().filter(|n| *n <= u32::MAX as usize).ok_or_else(bad)
}

/// A tick's number, counted from 1, as counted from 0.
fn tick(field: &str, word: &str) -> Result<usize, Wrong> {
    whole(field, word)?.checked_sub(1).ok_or_else(|| (field.to_string(), "ticks are counted from 1".to_string()))
}

impl Draft {
    fn line(&mut self, line: usize, name: &str, rest: &[&str], text: &str) -> Result<(), Wrong> {
        self.lines += 1;
        match (self.lines, name, rest) {
            (1, "flight", [FORM]) => return Ok(()),
            (1, ..) => return wrong("", format!("no flight file: its first line is `flight {FORM}`")),
            _ => {}
        }
        match (name, rest) {
            ("ticks", [count]) if self.ticks.is_none() => self.ticks = Some(whole(name, count)?),
            ("ticks", [_]) => return wrong(name, "given before"),
            ("ticks", _) => return wrong(name, "how many? as in `ticks 20000`"),
            ("route", [from, to]) => self.on_route.push((tick(name, from)?, tick(name, to)?)),
            ("route", _) => return wrong(name, "from which tick to which? as in `route 1 20000`"),
            ("exchange", [at, leg @ ..]) => {
                let leg = scenario::leg_of(&numbers(("exchange", 0, LEG_BYTES / 4), leg)?);
                self.exchanges.push((tick(name, at)?, leg));
            }
            ("exchange", []) => return wrong(name, "before which tick, and for which segment?"),
            ("log", [count, _, ..]) => {
                // the line itself, since a name may hold anything
                let name = text.split_once(count).map_or("", |(_, name)| name.trim());
                self.logs.push((name.to_string(), whole("log", count)?));
            }
            ("log", _) => return wrong(name, "how many records, of which file? as in `log 20000 pass-shield.log`"),
            _ if scenario::of_set_up(name) => return self.reader.line(line, name, rest),
            _ => return wrong(name, "no field of a flight file"),
        }
        Ok(())
    }

    fn finish(self) -> Result<FlightFile, Mistake> {
        let no = |field: &str, what: String| Err(Mistake { line: 0, field: field.to_string(), what });
        let Draft { reader, lines, ticks, on_route, exchanges, logs } = self;
        if lines == 0 {
            return no("", format!("no flight file: its first line is `flight {FORM}`"));
        }
        if let Some(missing) = reader.missing() {
            return no(missing, "is not given: a flight file has all of its set-up".to_string());
        }
        let (set_up, route) = reader.finish()?;
        let Some(ticks) = ticks else { return no("ticks", "is not given".to_string()) };
        let file = FlightFile { set_up, route, on_route, exchanges, logs };
        if file.ticks() != ticks {
            return no("ticks", format!("{ticks} are told of, and the logs have {}: a line may be lost", file.ticks()));
        }
        if file.logs.is_empty() {
            return no("log", "is not given: a flight has one at least".to_string());
        }
        if file.route.is_none() && !file.on_route.is_empty() {
            return no("route", "there is no leg of it".to_string());
        }
        // each behind the one before, and none beyond the end
        let flat: Vec<usize> = file.on_route.iter().flat_map(|(from, to)| [*from, *to + 1]).collect();
        if !flat.is_sorted() || file.on_route.iter().any(|(from, to)| from > to) || flat.last().is_some_and(|end| *end > ticks) {
            return no("route", format!("its ticks go up, each from the first to the last of them, to at most {ticks}"));
        }
        if !file.exchanges.is_sorted_by_key(|(tick, _)| *tick) || file.exchanges.last().is_some_and(|(tick, _)| *tick >= ticks) {
            return no("exchange", format!("its ticks go up, to at most {ticks}"));
        }
        Ok(file)
    }
}

/// The flight flown again, a tick at a time: its image, and where it is.
pub struct Again<'a> {
    file: &'a FlightFile,
    image: Image,
    at: usize,
}

impl<'a> Again<'a> {
    pub fn new(file: &'a FlightFile) -> Result<Self, Refusal> {
        Ok(Again { file, image: Image::set_up(&file.set_up)?, at: 0 })
    }

    /// The next tick, and what is exchanged before it.
    pub fn tick(&mut self, input: &TickInput) -> Result<Answer, Refusal> {
        let at = self.at;
        self.at += 1;
        let from = self.file.exchanges.partition_point(|(tick, _)| *tick < at);
        for (_, leg) in self.file.exchanges.iter().skip(from).take_while(|(tick, _)| *tick == at) {
            self.image.exchange(leg)?;
        }
        let on_route = self.file.on_route.partition_point(|(_, to)| *to < at);
        match (&self.file.route, self.file.on_route.get(on_route)) {
            (Some(route), Some((from, _))) if *from <= at => self.image.route_tick(input, route),
            _ => self.image.tick(input),
        }
    }
}
