//! A flight explained: who was to fly from which record to which by its margins, and which margin made it so. As far as the check finds the records right
//! their own flags tell; from the first wrong one on the slow shield, which looks back through the margins.

use crate::json;
use crate::output::{brief, seconds, FLAG};
use crate::ticks::Ticks;
use fosavalo::{slow_flags, Image, Pilot, Record, Refusal, SetUp, Verdict};
use std::io::{self, BufWriter, Write};

/// Thresholds as set-up mends them.
pub fn mended(enter: f32, exit: f32) -> Result<(f32, f32), Refusal> {
    let image = Image::set_up(&SetUp { enter, exit, ..SetUp::falcon_quad() })?;
    Ok((image.enter(), image.exit()))
}

/// Why a stretch's pilot has control.
#[derive(Clone, Copy, Debug, PartialEq, Eq)]
pub enum Cause {
    /// A fresh shield is engaged, and nothing has released it.
    Start,
    AboveExit,
    BelowEnter,
    NotFinite,
}

/// Records one after another with the same pilot, counted from 0.
#[derive(Clone, Debug)]
pub struct Stretch {
    pub from: usize,
    pub to: usize,
    /// When the first and the last of them were, s.
    pub seconds: (f64, f64),
    pub pilot: Pilot,
    pub cause: Cause,
    /// The margin of the first of them.
    pub margin: f32,
    /// The least and the greatest of the finite margins, if there is one.
    pub range: Option<(f32, f32)>,
    pub not_finite: usize,
    /// At how many of them the log's own flag is the other pilot's, and at how many nobody's.
    pub other: usize,
    pub neither: usize,
}

impl Stretch {
    /// At how many of them the log's own flag is another.
    pub fn differ(&self) -> usize {
        self.other + self.neither
    }
}

/// So many margins are looked back through at once, behind one that says who flew before them: from each the way back is no longer.
const AT_ONCE: usize = 4_096;

/// Who is to fly at each record.
fn flown(records: &[Record], verdict: Verdict, enter: f32, exit: f32) -> Result<Vec<Pilot>, Refusal> {
    let right = match verdict {
        Verdict::Right => records.len(),
        Verdict::WrongAt(place) => place.min(records.len()),
    };
    let (right, rest) = records.split_at(right);
    let mut flown: Vec<Pilot> = right.iter().map(|record| record.answer().pilot).collect();
    for some in rest.chunks(AT_ONCE) {
        // the greatest of all margins releases, where any does
        let before = (flown.last() == Some(&Pilot::Planner)).then_some(f32::MAX);
        let margins: Vec<f32> = before.into_iter().chain(some.iter().map(|record| record.answer().margin)).collect();
        flown.extend(slow_flags(&margins, enter, exit)?.into_iter().skip(before.iter().count()));
    }
    Ok(flown)
}

pub struct Explained {
    pub enter: f32,
    pub exit: f32,
    pub stretches: Vec<Stretch>,
    /// Records one after another, from which to which, at which the log's own flag is another.
    pub differ: Vec<(usize, usize)>,
    /// How many logs the flight has.
    pub logs: usize,
    /// What is said where these may not begin with their flight.
    pub as_if: Option<String>,
}

impl Explained {
    /// The records of one flight, of which the check says so; refused where the core is.
    pub fn of(records: &[Record], verdict: Verdict, enter: f32, exit: f32) -> Result<Self, Refusal> {
        let flown = flown(records, verdict, enter, exit)?;
        let (enter, exit) = mended(enter, exit)?;
        let ticks = Ticks::of(records);
        let flag = |pilot: Pilot| u32::from(pilot == Pilot::Fallback);
        let flags: Vec<u32> = records.iter().map(|record| record.words()[FLAG]).collect();
        let differ: Vec<bool> = flags.iter().zip(&flown).map(|(own, pilot)| *own != flag(*pilot)).collect();
        let (mut from, mut stretches) = (0, Vec::new());
        for same in flown.chunk_by(|a, b| a == b) {
            let (to, pilot) = (from + same.len() - 1, same[0]);
            let (own, margin) = (&ticks[from..=to], ticks[from].answer.margin);
            let cause = match pilot {
                Pilot::Planner => Cause::AboveExit,
                Pilot::Fallback if from == 0 => Cause::Start,
                Pilot::Fallback if margin.is_finite() => Cause::BelowEnter,
                Pilot::Fallback => Cause::NotFinite,
            };
            let finite = || own.iter().map(|tick| tick.answer.margin).filter(|margin| margin.is_finite());
            stretches.push(Stretch {
                from,
                to,
                seconds: (ticks[from].seconds, ticks[to].seconds),
                pilot,
                cause,
                margin,
                range: finite().reduce(f32::min).zip(finite().reduce(f32::max)),
                not_finite: own.len() - finite().count(),
                other: flags[from..=to].iter().filter(|own| **own == 1 - flag(pilot)).count(),
                neither: flags[from..=to].iter().filter(|own| **own > 1).count(),
            });
            from = to + 1;
        }
        Ok(Explained { enter, exit, stretches, differ: runs(&differ), logs: 1, as_if: None })
    }

    /// In words that can be read aloud, a line for each stretch. Records are counted from 1, as the ticks of the log's CSV are.
    pub fn tell(&self, to: impl Write) -> io::Result<()> {
        let (mut to, (enter, exit)) = (BufWriter::new(to), (brief(self.enter), brief(self.exit)));
        let (what, whose) = match self.logs {
            1 => ("The log has".to_string(), "The log's"),
            logs => (format!("The {logs} logs have"), "The logs'"),
        };
        let Some(last) = self.stretches.last() else {
            writeln!(to, "{what} no record.")?;
            return to.flush();
        };
        let many = if last.to == 0 { "one record".to_string() } else { format!("{} records", last.to + 1) };
        let as_if = self.as_if.as_ref().map_or(String::new(), |as_if| format!(", {as_if}"));
        writeln!(
            to,
            "{what} {many}{as_if}. The planner is released by a margin above {exit}, and relieved by one below {enter} or not finite."
        )?;
        for s in &self.stretches {
            let (first, margin) = (s.from + 1, brief(s.margin));
            let (starts, ends) = (seconds(s.seconds.0), seconds(s.seconds.1));
            let why = match s.cause {
                Cause::Start if self.as_if.is_some() => {
                    format!("As if a flight began here: a fresh shield starts so, and no margin was above {exit}.")
                }
                Cause::Start => format!("A fresh shield starts so, and no margin was above {exit}."),
                Cause::AboveExit => format!("The margin of record {first}, {margin}, released it: it is above {exit}."),
                Cause::BelowEnter => format!("The margin of record {first}, {margin}, engaged it: it is below {enter}."),
                Cause::NotFinite => format!("The margin of record {first}, {margin}, engaged it: it is not finite."),
            };
            let margins = match s.range {
                Some((least, greatest)) if least == greatest => format!("The margin was {}", brief(least)),
                Some((least, greatest)) => format!("Margins went from {} to {}", brief(least), brief(greatest)),
                None => "No margin was finite".to_string(),
            };
            let others = match s.not_finite {
                n if n > 0 && s.range.is_some() => format!(", and {n} {} not finite", if n == 1 { "was" } else { "were" }),
                _ => String::new(),
            };
            let which = match s.from == s.to {
                true => format!("Record {first}, at {starts} s"),
                false => format!("Records {first} to {}, {starts} s to {ends} s", s.to + 1),
            };
            writeln!(to, "{which}: {}. {why} {margins}{others}.", s.who())?;
        }
        let count: usize = self.stretches.iter().map(Stretch::differ).sum();
        let places: Vec<String> =
            self.differ.iter().map(|(a, b)| if a == b { (a + 1).to_string() } else { format!("{} to {}", a + 1, b + 1) }).collect();
        match count {
            0 => writeln!(to, "{whose} own flags say the same at every record.")?,
            1 => writeln!(to, "{whose} own flag says otherwise at one record: {}.", places.join(", "))?,
            _ => writeln!(to, "{whose} own flags say otherwise at {count} records: {}.", places.join(", "))?,
        }
        to.flush()
    }

    /// The same as CSV, a stretch on a line.
    pub fn csv(&self, to: impl Write) -> io::Result<()> {
        let mut to = BufWriter::new(to);
        writeln!(to, "from,to,from_seconds,to_seconds,pilot,cause,margin,least,greatest,not_finite,flags_differ")?;
        for s in &self.stretches {
            let cause = s.cause.word();
            let (least, greatest) = s.range.map_or(Default::default(), |(least, greatest)| (format!("{least:?}"), format!("{greatest:?}")));
            let (starts, ends) = s.seconds;
            write!(to, "{},{},{starts:.6},{ends:.6},{},{cause},{:?},", s.from + 1, s.to + 1, s.pilot, s.margin)?;
            writeln!(to, "{least},{greatest},{},{}", s.not_finite, s.differ())?;
        }
        to.flush()
    }

    /// And as JSON, an object on a line.
    pub fn json(&self, flight: &str, to: impl Write) -> io::Result<()> {
        let mut to = BufWriter::new(to);
        for s in &self.stretches {
            let range = s.range.map_or([String::from("null"), String::from("null")], |(a, b)| [a, b].map(json::number));
            write!(to, "{{\"flight\":{},\"from\":{},\"to\":{},", json::text(flight), s.from + 1, s.to + 1)?;
            write!(to, "\"from_seconds\":{:.6},\"to_seconds\":{:.6},\"pilot\":\"{}\",", s.seconds.0, s.seconds.1, s.pilot)?;
            write!(to, "\"cause\":\"{}\",\"margin\":{},\"least\":{},", s.cause.word(), json::number(s.margin), range[0])?;
            write!(to, "\"greatest\":{},\"not_finite\":{},\"flags_differ\":{}", range[1], s.not_finite, s.differ())?;
            if let Some(as_if) = &self.as_if {
                write!(to, ",\"as_if\":{}", json::text(as_if))?;
            }
            writeln!(to, "}}")?;
        }
        to.flush()
    }
}

impl Cause {
    fn word(self) -> &'static str {
        match self {
            Cause::Start => "start",
            Cause::AboveExit => "above_exit",
            Cause::BelowEnter => "below_enter",
            Cause::NotFinite => "not_finite",
        }
    }
}

impl Stretch {
    /// Who flew, where the flags say so too; else who was to, and what they say.
    fn who(&self) -> String {
        let (pilot, alone) = (self.pilot, self.from == self.to);
        if self.differ() == 0 {
            return format!("the {pilot} flew");
        }
        let other = if pilot == Pilot::Planner { Pilot::Fallback } else { Pilot::Planner };
        let did = match (self.other, alone) {
            (0, _) => None,
            (_, true) => Some(format!("the log says that the {other} did")),
            (n, false) => Some(format!("the log says that the {other} did at {n} of them")),
        };
        let neither = match (self.neither, alone) {
            (0, _) => None,
            (_, true) => Some("the log's flag is neither 0 nor 1".to_string()),
            (n, false) => Some(format!("the log's flag is neither 0 nor 1 at {n} of them")),
        };
        let say: Vec<String> = did.into_iter().chain(neither).collect();
        format!("by the rule the {pilot} was to fly; {}", say.join(", and "))
    }
}

/// The places that hold, as runs from which to which.
fn runs(held: &[bool]) -> Vec<(usize, usize)> {
    let mut all: Vec<(usize, usize)> = Vec::new();
    for (at, _) in held.iter().enumerate().filter(|(_, held)| **held) {
        match all.last_mut() {
            Some((_, to)) if *to + 1 == at => *to = at,
            _ => all.push((at, at)),
        }
    }
    all
}
