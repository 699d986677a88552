//! Ticks one after another, and what can be told from them alone.

use crate::vector::{norm, sub};
use fosavalo::{Answer, Pilot, Record, TickInput};
use std::ops::Deref;

/// As long as a tick holds at most, s: the longest step that the rate controller takes, in f32. What comes later is a pause, in which nobody
/// was asked.
const HOLDS: f64 = 0.1f32 as f64;

pub struct Tick {
    /// Since the start.
    pub seconds: f64,
    /// When the next tick came or it held no longer; of the last one, as long after it as its own step.
    pub until: f64,
    pub input: TickInput,
    pub answer: Answer,
}

#[derive(Default)]
pub struct Ticks(Vec<Tick>);

impl Deref for Ticks {
    type Target = [Tick];

    fn deref(&self) -> &[Tick] {
        &self.0
    }
}

impl Ticks {
    /// Those of these records.
    pub fn of(records: &[Record]) -> Self {
        let mut ticks = Ticks(Vec::with_capacity(records.len()));
        records.iter().for_each(|record| ticks.push(record.input(), record.answer()));
        ticks
    }

    pub fn push(&mut self, input: TickInput, answer: Answer) {
        // as it was given, so that a pause is seen; a dt that tells no time counts as a millisecond
        let step = if input.dt.is_finite() && input.dt > 0.0 { f64::from(input.dt) } else { 1e-3 };
        let seconds = self.0.last_mut().map_or(0.0, |last| {
            let now = last.seconds + step;
            last.until = now.min(last.seconds + HOLDS);
            now
        });
        self.0.push(Tick { seconds, until: seconds + step.min(HOLDS), input, answer });
    }

    /// Ticks between which there is no pause.
    pub fn stretches(&self) -> impl Iterator<Item = &[Tick]> {
        self.chunk_by(|a, b| a.until == b.seconds)
    }

    /// The ticks, counted from 0, at which control changed hands: the one before was another's. Before the first nobody flew.
    pub fn changes(&self) -> Vec<usize> {
        let pairs = self.iter().zip(self.iter().skip(1)).enumerate();
        pairs.filter(|(_, (before, now))| before.answer.pilot != now.answer.pilot).map(|(at, _)| at + 1).collect()
    }

    /// The stretch of so many seconds with the most changes: when it begins, and how many.
    pub fn busiest(&self, seconds: f64) -> (f64, usize) {
        let at: Vec<f64> = self.changes().into_iter().filter_map(|k| self.get(k)).map(|tick| tick.seconds).collect();
        let mut most = (0.0, 0);
        for (k, from) in at.iter().enumerate() {
            let n = at.partition_point(|t| *t < from + seconds) - k;
            if n > most.1 {
                most = (*from, n);
            }
        }
        most
    }

    /// When the last tick was.
    pub fn seconds(&self) -> f64 {
        self.last().map_or(0.0, |tick| tick.seconds)
    }

    /// Until when it holds.
    pub fn until(&self) -> f64 {
        self.last().map_or(0.0, |tick| tick.until)
    }

    /// The part of the ticks that the planner flew.
    pub fn planner_share(&self) -> f64 {
        let planner = self.iter().filter(|tick| tick.answer.pilot == Pilot::Planner).count();
        planner as f64 / self.len().max(1) as f64
    }

    /// By how much the commanded rate jumps from tick to tick, rad/s added up over a second.
    pub fn jolts(&self) -> f64 {
        let commands = self.iter().map(|tick| tick.answer.command.0.map(f64::from));
        let jumps = commands.clone().zip(commands.skip(1)).map(|(a, b)| norm(sub(b, a)));
        // not `sum`, which makes -0.0 of no jump at all
        jumps.fold(0.0, |all, jump| all + jump) / self.seconds().max(1e-3)
    }
}
