//! A pattern as text: `leg` and its nineteen numbers, and `repeat 3 { … }` about legs and repeats. The core makes the route; here is what a reader of
//! the text is told: which leg stands in which line.
//!
//! ```text
//! leg 1 1 -4  0 0 0  0 0 0   2 0 -4  0.5 0.5 0  0 0 0   2     # out
//! repeat 3 {
//!   leg ..                                                    # there
//!   leg ..                                                    # and back: it ends where the first one starts, since that comes next
//! }
//! ```

use crate::output::brief;
use crate::scenario::{wrong, Mistake, Wrong};
use fosavalo::{Leg, Pattern, PatternItem, Refusal, Route, SetUp, DEEPEST_REPEAT, MOST_LEGS};
use std::io::{self, BufWriter, Write};

/// How many bytes a repeat holds at most.
const HOLDS: usize = 65_535;

/// A leg and the line that it stands in; of a pattern's bytes its place among the legs there, counted from 1.
#[derive(Clone, Copy)]
pub struct Placed {
    pub line: usize,
    pub leg: Leg,
}

/// A pattern that was expanded.
pub struct Expanded {
    pub pattern: Pattern,
    pub route: Route,
    /// The route's legs.
    pub legs: Vec<Placed>,
    /// What they are placed by: a line, or a leg of the bytes.
    pub by: &'static str,
}

/// What was read so far of a repeat, or of the whole.
struct Open {
    line: usize,
    count: u8,
    pattern: Pattern,
    /// The legs as they are flown, so many of them as tell whether there are too many.
    flown: Vec<Placed>,
}

impl Open {
    fn new(line: usize, count: u8) -> Self {
        Open { line, count, pattern: Pattern::new(), flown: Vec::new() }
    }

    fn extend(&mut self, legs: &[Placed]) {
        let room = MOST_LEGS + 1 - self.flown.len();
        self.flown.extend(legs.iter().take(room));
    }
}

/// A pattern while its text is read.
pub struct Draft {
    whole: Open,
    /// The repeats that are not closed yet, the outermost first.
    repeats: Vec<Open>,
}

/// How many of the words that follow this one on its line are its own.
pub fn own(name: &str, words: &[&str]) -> usize {
    let until = |ends: &[&str]| words.iter().position(|word| ends.contains(word)).unwrap_or(words.len());
    match name {
        "}" => 0,
        "repeat" => words.len().min(until(&["{"]) + 1),
        "leg" => until(&["leg", "repeat", "{", "}"]),
        _ => words.len(),
    }
}

impl Draft {
    pub fn new() -> Self {
        Draft { whole: Open::new(0, 1), repeats: Vec::new() }
    }

    /// Whether there is neither leg nor repeat.
    pub fn is_empty(&self) -> bool {
        self.whole.pattern.is_empty() && self.repeats.is_empty()
    }

    /// The line of the innermost repeat that is open.
    pub fn inside(&self) -> Option<usize> {
        self.repeats.last().map(|repeat| repeat.line)
    }

    fn innermost(&mut self) -> &mut Open {
        self.repeats.last_mut().unwrap_or(&mut self.whole)
    }

    pub fn leg(&mut self, line: usize, leg: Leg) {
        let open = self.innermost();
        open.pattern.leg(&leg);
        open.extend(&[Placed { line, leg }]);
    }

    /// `repeat` and what follows it.
    pub fn open(&mut self, line: usize, words: &[&str]) -> Result<(), Wrong> {
        let [count, "{"] = words else {
            return wrong("repeat", "wants a count and a brace, as in `repeat 3 {`");
        };
        let count = match count.parse::<u8>() {
            Ok(count @ 1..=9) => count,
            _ => return wrong("repeat", format!("`{count}` is no count: a repeat is flown 1 to 9 times")),
        };
        if self.repeats.len() >= DEEPEST_REPEAT {
            return wrong("repeat", format!("stands inside {DEEPEST_REPEAT} others, and so deep they may stand"));
        }
        // the first of all is where a pattern without a leg is told of
        if self.whole.line == 0 {
            self.whole.line = line;
        }
        self.repeats.push(Open::new(line, count));
        Ok(())
    }

    /// `}`
    pub fn close(&mut self) -> Result<(), Wrong> {
        let Some(Open { line, count, pattern, flown }) = self.repeats.pop() else {
            return wrong("}", "closes nothing");
        };
        let open = self.innermost();
        let len = pattern.as_bytes().len();
        if len > HOLDS {
            return wrong("}", format!("the repeat of line {line} holds {len} bytes, and the most are {HOLDS}"));
        }
        if let Err(refusal) = open.pattern.repeat(count, &pattern) {
            return wrong("}", format!("the repeat of line {line}: {refusal}"));
        }
        (0..count).for_each(|_| open.extend(&flown));
        Ok(())
    }

    /// Expands it, if there is anything. A mistake names the leg with which it is no route.
    pub fn finish(self) -> Result<Option<Expanded>, Mistake> {
        if let Some(line) = self.inside() {
            return Err(Mistake { line, field: "repeat".to_string(), what: "has no `}`".to_string() });
        }
        let Open { line, pattern, flown: legs, .. } = self.whole;
        if pattern.is_empty() {
            return Ok(None);
        }
        let at = |at: usize, what: String| match legs.get(at) {
            Some(placed) => Mistake { line: placed.line, field: format!("leg {}", at + 1), what },
            None => Mistake { line, field: "repeat".to_string(), what },
        };
        match pattern.expand() {
            Ok(route) => Ok(Some(Expanded { pattern, route, legs, by: "line" })),
            Err(refusal @ Refusal::LegCount) => Err(at(MOST_LEGS, refusal.to_string())),
            // which leg it is the legs tell, one after another
            Err(refusal) => match Route::new(&legs.iter().map(|placed| placed.leg).collect::<Vec<_>>()) {
                Err(refusal @ Refusal::LegsApart(Some(leg))) => {
                    let before = legs.get(leg.wrapping_sub(1)).map_or(0, |placed| placed.line);
                    Err(at(leg, format!("{refusal}, in line {before}")))
                }
                _ => Err(Mistake { line: 0, field: "pattern".to_string(), what: refusal.to_string() }),
            },
        }
    }
}

impl Default for Draft {
    fn default() -> Self {
        Draft::new()
    }
}

/// The legs of a pattern that is a route, each with its place among those that stand in its bytes; so many stood before them.
fn in_flown_order(pattern: &Pattern, stood: &mut usize) -> Vec<Placed> {
    let mut flown = Vec::new();
    for item in pattern.items() {
        match item {
            PatternItem::Leg(leg) => {
                *stood += 1;
                flown.push(Placed { line: *stood, leg });
            }
            PatternItem::Repeat { count, inner } => {
                let round = in_flown_order(&inner, stood);
                (0..count).for_each(|_| flown.extend(&round));
            }
        }
    }
    flown
}

/// A number so that reading it gives the same bits.
pub fn exactly(x: f32) -> String {
    if x.is_nan() {
        format!("0x{:08x}", x.to_bits())
    } else {
        brief(x)
    }
}

/// A leg's nineteen numbers.
pub fn leg_words(leg: &Leg) -> String {
    let vectors = [leg.p0, leg.v0, leg.a0, leg.pf, leg.vf, leg.af].map(|v| v.map(exactly).join(" ")).join("  ");
    format!("{vectors}  {}", exactly(leg.t))
}

impl Expanded {
    /// Of a pattern's bytes, as they were written; refused as the core does.
    pub fn of_bytes(bytes: &[u8]) -> Result<Self, Refusal> {
        let pattern = Pattern::from_bytes(bytes)?;
        let route = pattern.expand()?;
        let legs = in_flown_order(&pattern, &mut 0);
        Ok(Expanded { pattern, route, legs, by: "leg" })
    }

    /// How long it takes, s, with durations as set-up mends them.
    pub fn seconds(&self) -> f64 {
        let mended = |leg: Leg| f64::from(SetUp { segment: leg, ..SetUp::falcon_quad() }.kept().segment.t);
        self.route.legs().map(mended).sum()
    }

    /// The legs as they are flown, as lines of a scenario.
    pub fn list(&self, name: &str, to: impl Write) -> io::Result<()> {
        let mut to = BufWriter::new(to);
        let (legs, bytes) = (self.route.len(), self.route.as_bytes().len());
        writeln!(
            to,
            "# {name}: {legs} leg{}, {} s; a pattern of {} bytes, a route of {bytes}",
            if legs == 1 { "" } else { "s" },
            brief(self.seconds() as f32),
            self.pattern.as_bytes().len()
        )?;
        for (at, (leg, placed)) in self.route.legs().zip(&self.legs).enumerate() {
            writeln!(to, "leg {}    # {}, of {} {}", leg_words(&leg), at + 1, self.by, placed.line)?;
        }
        to.flush()
    }
}
