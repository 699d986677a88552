//! A flight as plain text: fields of the set-up, fields of the input, and how many ticks.
//!
//! ```text
//! enter 0.5                       # set-up: a field and its numbers; what is not given is as in SetUp::falcon_quad
//! exit 1
//! gyro 1 0 0                      # input: holds until it is given again; at first as in TickInput::default
//! tick 100                        # so many ticks
//! tick 200 gyro 1.9 0 0           # ticks in which gyro goes evenly to these numbers
//! row 0 0 0  1 0 0 0  0 0 0 0.001  0 0 0  1 1 1     # one tick, all seventeen numbers
//! ```
//!
//! Lines `leg` with nineteen numbers, before the first tick, make a route that is flown in place of the segment; `repeat 3 { … }` about some of them has
//! these flown three times. A line `profile lost-rotor` there has the flight set up for a lost rotor, `aircraft simulated` has a simulated aircraft fly it, and
//! `desk` with nine numbers has its heading come from sticks. Between ticks `exchange` gives another segment and `centre` presses the desk's button.
//!
//! A number is a decimal, `nan`, `inf`, `-inf`, or `0x` and the bits. docs/SCENARIOS.md has all of it.

use crate::pattern::{self, Draft, Expanded};
use crate::simulated::{Simulated, LONGEST, MOST_NOISE};
use fosavalo::{GyroFilter, Image, Leg, Profile, Refusal, Route, SetUp, TickInput, LEG_BYTES, SETUP_BYTES, TICK_BYTES};
use fosavalo_desk::{DeskSetUp, Stick, Sticks, DESK_SETUP_BYTES};
use std::fmt;
use std::ops::Range;

pub const MOST_TICKS: usize = 1_000_000;

#[derive(Debug)]
pub struct Scenario {
    pub set_up: SetUp,
    /// Where the file has legs.
    pub route: Option<Route>,
    /// One for each tick. What a desk or a simulated aircraft gives is written over it.
    pub inputs: Vec<TickInput>,
    /// Before which tick, counted from 0, in order.
    pub events: Vec<(usize, Event)>,
    /// Where there is one: its set-up, and where its sticks are at each tick.
    pub desk: Option<(DeskSetUp, Vec<Sticks>)>,
    /// Where the aircraft is not typed.
    pub aircraft: Option<Simulated>,
}

/// What happens between ticks.
#[derive(Clone, Copy, Debug, PartialEq)]
pub enum Event {
    /// Another segment; where it is to go on from where the way is then, what it begins with is not looked at.
    Exchange { leg: Leg, here: bool },
    /// The desk's button.
    Centre,
    /// Whether the planner says the input's numbers from here on, or its own.
    Planner { typed: bool },
}

/// What is wrong, where: the line counted from 1, 0 for the file as a whole.
#[derive(Debug, PartialEq, Eq)]
pub struct Mistake {
    pub line: usize,
    pub field: String,
    pub what: String,
}

impl fmt::Display for Mistake {
    fn fmt(&self, f: &mut fmt::Formatter<'_>) -> fmt::Result {
        if self.line > 0 {
            write!(f, "line {}: ", self.line)?;
        }
        if !self.field.is_empty() {
            write!(f, "{}: ", self.field)?;
        }
        f.write_str(&self.what)
    }
}

impl std::error::Error for Mistake {}

/// A field: its name, its first word, its count of words.
pub type Field = (&'static str, usize, usize);

/// The names of the profiles.
pub const PROFILES: [(&str, Profile); 2] = [("whole", Profile::Whole), ("lost-rotor", Profile::LostRotor)];

/// Where the cut-off stands; the sample rate follows it, and then the profile.
const FC: usize = 48;
/// The words of the segment.
const SEGMENT: Range<usize> = 17..17 + LEG_BYTES / 4;
const PROFILE: usize = FC + 2;
/// The fields that are several others at once.
const SEVERAL: [&str; 2] = ["adrc", "set_up"];

/// Document 01's words of a set-up.
const SET_UP: [Field; 23] = [
    ("k_r", 0, 3),
    ("k_omega", 3, 3),
    ("j", 6, 3),
    ("set", 9, 3),
    ("enter", 12, 1),
    ("exit", 13, 1),
    ("err_lo", 14, 1),
    ("err_hi", 15, 1),
    ("g_min", 16, 1),
    ("p0", 17, 3),
    ("v0", 20, 3),
    ("a0", 23, 3),
    ("pf", 26, 3),
    ("vf", 29, 3),
    ("af", 32, 3),
    ("t", 35, 1),
    ("adrc_roll", 36, 4),
    ("adrc_pitch", 40, 4),
    ("adrc_yaw", 44, 4),
    ("fc", FC, 1),
    ("fs", FC + 1, 1),
    // several at once, for a set-up that another program wrote
    ("adrc", 36, 12),
    ("set_up", 0, 50),
];

/// Where the planner's numbers stand, and the sticks behind them all, which are no words of an input.
const PLANNER: usize = 11;
const STICKS: usize = TICK_BYTES / 4;

/// And of a tick.
const INPUT: [Field; 9] = [
    ("gyro", 0, 3),
    ("attitude", 3, 4),
    ("tracking_error", 7, 1),
    ("yaw", 8, 1),
    ("yaw_rate", 9, 1),
    ("dt", 10, 1),
    ("planner", PLANNER, 3),
    ("delivered", 14, 3),
    ("sticks", STICKS, 3),
];

/// What else stands on a line.
pub const OTHERS: [&str; 13] =
    ["profile", "leg", "repeat", "aircraft", "seed", "noise", "camera", "desk", "sticks", "exchange", "centre", "tick", "row"];
/// What of an input the simulated aircraft gives.
pub const FLOWN: [&str; 5] = ["gyro", "attitude", "tracking_error", "delivered", "planner"];
/// And a desk.
const STEERED: [&str; 2] = ["yaw", "yaw_rate"];

fn find(fields: &[Field], name: &str) -> Option<Field> {
    fields.iter().find(|field| field.0 == name).copied()
}

impl Scenario {
    /// Never panics: any bytes are a scenario or a mistake.
    pub fn read(bytes: &[u8]) -> Result<Self, Mistake> {
        let mut reader = Reader::of(bytes)?;
        reader.fits()?;
        let inputs = std::mem::take(&mut reader.inputs);
        let events = std::mem::take(&mut reader.events).into_iter().map(|(_, tick, event)| (tick, event)).collect();
        let desk = reader.desk.map(|desk| (desk, std::mem::take(&mut reader.sticks)));
        let aircraft = reader.flies.then_some(reader.aircraft);
        let none = inputs.is_empty();
        let (set_up, route) = reader.finish_with(|| match none {
            true => Err("no ticks: a scenario has at least one line that begins with `tick` or `row`".to_string()),
            false => Ok(()),
        })?;
        Ok(Scenario { set_up, route, inputs, events, desk, aircraft })
    }
}

/// The pattern of a file, which may be a scenario and need not: legs and repeats, with ticks or without.
pub fn pattern(bytes: &[u8]) -> Result<Expanded, Mistake> {
    let none =
        || Mistake { line: 0, field: String::new(), what: "no legs: a pattern has lines that begin with `leg` or `repeat`".to_string() };
    Reader::of(bytes)?.pattern.finish()?.ok_or_else(none)
}

pub struct Reader {
    set_up: Vec<f32>,
    /// The line at which each word of the set-up was given.
    given: Vec<usize>,
    profile: Option<Profile>,
    pattern: Draft,
    /// Whether there is a simulated aircraft, and what it flies with.
    flies: bool,
    aircraft: Simulated,
    desk: Option<DeskSetUp>,
    /// The words of an input, and the sticks.
    input: Vec<f32>,
    /// Whether the planner's are taken though an aircraft is simulated.
    planner_typed: bool,
    inputs: Vec<TickInput>,
    sticks: Vec<Sticks>,
    /// Each with its line, and before which tick.
    events: Vec<(usize, usize, Event)>,
    /// The first line of each use.
    uses: Vec<(usize, Use)>,
}

/// What a line uses, and not every scenario has.
#[derive(Clone, Copy, PartialEq, Eq)]
enum Use {
    Field(&'static str),
    /// A step that the simulated aircraft does not take.
    Step,
    /// Whether the planner is typed.
    Plans,
}

/// A field's name and what is wrong with it.
pub type Wrong = (String, String);

pub fn wrong<T>(field: &str, what: impl Into<String>) -> Result<T, Wrong> {
    Err((field.to_string(), what.into()))
}

impl Reader {
    pub fn new() -> Self {
        Reader {
            set_up: floats(&SetUp::falcon_quad().to_bytes()),
            given: vec![0; SETUP_BYTES / 4],
            profile: None,
            pattern: Draft::new(),
            flies: false,
            aircraft: Simulated::default(),
            desk: None,
            input: [floats(&TickInput::default().to_bytes()), floats(&Sticks::default().to_bytes())].concat(),
            planner_typed: false,
            inputs: Vec::new(),
            sticks: Vec::new(),
            events: Vec::new(),
            uses: Vec::new(),
        }
    }

    /// All lines of a file.
    fn of(bytes: &[u8]) -> Result<Self, Mistake> {
        let mut reader = Reader::new();
        lines(bytes, |line, name, rest, _| reader.line(line, name, rest))?;
        Ok(reader)
    }

    /// The first field of the set-up that was not given.
    pub fn missing(&self) -> Option<&'static str> {
        let word = self.given.iter().take(PROFILE).position(|line| *line == 0);
        let field = word.and_then(|word| SET_UP.iter().find(|(_, first, count)| (*first..first + count).contains(&word)));
        field.map(|field| field.0).or(self.profile.is_none().then_some("profile"))
    }

    /// The set-up, and the route where there are legs.
    pub fn finish(self) -> Result<(SetUp, Option<Route>), Mistake> {
        self.finish_with(|| Ok(()))
    }

    /// The same, with something else to be seen to before the set-up.
    fn finish_with(self, first: impl FnOnce() -> Result<(), String>) -> Result<(SetUp, Option<Route>), Mistake> {
        let route = self.pattern.finish()?.map(|expanded| expanded.route);
        first().map_err(|what| Mistake { line: 0, field: String::new(), what })?;
        let set_up = SetUp::from_bytes(&bytes_of::<SETUP_BYTES>(&self.set_up));
        let set_up = set_up.map_err(|refusal| Mistake { line: 0, field: "set-up".to_string(), what: refusal.to_string() })?;
        let set_up = SetUp { profile: self.profile.unwrap_or(Profile::Whole), ..set_up };
        Reader::filters(&self.given, &set_up)?;
        Ok((set_up, route))
    }

    pub fn line(&mut self, line: usize, name: &str, rest: &[&str]) -> Result<(), Wrong> {
        let of_pattern = ["leg", "repeat", "}"].contains(&name);
        if let (Some(repeat), false) = (self.pattern.inside(), of_pattern) {
            return wrong(name, format!("stands inside the repeat of line {repeat}, which holds legs and repeats"));
        }
        if of_pattern && !self.inputs.is_empty() {
            return wrong(name, "stands before the first tick");
        }
        if ["tick", "row"].contains(&name) {
            self.one_way(name)?;
        }
        if let Some(field) = find(&SET_UP, name) {
            return self.set_up(line, field, rest);
        }
        if let ("planner", [who @ ("simulated" | "typed"), given @ ..]) = (name, rest) {
            return self.planner(line, *who == "typed", given);
        }
        if let Some(field) = find(&INPUT, name) {
            let numbers = numbers(field, rest)?;
            self.uses(line, Use::Field(field.0));
            self.step(line, field, &numbers);
            put(&mut self.input, field, &numbers);
            return Ok(());
        }
        match name {
            "tick" => self.ticks(line, rest),
            "profile" => self.profile(line, rest),
            "leg" => self.leg(line, rest),
            "repeat" => self.pattern.open(line, rest),
            "}" => self.pattern.close(),
            "row" => {
                let field = ("row", 0, TICK_BYTES / 4);
                let numbers = numbers(field, rest)?;
                self.uses(line, Use::Field("row"));
                put(&mut self.input, field, &numbers);
                self.tick()
            }
            "aircraft" | "seed" | "noise" | "camera" => self.aircraft(line, name, rest),
            "desk" => self.desk(line, rest),
            "exchange" => self.exchange(line, rest),
            "centre" => self.centre(line, rest),
            _ => wrong(name, format!("no such field; there are {}", names())),
        }
    }

    fn set_up(&mut self, line: usize, field: Field, rest: &[&str]) -> Result<(), Wrong> {
        let (name, first, count) = field;
        if !self.inputs.is_empty() {
            return wrong(name, "belongs to the set-up, which stands before the first tick");
        }
        if let Some(before) = self.given.iter().skip(first).take(count).find(|line| **line > 0) {
            return wrong(name, format!("given before, in line {before}"));
        }
        let numbers = numbers(field, rest)?;
        put(&mut self.set_up, field, &numbers);
        self.given.iter_mut().skip(first).take(count).for_each(|given| *given = line);
        Ok(())
    }

    /// A field of the set-up that is no word of it: before the first tick, and once.
    fn once(&mut self, line: usize, name: &'static str) -> Result<(), Wrong> {
        if !self.inputs.is_empty() {
            return wrong(name, "belongs to the set-up, which stands before the first tick");
        }
        if let Some((before, _)) = self.uses.iter().find(|(_, used)| *used == Use::Field(name)) {
            return wrong(name, format!("given before, in line {before}"));
        }
        self.uses(line, Use::Field(name));
        Ok(())
    }

    fn profile(&mut self, line: usize, rest: &[&str]) -> Result<(), Wrong> {
        self.once(line, "profile")?;
        self.profile = Some(one_of("profile", &PROFILES, rest)?);
        Ok(())
    }

    /// Whether an aircraft is simulated, and with what.
    fn aircraft(&mut self, line: usize, name: &str, rest: &[&str]) -> Result<(), Wrong> {
        match name {
            "aircraft" => {
                self.once(line, "aircraft")?;
                self.flies = one_of("aircraft", &[("typed", false), ("simulated", true)], rest)?;
            }
            "seed" => {
                self.once(line, "seed")?;
                let [seed] = rest else { return wrong("seed", format!("takes 1 number, here are {}", rest.len())) };
                let most = u32::MAX;
                self.aircraft.seed = match seed.parse::<u32>() {
                    Ok(seed) => seed.into(),
                    Err(_) => return wrong("seed", format!("`{seed}` is no whole number from 0 to {most}")),
                };
            }
            "noise" => {
                self.once(line, "noise")?;
                let [noise] = rest else { return wrong("noise", format!("takes 1 number, here are {}", rest.len())) };
                self.aircraft.gyro_noise = match noise.parse::<f64>() {
                    Ok(noise) if (0.0..=MOST_NOISE).contains(&noise) => noise,
                    _ => return wrong("noise", format!("`{noise}` is no deviation from 0 to {MOST_NOISE} rad/s")),
                };
            }
            _ => {
                self.once(line, "camera")?;
                self.aircraft.roams = one_of("camera", &[("steady", false), ("roams", true)], rest)?;
            }
        }
        Ok(())
    }

    /// The three sticks' filters.
    fn desk(&mut self, line: usize, rest: &[&str]) -> Result<(), Wrong> {
        self.once(line, "desk")?;
        let numbers = numbers(("desk", 0, DESK_SETUP_BYTES / 4), rest)?;
        let stick = |at: usize| {
            let number = |k: usize| numbers.get(3 * at + k).copied().unwrap_or(0.0);
            Stick { omega_n: number(0), max_mag: number(1), max_rate: number(2) }
        };
        self.desk = Some(DeskSetUp { heading: stick(0), turn: stick(1), zoom: stick(2) });
        Ok(())
    }

    fn event(&mut self, line: usize, event: Event) {
        self.events.push((line, self.inputs.len(), event));
    }

    fn centre(&mut self, line: usize, rest: &[&str]) -> Result<(), Wrong> {
        if !rest.is_empty() {
            return wrong("centre", "is the desk's button, and takes nothing");
        }
        self.uses(line, Use::Field("centre"));
        self.event(line, Event::Centre);
        Ok(())
    }

    fn exchange(&mut self, line: usize, rest: &[&str]) -> Result<(), Wrong> {
        if self.inputs.is_empty() {
            return wrong("exchange", "stands between ticks; before the first one p0 to t are the segment, or the legs");
        }
        let start = 9;
        let event = match rest {
            ["here", end @ ..] => {
                let end = numbers(("exchange here", 0, LEG_BYTES / 4 - start), end)?;
                Event::Exchange { leg: leg_of(&[vec![0.0; start], end].concat()), here: true }
            }
            _ => Event::Exchange { leg: leg_of(&numbers(("exchange", 0, LEG_BYTES / 4), rest)?), here: false },
        };
        self.event(line, event);
        Ok(())
    }

    /// Whose command is flown from here on, where there is a planner: what is typed, or its own.
    fn planner(&mut self, line: usize, typed: bool, given: &[&str]) -> Result<(), Wrong> {
        let field = if typed { ("planner typed", PLANNER, 3) } else { ("planner simulated", PLANNER, 0) };
        let numbers = numbers(field, given)?;
        put(&mut self.input, field, &numbers);
        self.uses(line, Use::Plans);
        self.planner_typed = typed;
        self.event(line, Event::Planner { typed });
        Ok(())
    }

    /// What is told of, if it does not fit the rest.
    fn uses(&mut self, line: usize, used: Use) {
        if !self.uses.iter().any(|(_, before)| *before == used) {
            self.uses.push((line, used));
        }
    }

    /// A step that is told of, if an aircraft is simulated.
    fn step(&mut self, line: usize, (name, ..): Field, numbers: &[f32]) {
        if name == "dt" && !numbers.iter().all(|dt| *dt > 0.0 && *dt <= LONGEST) {
            self.uses(line, Use::Step);
        }
    }

    /// What does not go with a simulated aircraft or a desk, or not without.
    fn fits(&self) -> Result<(), Mistake> {
        let (flies, desk) = (self.flies, self.desk.is_some());
        let misfit = |used: &Use| match *used {
            Use::Field(name) if flies && FLOWN.contains(&name) => {
                let typed = if name == "planner" { ", or write `planner typed` and numbers" } else { "" };
                Some((name, format!("comes from the simulated aircraft, as all of {} do: leave it out{typed}", FLOWN.join(", "))))
            }
            Use::Field(name) if desk && STEERED.contains(&name) => Some((name, "comes from the desk: its sticks give it".to_string())),
            Use::Field("row") if flies => Some(("row", "has numbers that come from the simulated aircraft: take `tick`".to_string())),
            Use::Field("row") if desk => Some(("row", "has a heading, which comes from the desk: take `tick`".to_string())),
            Use::Field(name @ ("seed" | "noise" | "camera")) if !flies => {
                Some((name, "is of a simulated aircraft, and there is no line `aircraft simulated`".to_string()))
            }
            Use::Field(name @ ("sticks" | "centre")) if !desk => Some((name, "is of a desk, and there is no line `desk`".to_string())),
            Use::Plans if !flies => {
                Some(("planner", "is typed, for there is no line `aircraft simulated`: give its numbers alone".to_string()))
            }
            Use::Step if flies => Some(("dt", format!("a step of the simulated aircraft is above 0 and at most {LONGEST} s"))),
            _ => None,
        };
        let first = self.uses.iter().find_map(|(line, used)| misfit(used).map(|(field, what)| (*line, field, what)));
        let late = || {
            let acts = |event: &Event| match event {
                Event::Exchange { .. } => Some("exchange"),
                Event::Centre => Some("centre"),
                Event::Planner { .. } => None,
            };
            let behind = self.events.iter().filter(|(_, tick, _)| *tick >= self.inputs.len());
            behind.filter_map(|(line, _, event)| Some((*line, acts(event)?, "no tick follows it".to_string()))).next()
        };
        match first.or_else(late) {
            Some((line, field, what)) => Err(Mistake { line, field: field.to_string(), what }),
            None => Ok(()),
        }
    }

    fn leg(&mut self, line: usize, rest: &[&str]) -> Result<(), Wrong> {
        self.pattern.leg(line, leg_of(&numbers(("leg", 0, LEG_BYTES / 4), rest)?));
        Ok(())
    }

    /// Where there are legs, nobody would fly what is said of the segment.
    fn one_way(&self, name: &str) -> Result<(), Wrong> {
        let given = |(field, first, _): &Field| self.given.get(*first).filter(|line| **line > 0).map(|line| (*field, *line));
        match SET_UP.iter().filter(|(_, first, _)| SEGMENT.contains(first)).find_map(given) {
            Some((field, line)) if !self.pattern.is_empty() => wrong(
                name,
                format!("{field} of line {line} is the segment's, and the legs are flown in its place: leave out one or the other"),
            ),
            _ => Ok(()),
        }
    }

    /// Crews turned the filter off with a cut-off of 0, so the sentence says what to write instead.
    fn filters(given: &[usize], set_up: &SetUp) -> Result<(), Mistake> {
        let Err(Refusal::PassThrough) = Image::set_up(set_up) else { return Ok(()) };
        let line = given.iter().skip(FC).take(2).copied().max().unwrap_or(0);
        let (GyroFilter { fc, fs }, usual) = (set_up.filter, SetUp::falcon_quad().filter);
        let what = format!(
            "with fc {fc} and fs {fs} the gyro would not be filtered, which set-up refuses (11): give an fc above 0 and below half of fs, or leave \
             both out for {} of {}",
            usual.fc, usual.fs
        );
        Err(Mistake { line, field: "fc".to_string(), what })
    }

    /// `tick N`, and fields that go evenly to the numbers that follow.
    fn ticks(&mut self, line: usize, rest: &[&str]) -> Result<(), Wrong> {
        let [count, rest @ ..] = rest else {
            return wrong("tick", "how many? as in `tick 100`");
        };
        let n = match count.parse::<usize>() {
            Ok(n) if n > 0 => n,
            _ => return wrong("tick", format!("`{count}` is no whole number above 0")),
        };
        if n > MOST_TICKS - self.inputs.len() {
            return wrong("tick", format!("more than {MOST_TICKS} ticks in all"));
        }
        let (from, mut to, mut rest) = (self.input.clone(), self.input.clone(), rest);
        while let [name, more @ ..] = rest {
            let Some(field) = find(&INPUT, name) else {
                return wrong("tick", format!("`{name}` is no field of an input; there are {}", INPUT.map(|field| field.0).join(", ")));
            };
            let end = more.iter().position(|word| find(&INPUT, word).is_some()).unwrap_or(more.len());
            let (own, others) = more.split_at(end);
            let numbers = numbers(field, own)?;
            let led = *name == "planner" && self.planner_typed;
            self.uses(line, if led { Use::Plans } else { Use::Field(field.0) });
            self.step(line, field, &numbers);
            put(&mut to, field, &numbers);
            rest = others;
        }
        for k in 1..=n {
            let part = k as f64 / n as f64;
            for ((now, from), to) in self.input.iter_mut().zip(&from).zip(&to) {
                // where nothing moves, and at the end, the very bits
                let between = || (f64::from(*from) + part * (f64::from(*to) - f64::from(*from))) as f32;
                *now = if k == n || from.to_bits() == to.to_bits() { *to } else { between() };
            }
            self.tick()?;
        }
        Ok(())
    }

    fn tick(&mut self) -> Result<(), Wrong> {
        if self.inputs.len() >= MOST_TICKS {
            return wrong("row", format!("more than {MOST_TICKS} ticks in all"));
        }
        let input =
            TickInput::from_bytes(&bytes_of::<TICK_BYTES>(&self.input)).map_err(|refusal| ("tick".to_string(), refusal.to_string()))?;
        self.inputs.push(input);
        if let ([.., heading, turn, zoom], Some(_)) = (&self.input[..], &self.desk) {
            self.sticks.push(Sticks { heading: *heading, turn: *turn, zoom: *zoom });
        }
        Ok(())
    }
}

impl Default for Reader {
    fn default() -> Self {
        Reader::new()
    }
}

/// Each field of a file with its line, its words, and the line as it is; without comments.
pub fn lines(bytes: &[u8], mut field: impl FnMut(usize, &str, &[&str], &str) -> Result<(), Wrong>) -> Result<(), Mistake> {
    let text = std::str::from_utf8(bytes).map_err(|error| {
        let line = bytes.iter().take(error.valid_up_to()).filter(|byte| **byte == b'\n').count() + 1;
        Mistake { line, field: String::new(), what: "not UTF-8 text".to_string() }
    })?;
    for (at, line) in text.trim_start_matches('\u{feff}').lines().enumerate() {
        let (words, _) = line.split_once('#').unwrap_or((line, ""));
        // a brace is a word of its own
        let words = words.replace('{', " { ").replace('}', " } ");
        let words: Vec<&str> = words.split_whitespace().collect();
        let mut rest = words.as_slice();
        while let [name, more @ ..] = rest {
            let (own, others) = more.split_at(pattern::own(name, more));
            field(at + 1, name, own, line).map_err(|(field, what)| Mistake { line: at + 1, field, what })?;
            rest = others;
        }
    }
    Ok(())
}

/// Whether this is a field that stands before the first tick.
pub fn of_set_up(name: &str) -> bool {
    find(&SET_UP, name).is_some() || ["profile", "leg", "repeat", "}"].contains(&name)
}

/// The numbers of a set-up by their fields, each once; the profile apart.
pub fn set_up_words(set_up: &SetUp) -> impl Iterator<Item = (&'static str, Vec<f32>)> {
    let each = SET_UP.into_iter().filter(|(name, ..)| !SEVERAL.contains(name));
    by_field(each, floats(&set_up.to_bytes()))
}

/// And those of an input; the sticks apart.
pub fn input_words(input: &TickInput) -> impl Iterator<Item = (&'static str, Vec<f32>)> {
    by_field(INPUT.into_iter().filter(|(_, first, _)| *first < STICKS), floats(&input.to_bytes()))
}

fn by_field(fields: impl Iterator<Item = Field>, words: Vec<f32>) -> impl Iterator<Item = (&'static str, Vec<f32>)> {
    fields.map(move |(name, first, count)| (name, words.iter().skip(first).take(count).copied().collect()))
}

/// A leg's nineteen numbers.
pub fn leg_of(n: &[f32]) -> Leg {
    let three = |at: usize| std::array::from_fn(|k| n.get(at + k).copied().unwrap_or(0.0));
    Leg { p0: three(0), v0: three(3), a0: three(6), pf: three(9), vf: three(12), af: three(15), t: n.last().copied().unwrap_or(0.0) }
}

fn names() -> String {
    fields().into_iter().flatten().map(|field| field.0).chain(OTHERS).collect::<Vec<_>>().join(", ")
}

/// One of these words.
fn one_of<T: Copy>(name: &str, words: &[(&str, T)], rest: &[&str]) -> Result<T, Wrong> {
    match words.iter().find(|(word, _)| rest == [*word]) {
        Some((_, meant)) => Ok(*meant),
        None => wrong(name, format!("is {}", words.iter().map(|(word, _)| *word).collect::<Vec<_>>().join(" or "))),
    }
}

/// The fields of a set-up and of an input, each with how many numbers it takes; the sticks, which no input has, apart.
pub fn fields() -> [Vec<(&'static str, usize)>; 2] {
    let words = INPUT.len() - 1;
    [&SET_UP[..], &INPUT[..words]].map(|fields| fields.iter().map(|(name, _, count)| (*name, *count)).collect())
}

/// As many numbers as the field has words.
pub fn numbers((name, _, count): Field, words: &[&str]) -> Result<Vec<f32>, Wrong> {
    if words.len() != count {
        return wrong(name, format!("takes {count} number{}, here are {}", if count == 1 { "" } else { "s" }, words.len()));
    }
    words.iter().map(|word| number(word).map_err(|what| (name.to_string(), what))).collect()
}

/// A decimal, `nan`, `inf`, `-inf`, or `0x` and the bits.
pub fn number(word: &str) -> Result<f32, String> {
    if let Some(bits) = word.strip_prefix("0x") {
        let hex = bits.len() <= 8 && bits.bytes().all(|byte| byte.is_ascii_hexdigit());
        return match u32::from_str_radix(bits, 16) {
            Ok(bits) if hex => Ok(f32::from_bits(bits)),
            _ => Err(format!("`{word}` is no pattern of 32 bits")),
        };
    }
    match word.parse::<f32>() {
        Ok(x) if x.is_infinite() && !word.to_ascii_lowercase().contains("inf") => Err(format!("`{word}` is beyond f32; write inf or -inf")),
        Ok(x) => Ok(x),
        Err(_) => Err(format!("`{word}` is no number")),
    }
}

fn put(words: &mut [f32], (_, first, _): Field, numbers: &[f32]) {
    words.iter_mut().skip(first).zip(numbers).for_each(|(word, number)| *word = *number);
}

fn floats(bytes: &[u8]) -> Vec<f32> {
    bytes.chunks_exact(4).map(|four| f32::from_bits(four.iter().rev().fold(0, |word, byte| word << 8 | u32::from(*byte)))).collect()
}

fn bytes_of<const N: usize>(floats: &[f32]) -> [u8; N] {
    let mut bytes = [0; N];
    bytes.chunks_exact_mut(4).zip(floats).for_each(|(four, x)| four.copy_from_slice(&x.to_bits().to_le_bytes()));
    bytes
}
