//! What keeps a state, over long runs: after each step every field of it, and the step's answer, is compared.

use crate::generate::{self, Kind, Part, Rng};
use crate::routine::{alike, Hex};
use crate::words::{In, Out, Words, MOST};
use archives::{adrc, geo, traj};
use oracle::adrc as their_adrc;
use oracle::geo as their_geo;
use oracle::traj as their_traj;
use std::fmt;

/// One thing that can happen to a state.
pub struct Event<O, T> {
    pub name: &'static str,
    /// How often it happens beside the others.
    weight: usize,
    takes: Vec<Part>,
    /// Brings the input to where the state decides, now and then.
    edge: Option<fn(&O, &mut Rng, &mut [f32])>,
    ours: fn(O, &mut In, &mut Out) -> O,
    theirs: fn(&mut T, &mut In, &mut Out),
}

/// A state of ours and of theirs, how it begins, and what can happen to it.
pub struct Machine<O, T> {
    pub name: &'static str,
    set_up: Vec<Part>,
    ours: fn(&mut In) -> O,
    theirs: fn(&mut In) -> T,
    events: Vec<Event<O, T>>,
}

/// A step after which the two sides differ.
pub struct Parted {
    pub machine: &'static str,
    pub run: u64,
    pub step: u64,
    pub event: &'static str,
    pub before: Vec<f32>,
    pub given: Vec<f32>,
    pub ours: Vec<f32>,
    pub theirs: Vec<f32>,
}

impl fmt::Display for Parted {
    fn fmt(&self, f: &mut fmt::Formatter<'_>) -> fmt::Result {
        writeln!(f, "{}: run {}, step {} ({})", self.machine, self.run, self.step, self.event)?;
        writeln!(f, "  before {}", Hex(&self.before))?;
        writeln!(f, "  given  {}", Hex(&self.given))?;
        writeln!(f, "  ours   {}", Hex(&self.ours))?;
        write!(f, "  theirs {}", Hex(&self.theirs))
    }
}

impl<O: Words + Copy, T: Words> Machine<O, T> {
    fn new(name: &'static str, set_up: &[Part], ours: fn(&mut In) -> O, theirs: fn(&mut In) -> T) -> Self {
        Machine { name, set_up: set_up.to_vec(), ours, theirs, events: Vec::new() }
    }

    /// With one thing more that can happen to it.
    fn event(
        mut self,
        name: &'static str,
        weight: usize,
        takes: &[Part],
        ours: fn(O, &mut In, &mut Out) -> O,
        theirs: fn(&mut T, &mut In, &mut Out),
    ) -> Self {
        self.events.push(Event { name, weight, takes: takes.to_vec(), edge: None, ours, theirs });
        self
    }

    /// With the last event's input near where the state decides.
    fn near(mut self, edge: fn(&O, &mut Rng, &mut [f32])) -> Self {
        self.events.iter_mut().last().into_iter().for_each(|event| event.edge = Some(edge));
        self
    }

    /// The same machine, with another in the place of what ours does at the event of this name.
    pub fn with_ours(mut self, event: &str, ours: fn(O, &mut In, &mut Out) -> O) -> Self {
        self.events.iter_mut().filter(|known| known.name == event).for_each(|known| known.ours = ours);
        self
    }

    /// Runs it `runs` times for `steps` steps from set-ups of every kind; the first step after which anything differs.
    pub fn run(&self, runs: u64, steps: u64) -> Option<Parted> {
        (0..runs).find_map(|run| self.run_once(run, steps))
    }

    fn run_once(&self, run: u64, steps: u64) -> Option<Parted> {
        let mut rng = Rng::new(self.name, run);
        // most runs begin as flights do
        let kind = match run % 8 {
            0 => Kind::Bits,
            1 => Kind::Special,
            2 => Kind::Damaged,
            _ => Kind::Flight,
        };
        // and how much of what comes in is bad: nothing, or one input in 64, or in 4
        let bad = [0, 0, 64, 4][(run / 8 % 4) as usize];
        let mut words = [0.0; MOST];
        let given = &mut words[..count(&self.set_up)];
        generate::fill_as(kind, &self.set_up, None, run, &mut rng, given);
        let mut ours = (self.ours)(&mut In::new(given));
        let mut theirs = (self.theirs)(&mut In::new(given));
        let parted = |step, event, before: &Out, given: &[f32], ours: &Out, theirs: &Out| Parted {
            machine: self.name,
            run,
            step,
            event,
            before: before.words().to_vec(),
            given: given.to_vec(),
            ours: ours.words().to_vec(),
            theirs: theirs.words().to_vec(),
        };
        let (a, b) = (state(&ours), state(&theirs));
        if !alike(a.words(), b.words()) {
            return Some(parted(0, "set-up", &Out::new(), given, &a, &b));
        }
        let weights: usize = self.events.iter().map(|event| event.weight).sum();
        let mut before = a;
        for step in 1..=steps {
            let event = self.choose(rng.below(weights))?;
            let mut words = [0.0; MOST];
            let given = &mut words[..count(&event.takes)];
            let kind = match bad {
                0 => Kind::Flight,
                n if rng.below(n) > 0 => Kind::Flight,
                _ => [Kind::Bits, Kind::Special, Kind::Damaged][rng.below(3)],
            };
            generate::fill_as(kind, &event.takes, None, rng.bits(), &mut rng, given);
            if let (Kind::Flight, Some(edge), 0) = (kind, event.edge, rng.below(3)) {
                edge(&ours, &mut rng, given);
            }
            let (mut a, mut b) = (Out::new(), Out::new());
            ours = (event.ours)(ours, &mut In::new(given), &mut a);
            (event.theirs)(&mut theirs, &mut In::new(given), &mut b);
            ours.put(&mut a);
            theirs.put(&mut b);
            if !alike(a.words(), b.words()) {
                return Some(parted(step, event.name, &before, given, &a, &b));
            }
            before = state(&ours);
        }
        None
    }

    fn choose(&self, mut at: usize) -> Option<&Event<O, T>> {
        self.events.iter().find(|event| {
            let here = at < event.weight;
            at = at.saturating_sub(event.weight);
            here
        })
    }
}

fn count(parts: &[Part]) -> usize {
    parts.iter().map(|part| part.count()).sum::<usize>().min(MOST)
}

fn state(of: &impl Words) -> Out {
    let mut o = Out::new();
    of.put(&mut o);
    o
}

const RATE: Part = Part::Number(10.0);
const RATES: Part = Part::Vector(10.0);
const ADRC_GAINS: [Part; 4] = [Part::Above(60.0), Part::Above(20.0), Part::Above(80.0), Part::Above(0.05)];

pub fn simplex_shield() -> Machine<geo::SimplexShield, their_geo::SimplexShield> {
    Machine::new(
        "SimplexShield",
        &[Part::Above(2.0), Part::Above(0.1), Part::Above(2.0), Part::Above(1.0), Part::Above(2.0)],
        |i| geo::simplexshield_new(i.get(), i.get(), i.get()),
        |i| their_geo::SimplexShield::new(i.get(), i.get(), i.get()),
    )
    .event(
        "step",
        3,
        &[Part::Number(2.5), RATES, RATES],
        |shield, i, o| {
            let answer = geo::simplexshield_step(shield, i.get(), i.get(), i.get());
            (answer.command, answer.fallback).put(o);
            answer.shield
        },
        |shield, i, o| shield.step(i.get(), i.get(), i.get()).put(o),
    )
    .near(|shield, rng, words| {
        let at = rng.of(&[shield.enter, shield.exit]).unwrap_or(0.0);
        words[0] = rng.near(at);
    })
    .event(
        "filter",
        1,
        &[Part::Above(2.5), Part::Above(100.0), RATES, RATES],
        |shield, i, o| {
            let answer = geo::simplexshield_filter(shield, i.get(), i.get(), i.get(), i.get());
            (answer.command, answer.fallback).put(o);
            answer.shield
        },
        |shield, i, o| shield.filter(i.get(), i.get(), i.get(), i.get()).put(o),
    )
    .near(|shield, rng, words| {
        let at = rng.of(&[shield.enter, shield.exit]).unwrap_or(0.0);
        words[0] = shield.set.psi_max - rng.near(at);
        words[1] = 0.0;
    })
}

pub fn ref_governor() -> Machine<traj::RefGovernor, their_traj::RefGovernor> {
    Machine::new(
        "RefGovernor",
        &[Part::Above(2.0), Part::Above(4.0), Part::Above(1.2)],
        |i| traj::refgovernor_new(i.get(), i.get(), i.get()),
        |i| their_traj::RefGovernor::new(i.get(), i.get(), i.get()),
    )
    .event(
        "advance",
        400,
        &[Part::Number(5.0), Part::Step],
        |governor, i, o| {
            let answer = traj::refgovernor_advance(governor, i.get(), i.get());
            answer.time.put(o);
            answer.governor
        },
        |governor, i, o| governor.advance(i.get(), i.get()).put(o),
    )
    .near(|governor, rng, words| {
        let at = rng.of(&[governor.err_lo, governor.err_hi]).unwrap_or(0.0);
        words[0] = rng.near(at);
        // a long step, now and then, to where a short one is lost
        if rng.below(64) == 0 {
            words[1] = rng.of(&[4096.0, 32768.0, 1e20, f32::MAX]).unwrap_or(0.0);
        }
    })
    .event("reset", 1, &[], |governor, _, _| traj::refgovernor_reset(governor), |governor, _, _| governor.reset())
}

pub fn adrc_axis() -> Machine<adrc::AdrcAxis, their_adrc::AdrcAxis> {
    Machine::new("AdrcAxis", &ADRC_GAINS, |i| adrc::adrcaxis_new(i.get()), |i| their_adrc::AdrcAxis::new(i.get()))
        .event(
            "tick",
            300,
            &[RATE, RATE, Part::Step],
            |axis, i, o| {
                let answer = adrc::adrcaxis_tick(axis, i.get(), i.get(), i.get());
                answer.u.put(o);
                answer.axis
            },
            |axis, i, o| axis.tick(i.get(), i.get(), i.get()).put(o),
        )
        .near(|_, rng, words| words[2] = rng.near_one(&[1e-4, 0.1, 1e-3]))
        .event(
            "set_delivered_fraction",
            100,
            &[Part::Number(1.5)],
            |axis, i, _| adrc::adrcaxis_set_delivered_fraction(axis, i.get()),
            |axis, i, _| axis.set_delivered_fraction(i.get()),
        )
        .near(|_, rng, words| words[0] = rng.near_one(&[0.0, 1.0]))
        .event("reset", 1, &[], |axis, _, _| adrc::adrcaxis_reset(axis), |axis, _, _| axis.reset())
}

pub fn adrc_rate() -> Machine<adrc::AdrcRate, their_adrc::AdrcRate> {
    Machine::new(
        "AdrcRate",
        &[ADRC_GAINS, ADRC_GAINS, ADRC_GAINS].concat(),
        |i| adrc::adrcrate_new(i.get(), i.get(), i.get()),
        |i| their_adrc::AdrcRate::new(i.get()),
    )
    .event(
        "tick",
        300,
        &[RATES, RATES, Part::Step],
        |rate, i, o| {
            let answer = adrc::adrcrate_tick(rate, i.get(), i.get(), i.get());
            answer.torque.put(o);
            adrc::adrcrate_disturbance(answer.rate).put(o);
            answer.rate
        },
        |rate, i, o| {
            rate.tick(i.get(), i.get(), i.get()).put(o);
            rate.disturbance().put(o);
        },
    )
    .near(|_, rng, words| words[6] = rng.near_one(&[1e-4, 0.1, 1e-3]))
    .event(
        "set_delivered_fraction",
        100,
        &[Part::Vector(1.5)],
        |rate, i, _| adrc::adrcrate_set_delivered_fraction(rate, i.get()),
        |rate, i, _| rate.set_delivered_fraction(i.get()),
    )
    .event("reset", 1, &[], |rate, _, _| adrc::adrcrate_reset(rate), |rate, _, _| rate.reset())
}

pub fn biquad() -> Machine<adrc::Biquad, their_adrc::Biquad> {
    Machine::new(
        "Biquad",
        &[Part::Above(500.0), Part::Above(2000.0)],
        |i| adrc::biquad_lowpass(i.get(), i.get()),
        |i| their_adrc::Biquad::lowpass(i.get(), i.get()),
    )
    .event(
        "filter",
        1,
        &[RATE],
        |filter, i, o| {
            let answer = adrc::biquad_filter(filter, i.get());
            answer.y.put(o);
            answer.biquad
        },
        |filter, i, o| filter.filter(i.get()).put(o),
    )
    .near(|_, rng, words| words[0] = rng.near_one(&[0.0, 0.0, 1e30]))
}

pub fn gyro_lpf() -> Machine<adrc::GyroLpf, their_adrc::GyroLpf> {
    Machine::new(
        "GyroLpf",
        &[Part::Above(500.0), Part::Above(2000.0)],
        |i| adrc::gyrolpf_new(i.get(), i.get()),
        |i| their_adrc::GyroLpf::new(i.get(), i.get()),
    )
    .event(
        "filter",
        1,
        &[RATES],
        |filter, i, o| {
            let answer = adrc::gyrolpf_filter(filter, i.get());
            answer.rate.put(o);
            answer.lpf
        },
        |filter, i, o| filter.filter(i.get()).put(o),
    )
}

pub fn command_filter() -> Machine<adrc::CommandFilter, their_adrc::CommandFilter> {
    Machine::new(
        "CommandFilter",
        &[Part::Above(20.0), Part::Above(10.0), Part::Above(50.0)],
        |i| adrc::commandfilter_new(i.get(), i.get(), i.get()),
        |i| their_adrc::CommandFilter::new(i.get(), i.get(), i.get()),
    )
    .event(
        "step",
        400,
        &[RATE, Part::Step],
        |filter, i, o| {
            let answer = adrc::commandfilter_step(filter, i.get(), i.get());
            answer.y.put(o);
            adrc::commandfilter_value(answer.filter).put(o);
            adrc::commandfilter_rate(answer.filter).put(o);
            answer.filter
        },
        |filter, i, o| {
            filter.step(i.get(), i.get()).put(o);
            filter.value().put(o);
            filter.rate().put(o);
        },
    )
    .near(|_, rng, words| words[1] = rng.near_one(&[1e-4, 0.1, 1e-3]))
    .event("reset", 1, &[], |filter, _, _| adrc::commandfilter_reset(filter), |filter, _, _| filter.reset())
}

pub fn command_filter_3() -> Machine<adrc::CommandFilter3, their_adrc::CommandFilter3> {
    Machine::new(
        "CommandFilter3",
        &[Part::Above(20.0), Part::Above(10.0), Part::Above(50.0)],
        |i| adrc::commandfilter3_new(i.get(), i.get(), i.get()),
        |i| their_adrc::CommandFilter3::new(i.get(), i.get(), i.get()),
    )
    .event(
        "step",
        400,
        &[RATES, Part::Step],
        |filter, i, o| {
            let answer = adrc::commandfilter3_step(filter, i.get(), i.get());
            answer.y.put(o);
            answer.filter
        },
        |filter, i, o| filter.step(i.get(), i.get()).put(o),
    )
    .near(|_, rng, words| words[3] = rng.near_one(&[1e-4, 0.1, 1e-3]))
    .event("reset", 1, &[], |filter, _, _| adrc::commandfilter3_reset(filter), |filter, _, _| filter.reset())
}
