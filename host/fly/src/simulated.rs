//! A scenario flown: its ticks, exchanges and sticks, with what is typed or by the simulated aircraft of the slow pass.

use crate::above::Panel;
use crate::aircraft::Rotors;
use crate::flight::{Flight, Rule};
use crate::legs::by_leg;
use crate::pass::{self, Air, Heading};
use crate::planner::{Planner, Reference};
use crate::random::Random;
use crate::scenario::{Event, Scenario};
use crate::vector::{norm, sub, Quat, V3};
use fosavalo::{Governor, Image, Profile, TickInput};
use fosavalo_desk::{Desk, Refusal, Sticks};
use std::fmt::Write;

/// The longest step that the aircraft is simulated with, s: its motors lag 12.5 ms.
pub const LONGEST: f32 = 0.01;
/// The most noise of a gyro, rad/s.
pub const MOST_NOISE: f64 = 10.0;
/// Beyond this the core takes a heading for none.
const HEADINGS: f32 = 8192.0;
/// Points of a way in the picture.
const POINTS: usize = 2000;

/// What a simulated aircraft flies with.
#[derive(Clone, Copy, Debug, PartialEq)]
pub struct Simulated {
    pub seed: u64,
    /// Deviation, rad/s.
    pub gyro_noise: f64,
    /// Whether the planner looks about as it does in the slow pass, or does what is asked.
    pub roams: bool,
}

impl Default for Simulated {
    fn default() -> Self {
        Simulated { seed: pass::DRAWN, gyro_noise: pass::SHOWN.gyro_noise, roams: false }
    }
}

pub struct Flown {
    pub flight: Flight,
    /// Where the simulated aircraft was at each tick, and where it was wanted; nowhere without one.
    pub places: Vec<Place>,
}

#[derive(Clone, Copy)]
pub struct Place {
    pub is: V3,
    pub wanted: V3,
}

impl Flown {
    /// From above.
    pub fn panel(&self, caption: &str) -> Panel {
        let every = self.places.len().div_ceil(POINTS).max(1);
        let places = || self.places.iter().zip(self.flight.ticks.iter()).step_by(every);
        Panel {
            caption: caption.to_string(),
            wanted: places().map(|(place, _)| place.wanted).collect(),
            flown: places().map(|(place, tick)| (place.is, tick.answer.pilot)).collect(),
        }
    }
}

/// How far from the way both aircraft were, and what happened on each leg where there are some.
pub fn table([ours, earlier]: [&Flight; 2]) -> String {
    let mut text = format!("{:32}{:>16}{:>20}\n", "metres from the way", "our shield", "the earlier rule");
    let most = |flight: &Flight| flight.ticks.iter().map(|tick| tick.input.tracking_error).fold(0.0, f32::max);
    let last = |flight: &Flight| flight.ticks.last().map_or(0.0, |tick| tick.input.tracking_error);
    for (name, [a, b]) in [("at most", [ours, earlier].map(most)), ("at the end", [ours, earlier].map(last))] {
        let _ = writeln!(text, "{name:32}{a:16.2}{b:20.2}");
    }
    if ours.route.is_some() {
        let _ = write!(text, "\n{}", by_leg("On each leg, our shield", ours));
    }
    text
}

/// A simulated aircraft and its planner.
struct Craft {
    air: Air,
    planner: Planner,
    whims: Random,
    roams: bool,
    /// Whether the planner says what is typed.
    typed: bool,
}

impl Craft {
    /// Level where the way begins, as fast as that goes there; with a rotor lost, that is known.
    fn at(start: Reference, yaw: f32, profile: Profile, Simulated { seed, gyro_noise, roams }: Simulated) -> Self {
        let yaw = if yaw.abs() <= HEADINGS { yaw } else { 0.0 };
        let (mut air, mut whims) = (Air::at(start.position, f64::from(yaw), gyro_noise, seed), Random::new(2 * seed));
        air.aircraft.velocity = start.velocity;
        if profile == Profile::LostRotor {
            air.aircraft.rotors = Rotors::Three;
        }
        Craft { air, planner: Planner::new(&mut whims), whims, roams, typed: false }
    }

    /// One tick of the flight, and the aircraft flies on; where it was.
    fn tick(&mut self, given: &TickInput, core: &mut Core) -> Result<Place, Refusal> {
        let Craft { air, planner, whims, roams, typed } = self;
        let reference = Reference::from(core.flight.way(core.image.time())?);
        let place = Place { is: air.aircraft.position, wanted: reference.position };
        let reference = reference.at_pace(pace(&core.flight.set_up.governor, norm(sub(place.is, place.wanted))));
        // what the planner knows of a desk's heading is the last one
        let (yaw, turn) = core.desk.as_ref().map_or((given.yaw, given.yaw_rate), |(desk, _)| (desk.heading(), desk.turn()));
        let heading = Heading { yaw: f64::from(yaw), turn: f64::from(turn), own: !*roams };
        let lost = core.flight.set_up.profile == Profile::LostRotor;
        let rate = |attitude: Quat, wanted: V3| match (*typed, lost) {
            (true, _) => [0.0; 3],
            (false, true) => Planner::rate_level(attitude),
            (false, false) => planner.toward(&heading, attitude, wanted, f64::from(given.dt), whims),
        };
        air.dt = given.dt;
        air.tick_by(&reference, &heading, rate, |input| {
            let planner = if *typed { given.planner } else { input.planner };
            // the very bits, which may be no heading
            core.tick(TickInput { planner, yaw: given.yaw, yaw_rate: given.yaw_rate, ..input })
        })?;
        Ok(place)
    }
}

/// At which part of its pace the clock of the way runs, so far from it: the governor's rule.
fn pace(&Governor { err_lo, err_hi, g_min }: &Governor, error: f64) -> f64 {
    let [low, high] = [err_lo, err_hi].map(f64::from);
    let least = if g_min.is_finite() { f64::from(g_min).clamp(0.0, 1.0) } else { 0.0 };
    match [error, low, high].iter().all(|x| x.is_finite()) && low < high {
        true => 1.0 - (1.0 - least) * ((error - low) / (high - low)).clamp(0.0, 1.0),
        false => least,
    }
}

/// The core, by a desk where there is one.
struct Core {
    flight: Flight,
    image: Image,
    desk: Option<(Desk, Sticks)>,
}

impl Core {
    fn tick(&mut self, input: TickInput) -> Result<fosavalo::Answer, Refusal> {
        match &mut self.desk {
            Some((desk, sticks)) => self.flight.desk_tick(&mut self.image, desk, sticks, input),
            None => Ok(self.flight.tick(&mut self.image, input)?),
        }
    }
}

impl Scenario {
    pub fn fly(&self, rule: Rule) -> Result<Flown, Refusal> {
        let (flight, image) = Flight::begin(&self.set_up, rule, self.route.clone())?;
        let mut sticks = self.desk.iter().flat_map(|(_, sticks)| sticks);
        let desk = self.desk.as_ref().map(|(set_up, _)| Ok::<_, Refusal>((Desk::set_up(set_up)?, Sticks::default()))).transpose()?;
        let yaw = self.inputs.first().filter(|_| desk.is_none()).map_or(0.0, |input| input.yaw);
        let start = Reference::from(flight.way(image.time())?);
        let mut craft = self.aircraft.map(|simulated| Craft::at(start, yaw, self.set_up.profile, simulated));
        let mut core = Core { flight, image, desk };
        let mut events = self.events.iter().peekable();
        let mut places = Vec::new();
        for (at, input) in self.inputs.iter().enumerate() {
            while let Some((_, event)) = events.next_if(|(tick, _)| *tick == at) {
                match (event, &mut core.desk, &mut craft) {
                    (Event::Exchange { leg, here }, ..) => {
                        let leg = if *here { core.flight.from_here(core.image.time(), *leg)? } else { *leg };
                        core.flight.exchange(&mut core.image, &leg)?;
                    }
                    (Event::Centre, Some((desk, _)), _) => desk.centre()?,
                    (Event::Planner { typed }, _, Some(craft)) => craft.typed = *typed,
                    _ => {}
                }
            }
            if let (Some((_, now)), Some(sticks)) = (&mut core.desk, sticks.next()) {
                *now = *sticks;
            }
            match &mut craft {
                Some(craft) => places.push(craft.tick(input, &mut core)?),
                None => drop(core.tick(*input)?),
            }
        }
        Ok(Flown { flight: core.flight, places })
    }
}

#[cfg(test)]
mod tests {
    use super::*;
    use fosavalo::{Segment, SetUp};

    /// What the core wants at a time of the way is the same however slowly that was reached.
    #[test]
    fn a_slow_clock_asks_for_the_same() {
        let segment = Segment { pf: [3.0, 0.0, 0.0], t: 2.0, ..SetUp::falcon_quad().segment };
        let psi = |tracking_error: f32, dt: f32| {
            let mut image = Image::set_up(&SetUp { segment, ..SetUp::falcon_quad() }).expect("no set-up is refused");
            let answer = image.tick(&TickInput { tracking_error, dt, ..TickInput::default() }).expect("no tick is refused");
            (answer.time, answer.psi)
        };
        let (time, full) = psi(0.0, 0.5);
        assert_eq!((time, full), psi(40.0, 2.0));
        assert!(time == 0.5 && full > 0.01);
    }

    /// The pace is that of the core's clock.
    #[test]
    fn the_pace_is_the_core_s() {
        let (mut slow, mut full) = (0, 0);
        for g_min in [0.25, 0.0, 1.0, -1.0, 3.0, f32::NAN, f32::INFINITY] {
            for (err_lo, err_hi) in [(0.2, 1.0), (0.0, 0.5), (1.0, 1.0), (2.0, 1.0), (f32::NAN, 1.0), (0.2, f32::INFINITY), (-1.0, 3.0)] {
                let governor = Governor { err_lo, err_hi, g_min };
                for tracking_error in [0.0, 0.1, 0.2, 0.3, 0.5, 0.99, 1.0, 1.5, 40.0, f32::NAN, f32::INFINITY] {
                    let mut image = Image::set_up(&SetUp { governor, ..SetUp::falcon_quad() }).expect("no set-up is refused");
                    let input = TickInput { tracking_error, dt: 1.0, ..TickInput::default() };
                    let clock = f64::from(image.tick(&input).expect("no tick is refused").time);
                    let own = pace(&governor, f64::from(tracking_error));
                    assert!((own - clock).abs() < 1e-6, "{governor:?} at {tracking_error}: {own}, {clock}");
                    *if clock < 1.0 { &mut slow } else { &mut full } += 1;
                }
            }
        }
        assert!(slow > 100 && full > 100);
    }
}
