//! What was flown, tick by tick, and who had control.

use crate::ticks::Ticks;
use fosavalo::{Answer, Image, Leg, Pilot, Refusal, Route, Sample, SetUp, TickInput};
use fosavalo_desk::{Desk, Sticks};

/// When the planner gets control back.
#[derive(Clone, Copy, Debug, PartialEq, Eq)]
pub enum Rule {
    /// The proved one: above exit.
    Shield,
    /// The earlier translation's: as soon as the margin rises over enter.
    Earlier,
}

pub const RULES: [Rule; 2] = [Rule::Shield, Rule::Earlier];

impl Rule {
    /// The set-up with which the core flies by this rule.
    ///
    /// The earlier rule is the core's own shield with exit one f32 above enter: nothing lies between them, so it is released as soon as
    /// the margin rises over enter. The two differ at a single number, a margin that is exactly that f32; `Flight::strays` looks.
    pub fn set_up(self, set_up: &SetUp) -> SetUp {
        let enter = set_up.kept().enter;
        match self {
            Rule::Shield => *set_up,
            Rule::Earlier => SetUp { enter, exit: enter.next_up(), ..*set_up },
        }
    }

    /// Who flies by this rule, worked out from the margins alone.
    pub fn pilots(self, enter: f32, exit: f32, margins: impl Iterator<Item = f32>) -> impl Iterator<Item = Pilot> {
        let above = match self {
            Rule::Shield => exit,
            Rule::Earlier => enter,
        };
        margins.scan(Pilot::Fallback, move |pilot, margin| {
            if !margin.is_finite() || margin < enter {
                *pilot = Pilot::Fallback;
            } else if margin > above {
                *pilot = Pilot::Planner;
            }
            Some(*pilot)
        })
    }
}

pub struct Flight {
    pub rule: Rule,
    /// What its image was set up with.
    pub set_up: SetUp,
    /// What is flown in place of the set-up's segment, where there is one.
    pub route: Option<Route>,
    /// Before which tick, counted from 0, the segment was exchanged, and for which.
    pub exchanges: Vec<(usize, Leg)>,
    /// Those of our shield, as mended by set-up.
    pub enter: f32,
    pub exit: f32,
    pub ticks: Ticks,
}

impl Flight {
    /// A flight of which nothing is flown yet, and its image.
    pub fn begin(set_up: &SetUp, rule: Rule, route: Option<Route>) -> Result<(Self, Image), Refusal> {
        let (mended, set_up) = (Image::set_up(set_up)?, rule.set_up(set_up));
        let (enter, exit) = (mended.enter(), mended.exit());
        let image = Image::set_up(&set_up)?;
        Ok((Flight { rule, set_up, route, exchanges: Vec::new(), enter, exit, ticks: Ticks::default() }, image))
    }

    /// The route, which is flown until a segment takes its place.
    pub fn on_route(&self) -> Option<&Route> {
        self.route.as_ref().filter(|_| self.exchanges.is_empty())
    }

    /// Where the way that is flown now is at a time, by the core.
    pub fn way(&self, time: f32) -> Result<Sample, Refusal> {
        match (self.on_route(), self.exchanges.last()) {
            (Some(route), _) => route.sample(time),
            (None, Some((_, leg))) => leg.sample(time),
            (None, None) => self.set_up.segment.sample(time),
        }
    }

    /// A segment that begins where the way is at a time, and ends as this one.
    pub fn from_here(&self, time: f32, end: Leg) -> Result<Leg, Refusal> {
        let now = self.way(time)?;
        Ok(Leg { p0: now.position, v0: now.velocity, a0: now.acceleration, ..end })
    }

    /// Another segment from here on.
    pub fn exchange(&mut self, image: &mut Image, leg: &Leg) -> Result<(), Refusal> {
        image.exchange(leg)?;
        self.exchanges.push((self.ticks.len(), *leg));
        Ok(())
    }

    /// One tick more.
    pub fn tick(&mut self, image: &mut Image, input: TickInput) -> Result<Answer, Refusal> {
        let answer = match self.on_route() {
            Some(route) => image.route_tick(&input, route)?,
            None => image.tick(&input)?,
        };
        self.ticks.push(input, answer);
        Ok(answer)
    }

    /// One from a desk, which writes its heading over the input's.
    pub fn desk_tick(
        &mut self,
        image: &mut Image,
        desk: &mut Desk,
        sticks: &Sticks,
        mut input: TickInput,
    ) -> Result<Answer, fosavalo_desk::Refusal> {
        let answer = match self.on_route() {
            Some(route) => desk.route_tick(sticks, image, &mut input, route)?,
            None => desk.tick(sticks, image, &mut input)?,
        };
        self.ticks.push(input, answer);
        Ok(answer)
    }

    /// These inputs, whatever is answered.
    pub fn of(set_up: &SetUp, rule: Rule, route: Option<Route>, inputs: &[TickInput]) -> Result<Self, Refusal> {
        let (mut flight, mut image) = Flight::begin(set_up, rule, route)?;
        for input in inputs {
            flight.tick(&mut image, *input)?;
        }
        Ok(flight)
    }

    /// The first tick, counted from 1, at which another pilot flew than the rule says.
    pub fn strays(&self) -> Option<usize> {
        let says = self.rule.pilots(self.enter, self.exit, self.ticks.iter().map(|tick| tick.answer.margin));
        self.ticks.iter().zip(says).position(|(tick, says)| tick.answer.pilot != says).map(|at| at + 1)
    }
}
