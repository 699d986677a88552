//! The operator's desk (request Thirteen), on the image's segment and on a route: the archive's calls beside relay's own `CommandFilter` and the joint tick of Rust
//! objects, every byte after every call.

use crate::faults::faults;
use crate::generate::Rng;
use crate::joint::bytes::{canonical, float, put, Put, Take, TICK};
pub use crate::joint::bytes::{ANSWER, IMAGE};
use crate::joint::guide::{Guide, MIXED};
use crate::joint::model::{Flight, Input, Right, Steps};
use crate::joint::pilot::{self, Pilot};
use crate::joint::refusal::Refusals;
use crate::joint::route::Legs;
use crate::joint::Call as CoreCall;
use oracle::adrc::CommandFilter;
use std::fmt;

pub const DESK: usize = 60;
pub const DESK_SETUP: usize = 36;
pub const STICKS: usize = 12;

const YAW: usize = 8;
const YAW_RATE: usize = 9;
const DT: usize = 10;

/// The buffers of a desk tick; set-up takes the desk and the sticks, the button the desk alone, and a route is for a tick on one.
#[derive(Clone, PartialEq, Eq)]
pub struct Lent {
    pub desk: Vec<u8>,
    pub sticks: Vec<u8>,
    pub image: Vec<u8>,
    pub input: Vec<u8>,
    pub route: Vec<u8>,
    pub answer: Vec<u8>,
}

impl Lent {
    fn each(&mut self) -> [&mut Vec<u8>; 6] {
        let Lent { desk, sticks, image, input, route, answer } = self;
        [desk, sticks, image, input, route, answer]
    }
}

#[derive(Clone, Copy, Debug, PartialEq, Eq)]
pub enum Call {
    SetUp,
    Centre,
    Tick,
    RouteTick,
}

impl Call {
    /// What the core is asked for.
    fn of_core(self) -> CoreCall {
        if self == Call::RouteTick {
            CoreCall::RouteTick
        } else {
            CoreCall::Tick
        }
    }
}

/// Who answers a call: the archive, or what stands in its place.
pub type Face<'a> = &'a (dyn Fn(Call, &mut Lent) -> u32 + Sync);

/// The proved archive.
pub fn archive(call: Call, Lent { desk, sticks, image, input, route, answer }: &mut Lent) -> u32 {
    match call {
        Call::SetUp => fosavalo_desk::calls::setup(desk, sticks),
        Call::Centre => fosavalo_desk::calls::centre(desk),
        Call::Tick => fosavalo_desk::calls::tick(desk, sticks, image, input, answer),
        Call::RouteTick => fosavalo_desk::calls::route_tick(desk, sticks, image, input, route, answer),
    }
}

faults! {
    /// The yaw rate word from the first filter's rate.
    RateOfHeading,
    /// The input written before the refusal is known.
    WrittenFirst,
    /// The desk stepped before the refusal is known.
    SteppedFirst,
    CentreSteps,
    /// One cleaned dt for the desk and the core.
    DtCleanedForAll,
    /// As the governor takes it: nothing for what is no number.
    DtOfGovernor,
    /// The third value in the yaw rate word.
    ZoomWritten,
    /// The core ticks on the input as it was lent.
    FlownAsLent,
    /// Set-up as given, not mended.
    Unmended,
    /// The button forgets the limits.
    CentreForgets,
    SticksBeforeDesk,
    CoreBeforeSticks,
    /// The image's segment, with a route lent.
    SegmentFlown,
    RouteNotJudged,
    RouteBeforeImage,
    SteppedThoughRoute,
    WrittenThoughRoute,
}

fn filters_of(desk: &[u8]) -> [CommandFilter; 3] {
    let words: [[f32; 5]; 3] = Take::from(desk, 0).axes();
    words.map(CommandFilter::from_words)
}

fn put_filters(filters: &[CommandFilter; 3], desk: &mut [u8]) {
    let mut o = Put::from(desk, 0);
    filters.iter().for_each(|filter| o.floats(filter.words()));
}

/// What a call has to give and to leave, by the Rust's own objects.
pub fn expected(fault: Fault, call: Call, lent: &mut Lent) -> u32 {
    match call {
        Call::SetUp => set_up(fault, lent),
        Call::Centre if lent.desk.len() != DESK => 15,
        Call::Centre => {
            let mut filters = filters_of(&lent.desk);
            for filter in &mut filters {
                filter.reset();
                if fault == Fault::CentreSteps {
                    filter.step(1.0, 1e-3);
                }
                if fault == Fault::CentreForgets {
                    let [omega_n, _, _, y, yd] = filter.words();
                    *filter = CommandFilter::from_words([omega_n, f32::INFINITY, f32::INFINITY, y, yd]);
                }
            }
            put_filters(&filters, &mut lent.desk);
            0
        }
        Call::Tick | Call::RouteTick => tick(fault, call, lent),
    }
}

/// 15, then the length of what is said of the sticks.
fn own_refusal(fault: Fault, lent: &Lent, right: usize) -> u32 {
    let (desk, sticks) = (lent.desk.len() != DESK, lent.sticks.len() != right);
    match (desk, sticks) {
        (true, true) if fault == Fault::SticksBeforeDesk => 16,
        (true, _) => 15,
        (false, true) => 16,
        (false, false) => 0,
    }
}

fn set_up(fault: Fault, lent: &mut Lent) -> u32 {
    let refused = own_refusal(fault, lent, DESK_SETUP);
    if refused != 0 {
        return refused;
    }
    let words: [[f32; 3]; 3] = Take::from(&lent.sticks, 0).axes();
    let filters = words.map(|[omega_n, max_mag, max_rate]| match fault {
        Fault::Unmended => CommandFilter::from_words([omega_n, max_mag, max_rate, 0.0, 0.0]),
        _ => CommandFilter::new(omega_n, max_mag, max_rate),
    });
    put_filters(&filters, &mut lent.desk);
    0
}

/// What the core says: on a route the route's own numbers after those of the image, the input and the answer.
fn of_core(fault: Fault, call: Call, lent: &Lent) -> u32 {
    let of_tick = Right.of_tick(&lent.image, lent.input.len(), lent.answer.len());
    let of_route = if call == Call::RouteTick { Right.of_route(&lent.route) } else { 0 };
    match (of_tick, of_route) {
        (0, _) if fault == Fault::RouteNotJudged && of_route == 7 => 0,
        (0, of_route) => of_route,
        (4, 5..) if fault == Fault::RouteBeforeImage => of_route,
        (of_tick, _) => of_tick,
    }
}

fn tick(fault: Fault, call: Call, lent: &mut Lent) -> u32 {
    let core = of_core(fault, call, lent);
    let own = own_refusal(fault, lent, STICKS);
    let refused = match own {
        15 => 15,
        _ if fault == Fault::CoreBeforeSticks && core != 0 => core,
        0 => core,
        own => own,
    };
    // refused by the core, and written none the less
    let though = |always: Fault, by_route: Fault| own == 0 && (fault == always || (fault == by_route && (5..=7).contains(&refused)));
    let (stepped, written) = (though(Fault::SteppedFirst, Fault::SteppedThoughRoute), though(Fault::WrittenFirst, Fault::WrittenThoughRoute));
    let early = stepped || written;
    if refused != 0 && !early {
        return refused;
    }
    let given = float(&lent.input, DT);
    let dt = match fault {
        Fault::DtOfGovernor if !(given.is_finite() && given > 0.0) => 0.0,
        Fault::DtCleanedForAll if given.is_finite() => given.clamp(1e-4, 0.1),
        Fault::DtCleanedForAll => 1e-3,
        _ => given,
    };
    let mut filters = filters_of(&lent.desk);
    for (at, filter) in filters.iter_mut().enumerate() {
        filter.step(float(&lent.sticks, at), dt);
    }
    if refused == 0 || stepped {
        put_filters(&filters, &mut lent.desk);
    }
    let [heading, turn, zoom] = filters;
    let mut flown = lent.input.clone();
    put(&mut flown, YAW, canonical(heading.value()));
    let second = match fault {
        Fault::RateOfHeading => heading.rate(),
        Fault::ZoomWritten => zoom.value(),
        _ => turn.value(),
    };
    put(&mut flown, YAW_RATE, canonical(second));
    let as_lent = if refused == 0 || written { std::mem::replace(&mut lent.input, flown) } else { flown };
    if refused != 0 {
        return refused;
    }
    let mut flies = if fault == Fault::FlownAsLent { as_lent } else { lent.input.clone() };
    if fault == Fault::DtCleanedForAll {
        put(&mut flies, DT, canonical(dt));
    }
    let mut flight = Flight::from_image(&lent.image);
    let flown = if fault == Fault::SegmentFlown { CoreCall::Tick } else { call.of_core() };
    Right.tick(&mut flight, &Right.source(flown, &lent.route), &Input::read(&flies)).write(&mut lent.answer);
    flight.write(&mut lent.image);
    0
}

/// How often each way was gone.
#[derive(Clone, Default)]
pub struct Seen {
    /// On the segment and on a route.
    pub ticks: u64,
    pub on_routes: u64,
    pub buttons: u64,
    pub set_ups: u64,
    /// By number: 1 to 7, 15, 16.
    pub refused: [u64; 9],
    /// Values at their limit, rates at theirs; sticks and dts that are no number.
    pub at_limit: [u64; 2],
    pub wild: [u64; 2],
}

impl Seen {
    pub fn add(&mut self, other: &Seen) {
        self.ticks += other.ticks;
        self.on_routes += other.on_routes;
        self.buttons += other.buttons;
        self.set_ups += other.set_ups;
        let sum = |to: &mut [u64], from: &[u64]| to.iter_mut().zip(from).for_each(|(to, from)| *to += from);
        sum(&mut self.refused, &other.refused);
        sum(&mut self.at_limit, &other.at_limit);
        sum(&mut self.wild, &other.wild);
    }
}

impl fmt::Display for Seen {
    fn fmt(&self, f: &mut fmt::Formatter<'_>) -> fmt::Result {
        let Seen { ticks, on_routes, buttons, set_ups, refused, at_limit: [value, rate], wild: [stick, dt] } = self;
        write!(f, "{ticks} desk ticks, {on_routes} of them on routes, {buttons} buttons, {set_ups} set-ups; refused {refused:?} (1 to 7, 15, 16); ")?;
        write!(f, "{value} values and {rate} rates at their limits; {stick} sticks and {dt} steps that are no number")
    }
}

/// A number of a set-up, a desk or a stick.
fn number(rng: &mut Rng) -> f32 {
    match rng.below(8) {
        0 => rng.word(),
        1 => rng.special(),
        2 => -rng.range(0.0, 4.0),
        _ => rng.range(0.0, 4.0),
    }
}

pub(crate) fn words(rng: &mut Rng, bytes: usize) -> Vec<u8> {
    (0..bytes / 4).flat_map(|_| number(rng).to_bits().to_le_bytes()).collect()
}

/// A length that is now and then wrong by a byte.
fn lengthen(rng: &mut Rng, bytes: &mut Vec<u8>) {
    match rng.below(64) {
        0 => bytes.truncate(bytes.len().saturating_sub(1)),
        1 => bytes.push(0xa5),
        _ => {}
    }
}

/// One run: a core that is set up, a desk, and calls on it; every byte of the six buffers after each. What differs, in words.
pub fn run(face: Face, number: u64, seen: &mut Seen) -> Result<(), String> {
    let (mut pilot, mut rng, mut guide) = (Pilot::new(number), Rng::new("desk", number), Guide::new(number, MIXED));
    let mut flight = Flight::set_up(&pilot.set_up());
    let mut image = vec![0; IMAGE];
    flight.write(&mut image);
    let mut desk = words(&mut rng, DESK);
    for call_number in 0..pilot::length(number) {
        let call = match rng.below(16) {
            _ if call_number == 0 && number % 4 != 0 => Call::SetUp,
            0 => Call::Centre,
            1 if rng.below(8) == 0 => Call::SetUp,
            2..=6 => Call::RouteTick,
            _ => Call::Tick,
        };
        let sticks = words(&mut rng, if call == Call::SetUp { DESK_SETUP } else { STICKS });
        let input = pilot.next(&flight, guide.source(call.of_core())).to_vec();
        let route = guide.route(call.of_core(), flight.time_ahead(float(&input, 7), float(&input, DT)));
        let answer = (0..ANSWER).map(|_| rng.bits() as u8).collect();
        let mut lent = Lent { desk: desk.clone(), sticks, image: image.clone(), input, route, answer };
        pilot.damage(&mut lent.image);
        lent.each().into_iter().for_each(|bytes| lengthen(&mut rng, bytes));

        let (before, mut right) = (lent.clone(), lent.clone());
        let number_right = expected(Fault::None, call, &mut right);
        let returned = face(call, &mut lent);
        if returned != number_right || lent != right {
            return Err(told(number, call_number, call, [&before, &right, &lent], [number_right, returned]));
        }
        match (number_right, call) {
            (0, Call::Tick | Call::RouteTick) => {
                seen.ticks += 1;
                seen.on_routes += u64::from(call == Call::RouteTick);
                for filter in filters_of(&right.desk) {
                    let [_, max_mag, max_rate, y, yd] = filter.words();
                    seen.at_limit[0] += u64::from(y != 0.0 && y.abs() == max_mag);
                    seen.at_limit[1] += u64::from(yd != 0.0 && yd.abs() == max_rate);
                }
                seen.wild[0] += (0..3).filter(|at| !float(&right.sticks, *at).is_finite()).count() as u64;
                seen.wild[1] += u64::from(!float(&right.input, DT).is_finite());
                (desk, image) = (right.desk, right.image);
                flight = Flight::from_image(&image);
            }
            (0, Call::Centre) => (seen.buttons, desk) = (seen.buttons + 1, right.desk),
            (0, Call::SetUp) => (seen.set_ups, desk) = (seen.set_ups + 1, right.desk),
            (refused, _) => seen.refused[if refused > 7 { refused as usize - 8 } else { refused as usize - 1 }] += 1,
        }
    }
    Ok(())
}

fn told(run: u64, at: u64, call: Call, [before, right, found]: [&Lent; 3], [number, returned]: [u32; 2]) -> String {
    let each = |lent: &Lent| lent.clone().each().map(std::mem::take);
    let mut text = format!("run {run}, call {at}, {call:?}: returns {returned}, expected {number}");
    for (name, ((was, right), found)) in
        ["desk", "sticks", "image", "input", "route", "answer"].into_iter().zip(each(before).into_iter().zip(each(right)).zip(each(found)))
    {
        for k in (0..was.len()).step_by(4).filter(|k| right[*k..].iter().take(4).ne(found[*k..].iter().take(4))) {
            text += &format!(
                "; {name} word {} was {:02x?}, is {:02x?}, expected {:02x?}",
                k / 4,
                &was[k..was.len().min(k + 4)],
                &found[k..was.len().min(k + 4)],
                &right[k..was.len().min(k + 4)]
            );
        }
    }
    text
}

/// Runs until there were so many desk ticks, or one differs.
pub fn compare(face: Face, ticks: u64, done: impl Fn(u64) + Sync) -> Result<Seen, String> {
    let all = std::sync::Mutex::new((Seen::default(), None));
    crate::threads::each(u64::MAX, |number| {
        let mut seen = Seen::default();
        let ran = run(face, number, &mut seen);
        let Ok(mut all) = all.lock() else { return true };
        all.0.add(&seen);
        done(seen.ticks);
        if let Err(text) = ran {
            all.1 = Some(text);
        }
        all.1.is_some() || all.0.ticks >= ticks
    });
    match all.into_inner() {
        Ok((seen, None)) => Ok(seen),
        Ok((_, Some(text))) => Err(text),
        Err(_) => Err("a run panicked".into()),
    }
}

/// The lengths of the lent buffers of a tick, for every length of each near its own.
pub fn every_length(face: Face) -> Result<u64, String> {
    let pilot = Pilot::new(0);
    let mut image = vec![0; IMAGE];
    Flight::set_up(&pilot.set_up()).write(&mut image);
    let mut count = 0;
    let route = Guide::new(0, MIXED).steady();
    let rights = [DESK, STICKS, IMAGE, TICK, route.len(), ANSWER];
    for (at, right) in rights.into_iter().enumerate() {
        for length in (0..right + 9).chain([4 * right]) {
            let mut lent = Lent {
                desk: vec![0; DESK],
                sticks: vec![0x3f; STICKS],
                image: image.clone(),
                input: vec![0x11; TICK],
                route: route.clone(),
                answer: vec![7; ANSWER],
            };
            lent.each()[at].resize(length, 0x22);
            for call in [Call::Tick, Call::RouteTick, Call::SetUp, Call::Centre] {
                let (before, mut right, mut found) = (lent.clone(), lent.clone(), lent.clone());
                let numbers = [expected(Fault::None, call, &mut right), face(call, &mut found)];
                if numbers[0] != numbers[1] || right != found {
                    return Err(told(0, length as u64, call, [&before, &right, &found], numbers));
                }
                count += 1;
            }
        }
    }
    Ok(count)
}
