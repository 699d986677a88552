//! Runs of ticks from set-ups: after every call the return and every lent byte, guards too, are what they should be, and the
//! flag and the command are what looking back over the run's margins says.

use super::bytes::{float, word, ANSWER, IMAGE, PEAKS, SETUP, TICK, WORDS};
use super::frames::product;
use super::guide::Guide;
use super::lent::{Hands, Lent, Short};
use super::model::{Answer, Flight, Input, Profile, Right, Steps};
use super::on_routes::OnRoutes;
use super::pilot::{self, Kind, Pilot, KINDS};
use super::refusal::Refusals;
use super::route::{Legs, Source};
use super::wrong::Version;
use super::{demand, Call, Face};
use crate::counts::{counts, Counts};
use crate::{portion, threads};
use oracle::geo::{Mat3, Vec3};
use std::cell::Cell;
use std::fmt;
use std::sync::{Mutex, PoisonError};

/// The gate's accepted ticks.
pub const GATE: u64 = 5_000_000;

/// And those of runs that mix ticks on routes with plain ones: three of four are on routes.
pub const GATE_ON_ROUTES: u64 = 2_000_000;

/// The ticks of this run: the gate's, or their share, or more where the environment has FOSAVALO_TICKS.
pub fn ticks() -> u64 {
    std::env::var("FOSAVALO_TICKS").ok().and_then(|text| text.parse().ok()).unwrap_or(0).max(portion::of(GATE))
}

/// How many runs have at least so many accepted ticks.
pub fn runs(ticks: u64) -> u64 {
    let mut sum = 0;
    (0..)
        .find(|number| {
            let enough = sum >= ticks;
            sum += pilot::length(*number);
            enough
        })
        .unwrap_or(0)
}

/// What is looked at.
#[derive(Clone, Copy, PartialEq, Eq)]
pub enum Watch {
    /// Every byte, and the look-back.
    All,
    /// The look-back alone, which knows nothing of the model.
    LookBack,
}

counts! {
    /// What happened in the runs.
    pub struct Seen {
        pub runs: u64,
        /// Set-ups that were refused, with 1, 2, 10 and 11. After 11 the run goes on with the image that an earlier release would have set up.
        pub refused_set_ups: [u64; 4],
        /// Accepted ticks by the profile, of each kind in the order of `KINDS`.
        pub ticks: [[u64; KINDS.len()]; 2],
        pub refused: u64,
        /// Exchanges that were accepted, those of them with an infinite peak, and those refused, with 2 and 4.
        pub exchanged: u64,
        pub infinite_peaks: u64,
        pub refused_exchanges: [u64; 2],
        /// Ticks of passes by the profile, with the margin in the band, both ends in it: the planner flying, the fallback flying.
        pub band: [[u64; 2]; 2],
        /// Ticks of passes at which the margin was exactly a threshold.
        pub edge: u64,
        /// Ticks of passes at which another controller took over.
        pub changes: u64,
        /// Ticks compared with the look-back.
        pub looked_back: u64,
        pub no_attitude: u64,
        pub no_feedforward: u64,
        /// With a rotor lost: ticks without a thrust axis, and those that the planner flew at a heading that is no number.
        pub no_axis: u64,
        pub any_heading: u64,
        /// Ticks with R_d and a finite psi, by the feedforward (refused, zeros, some) and the entries of Rᵀ R_d (finite, not all finite).
        pub turning: [[u64; 2]; 3],
        pub at_the_end: u64,
        /// For each word of the image, damages that were accepted and that were refused.
        pub damaged: [[u64; 2]; WORDS],
        pub routes: OnRoutes,
    }
}

impl Seen {
    /// All accepted ticks.
    pub fn accepted(&self) -> u64 {
        self.ticks.as_flattened().iter().sum()
    }

    /// A set-up with this number; 0 is none.
    fn refuse_set_up(&mut self, number: u32) {
        if let Some(at) = [1, 2, 10, 11].iter().position(|known| *known == number) {
            self.refused_set_ups[at] += 1;
        }
    }

    /// An accepted tick of a run of this kind: which way it went.
    fn tick(&mut self, flight: &Flight, noted: &Noted, Answer { time, guidance, .. }: &Answer, kind: usize) {
        self.ticks[flight.profile as usize][kind] += 1;
        self.at_the_end += u64::from(*time == f32::INFINITY);
        match (noted.0.get(), flight.profile) {
            (Toward::Nowhere, Profile::Whole) => self.no_attitude += 1,
            (Toward::Nowhere, Profile::LostRotor) => self.no_axis += 1,
            (Toward::Attitude(r, r_d, ahead), _) => {
                self.no_feedforward += u64::from(ahead.is_none());
                let ahead = ahead.map_or(0, |ff| if ff == [0.0; 3] { 1 } else { 2 });
                let finite = product(&r, &r_d).as_flattened().iter().all(|entry| entry.is_finite());
                self.turning[ahead][usize::from(!finite)] += u64::from(guidance.psi.is_finite());
            }
            (Toward::ThrustAxis, _) => {}
        }
    }

    /// Accepted ticks of passes, by the profile.
    pub fn passes(&self) -> [u64; 2] {
        self.ticks.map(|[passes, ..]| passes)
    }
}

impl fmt::Display for Seen {
    fn fmt(&self, f: &mut fmt::Formatter<'_>) -> fmt::Result {
        let share = |n: u64, of: u64| 100.0 * n as f64 / of.max(1) as f64;
        writeln!(
            f,
            "{} runs, {} accepted ticks ({} compared with the look-back), {} refused; set-ups refused with 1, 2, 10, 11: {:?}",
            self.runs,
            self.accepted(),
            self.looked_back,
            self.refused,
            self.refused_set_ups
        )?;
        for ((profile, ticks), (band, passes)) in ["whole", "a rotor lost"].iter().zip(self.ticks).zip(self.band.iter().zip(self.passes()))
        {
            write!(f, "{profile}: ")?;
            KINDS.iter().zip(ticks).try_for_each(|(kind, n)| write!(f, "{kind:?} {n}, "))?;
            let [planner, fallback] = band.map(|n| share(n, passes));
            writeln!(f, "passes in the band with the planner flying {planner:.1} %, the fallback {fallback:.1} %")?;
        }
        writeln!(f, "{} ticks at a threshold itself, {} changes of controller", self.edge, self.changes)?;
        writeln!(
            f,
            "{} ticks without R_d, {} with R_d and no feedforward, {} at an infinite time",
            self.no_attitude, self.no_feedforward, self.at_the_end
        )?;
        writeln!(
            f,
            "with a rotor lost: {} without a thrust axis, {} that the planner flew at a heading that is no number",
            self.no_axis, self.any_heading
        )?;
        let [refused, zeros, some] = self.turning;
        writeln!(f, "by the product of attitudes, finite and not: feedforward refused {refused:?}, zeros {zeros:?}, some {some:?}")?;
        let all = self.damaged.iter().fold([0; 2], |[a, b], [c, d]| [a + c, b + d]);
        let least = self.damaged.iter().map(|[a, b]| a + b).min().unwrap_or(0);
        if self.exchanged > 0 {
            writeln!(
                f,
                "{} exchanges, {} of them with an infinite peak; refused with 2, 4: {:?}",
                self.exchanged, self.infinite_peaks, self.refused_exchanges
            )?;
        }
        write!(f, "{} damaged words accepted, {} refused, at least {least} at each word", all[0], all[1])?;
        match self.routes.accepted() {
            0 => Ok(()),
            _ => write!(f, "\n{}", self.routes),
        }
    }
}

/// What a tick turns toward.
#[derive(Clone, Copy)]
enum Toward {
    Nowhere,
    /// From R to R_d, with the feedforward where there is one.
    Attitude(Mat3, Mat3, Option<Vec3>),
    ThrustAxis,
}

/// The right tick, and what it turned toward, by the steps that are taken then.
struct Noted(Cell<Toward>);

impl Legs for Noted {}

impl Steps for Noted {
    #[inline]
    fn rate_error(&self, omega: Vec3, r: &Mat3, r_d: &Mat3, ahead: Option<Vec3>) -> Vec3 {
        self.0.set(Toward::Attitude(*r, *r_d, ahead));
        Right.rate_error(omega, r, r_d, ahead)
    }

    #[inline]
    fn fallback_lost_rotor(&self, flight: &Flight, error: Vec3) -> Vec3 {
        self.0.set(Toward::ThrustAxis);
        Right.fallback_lost_rotor(flight, error)
    }
}

/// A call after which something isn't as it should be.
pub struct Parted {
    pub run: u64,
    /// 0 is the set-up.
    pub tick: u64,
    pub call: Call,
    pub what: &'static str,
    /// The damaged word, where one was.
    pub damaged: Option<usize>,
    pub before: Hands,
    /// The return and the buffers.
    pub expected: (u32, Hands),
    pub found: (u32, Hands),
}

impl fmt::Display for Parted {
    fn fmt(&self, f: &mut fmt::Formatter<'_>) -> fmt::Result {
        writeln!(f, "run {} ({:?}), tick {} ({:?}): {}", self.run, pilot::kind(self.run), self.tick, self.call, self.what)?;
        if let Some(at) = self.damaged {
            writeln!(f, "  image word {at} was damaged")?;
        }
        for (name, bytes, _) in self.before.each() {
            let words: String = bytes.chunks_exact(4).map(|four| format!(" {:08x}", word(four, 0))).collect();
            writeln!(f, "  {name} of {} bytes{words}{:02x?}", bytes.len(), bytes.chunks_exact(4).remainder())?;
        }
        let ((a, expected), (b, found)) = (&self.expected, &self.found);
        writeln!(f, "  returns {b}, expected {a}")?;
        for ((name, x, all_x), (_, y, all_y)) in expected.each().into_iter().zip(found.each()) {
            for at in (0..x.len() / 4).filter(|at| word(x, *at) != word(y, *at)) {
                writeln!(f, "  {name} word {at} is {:08x}, expected {:08x}", word(y, at), word(x, at))?;
            }
            if x == y && all_x != all_y {
                writeln!(f, "  a guard of the {name} is changed")?;
            }
        }
        Ok(())
    }
}

/// One run. What it saw goes to `seen`; the first call after which something is wrong.
pub fn run(face: Face, number: u64, watch: Watch, calls: &'static [Call], seen: &mut Seen) -> Option<Parted> {
    let (mut pilot, mut guide) = (Pilot::new(number), Guide::new(number, calls));
    let set_up = pilot.set_up();
    let (image, answer) = (Short::holding(&[0; IMAGE]), Short::holding(&[0; ANSWER]));
    let mut hands = Hands { image, input: Short::holding(&set_up), route: Lent::of(&[]), answer };
    pilot.junk(hands.image.bytes_mut());
    pilot.junk(hands.answer.bytes_mut());

    // a set-up with another profile first, which leaves nothing
    hands.input = Short::holding(&pilot.wrong_set_up());
    (hands.input.len, hands.image.len) = (pilot.length_near(SETUP), pilot.length_near(IMAGE));
    let before = hands.clone();
    let refused = Right.refused(Call::SetUp, &hands.lend());
    let returned = face(Call::SetUp, &mut hands.lend());
    seen.refuse_set_up(refused);
    if watch == Watch::All && (returned != refused || hands != before) {
        let (expected, found) = ((refused, before.clone()), (returned, hands));
        let what = "a set-up of no profile differs";
        return Some(Parted { run: number, tick: 0, call: Call::SetUp, what, damaged: None, before, expected, found });
    }
    hands.image.len = IMAGE;
    hands.input = Short::holding(&set_up);

    let mut flight = Flight::set_up(&set_up);
    let (before, mut expected) = (hands.clone(), hands.clone());
    let refused = Right.refused(Call::SetUp, &hands.lend());
    seen.refuse_set_up(refused);
    if refused == 0 {
        flight.write(expected.image.bytes_mut());
    }
    let returned = face(Call::SetUp, &mut hands.lend());
    let differs = watch == Watch::All && (returned != refused || hands != expected);
    if refused != 0 && !differs {
        // for its cut-off: an image that was set up so before, by the Rust's constructors
        [&mut hands, &mut expected].into_iter().for_each(|hands| flight.write(hands.image.bytes_mut()));
    }
    let wrong = if differs {
        Some("set-up differs")
    } else if Right.of_tick(expected.image.bytes(), TICK, ANSWER) != 0 {
        Some("set-up made an image that is refused")
    } else {
        None
    };
    if let Some(what) = wrong {
        let (expected, found) = ((refused, expected), (returned, hands));
        return Some(Parted { run: number, tick: 0, call: Call::SetUp, what, damaged: None, before, expected, found });
    }
    seen.runs += 1;
    hands.input = Short::holding(&[0; TICK]);

    let [enter, exit] = [float(expected.image.bytes(), 13), float(expected.image.bytes(), 14)];
    let kind = KINDS.iter().position(|kind| *kind == pilot.kind).unwrap_or(0);
    let (mut margins, mut last, mut last_call, mut tick) = (Vec::new(), 1, None, 0);
    while tick < pilot::length(number) {
        let call = guide.call();
        if call == Call::Exchange {
            hands.input = Short::holding(&guide.leg(pilot.own_leg()));
            hands.route = Lent::of(&[]);
        } else {
            let mut input = pilot.next(&flight, guide.source(call));
            guide.hurry(&mut input);
            hands.route = Lent::of(&guide.route(call, flight.time_ahead(float(&input, 7), float(&input, 10))));
            hands.input.len = TICK;
            hands.input.bytes_mut().copy_from_slice(&input);
        }
        seen.routes.switches += u64::from(tick > 0 && last_call != Some(call));
        last_call = Some(call);
        let whole = hands.image.clone();
        let damaged = pilot.damage(hands.image.bytes_mut());
        let (before, mut expected) = (hands.clone(), hands.clone());
        let refused = Right.refused(call, &hands.lend());
        if refused == 0 {
            if damaged.is_some() {
                flight = Flight::from_image(hands.image.bytes());
            }
            if call == Call::Exchange {
                Right.exchange(&mut flight, hands.input.bytes());
                flight.write(expected.image.bytes_mut());
                seen.exchanged += 1;
                seen.infinite_peaks += u64::from((PEAKS..WORDS).any(|at| float(expected.image.bytes(), at) == f32::INFINITY));
            }
        }
        if refused == 0 && call != Call::Exchange {
            let source = Right.source(call, hands.route.bytes());
            let noted = Noted(Cell::new(Toward::Nowhere));
            let answer = noted.tick(&mut flight, &source, &Input::read(hands.input.bytes()));
            answer.write(expected.answer.bytes_mut());
            flight.write(expected.image.bytes_mut());
            tick += 1;
            seen.tick(&flight, &noted, &answer, kind);
            if let Source::Route(route) = &source {
                seen.routes.take(hands.route.bytes(), route, answer.time);
            }
        } else if refused != 0 {
            match call {
                Call::RouteTick => seen.routes.refuse(refused, hands.route.bytes()),
                Call::Exchange => seen.refused_exchanges[usize::from(refused == 4)] += 1,
                _ => {}
            }
            seen.refused += u64::from(call != Call::Exchange);
        }
        let returned = face(call, &mut hands.lend());
        let parted = |what, hands: &Hands| {
            let (before, expected, found) = (before.clone(), (refused, expected.clone()), (returned, hands.clone()));
            Some(Parted { run: number, tick, call, what, damaged, before, expected, found })
        };
        if watch == Watch::All && (returned != refused || hands != expected) {
            return parted(if call == Call::Exchange { "exchange differs" } else { "tick differs" }, &hands);
        }
        if let Some(at) = damaged {
            seen.damaged[at][usize::from(refused != 0)] += 1;
            if refused != 0 || !pilot.goes_on() {
                hands.image = whole;
                flight = Flight::from_image(hands.image.bytes());
            }
        }
        if pilot.kind != Kind::Damaged && call != Call::Exchange {
            if returned != 0 {
                match refused {
                    0 => return None,
                    _ => continue,
                }
            }
            let (answer, input) = (hands.answer.bytes(), hands.input.bytes());
            margins.push(float(answer, 9));
            let planner = demand::planner_flies(&margins, enter, exit);
            let (flag, command) = (word(answer, 6), [3, 4, 5].map(|at| word(answer, at)));
            let agile = [11, 12, 13].map(|at| word(input, at));
            if flag != u32::from(!planner) {
                return parted("the flag is not what the margins say", &hands);
            }
            if planner && command != demand::passed_on(pilot.profile as u32, agile) {
                return parted("the command is not the planner's", &hands);
            }
            seen.looked_back += 1;
            seen.any_heading += u64::from(planner && pilot.profile == Profile::LostRotor && !float(input, 8).is_finite());
            if let (Kind::Pass, Some(&margin)) = (pilot.kind, margins.last()) {
                let state = usize::from(!planner);
                seen.band[pilot.profile as usize][state] += u64::from(margin >= enter && margin <= exit);
                seen.edge += u64::from(margin == enter || margin == exit);
                seen.changes += u64::from(flag != last);
                last = flag;
            }
        }
    }
    None
}

/// Runs with at least so many accepted ticks, on all threads: what they saw and, of the runs that part, the first.
/// Once one has parted no more are begun; those before it are, so the first is the same every time.
pub fn compare(face: Face, ticks: u64, watch: Watch, calls: &'static [Call], done: impl Fn(u64) + Sync) -> (Seen, Option<Parted>) {
    let total: Mutex<(Seen, Option<Parted>)> = Mutex::new((Seen::NONE, None));
    threads::each(runs(ticks), |number| {
        let mut seen = Seen::NONE;
        let parted = run(face, number, watch, calls, &mut seen);
        done(seen.accepted());
        let mut total = total.lock().unwrap_or_else(PoisonError::into_inner);
        total.0.add(&seen);
        let enough = parted.is_some();
        if parted.as_ref().is_some_and(|new| total.1.as_ref().is_none_or(|old| new.run < old.run)) {
            total.1 = parted;
        }
        enough
    });
    total.into_inner().unwrap_or_else(PoisonError::into_inner)
}

/// Whether a version is told from what is expected, and where.
pub fn caught(version: Version, ticks: u64, watch: Watch, calls: &'static [Call]) -> bool {
    let (seen, parted) = compare(&version.call, ticks, watch, calls, |_| {});
    match &parted {
        Some(Parted { run, tick, what, expected: (expected, _), found: (returned, _), .. }) => {
            println!("{}: caught in run {run}, tick {tick} ({what}, returns {returned}, expected {expected})", version.name);
        }
        None => println!("{}: NOT caught in {} ticks", version.name, seen.accepted()),
    }
    parted.is_some()
}
