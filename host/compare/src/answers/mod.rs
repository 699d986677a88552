//! The list that the program `replay` runs again: rows of input with the oracle's answers. docs/ORACLE.md has its form.
//!
//! Every answer is the Rust's own, or for the joint tick that of the Rust's calls in the documents' order, or for another call that of its
//! model. Inputs come of the generator alone, which asks nothing of the machine's mathematical library, so the list is the same wherever
//! it is made.

mod desk;
mod later;

use crate::generate::{self, Kind, Part, Rng};
use crate::joint;
use crate::joint::bytes::{
    canonical, float, put, word, ANSWER, IMAGE, LEG, MOST_LEGS, PEAKS, PROFILE, SETUP, SETUP_FC, SETUP_PROFILE, TICK,
};
use crate::joint::lent::Lending;
use crate::joint::model::{self, Flight};
use crate::joint::pilot::CUT_OFFS;
use crate::log::{self, RECORD};
use crate::routine::Routine;
use crate::slow;
use crate::table;
use std::path::PathBuf;

/// ANSW: the first word of a list.
const MAGIC: u32 = 0x5753_4e41;
const NAME: usize = 48;

/// Rows of a routine that takes something, and how far apart their numbers are: far enough that crossed special values differ
/// in every word, and no multiple of the number of kinds.
const ROWS: u64 = 128;
const STRIDE: u64 = 479;

const SETUPS: u64 = 320;
const RUNS: u64 = 40;
const TICKS: u64 = 30;
const ROUTE_RUNS: u64 = 64;
const ROUTE_TICKS: u64 = 8;
const EXCHANGES: u64 = 240;
const LOGS: u64 = 40;
const LISTS: u64 = 240;
/// The most margins of a list whose flags are stored.
const MARGINS: usize = 40;

/// Where the list stands.
pub fn path() -> Result<PathBuf, String> {
    Ok(checkout::root()?.join("crates/replay/stdin"))
}

/// Rows of one routine or call, or one of document 01's figures.
pub struct Section {
    pub name: String,
    pub number: u32,
    /// The words of each row; 0 of a call, whose rows say it themselves.
    given: usize,
    answered: usize,
    pub rows: Vec<Row>,
}

/// The words given and the oracle's answer.
pub struct Row {
    pub given: Vec<u32>,
    pub answer: Vec<u32>,
}

impl Section {
    fn new(name: &str, number: u32, rows: Vec<Row>) -> Self {
        let (given, answered) = rows.first().map_or((0, 0), |row| (row.given.len(), row.answer.len()));
        assert!(rows.iter().all(|row| row.given.len() == given && row.answer.len() == answered), "{name}: rows of one form");
        Section { name: name.to_string(), number, given, answered, rows }
    }

    fn calls(name: &str, number: u32, rows: Vec<Row>) -> Self {
        Section { name: name.to_string(), number, given: 0, answered: 0, rows }
    }

    fn bytes(&self) -> Vec<u8> {
        let head = [self.number, self.given as u32, self.answered as u32, self.rows.len() as u32];
        let words = self.rows.iter().flat_map(|row| row.given.iter().chain(&row.answer));
        let name = format!("{:NAME$}", self.name).into_bytes();
        [bytes_of(&head), name, bytes_of(words)].concat()
    }
}

/// Little-endian.
fn bytes_of<'a>(words: impl IntoIterator<Item = &'a u32>) -> Vec<u8> {
    words.into_iter().flat_map(|word| word.to_le_bytes()).collect()
}

fn words_of(bytes: &[u8]) -> Vec<u32> {
    (0..bytes.len() / 4).map(|at| word(bytes, at)).collect()
}

/// The whole list.
pub fn list() -> Vec<u8> {
    list_of(&sections())
}

pub fn list_of(sections: &[Section]) -> Vec<u8> {
    let rows = sections.iter().map(|section| section.rows.len() as u32).sum();
    let head = bytes_of(&[MAGIC, sections.len() as u32, rows]);
    std::iter::once(head).chain(sections.iter().map(Section::bytes)).flatten().collect()
}

pub fn sections() -> Vec<Section> {
    let routines = routines();
    let mut all: Vec<Section> = routines.iter().map(|(number, routine)| sampled(*number, routine)).collect();
    all.extend(FIGURES.iter().map(|(figure, name, words)| {
        let (number, routine) = routines.iter().find(|(_, routine)| routine.name == *name).expect("a routine of the table");
        Section::new(figure, *number, vec![row(routine, words)])
    }));
    all.extend([setups(), ticks(), route_ticks()]);
    all.extend(logs());
    all.extend([exchanges(), flags(), later::samples(), later::tick_refusals(), later::checks(), later::patterns()]);
    all.extend(desk::desks());
    all
}

/// A routine's number is a hundred times its document's and its place in the table. One over a lent state is the same routine once
/// more, so the list has it once.
fn routines() -> Vec<(u32, Routine)> {
    let documents = table::documents().into_iter().chain([numbers()]);
    let once = |document: Vec<Routine>| document.into_iter().filter(|routine| !routine.name.ends_with(", lent"));
    documents.zip(0u32..).flat_map(|(document, d)| once(document).zip(100 * d..).map(|(routine, number)| (number, routine))).collect()
}

/// 004, as far as it is published and fixed: sine and cosine are the port's own in the oracle too.
fn numbers() -> Vec<Routine> {
    let any = [Part::Above(100.0)];
    vec![
        Routine::new("sqrtf", &any, |i| archives::sqrtf(i.get()), |i| relay_math_published::sqrtf(i.get())),
        Routine::new("fabsf", &any, |i| archives::fabsf(i.get()), |i| relay_math_published::fabsf(i.get())),
    ]
}

fn sampled(number: u32, routine: &Routine) -> Section {
    let rows = (0..routine.rows(ROWS)).map(|k| row(routine, &routine.row(k * STRIDE))).collect();
    Section::new(routine.name, number, rows)
}

fn row(routine: &Routine, words: &[f32]) -> Row {
    let given = words.iter().map(|w| w.to_bits()).collect();
    Row { given, answer: routine.oracle(words).into_iter().map(canonical).collect() }
}

/// Document 01's figures that are not in its proved set, and its overflowing low-pass: what it says, the routine, what goes in.
/// At free fall the controller has gains 3, dampings 0.5, 0.25 and 2, and turns at 1, 2 and -4.
const FIGURES: [(&str, &str, &[f32]); 5] = [
    ("01: axis [0,0,1], yaw 0: identity", "desired_attitude", &[0.0, 0.0, 1.0, 0.0]),
    ("01: axis [1,0,0], yaw 0: refused", "desired_attitude", &[1.0, 0.0, 0.0, 0.0]),
    (
        "01: acceleration [0,0,9.81]: damping only",
        "GeoAtt::tick",
        &[3.0, 3.0, 3.0, 0.5, 0.25, 2.0, 1.0, 2.0, 3.0, 0.5, 0.5, 0.5, 0.5, 1.0, 2.0, -4.0, 0.0, 0.0, 9.81, 0.0],
    ),
    (
        "01: acceleration [0,0,9.81]: rate of zeros",
        "GeoAtt::desired_rate",
        &[3.0, 3.0, 3.0, 0.5, 0.25, 2.0, 1.0, 2.0, 3.0, 0.5, 0.5, 0.5, 0.5, 0.0, 0.0, 9.81, 0.0],
    ),
    ("01: low-pass 1e38, 3e38: the angle overflows", "Biquad::lowpass", &[1e38, 3e38]),
];

/// A buffer is stored with a word more than the right length, so that a call can be lent too much of it.
const MORE: usize = 4;

/// A buffer, and how many bytes of it a call is lent.
struct Lent {
    bytes: Vec<u8>,
    len: usize,
}

/// What a call is lent: `a` and `c` it may change. And the length of a log in `a`, or a place in a log.
struct Call {
    a: Lent,
    b: Lent,
    c: Lent,
    d: Lent,
    at: u32,
}

impl Lent {
    const NONE: Lent = Lent { bytes: Vec::new(), len: 0 };

    /// How many words are stored and how many bytes lent, then the words.
    fn stored(&self) -> Vec<u32> {
        [vec![self.bytes.len() as u32 / 4, self.len as u32], words_of(&self.bytes)].concat()
    }

    fn lent(&self) -> &[u8] {
        &self.bytes[..self.len]
    }

    fn lent_mut(&mut self) -> &mut [u8] {
        &mut self.bytes[..self.len]
    }
}

impl Call {
    /// Given all that is lent; answered the number, and what the call may change.
    fn row(&mut self, oracle: impl FnOnce(&mut [u8], &[u8], &mut [u8], &[u8], u64) -> u32) -> Row {
        let given = [self.a.stored(), self.b.stored(), self.c.stored(), self.d.stored(), vec![self.at]].concat();
        let number = oracle(self.a.lent_mut(), self.b.lent(), self.c.lent_mut(), self.d.lent(), self.at.into());
        Row { given, answer: [vec![number], words_of(&self.a.bytes), words_of(&self.c.bytes)].concat() }
    }
}

/// omega_o, omega_c, b0, tau of an axis.
const ADRC: [Part; 4] = [Part::Above(60.0), Part::Above(20.0), Part::Number(80.0), Part::Above(0.05)];

/// Position, velocity, acceleration at both ends of a leg, and its duration.
pub const LEG_PARTS: [Part; 7] =
    [Part::Vector(5.0), Part::Vector(1.0), Part::Vector(2.0), Part::Vector(5.0), Part::Vector(1.0), Part::Vector(2.0), Part::Above(10.0)];

/// Set-up's words before the profile, as in flight: gains; set, enter and exit; the governor's; the leg; ADRC; fc and fs.
pub fn set_up_parts() -> Vec<Part> {
    let gains = [Part::Gains(2.0), Part::Gains(1.0), Part::Gains(0.1)];
    let shield = [Part::Above(2.0), Part::Above(0.1), Part::Above(2.0), Part::Above(0.3), Part::Above(1.0)];
    let governor = [Part::Above(1.0), Part::Above(3.0), Part::Above(1.0)];
    let lpf = [Part::Above(120.0), Part::Above(1000.0)];
    [&gains[..], &shield, &governor, &LEG_PARTS, &ADRC, &ADRC, &ADRC, &lpf].concat()
}

/// A tick's: gyro, quaternion, tracking error, yaw, yaw rate, dt, agile, fractions.
pub const INPUT: [Part; 8] = [
    Part::Vector(3.0),
    Part::Quaternion,
    Part::Number(3.0),
    Part::Angle,
    Part::Number(1.0),
    Part::Step,
    Part::Vector(2.0),
    Part::Vector(1.2),
];

const KINDS: [Kind; 4] = [Kind::Flight, Kind::Damaged, Kind::Special, Kind::Bits];

/// Words of one kind.
pub fn filled<const N: usize>(kind: Kind, parts: &[Part], rng: &mut Rng) -> [f32; N] {
    let mut words = [0.0; N];
    generate::fill_as(kind, parts, None, u64::MAX, rng, &mut words);
    words
}

/// So many bytes that stood in a buffer before, these words at its beginning.
fn buffer(rng: &mut Rng, size: usize, words: &[u32]) -> Vec<u8> {
    let mut bytes: Vec<u8> = (0..size).map(|_| rng.bits() as u8).collect();
    words.iter().enumerate().for_each(|(at, word)| put(&mut bytes, at, *word));
    bytes
}

/// The same with a word more than the right length, lent with that length or now and then with one near it.
fn lent(rng: &mut Rng, right: usize, words: &[u32]) -> Lent {
    Lent { bytes: buffer(rng, right + MORE, words), len: length(rng, right) }
}

fn bits<const N: usize>(words: [f32; N]) -> [u32; N] {
    words.map(f32::to_bits)
}

/// The right length, or now and then one near it.
fn length(rng: &mut Rng, right: usize) -> usize {
    match rng.below(12) {
        0 => rng.of(&[0, 4, right - 4, right - 1, right + 1, right + MORE]).unwrap_or(0),
        _ => right,
    }
}

/// The fourth part of them with a cut-off at or about what decides whether it passes through.
fn setups() -> Section {
    let rows = (0..SETUPS).map(|n| {
        let mut rng = Rng::new("stored set-ups", n);
        let mut numbers = filled::<SETUP_PROFILE>(KINDS[(n % 4) as usize], &set_up_parts(), &mut rng);
        if n / 4 % 4 == 0 {
            numbers[SETUP_FC..].copy_from_slice(&CUT_OFFS[(n / 16) as usize % CUT_OFFS.len()]);
        }
        let (a, mut b) = (lent(&mut rng, IMAGE, &[]), lent(&mut rng, SETUP, &bits(numbers)));
        let any = rng.bits() as u32;
        put(&mut b.bytes, SETUP_PROFILE, rng.of(&[0, 0, 0, 0, 0, 1, 1, 1, 1, 1, 2, any]).unwrap_or(0));
        // too long, and with a profile that is none
        if rng.below(24) == 0 {
            b.len = SETUP + 1 + rng.below(MORE);
            put(&mut b.bytes, SETUP_PROFILE, 2);
        }
        Call { a, b, c: Lent::NONE, d: Lent::NONE, at: 0 }.row(|image, input, _, _, _| set_up(image, input))
    });
    Section::calls("set-up", 500, rows.collect())
}

/// The image of any set-up's words: one of an earlier release where the cut-off passes through.
fn fresh(image: &mut [u8], input: &[u8]) {
    Flight::set_up(input).write(image);
}

fn set_up(image: &mut [u8], input: &[u8]) -> u32 {
    model::call(joint::Call::SetUp, &mut Lending { image, input, route: &[], answer: &mut [] })
}

fn ticks() -> Section {
    Section::calls("tick", 501, (0..RUNS).flat_map(|number| run("stored ticks", number, TICKS, false)).collect())
}

fn route_ticks() -> Section {
    Section::calls("route tick", 502, (0..ROUTE_RUNS).flat_map(|number| run("stored route ticks", number, ROUTE_TICKS, true)).collect())
}

/// Now and then a leg without an end, one whose peak is infinite, or one at rest, whose peaks are zero.
fn odd_leg(rng: &mut Rng, leg: &mut [f32]) {
    match rng.below(9) {
        0 => leg[18] = f32::INFINITY,
        1 => {
            leg.fill(0.0);
            (leg[9 + rng.below(3)], leg[18]) = (4.6e35, 1.0);
        }
        2 => leg[..18].fill(0.0),
        _ => {}
    }
}

/// An image that has flown a little, with a word more behind it; the number says of which kind its set-up and its ticks are.
fn flown_a_little(rng: &mut Rng, n: u64) -> Vec<u8> {
    let kind = |n: u64| KINDS[(n % 4) as usize];
    let mut image = buffer(rng, IMAGE + MORE, &[]);
    let mut numbers = filled::<SETUP_PROFILE>(kind(n / 4), &set_up_parts(), rng);
    odd_leg(rng, &mut numbers[17..36]);
    let mut input = bits(numbers).to_vec();
    input.push((n % 2) as u32);
    fresh(&mut image[..IMAGE], &buffer(rng, SETUP, &input));
    for _ in 0..rng.below(4) {
        let words = bits(filled::<{ TICK / 4 }>(kind(n / 16), &INPUT, rng));
        let input = buffer(rng, TICK, &words);
        tick(&mut image[..IMAGE], &input, None, &mut [0; ANSWER]);
    }
    image
}

/// Of images that have flown a little, a few of them with a word replaced.
fn exchanges() -> Section {
    let rows = (0..EXCHANGES).map(|n| {
        let mut rng = Rng::new("stored exchanges", n);
        let mut image = flown_a_little(&mut rng, n);
        if rng.below(3) == 0 {
            damage(&mut rng, &mut image);
        }
        let a = Lent { bytes: image, len: length(&mut rng, IMAGE) };
        let mut leg = filled::<{ LEG / 4 }>(KINDS[(n % 4) as usize], &LEG_PARTS, &mut rng);
        odd_leg(&mut rng, &mut leg);
        let b = lent(&mut rng, LEG, &bits(leg));
        Call { a, b, c: Lent::NONE, d: Lent::NONE, at: 0 }
            .row(|image, input, _, _, _| model::call(joint::Call::Exchange, &mut Lending { image, input, route: &[], answer: &mut [] }))
    });
    Section::calls("exchange", 506, rows.collect())
}

/// Relay's own shield, stepped. Now and then a byte of the margins or a flag is lent too many or too few.
fn flags() -> Section {
    let rows = (0..LISTS).map(|n| {
        let mut rng = Rng::new("stored flags", n);
        let count = rng.below(MARGINS + 1);
        let ((enter, exit), margins) = slow::drawn(&mut rng, count);
        let near = |rng: &mut Rng, right: usize| match rng.below(16) {
            0 => right + 1,
            1 => right.saturating_sub(1),
            _ => right,
        };
        let margins: Vec<u32> = margins.into_iter().map(f32::to_bits).collect();
        let b = Lent { bytes: buffer(&mut rng, 4 * count + MORE, &margins), len: near(&mut rng, 4 * count) };
        let c = Lent { bytes: buffer(&mut rng, 4 * (count / 4) + 2 * MORE, &[]), len: near(&mut rng, count) };
        let d = Lent { bytes: slow::words(&[enter, exit]), len: 8 };
        Call { a: Lent::NONE, b, c, d, at: 0 }.row(|_, margins, flags, _, _| {
            if margins.len() != 4 * flags.len() {
                return 9;
            }
            let margins: Vec<f32> = (0..flags.len()).map(|k| float(margins, k)).collect();
            flags.copy_from_slice(&slow::stepped(&margins, enter, exit));
            0
        })
    });
    Section::calls("flags", 507, rows.collect())
}

/// Headings with their cosines and sines.
const HEADINGS: [[f32; 3]; 3] = [[0.927_295_2, 0.6, 0.8], [1.080_839_1, 8.0 / 17.0, 15.0 / 17.0], [1.176_005_2, 5.0 / 13.0, 12.0 / 13.0]];

/// At such a heading about the third axis by twice as much, and so long that entries of the product of attitudes overflow, and neither the attitude's nor its trace.
fn long(rng: &mut Rng, words: &mut [f32]) {
    let ([heading, cosine, sine], last) = (HEADINGS[rng.below(HEADINGS.len())], 1.304e19 * rng.range(0.965, 0.995));
    words[3..7].copy_from_slice(&[last * cosine / sine, 0.0, 0.0, last]);
    words[8..10].copy_from_slice(&[heading, 0.0]);
}

/// Ticks from a set-up, the image handed on. Every other run is level, at rest, with no filter and turning as commanded, and its rate beside that
/// goes about those at which the margin is enter and exit; of the others one in five falls so that there is an attitude and no feedforward, and is the
/// fallback's; the rest are of all kinds. At times the call is refused, or an image with one word replaced is lent; then the run goes on with the one
/// before. Eight runs by the old rules and eight with a rotor lost take turns.
fn run(name: &str, number: u64, ticks: u64, on_routes: bool) -> Vec<Row> {
    let mut rng = Rng::new(name, number);
    let (level, falls, kind) = (number % 2 == 0, number % 10 == 9, KINDS[(number / 2 % 4) as usize]);
    let mut s = filled::<SETUP_PROFILE>(if level || falls { Kind::Flight } else { kind }, &set_up_parts(), &mut rng);
    let edges = [1.5, 1.0];
    if falls {
        let (a, t) = (9.81 - 5e-4, 2.0);
        s[12..14].copy_from_slice(&[5.0, 9.0]);
        s[17..35].fill(0.0);
        (s[25], s[34], s[31], s[28], s[35]) = (a, a, a * t, 0.5 * a * t * t, t);
    } else if !level {
        odd_leg(&mut rng, &mut s[17..36]);
    } else {
        s[17..35].fill(0.0);
        s[48] = 0.0;
        s[9..14].copy_from_slice(&[1.0, 1.0, 1e3, 4.0 - edges[0] * edges[0], 4.0 - edges[1] * edges[1]]);
    }
    let mut image = buffer(&mut rng, IMAGE + MORE, &[]);
    let mut input = buffer(&mut rng, SETUP, &bits(s));
    put(&mut input, SETUP_PROFILE, (number / 8 % 2) as u32);
    fresh(&mut image[..IMAGE], &input);
    (0..ticks)
        .map(|t| {
            // on to an infinite time
            let hurries = !level && !falls && t % 8 >= 5;
            let kind = if level || falls || hurries { Kind::Flight } else { KINDS[(t % 4) as usize] };
            let mut words = filled::<{ TICK / 4 }>(kind, &INPUT, &mut rng);
            if level {
                let x = rng.of(&[edges[0], edges[1], 0.5, 1.2, 1.3, 1.75]).unwrap_or(1.2);
                let (x, turn) = (if rng.flag() { x } else { rng.near(x) }, words[9]);
                words[..7].copy_from_slice(&[x, 0.0, turn, 1.0, 0.0, 0.0, 0.0]);
                words[8] = rng.of(&[0.0, 0.0, 0.0, 0.0, 0.0, 0.0, 0.0, 0.0, f32::NAN, 129.0]).unwrap_or(0.0);
            } else if falls {
                words[3..10].copy_from_slice(&[1.0, 0.0, 0.0, 0.0, 0.0, 0.0, 0.0]);
            } else if hurries {
                words[7] = 0.0;
                words[10] = f32::MAX;
            }
            if (level && rng.below(12) == 0) || (falls && rng.below(3) == 0) {
                long(&mut rng, &mut words);
            }
            let route = if on_routes {
                let time = Flight::from_image(&image[..IMAGE]).time_ahead(words[7], words[10]);
                let mut route = route(&mut rng, kind, time);
                // at rest, as the run is
                if level && rng.flag() {
                    route.chunks_exact_mut(LEG / 4).for_each(|leg| leg[..18].fill(0));
                }
                lent(&mut rng, 4 * route.len(), &route)
            } else {
                Lent::NONE
            };
            let mut before = image.clone();
            if rng.below(5) == 0 {
                damage(&mut rng, &mut before);
            }
            let whole = before == image;
            let a = Lent { bytes: before, len: length(&mut rng, IMAGE) };
            let (b, c) = (lent(&mut rng, TICK, &bits(words)), lent(&mut rng, ANSWER, &[]));
            let mut call = Call { a, b, c, d: route, at: 0 };
            let row = call.row(|image, input, answer, route, _| tick(image, input, on_routes.then_some(route), answer));
            if whole {
                image = call.a.bytes;
            }
            row
        })
        .collect()
}

/// One word replaced, mostly one of those that row 4 looks at.
fn damage(rng: &mut Rng, image: &mut [u8]) {
    let place = rng.below(PLACES);
    damage_at(rng, image, place);
}

const PLACES: usize = 14;

/// The same at one of so many places: by a word near what decides; a number that is kept, by a NaN with other bits than the core's; a peak that is infinite, by a
/// NaN, and one that is zero, by the other zero.
fn damage_at(rng: &mut Rng, image: &mut [u8], place: usize) {
    let peaks = [0, 1, 2].map(|axis| word(image, PEAKS + axis));
    if let (Some(axis), true) = (peaks.iter().position(|peak| *peak == f32::INFINITY.to_bits()), rng.flag()) {
        return put(image, PEAKS + axis, 0x7fc0_0000);
    }
    let (any, axis) = (rng.below(IMAGE / 4), rng.below(3));
    let kept = [1 + rng.below(12), 17 + rng.below(3), 41 + rng.below(54), 59 + rng.below(9)][rng.below(4)];
    let at = [0, 13, 14, 15, 16, 26, 33, 40, PROFILE, PEAKS + axis, PEAKS + axis, kept, kept, any][place];
    let near = rng.near_one(&[0.0, 1e-3, 0.5, 3.0, f32::INFINITY]).to_bits();
    let (own, bits) = (word(image, at), rng.word().to_bits());
    let flipped = own ^ 1 << rng.below(32);
    let new = match at {
        0 => rng.of(&[0, 95, 96, 96, 98, flipped]),
        15 | PROFILE => rng.of(&[0, 1, 2, 2, 3, 256, flipped, bits]),
        PEAKS.. => rng.of(&[own ^ 1 << 31, own ^ 1 << 31, own ^ 1, 0x7fc0_0000, flipped, bits]),
        _ if at == kept => rng.of(&[0x7f80_0001, 0x7fff_ffff, 0xffc0_0000, 0xff80_0001]),
        _ => rng.of(&[0, 1, near, near, near, flipped, bits]),
    };
    put(image, at, new.unwrap_or(0));
}

fn tick(image: &mut [u8], input: &[u8], route: Option<&[u8]>, answer: &mut [u8]) -> u32 {
    let call = if route.is_some() { joint::Call::RouteTick } else { joint::Call::Tick };
    model::call(call, &mut Lending { image, input, route: route.unwrap_or_default(), answer })
}

/// Legs that meet, of one kind, as far as it has numbers that do; one of them, or none, ends at this time or next to it. At times no leg or one too many, one word of a join or of the trailer replaced, or more words than legs.
fn route(rng: &mut Rng, kind: Kind, time: f32) -> Vec<u32> {
    const WORDS: usize = LEG / 4;
    let count = rng.of(&[1, 1, 2, 2, 2, 3, 3, 3, 4, 4, 5, 8, 9, MOST_LEGS, 0, MOST_LEGS + 1]).unwrap_or(1);
    let mut legs = vec![[0.0; WORDS]; count];
    let (aim, mut end, mut from) = (rng.below(count + 1), 0.0f32, None);
    // short ones, or all of them so long that much is lost in their sum
    let (each, exact) = if rng.flag() { (0.5 / count as f32, rng.flag()) } else { (0.95 / aim as f32, true) };
    for (at, leg) in legs.iter_mut().enumerate() {
        *leg = filled(kind, &LEG_PARTS, rng);
        if let Some(from) = from.replace(<[f32; 9]>::try_from(&leg[9..18]).expect("nine words")) {
            leg[..9].copy_from_slice(&from);
        }
        if at < aim {
            leg[18] = time.min(f32::MAX) * each * rng.range(0.8, 1.05);
        } else if at == aim {
            // of an infinity less another the bits are the machine's
            let left = f32::from_bits(canonical(time - end));
            leg[18] = if exact { left } else { rng.near(left) };
        }
        end += if leg[18].is_finite() && leg[18] > 1e-3 { leg[18] } else { 1e-3 };
    }
    let mut words: Vec<u32> = legs.into_iter().flatten().map(f32::to_bits).chain([count as u32, (LEG * count) as u32]).collect();
    let any = rng.bits() as u32;
    match rng.below(12) {
        0 if count > 1 => words[WORDS * rng.below(count - 1) + 9 + rng.below(9)] = rng.word().to_bits(),
        1 => words[WORDS * count] = rng.of(&[0, MOST_LEGS as u32 + 1, count as u32 + 1, 1 << 30, any]).unwrap_or(0),
        2 => words[WORDS * count + 1] = rng.of(&[0, (LEG * count) as u32 + 76, any]).unwrap_or(0),
        // words between the legs and the trailer
        3 if count <= MOST_LEGS => {
            let more = vec![0; 1 + rng.below(WORDS)];
            words.splice(WORDS * count..WORDS * count, more);
        }
        _ => {}
    }
    words
}

/// Records appended to the empty log until there is no more room; after each append the count is read, and a record. At times a buffer
/// has another length, a trailer has one word replaced, the log's length is another, or there is no such record.
fn logs() -> [Section; 3] {
    let (mut appends, mut counts, mut records) = (Vec::new(), Vec::new(), Vec::new());
    for number in 0..LOGS {
        let (mut rng, mut places) = (Rng::new("stored logs", number), Rng::new("stored places", number));
        let room = 1 + rng.below(3);
        let (mut log, mut len) = (buffer(&mut rng, RECORD * room + log::TRAILER + MORE, &[0, 0, RECORD as u32]), log::TRAILER);
        for _ in 0..room + 1 {
            let other = rng.of(&[0, 11, len - 1, len + 1, log.len() + 1, u32::MAX as usize]).unwrap_or(0);
            let at = if rng.below(6) == 0 { other } else { len };
            let end = if rng.below(4) == 0 {
                rng.of(&[0, len - 1, len, len + RECORD - 1, len + RECORD, len + RECORD]).unwrap_or(0)
            } else {
                log.len()
            };
            let a = Lent { bytes: spoilt(&mut rng, &log, len), len: end.min(log.len()) };
            let (b, d) = (lent(&mut rng, TICK, &[]), lent(&mut rng, ANSWER, &[]));
            let mut call = Call { a, b, c: Lent::NONE, d, at: at as u32 };
            let row = call.row(|buffer, input, _, answer, log_len| log::model::append(buffer, log_len, input, answer));
            if row.answer[0] == 0 {
                (log, len) = (call.a.bytes, len + RECORD);
            }
            appends.push(row);
            let mut read = |at: u32, right: usize, oracle: fn(&[u8], u64, &mut [u8]) -> u32| {
                let b = Lent { bytes: spoilt(&mut rng, &log, len), len: length(&mut rng, len) };
                Call { a: Lent::NONE, b, c: lent(&mut rng, right, &[]), d: Lent::NONE, at }.row(|_, log, to, _, at| oracle(log, at, to))
            };
            counts.push(read(0, 4, |log, _, count| log::model::count(log, count)));
            let count = (len / RECORD) as u32;
            let place = places.of(&[0, 0, count / 2, count.saturating_sub(1), count, u32::MAX]).unwrap_or(0);
            records.push(read(place, RECORD, log::model::record));
        }
    }
    [Section::calls("log append", 503, appends), Section::calls("log count", 504, counts), Section::calls("log record", 505, records)]
}

/// A log of this length in its buffer, now and then with a word of its trailer replaced, or the trailer of a log with a record less.
fn spoilt(rng: &mut Rng, log: &[u8], len: usize) -> Vec<u8> {
    let mut log = log.to_vec();
    if len > RECORD && rng.below(16) == 0 {
        let (count, trailer) = ((len / RECORD - 1) as u32, (len - log::TRAILER) / 4);
        put(&mut log, trailer, count);
        put(&mut log, trailer + 1, RECORD as u32 * count);
    } else if rng.below(8) == 0 {
        let (at, any) = ((len - log::TRAILER) / 4 + rng.below(3), rng.bits() as u32);
        let own = word(&log, at);
        put(&mut log, at, rng.of(&[0, 1, own | 1 << 30, own | 1 << 16, 107, 108, 109, 216, any]).unwrap_or(0));
    }
    log
}
