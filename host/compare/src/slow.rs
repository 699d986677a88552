//! The slow shield (request Nine): the archive's call beside relay's own shield, stepped margin by margin.

use crate::generate::Rng;
use oracle::geo::{RecoverableSet, SimplexShield};
use std::fmt;

/// The most margins.
pub const MOST: usize = 65_535;

/// The call, of the archive or of what stands in its place: margins, enter, exit, flags.
pub type Call<'a> = &'a dyn Fn(&[u8], f32, f32, &mut [u8]) -> u32;

fn fresh(enter: f32, exit: f32) -> SimplexShield {
    SimplexShield::new(RecoverableSet::new(1.0, 1.0, 1.75), enter, exit)
}

/// The thresholds that relay's shield keeps of these.
pub fn mended(enter: f32, exit: f32) -> (f32, f32) {
    let [.., enter, exit] = fresh(enter, exit).words();
    (enter, exit)
}

/// What relay's shield says at each margin.
pub fn stepped(margins: &[f32], enter: f32, exit: f32) -> Vec<u8> {
    let mut shield = fresh(enter, exit);
    margins.iter().map(|margin| u8::from(shield.step(*margin, [0.0; 3], [0.0; 3]).1)).collect()
}

pub fn words(margins: &[f32]) -> Vec<u8> {
    margins.iter().flat_map(|margin| margin.to_bits().to_le_bytes()).collect()
}

/// How often each flag, each margin that decides and each refusal was seen.
#[derive(Default)]
pub struct Seen {
    pub flags: [u64; 2],
    pub at_enter: u64,
    pub at_exit: u64,
    pub non_finite: u64,
    pub refused: u64,
    pub lists: u64,
}

impl fmt::Display for Seen {
    fn fmt(&self, f: &mut fmt::Formatter<'_>) -> fmt::Result {
        let Seen { flags: [planner, fallback], at_enter, at_exit, non_finite, refused, lists } = self;
        write!(f, "{lists} lists, {planner} margins at which the planner flies and {fallback} at which the fallback does; ")?;
        write!(f, "{at_enter} at enter, {at_exit} at exit, {non_finite} not finite; {refused} lists refused")
    }
}

/// A threshold as it may be given: in order or not, mended or not.
pub fn threshold(rng: &mut Rng) -> f32 {
    match rng.below(5) {
        0 => rng.special(),
        1 => rng.word(),
        _ => rng.range(0.0, 2.0),
    }
}

/// A margin where the shield decides: a threshold or a number next to it, one in the band or about it, or one that is no number.
pub fn margin(rng: &mut Rng, enter: f32, exit: f32) -> f32 {
    match rng.below(12) {
        0 => enter,
        1 => exit,
        2 => rng.near(enter),
        3 => rng.near(exit),
        4 => rng.of(&[f32::NAN, f32::from_bits(0xffc0_0001), f32::INFINITY, f32::NEG_INFINITY]).unwrap_or(f32::NAN),
        5 => rng.word(),
        6 | 7 => rng.range(0.0, 2.0) * exit,
        _ => enter + (exit - enter) * rng.part(),
    }
}

/// Thresholds as they may be given, and so many margins about what they are mended to.
pub fn drawn(rng: &mut Rng, length: usize) -> ((f32, f32), Vec<f32>) {
    let given = (threshold(rng), threshold(rng));
    let (enter, exit) = mended(given.0, given.1);
    (given, (0..length).map(|_| margin(rng, enter, exit)).collect())
}

/// One list: every flag as relay's, and with a length that is wrong no flag written.
fn list(call: Call, rng: &mut Rng, length: usize, seen: &mut Seen) -> Result<(), String> {
    let (given, margins) = drawn(rng, length);
    let (enter, exit) = mended(given.0, given.1);
    let (bytes, expected) = (words(&margins), stepped(&margins, given.0, given.1));
    let mut flags = vec![7; length];
    let number = call(&bytes, given.0, given.1, &mut flags);
    if (number, &flags) != (0, &expected) {
        let at = flags.iter().zip(&expected).position(|(own, right)| own != right);
        return Err(format!(
            "{length} margins, enter {:?}, exit {:?}: number {number}, first wrong at {at:?} of {margins:?}",
            given.0, given.1
        ));
    }
    seen.lists += 1;
    expected.iter().for_each(|flag| seen.flags[usize::from(*flag)] += 1);
    let count = |is: &dyn Fn(f32) -> bool| margins.iter().filter(|margin| is(**margin)).count() as u64;
    seen.at_enter += count(&|margin| margin == enter);
    seen.at_exit += count(&|margin| margin == exit);
    seen.non_finite += count(&|margin| !margin.is_finite());
    // lengths that do not go together: a ragged list, a flag too many, one too few
    let room = [1, 2, 3].map(|less| (bytes.len().saturating_sub(less), length)).into_iter().chain([(bytes.len(), length + 1)]);
    for (bytes_len, flags_len) in room.filter(|(bytes_len, flags_len)| *bytes_len != 4 * flags_len) {
        refused(call, &bytes[..bytes_len], given, flags_len)?;
        seen.refused += 1;
    }
    Ok(())
}

/// Number 9, and no flag written.
pub fn refused(call: Call, bytes: &[u8], (enter, exit): (f32, f32), flags: usize) -> Result<(), String> {
    let mut to = vec![7; flags];
    let number = call(bytes, enter, exit, &mut to);
    match number == 9 && to.iter().all(|byte| *byte == 7) {
        true => Ok(()),
        false => Err(format!("{} bytes of margins and {flags} flags: number {number}, or a flag was written", bytes.len())),
    }
}

/// Lists of every length to 300 and of some to the most, and one more than that.
pub fn sweep(call: Call) -> Result<Seen, String> {
    let (mut rng, mut seen) = (Rng::new("slow", 0), Seen::default());
    for length in 0..300 {
        for _ in 0..20 {
            list(call, &mut rng, length, &mut seen)?;
        }
    }
    for length in [1_000, 10_000, MOST - 1, MOST] {
        list(call, &mut rng, length, &mut seen)?;
    }
    for length in [MOST + 1, MOST + 2, 1 << 17] {
        refused(call, &words(&vec![2.0; length]), (0.5, 1.0), length)?;
        seen.refused += 1;
    }
    Ok(seen)
}

/// An engine that looks back, written from request Nine's sentence alone, and that can be made wrong.
#[derive(Clone, Copy)]
pub struct Engine {
    pub name: &'static str,
    /// How many margins before its own a tick starts at.
    pub late: usize,
    pub mends: bool,
    pub releases: fn(f32, f32) -> bool,
    pub engages: fn(f32, f32) -> bool,
    pub most: usize,
    pub writes_refused: bool,
}

pub const RIGHT: Engine = Engine {
    name: "right",
    late: 0,
    mends: true,
    releases: |exit, margin| margin.is_finite() && margin > exit,
    engages: |enter, margin| !margin.is_finite() || margin < enter,
    most: MOST,
    writes_refused: false,
};

pub const WRONG: [Engine; 9] = [
    Engine { name: "looks back from the tick before", late: 1, ..RIGHT },
    Engine { name: "mends not", mends: false, ..RIGHT },
    Engine { name: "released at exit", releases: |exit, margin| margin.is_finite() && margin >= exit, ..RIGHT },
    Engine { name: "released by +infinity", releases: |exit, margin| margin > exit, ..RIGHT },
    Engine { name: "engaged at enter", engages: |enter, margin| !margin.is_finite() || margin <= enter, ..RIGHT },
    Engine { name: "a NaN engages nothing", engages: |enter, margin| margin.is_infinite() || margin < enter, ..RIGHT },
    Engine { name: "65,536 taken", most: MOST + 1, ..RIGHT },
    Engine { name: "65,535 refused", most: MOST - 1, ..RIGHT },
    Engine { name: "writes where it refuses", writes_refused: true, ..RIGHT },
];

impl Engine {
    pub fn flags(&self, bytes: &[u8], enter: f32, exit: f32, flags: &mut [u8]) -> u32 {
        if bytes.len() != 4 * flags.len() || flags.len() > self.most {
            if let (true, Some(first)) = (self.writes_refused, flags.first_mut()) {
                *first = 1;
            }
            return 9;
        }
        let (enter, exit) = if self.mends { mended(enter, exit) } else { (enter, exit) };
        let margins: Vec<f32> = bytes.chunks_exact(4).map(|four| f32::from_le_bytes([four[0], four[1], four[2], four[3]])).collect();
        for (at, flag) in flags.iter_mut().enumerate() {
            let looked = &margins[..(at + 1).saturating_sub(self.late)];
            let decides = looked.iter().rev().find(|margin| (self.releases)(exit, **margin) || (self.engages)(enter, **margin));
            *flag = u8::from(!decides.is_some_and(|margin| (self.releases)(exit, *margin)));
        }
        0
    }
}
