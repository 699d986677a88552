//! The desk's calls. Each has six buffers, of which it takes those that it has.

use super::{bits, buffer, damage, filled, flown_a_little, route, words_of, Lent, Row, Section, INPUT, KINDS, MORE};
use crate::desk::{self, expected, Call, Fault, DESK, DESK_SETUP, STICKS};
use crate::generate::{Kind, Rng};
use crate::joint::bytes::{ANSWER, IMAGE, TICK};
use crate::joint::model::Flight;

const RUNS: u64 = 56;
const CALLS: u64 = 9;

/// Desk, sticks, image, input, route, answer.
type Six = [Lent; 6];

/// Given all six; answered the number, and those that a call may change.
fn row(call: Call, six: &mut Six) -> Row {
    let given = six.iter().flat_map(Lent::stored).collect();
    let [desk, sticks, image, input, route, answer] = six.each_ref().map(|lent| lent.lent().to_vec());
    let mut after = desk::Lent { desk, sticks, image, input, route, answer };
    let number = expected(Fault::None, call, &mut after);
    let [desk, _, image, input, _, answer] = six;
    let changed = [(desk, after.desk), (image, after.image), (input, after.input), (answer, after.answer)];
    let words = changed.into_iter().flat_map(|(lent, after)| {
        lent.lent_mut().copy_from_slice(&after);
        words_of(&lent.bytes)
    });
    Row { given, answer: std::iter::once(number).chain(words).collect() }
}

/// Those of which another length than the right one is lent: mostly none, at times one, at times any.
fn wrong_lengths(rng: &mut Rng) -> [bool; 6] {
    let (way, one) = (rng.below(6), rng.below(6));
    std::array::from_fn(|at| match way {
        0 => rng.below(3) == 0,
        1 => at == one,
        _ => false,
    })
}

/// These bytes, with a word more behind them.
fn with_more(rng: &mut Rng, bytes: &[u8]) -> Vec<u8> {
    [bytes, &buffer(rng, MORE, &[])].concat()
}

/// A buffer with a word more than the right length, lent with that length or with one near it.
fn lent(rng: &mut Rng, bytes: Vec<u8>, wrong: bool) -> Lent {
    let right = bytes.len() - MORE;
    let near = rng.of(&[0, right - 4, right - 1, right + 1, right + MORE]).unwrap_or(0);
    Lent { bytes, len: if wrong { near } else { right } }
}

/// From a set-up or from any desk, ticks on the segment and on routes, and the button; the desk and the image are handed on. At times lengths are wrong, or an
/// image with one word replaced is lent; then the run goes on with the one before.
fn run(number: u64) -> Vec<(Call, Row)> {
    let mut rng = Rng::new("stored desks", number);
    let rng = &mut rng;
    let mut image = flown_a_little(rng, number);
    let any = desk::words(rng, DESK);
    let mut desk = with_more(rng, &any);
    let one = |at: u64| {
        let call = match at {
            0 | 1 if number % 4 != 0 => Call::SetUp,
            0 | 7 => Call::Centre,
            _ if at % 2 == 0 => Call::Tick,
            _ => Call::RouteTick,
        };
        let (ticks, wrong) = (matches!(call, Call::Tick | Call::RouteTick), wrong_lengths(rng));
        let mut six = [const { Lent::NONE }; 6];
        six[0] = lent(rng, desk.clone(), wrong[0]);
        if call != Call::Centre {
            let sticks = desk::words(rng, if call == Call::SetUp { DESK_SETUP } else { STICKS });
            let sticks = with_more(rng, &sticks);
            six[1] = lent(rng, sticks, wrong[1]);
        }
        let before = image.clone();
        if ticks {
            let kind = if rng.flag() { Kind::Flight } else { KINDS[rng.below(4)] };
            let mut words = filled::<{ TICK / 4 }>(kind, &INPUT, rng);
            if rng.below(6) == 0 {
                words[10] = rng.of(&[f32::NAN, f32::INFINITY, -1.0, 0.0]).unwrap_or(0.0);
            }
            if rng.below(6) == 0 {
                damage(rng, &mut image);
            }
            let (input, answer) = (buffer(rng, TICK + MORE, &bits(words)), buffer(rng, ANSWER + MORE, &[]));
            six[2] = lent(rng, image.clone(), wrong[2]);
            six[3] = lent(rng, input, wrong[3]);
            if call == Call::RouteTick {
                let time = Flight::from_image(&before[..IMAGE]).time_ahead(words[7], words[10]);
                let route = route(rng, kind, time);
                let route = buffer(rng, 4 * route.len() + MORE, &route);
                six[4] = lent(rng, route, wrong[4]);
            }
            six[5] = lent(rng, answer, wrong[5]);
        }
        let whole = before == image;
        let row = row(call, &mut six);
        let [left, _, flown, ..] = six;
        desk = left.bytes;
        image = if ticks && whole { flown.bytes } else { before };
        (call, row)
    };
    (0..CALLS).map(one).collect()
}

pub(super) fn desks() -> [Section; 4] {
    let mut all: Vec<(Call, Row)> = (0..RUNS).flat_map(run).collect();
    let calls = [
        (512, Call::Tick, "desk tick"),
        (513, Call::RouteTick, "desk route tick"),
        (514, Call::SetUp, "desk set-up"),
        (515, Call::Centre, "desk centre"),
    ];
    calls.map(|(number, call, name)| {
        let (own, others) = std::mem::take(&mut all).into_iter().partition(|(of, _)| *of == call);
        all = others;
        let own: Vec<(Call, Row)> = own;
        Section::calls(name, number, own.into_iter().map(|(_, row)| row).collect())
    })
}
