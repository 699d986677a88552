//! Patterns (request Fourteen): the archive's call beside a tree that is read, counted and flown as document 02 says it, by recursion alone.

use crate::faults::faults;
use crate::generate::Rng;
use crate::joint::bytes::{float, put, LEG, MOST_LEGS, TRAILER};
use std::fmt;

/// The call, of the archive or of what stands in its place: pattern, route, what takes its length.
pub type Call<'a> = &'a dyn Fn(&[u8], &mut [u8], &mut [u8]) -> u32;

/// "repeats may stand inside repeats four deep"
pub const DEEP: usize = 4;

/// "an item is a leg or a repeat of 1 to 9 that holds a pattern"
#[derive(Clone, Debug)]
pub enum Item {
    Leg([u8; LEG]),
    Repeat(u8, Vec<Item>),
}

faults! {
    // those with which the proofs are tried
    FiveDeep,
    CountFirst,
    JoinsBeforeRoom,
    OnceLess,
    WithinARound,
    WrittenFirst,
    // of the form
    ThreeDeep,
    FiveDeepEmpty,
    CountZero,
    CountTen,
    CountAscii,
    OtherTag,
    BigEndian,
    LeftOver,
    InnerShort,
    LengthOfAll,
    // of the count
    OneLegMore,
    OneLegFewer,
    CountWraps,
    CountWrapsLate,
    NoneTaken,
    // of the room
    RoomFirst,
    RoomForLegs,
    OneByteMore,
    LengthLate,
    // of the joins
    AcrossRounds,
    IntoARound,
    EmptyBetween,
    JoinPositions,
    JoinBits,
    LastToFirst,
    // of what is written
    InnerOnce,
    ItemCount,
    BackFromEnd,
    LengthOfLegs,
    RestCleared,
    LengthRefused,
}

/// "a tag byte, 0 for a leg and its 76 bytes, 1 for a repeat with a count byte and a two-byte little-endian length of its inner bytes". None where these
/// bytes are no pattern, or repeats stand deeper than this; what was read before that is there.
fn read(fault: Fault, mut bytes: &[u8], deep: usize, items: &mut Vec<Item>) -> Option<()> {
    while let [tag, rest @ ..] = bytes {
        bytes = match tag {
            0 => {
                let (leg, rest) = rest.split_at_checked(LEG)?;
                items.push(Item::Leg(leg.try_into().ok()?));
                rest
            }
            1 => {
                let [count, low, high, rest @ ..] = rest else { return None };
                let length = usize::from(if fault == Fault::BigEndian {
                    u16::from_be_bytes([*low, *high])
                } else {
                    u16::from_le_bytes([*low, *high])
                });
                let length = match fault {
                    Fault::LengthOfAll => length.checked_sub(4)?,
                    Fault::InnerShort => length.min(rest.len()),
                    _ => length,
                };
                let (inside, rest) = rest.split_at_checked(length)?;
                let deeper = if fault == Fault::FiveDeepEmpty && inside.is_empty() { 0 } else { deep.checked_sub(1)? };
                let counted = match count {
                    1..=9 => true,
                    0 => fault == Fault::CountZero,
                    10 => fault == Fault::CountTen,
                    b'1'..=b'9' => fault == Fault::CountAscii,
                    _ => false,
                };
                let mut inner = Vec::new();
                let whole = counted.then_some(()).and_then(|()| read(fault, inside, deeper, &mut inner));
                items.push(Item::Repeat(*count, inner));
                whole?;
                rest
            }
            2 if fault == Fault::OtherTag => rest.get(LEG..)?,
            _ if fault == Fault::LeftOver && deep < DEEP => &[],
            _ => return None,
        }
    }
    Some(())
}

/// How many legs are flown.
pub(crate) fn count(fault: Fault, items: &[Item]) -> u64 {
    let of = |item: &Item| match item {
        Item::Leg(_) => 1,
        Item::Repeat(times, inner) => u64::from(*times) * count(fault, inner),
    };
    let all = items.iter().map(of).sum();
    match fault {
        Fault::CountWraps => u64::from(all as u8),
        Fault::CountWrapsLate => u64::from(all as u16),
        _ => all,
    }
}

/// The legs as they are flown; none where a join is not looked at.
fn flown<'a>(fault: Fault, items: &'a [Item], inside: bool, legs: &mut Vec<Option<&'a [u8; LEG]>>) {
    for item in items {
        match item {
            Item::Leg(leg) => legs.push(Some(leg)),
            Item::Repeat(_, inner) if count(Fault::None, inner) == 0 => legs.extend((fault == Fault::EmptyBetween).then_some(None)),
            Item::Repeat(times, inner) => {
                let times = match fault {
                    Fault::OnceLess => times - 1,
                    Fault::InnerOnce if inside => 1,
                    _ => *times,
                };
                for round in 0..times {
                    let apart = match fault {
                        Fault::WithinARound => true,
                        Fault::AcrossRounds => round > 0,
                        Fault::IntoARound => round == 0,
                        _ => false,
                    };
                    legs.extend(apart.then_some(None));
                    flown(fault, inner, true, legs);
                }
            }
        }
    }
}

/// Each p0, v0, a0 is the pf, vf, af before it as a number.
fn meet(fault: Fault, earlier: &[u8; LEG], later: &[u8; LEG]) -> bool {
    let same = |end: f32, start: f32| if fault == Fault::JoinBits { end.to_bits() == start.to_bits() } else { end == start };
    (0..if fault == Fault::JoinPositions { 3 } else { 9 }).all(|at| same(float(earlier, 9 + at), float(later, at)))
}

/// "Refusals: 12 a bad tag, count, depth or length, then 5 for no legs or more than 32, 9 if the route doesn't fit its buffer, 7." Before them 2, where what
/// takes the length is not a word.
pub fn expand(fault: Fault, pattern: &[u8], route: &mut [u8], length: &mut [u8]) -> u32 {
    let deep = match fault {
        Fault::FiveDeep => DEEP + 1,
        Fault::ThreeDeep => DEEP - 1,
        _ => DEEP,
    };
    let mut items = Vec::new();
    let formed = read(fault, pattern, deep, &mut items).is_some();
    let number = count(fault, &items);
    let most = match fault {
        Fault::OneLegMore => MOST_LEGS + 1,
        Fault::OneLegFewer => MOST_LEGS - 1,
        _ => MOST_LEGS,
    };
    let least = u64::from(fault != Fault::NoneTaken);
    let beside = match fault {
        Fault::RoomForLegs => 0,
        Fault::OneByteMore => TRAILER + 1,
        _ => TRAILER,
    };
    let mut legs = Vec::new();
    // more of them are refused unseen
    if count(Fault::None, &items) <= MOST_LEGS as u64 + 1 {
        flown(fault, &items, false, &mut legs);
    }
    let join = |earlier: &Option<&[u8; LEG]>, later: &Option<&[u8; LEG]>| {
        earlier.zip(*later).is_none_or(|(earlier, later)| meet(fault, earlier, later))
    };
    let around = fault != Fault::LastToFirst || legs.first().zip(legs.last()).is_none_or(|(first, last)| join(last, first));
    let refusals = [
        (2, length.len() != 4),
        (12, !formed),
        (5, !(least..=most as u64).contains(&number)),
        (9, (route.len() as u64) < LEG as u64 * number + beside as u64),
        (7, !(around && legs.windows(2).all(|two| join(&two[0], &two[1])))),
    ];
    let order = match fault {
        Fault::LengthLate => [1, 0, 2, 3, 4],
        Fault::CountFirst => [0, 2, 1, 3, 4],
        Fault::RoomFirst => [0, 1, 3, 2, 4],
        Fault::JoinsBeforeRoom => [0, 1, 2, 4, 3],
        _ => [0, 1, 2, 3, 4],
    };
    let said = order.iter().map(|at| refusals[*at]).find(|(_, holds)| *holds).map_or(0, |(number, _)| number);
    if said != 0 && fault == Fault::LengthRefused {
        put(length, 0, LEG as u32);
    }
    if said != 0 && !(said == 7 && fault == Fault::WrittenFirst) {
        return said;
    }
    let legs: Vec<&[u8; LEG]> = legs.into_iter().flatten().collect();
    let back = LEG * legs.len();
    let words =
        [if fault == Fault::ItemCount { items.len() } else { legs.len() }, if fault == Fault::BackFromEnd { back + TRAILER } else { back }];
    let bytes = legs.into_iter().flatten().copied().chain(words.iter().flat_map(|word| (*word as u32).to_le_bytes()));
    if fault == Fault::RestCleared {
        route.fill(0);
    }
    route.iter_mut().zip(bytes).for_each(|(own, byte)| *own = byte);
    put(length, 0, (back + if fault == Fault::LengthOfLegs { 0 } else { TRAILER }) as u32);
    said
}

/// The bytes of a tree, and where in them each item begins.
pub fn written(items: &[Item]) -> (Vec<u8>, Vec<usize>) {
    let (mut bytes, mut heads) = (Vec::new(), Vec::new());
    for item in items {
        heads.push(bytes.len());
        match item {
            Item::Leg(words) => {
                bytes.push(0);
                bytes.extend(words);
            }
            Item::Repeat(count, inner) => {
                let (inner, inside) = written(inner);
                // none that is generated is longer
                bytes.extend([1, *count]);
                bytes.extend((inner.len() as u16).to_le_bytes());
                heads.extend(inside.iter().map(|head| bytes.len() + head));
                bytes.extend(inner);
            }
        }
    }
    (bytes, heads)
}

/// Where legs begin and end: nine numbers. The second and the third are at one place; nothing meets the last.
const STATES: [[f32; 9]; 4] = [
    [0.0; 9],
    [1.0, -2.0, -4.0, 0.5, 0.0, 0.0, 0.0, 0.25, 0.0],
    [1.0, -2.0, -4.0, 0.5, 0.0, 0.0, 0.0, -0.25, f32::INFINITY],
    [1.0, -2.0, -4.0, 0.5, f32::NAN, 0.0, 0.0, 0.25, 0.0],
];

/// A leg from one of these to another; a zero is of either sign.
pub fn leg(rng: &mut Rng, from: usize, to: usize) -> Item {
    let mut bytes = [0; LEG];
    for (at, x) in STATES[from].iter().chain(&STATES[to]).enumerate() {
        put(&mut bytes, at, if *x == 0.0 && rng.flag() { -x } else { *x }.to_bits());
    }
    put(&mut bytes, 18, rng.word().to_bits());
    Item::Leg(bytes)
}

/// Items that lead from one state to another and mostly meet, repeats no more than so deep.
fn tree(rng: &mut Rng, deep: usize, from: usize, to: usize) -> Vec<Item> {
    let (mut items, mut at) = (Vec::new(), from);
    for _ in 0..rng.below(4) {
        if deep > 0 && rng.below(5) < 2 {
            // where it is flown once it may lead anywhere
            let times = rng.of(&[1, 1, 2, 2, 2, 3, 3, 4, 9]).unwrap_or(1);
            let next = if times == 1 || rng.below(12) == 0 { rng.below(3) } else { at };
            let inner = if rng.below(6) == 0 { Vec::new() } else { tree(rng, deep - 1, at, next) };
            at = if inner.is_empty() { at } else { next };
            items.push(Item::Repeat(times, inner));
        } else {
            let start = if rng.below(20) == 0 { rng.below(STATES.len()) } else { at };
            at = rng.below(3);
            items.push(leg(rng, start, at));
        }
    }
    if at != to {
        items.push(leg(rng, at, to));
    }
    items
}

/// A tree of any depth, filled up to the most legs or one more, and wrapped at times.
pub fn any(rng: &mut Rng) -> Vec<Item> {
    let (deep, at) = (rng.below(DEEP + 2), rng.below(3));
    let mut items = tree(rng, deep, at, at);
    let legs = count(Fault::None, &items) as usize;
    if let (0..=33, 0..3) = (legs, rng.below(8)) {
        let full = MOST_LEGS + rng.below(2);
        items.extend((legs..full).map(|_| leg(rng, at, at)));
    }
    for _ in 0..rng.below(8).saturating_sub(3) {
        items = vec![Item::Repeat(1 + rng.below(2) as u8, items)];
    }
    items
}

/// Bytes of a pattern with something wrong, mostly where an item begins: a tag, a count, a length off by one, an end.
pub fn damaged(rng: &mut Rng, (mut bytes, heads): (Vec<u8>, Vec<usize>)) -> Vec<u8> {
    let (head, anywhere) = (rng.of(&heads).unwrap_or(0), rng.below(bytes.len().max(1)));
    let mut set = |at: usize, to: &dyn Fn(u8) -> u8| {
        if let Some(byte) = bytes.get_mut(at) {
            *byte = to(*byte);
        }
    };
    match rng.below(10) {
        0 => set(head, &|tag| tag ^ 1),
        1 => set(head, &|_| 2),
        2 => set(head, &|_| 0xff),
        3..=4 => {
            let count = rng.of(&[0, 10, 0x31, 0x39, 0xff]).unwrap_or(0);
            set(head + 1, &|_| count);
        }
        5 => set(head + 2, &|low| low.wrapping_add(1)),
        6 => set(head + 2, &|low| low.wrapping_sub(1)),
        7 => bytes.truncate(anywhere),
        8 => {
            let more = rng.of(&[0, 1, 2, 0xff]).unwrap_or(2);
            bytes.push(more);
        }
        _ => {
            let byte = rng.bits() as u8;
            set(anywhere, &|_| byte);
        }
    }
    bytes
}

/// How often each number was said.
#[derive(Default)]
pub struct Seen(pub [u64; 13]);

impl fmt::Display for Seen {
    fn fmt(&self, f: &mut fmt::Formatter<'_>) -> fmt::Result {
        let said: Vec<String> =
            self.0.iter().enumerate().filter(|(_, times)| **times > 0).map(|(number, times)| format!("{times} of {number}")).collect();
        write!(f, "patterns by what is said of them: {}", said.join(", "))
    }
}

/// One pattern with room for so much and for a length of so many bytes: the number, and every byte of both.
pub fn one(call: Call, pattern: &[u8], room: usize, word: usize, seen: &mut Seen) -> Result<u32, String> {
    let fresh = |len: usize| (0..len).map(|at| 0xa5 ^ at as u8).collect::<Vec<u8>>();
    let [(mut route, mut length), (mut right, mut right_length)] = [(); 2].map(|()| (fresh(room), fresh(word)));
    let (said, number) = (call(pattern, &mut route, &mut length), expand(Fault::None, pattern, &mut right, &mut right_length));
    if (said, &route, &length) != (number, &right, &right_length) {
        let at = route.iter().zip(&right).position(|(own, right)| own != right);
        let begins = &pattern[..pattern.len().min(400)];
        return Err(format!(
            "room for {room}, {word} bytes for its length: said {said}, right is {number}; first wrong of the route at {at:?}, its length {length:?}, right is \
             {right_length:?}; {} bytes, {begins:?}",
            pattern.len()
        ));
    }
    if let Some(times) = seen.0.get_mut(number as usize) {
        *times += 1;
    }
    Ok(number)
}

/// Patterns of any trees, whole and damaged, with room that is right and room that is not.
pub fn sweep(call: Call, patterns: usize) -> Result<Seen, String> {
    let (mut rng, mut seen) = (Rng::new("pattern", 0), Seen::default());
    for pattern in large(&mut rng) {
        one(call, &written(&pattern).0, MOST_LEGS * LEG + TRAILER, 4, &mut seen)?;
    }
    for _ in 0..patterns {
        let items = any(&mut rng);
        let (needed, whole) = (count(Fault::None, &items).min(40) as usize * LEG + TRAILER, written(&items));
        let bytes = if rng.below(3) == 0 { damaged(&mut rng, whole) } else { whole.0 };
        let room = match rng.below(8) {
            0 => needed - 1,
            1 => needed - TRAILER,
            2 => rng.below(needed),
            3 => needed + 1 + rng.below(200),
            _ => needed,
        };
        let word = if rng.below(16) == 0 { rng.of(&[0, 3, 5, 8]).unwrap_or(0) } else { 4 };
        one(call, &bytes, room, word, &mut seen)?;
    }
    Ok(seen)
}

/// Trees of so many legs that a narrow count goes round: 257, 65,537 and the most that a repeat can have.
pub(crate) fn large(rng: &mut Rng) -> Vec<Vec<Item>> {
    let mut nested = |times: &[u8], legs: usize, more: usize| {
        let body = (0..legs).map(|_| leg(rng, 0, 0)).collect();
        let mut items = times.iter().fold(body, |inner, times| vec![Item::Repeat(*times, inner)]);
        items.extend((0..more).map(|_| leg(rng, 0, 0)));
        items
    };
    vec![nested(&[8, 8], 4, 1), nested(&[8, 8, 8, 8], 16, 1), nested(&[9, 9, 9, 9], 850, 0)]
}

/// Every list of so many repeats of nothing but repeats, of any lengths that could go together; and each with its last byte gone, and with its first length
/// off by one either way.
pub fn heads(call: Call, count: u32) -> Result<[Seen; 2], String> {
    let mut seen = [Seen::default(), Seen::default()];
    let [whole, wrong] = &mut seen;
    let lengths = count as usize + 1;
    for number in 0..lengths.pow(count) {
        let head = |at: u32| [1, 1 + at as u8, 4 * (number / lengths.pow(at) % lengths) as u8, 0];
        let bytes: Vec<u8> = (0..count).flat_map(head).collect();
        one(call, &bytes, 8, 4, whole)?;
        for add in [1, u8::MAX] {
            let mut off = bytes.clone();
            off.iter_mut().skip(2).take(1).for_each(|low| *low = low.wrapping_add(add));
            one(call, &off, 8, 4, wrong)?;
        }
        one(call, &bytes[..bytes.len().saturating_sub(1)], 8, 4, wrong)?;
    }
    Ok(seen)
}
