//! Patterns: the archive's call against document 02's tree, byte by byte.

use compare::generate::Rng;
use compare::joint::bytes::{put, ANSWER, IMAGE, LEG, MOST_LEGS, SETUP, TICK, TRAILER};
use compare::joint::model::Flight;
use compare::pattern::{expand, heads, leg, sweep, Fault, Item, WRONG};

/// And what is expanded flies: a route tick takes it.
#[test]
fn every_pattern_as_the_tree_has_it() {
    let mut fresh = [0; IMAGE];
    Flight::set_up(&[0; SETUP]).write(&mut fresh);
    let flies = |pattern: &[u8], route: &mut [u8], length: &mut [u8]| {
        let number = archives::pattern_expand(pattern, route, length);
        if number == 0 {
            let length = u32::from_le_bytes(length.try_into().expect("a word")) as usize;
            assert_eq!(archives::route_tick(&mut fresh.clone(), &[0; TICK], &route[..length], &mut [0; ANSWER]), 0);
        }
        number
    };
    let seen = sweep(&flies, 300_000).unwrap_or_else(|text| panic!("{text}"));
    println!("{seen}");
    // a sweep that never goes where the errors are shows nothing
    assert!([0, 2, 5, 7, 9, 12].iter().all(|number| seen.0[*number] > 10_000), "{seen}");
}

/// Repeats alone, in every order. So many lists of n repeats as there are forests of n, no tree higher than four: half of one more than three to the n less 1.
#[test]
fn every_nest_of_repeats() {
    for count in 0..=6u32 {
        let [whole, wrong] = heads(&archives::pattern_expand, count).unwrap_or_else(|text| panic!("{text}"));
        println!("{count} repeats: {whole}; damaged: {wrong}");
        let forests = count.checked_sub(1).map_or(1, |less| 3u64.pow(less).div_ceil(2));
        assert_eq!((whole.0[5], whole.0[5] + whole.0[12]), (forests, u64::from(count + 1).pow(count)));
    }
}

#[test]
fn what_looks_right_but_is_wrong_is_caught() {
    let caught = |fault: &&Fault| match sweep(&|pattern, route, length| expand(**fault, pattern, route, length), 30_000) {
        Err(text) => {
            println!("{fault:?}: {text:.200}");
            true
        }
        Ok(_) => false,
    };
    let missed: Vec<&Fault> = WRONG.iter().filter(|fault| !caught(fault)).collect();
    assert!(missed.is_empty(), "not caught: {missed:?}");
}

// Some lines of document 02 by hand, through the archive; the model has no part in them.

/// A leg from one place to another, with this duration.
fn from_to(from: f32, to: f32, t: f32) -> Vec<u8> {
    let mut leg = vec![0; LEG];
    [(0, from), (9, to), (18, t)].into_iter().for_each(|(at, x)| put(&mut leg, at, x.to_bits()));
    [&[0], &leg[..]].concat()
}

fn repeat(count: u8, inner: &[u8]) -> Vec<u8> {
    [&[1, count, inner.len() as u8, (inner.len() >> 8) as u8], inner].concat()
}

/// The number alone, with room for any route; what is refused writes nothing.
fn number(pattern: &[u8]) -> u32 {
    number_with(pattern, MOST_LEGS * LEG + TRAILER, 4)
}

fn number_with(pattern: &[u8], room: usize, word: usize) -> u32 {
    let (mut route, mut length) = (vec![0xee; room], vec![0xee; word]);
    let number = archives::pattern_expand(pattern, &mut route, &mut length);
    assert!(number == 0 || route.iter().chain(&length).all(|byte| *byte == 0xee));
    number
}

/// "Expanding writes a route of One's form; expanding equals the legs in flown order […]. The route takes the first bytes of its buffer, its length stands in the
/// answer, and the bytes after it stay."
#[test]
fn a_loop_by_hand() {
    let [out, there, back, home] = [from_to(0.0, 1.0, 1.0), from_to(1.0, 2.0, 2.0), from_to(2.0, 1.0, 3.0), from_to(1.0, 0.0, 4.0)];
    let pattern = [&out[..], &[1, 2, 154, 0], &there, &back, &home].concat();
    let (mut route, mut length) = ([0xcc; 500], [0xcc; 4]);
    assert_eq!(archives::pattern_expand(&pattern, &mut route, &mut length), 0);
    let legs = [&out[1..], &there[1..], &back[1..], &there[1..], &back[1..], &home[1..]].concat();
    let right = [&legs[..], &6u32.to_le_bytes(), &456u32.to_le_bytes(), &[0xcc; 36]].concat();
    assert_eq!((&route[..], length), (&right[..], 464u32.to_le_bytes()));
}

/// "12 a bad tag, count, depth or length": each, and what is next to it.
#[test]
fn the_form_by_hand() {
    let one = from_to(0.0, 0.0, 1.0);
    (0..=255u8).for_each(|count| assert_eq!(number(&repeat(count, &one)), if (1..=9).contains(&count) { 0 } else { 12 }, "{count}"));
    assert_eq!([0, 10, 0x31].map(|count| number(&repeat(count, &[]))), [12; 3]);
    (2..=255u8).for_each(|tag| assert_eq!(number(&[&[tag], &one[1..]].concat()), 12));
    let deep = |count: usize, inner: &[u8]| (0..count).fold(inner.to_vec(), |inner, _| repeat(1, &inner));
    for (inner, taken) in [(&one[..], 0), (&[], 5)] {
        assert_eq!([0, 1, 2, 3, 4, 5, 6].map(|count| number(&deep(count, inner))), [taken, taken, taken, taken, taken, 12, 12]);
    }
    // a deep one beside one that is not: depth is no count of repeats
    assert_eq!(number(&[deep(4, &[]), deep(4, &one), deep(4, &[])].concat()), 0);
    assert_eq!([75, 76, 78, 79].map(|length| number(&[&[1, 1, length, 0], &one[..]].concat())), [12; 4]);
    // one that is too long takes what stands behind it, and is used up by it
    assert_eq!([77, 154].map(|length| number(&[&[1, 1, length, 0], &one[..], &one].concat())), [0; 2]);
    let looped = repeat(2, &one);
    (1..looped.len())
        .for_each(|cut| assert_eq!((number(&looped[..cut]), number(&looped[cut..])), (12, if cut == 4 { 0 } else { 12 }), "{cut}"));
}

/// "12 […], then 5 for no legs or more than 32, 9 if the route doesn't fit its buffer, 7."
#[test]
fn refusals_by_hand() {
    let (stay, go) = (from_to(0.0, 0.0, 1.0), from_to(0.0, 1.0, 1.0));
    let times = |leg: &[u8], count: usize| leg.repeat(count);
    // 12 also where a bad tag stands after a hundred legs, or inside of a repeat
    assert_eq!((number(&times(&stay, 100)), number(&[&times(&stay, 100)[..], &[2]].concat())), (5, 12));
    assert_eq!(number(&[times(&stay, 100), repeat(1, &[2])].concat()), 12);
    assert_eq!((number(&[]), number(&repeat(9, &repeat(9, &[])))), (5, 5));
    assert_eq!([31, 32, 33].map(|count| number(&times(&stay, count))), [0, 0, 5]);
    assert_eq!(
        [repeat(3, &times(&stay, 11)), repeat(8, &repeat(4, &stay)), [repeat(8, &repeat(4, &stay)), stay.clone()].concat()]
            .map(|p| number(&p)),
        [5, 0, 5]
    );
    // 5 before 9 and 7, 9 before 7
    assert_eq!((number_with(&[], 0, 4), number_with(&times(&go, 33), 0, 4)), (5, 5));
    let two = times(&go, 2);
    assert_eq!([0, 7, 152, 159, 160, 161].map(|room| number_with(&two, room, 4)), [9, 9, 9, 9, 7, 7]);
    assert_eq!([159, 160].map(|room| number_with(&times(&stay, 2), room, 4)), [9, 0]);
    // 2 before all of them
    assert_eq!([0, 3, 5, 8].map(|word| number_with(&[2], 0, word)), [2; 4]);
    assert_eq!([0, 3, 5, 8].map(|word| number_with(&stay, 84, word)), [2; 4]);
}

/// "the legs must meet across repeats"
#[test]
fn joins_by_hand() {
    let (go, on, back) = (from_to(0.0, 1.0, 1.0), from_to(1.0, 2.0, 1.0), from_to(1.0, 0.0, 1.0));
    let empty = repeat(9, &[repeat(3, &[]), repeat(2, &repeat(2, &[]))].concat());
    // from round to round
    assert_eq!([1, 2, 9].map(|count| number(&repeat(count, &go))), [0, 7, 7]);
    assert_eq!([1, 2, 9].map(|count| number(&repeat(count, &[go.clone(), back.clone()].concat()))), [0; 3]);
    assert_eq!([1, 2].map(|count| number(&repeat(count, &[empty.clone(), go.clone(), empty.clone()].concat()))), [0, 7]);
    // into a repeat, out of it, and through one that has no leg
    assert_eq!([&back, &on].map(|next| number(&[&go, &repeat(1, next)[..]].concat())), [0, 0]);
    assert_eq!(number(&[&go, &repeat(1, &go)[..]].concat()), 7);
    assert_eq!([&back, &go].map(|next| number(&[&repeat(1, &go)[..], next].concat())), [0, 7]);
    assert_eq!([&back, &go].map(|next| number(&[&go, &empty[..], next].concat())), [0, 7]);
    // as numbers: the zeros meet, a NaN meets nothing
    let ends = |end: f32, start: f32| number(&[from_to(0.0, end, 1.0), repeat(1, &from_to(start, 0.0, 1.0))].concat());
    let (nan, infinity) = (f32::NAN, f32::INFINITY);
    assert_eq!(
        [(0.0, -0.0), (infinity, infinity), (1e-45, 1e-45), (nan, nan), (infinity, -infinity), (1e-45, 0.0)].map(|(a, b)| ends(a, b)),
        [0, 0, 0, 7, 7, 7]
    );
}

/// Lists of any length are answered: a million items at the top; as many empty repeats as three repeats hold; 2³² legs, which is no leg in 32 bits.
#[test]
fn the_longest() {
    let (empty, stay) = (repeat(9, &[]), from_to(0.0, 0.0, 1.0));
    let many = empty.repeat(1_000_000);
    assert_eq!(number(&many), 5);
    assert_eq!(number(&[&many, &stay[..]].concat()), 0);
    assert_eq!(number(&[&many, &[1][..]].concat()), 12);
    assert_eq!(number(&stay.repeat(100_000)), 5);
    let nest = repeat(9, &repeat(9, &repeat(9, &empty.repeat(16_381))));
    assert_eq!((nest.len(), number(&nest), number(&[&stay, &nest[..], &stay].concat())), (65_536, 5, 0));
    let most = (0..4).fold(stay.repeat(512), |inner, _| repeat(8, &inner));
    assert_eq!(number(&most.repeat(2048)), 5);
    assert_eq!(number(&[&most.repeat(2048), &stay[..]].concat()), 5);
}

/// The generated legs are legs, of which those that lead on from each other meet.
#[test]
fn generated_legs() {
    let mut rng = Rng::new("legs", 0);
    for (from, to, next) in [(0, 1, 1), (1, 2, 2), (2, 0, 0), (0, 1, 2), (1, 2, 1), (0, 3, 3)] {
        let pattern: Vec<u8> = [leg(&mut rng, from, to), leg(&mut rng, next, 0)]
            .into_iter()
            .flat_map(|item| match item {
                Item::Leg(words) => [&[0], &words[..]].concat(),
                Item::Repeat(..) => Vec::new(),
            })
            .collect();
        assert_eq!(number(&pattern), if to == next && to < 3 { 0 } else { 7 });
    }
}
