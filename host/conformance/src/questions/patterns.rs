//! Patterns with repeats.

use super::{plain, Leg, Made, Section, REFUSALS, REQUESTS};
use crate::conform::{word_of, Level};
use compare::generate::Rng;
use compare::pattern::{any, damaged, leg, written, Item};

pub const SECTIONS: &[Made] = &[
    Made {
        file: "38-patterns",
        name: "patterns, at their limits",
        words: &["Legs and repeats of 1 to 9, up to four deep, expand into a route whose legs meet, in flown order. Refusals 12, 5, 9, 7."],
        place: REQUESTS,
        level: Level::Bits,
        lines: patterns,
    },
    Made {
        file: "39-patterns-bytes",
        name: "every refusal of an expansion, and every pair",
        words: &["a bad tag, count, depth or length"],
        place: REFUSALS,
        level: Level::Bytes,
        lines: refused,
    },
];

const HERE: [f32; 9] = [1.0, -2.0, -4.0, 0.5, 0.0, 0.0, 0.0, 0.25, 0.0];

fn item(from: [f32; 9], to: [f32; 9], t: f32) -> Item {
    Item::Leg(Leg::between(from, to, t).bytes())
}

/// Legs that stay where they are.
fn still(legs: usize) -> Vec<Item> {
    (0..legs).map(|k| item(HERE, HERE, 1.0 + k as f32)).collect()
}

fn nested(deep: usize, times: u8, inner: Vec<Item>) -> Vec<Item> {
    (0..deep).fold(inner, |inner, _| vec![Item::Repeat(times, inner)])
}

fn expand(s: &mut Section, items: &[Item]) {
    s.ask(format!("expand {}", word_of(&written(items).0)));
}

/// A repeat of this count byte that holds these bytes.
fn repeat(count: u8, inner: &[u8]) -> Vec<u8> {
    [&[1, count][..], &(inner.len() as u16).to_le_bytes(), inner].concat()
}

fn patterns(s: &mut Section) {
    s.ask("expand -");
    for legs in [1, 2, 8, 9, 31, 32, 33, 34] {
        expand(s, &still(legs));
        expand(s, &nested(1, 1, still(legs)));
    }
    for deep in 0..7 {
        expand(s, &nested(deep, 1, still(2)));
        expand(s, &nested(deep, 2, still(1)));
        expand(s, &nested(deep, 1, Vec::new()));
    }
    for times in 0..12 {
        expand(s, &nested(1, times, still(3)));
        expand(s, &[still(1), nested(2, times, still(1)), still(2)].concat());
    }
    for times in [0x30, 0x31, 0x39, 0x80, 0xff] {
        expand(s, &nested(1, times, still(1)));
    }
    // so many that a narrow count goes round: 257, 65,537
    expand(s, &[nested(2, 8, still(4)), still(1)].concat());
    expand(s, &[nested(4, 8, still(16)), still(1)].concat());
    expand(s, &nested(4, 9, still(1)));
    // joins: within a round, into it, from one to the next, out of it, across a repeat that holds nothing; in bits, and of places alone
    let (a, b) = (HERE, [0.0; 9]);
    let (mut zero, mut speed) = (b, a);
    (zero[4], speed[5]) = (-0.0, 9.0);
    let ways: [&[Item]; 12] = [
        &[item(a, b, 1.0), item(b, a, 1.0)],
        &[item(a, b, 1.0), item(a, b, 1.0)],
        &[Item::Repeat(2, vec![item(a, b, 1.0), item(b, a, 2.0)])],
        &[Item::Repeat(2, vec![item(a, b, 1.0)])],
        &[Item::Repeat(1, vec![item(a, b, 1.0)])],
        &[Item::Repeat(2, vec![item(a, a, 1.0), item(b, a, 2.0)])],
        &[item(b, a, 1.0), Item::Repeat(1, vec![item(b, a, 1.0)])],
        &[Item::Repeat(1, vec![item(b, a, 1.0)]), item(b, a, 1.0)],
        &[item(b, a, 1.0), Item::Repeat(3, Vec::new()), item(b, a, 1.0)],
        &[item(b, a, 1.0), Item::Repeat(3, Vec::new()), item(a, b, 1.0)],
        &[item(a, b, 1.0), item(zero, a, 1.0)],
        &[item(b, a, 1.0), item(speed, a, 1.0)],
    ];
    ways.iter().for_each(|way| expand(s, way));
    expand(s, &[item(a, b, 1.0), Item::Repeat(2, vec![item(b, b, 0.5), Item::Repeat(3, vec![item(b, b, 0.25)])]), item(b, a, 1.0)]);
    let mut rng = Rng::new("kit patterns", 0);
    for from in 0..4 {
        (0..4).for_each(|to| expand(s, &[leg(&mut rng, from, to), leg(&mut rng, to, from)]));
    }
    for _ in 0..60 {
        let items = any(&mut rng);
        if written(&items).0.len() < 1500 {
            expand(s, &items);
        }
    }
    for _ in 0..60 {
        let whole = written(&any(&mut rng));
        if whole.0.len() < 700 {
            s.ask(format!("expand {}", word_of(&damaged(&mut rng, whole))));
        }
    }
}

fn refused(s: &mut Section) {
    let one = written(&still(1)).0;
    let leg = |tag: u8| [&[tag][..], &one[1..]].concat();
    // tags, lengths that are off, what is left over
    let forms: Vec<Vec<u8>> = vec![
        leg(2),
        leg(255),
        one[..76].to_vec(),
        [&one[..], &[0]].concat(),
        [&one[..], &[1]].concat(),
        [&one[..], &[2]].concat(),
        vec![1],
        vec![1, 1],
        vec![1, 1, 0],
        vec![1, 1, 0, 0],
        repeat(2, &one),
        [&repeat(2, &one)[..], &one].concat(),
        repeat(2, &[&one[..], &[5]].concat()),
        repeat(2, &one[..76]),
        repeat(2, &leg(2)),
        repeat(1, &[1, 1, 77, 0]),
        repeat(2, &repeat(2, &one)),
        repeat(2, &[&repeat(2, &one)[..], &leg(2)].concat()),
    ];
    for form in &forms {
        s.ask(format!("expand {} a5*2440 a5*4", word_of(form)));
    }
    for off in [-1i32, 1, 4, -4, 76, 256] {
        let mut bytes = repeat(3, &one);
        let length = (77 + off) as u16;
        bytes[2..4].copy_from_slice(&length.to_le_bytes());
        s.ask(format!("expand {} a5*400 a5*4", word_of(&bytes)));
        bytes[2..4].copy_from_slice(&length.to_be_bytes());
        s.ask(format!("expand {} a5*400 a5*4", word_of(&bytes)));
    }
    // long enough that both bytes of the length count
    let long = repeat(2, &written(&still(4)).0);
    s.ask(format!("expand {} a5*700 a5*4", word_of(&long)));
    // room: none, for the legs alone, a byte too little, just enough, more
    for legs in [1, 2, 32] {
        let pattern = plain(&written(&still(legs)).0);
        let needed = 76 * legs + 8;
        for room in [0, 8, needed - 8, needed - 1, needed, needed + 1, needed + 100] {
            for length in ["a5*4", "a5*3", "a5*5", "-"] {
                s.ask(format!("expand {pattern} {} {length}", word_of(&vec![0xa5; room])));
            }
        }
    }
    // every pair of a wrong form, a wrong count, no room, legs apart, a wrong length
    let apart = [item(HERE, HERE, 1.0), item([0.0; 9], HERE, 1.0)];
    let many = |mut items: Vec<Item>| {
        items.extend(still(33));
        items
    };
    let patterns = [
        written(&apart).0,
        written(&many(apart.to_vec())).0,
        written(&still(33)).0,
        Vec::new(),
        [&written(&apart).0[..], &[9]].concat(),
        [&written(&still(33)).0[..], &[9]].concat(),
        [&written(&many(apart.to_vec())).0[..], &[9]].concat(),
        vec![9],
        written(&still(2)).0,
    ];
    for pattern in patterns {
        for room in ["a5*159", "a5*160", "a5*4000", "-"] {
            for length in ["a5*4", "a5*5", "-"] {
                s.ask(format!("expand {} {room} {length}", word_of(&pattern)));
            }
        }
    }
}
