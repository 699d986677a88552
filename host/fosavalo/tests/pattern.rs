//! A pattern's items are those that were put there, and of two legs that do not meet it is told which they are.

use fosavalo::{Leg, Pattern, PatternItem, Refusal, Route, SetUp, MOST_LEGS};

/// A pattern as it is made, beside what the crate makes of it.
#[derive(Clone, Debug)]
enum Made {
    Leg(Leg),
    Repeat(u8, Vec<Made>),
}

struct Random(u64);

impl Random {
    fn below(&mut self, end: u64) -> u64 {
        self.0 = self.0.wrapping_mul(6364136223846793005).wrapping_add(1442695040888963407);
        (self.0 >> 33) % end
    }

    /// Legs between three places, so that they often meet, and repeats at most so deep.
    fn items(&mut self, deep: u64) -> Vec<Made> {
        (0..self.below(4))
            .map(|_| {
                let place = |k: u64| [k as f32, 0.0, -0.0];
                let (from, to) = (self.below(3), self.below(3));
                match deep > 0 && self.below(2) == 0 {
                    true => Made::Repeat(1 + self.below(3) as u8, self.items(deep - 1)),
                    false => Made::Leg(Leg { p0: place(from.min(1)), pf: place(to.min(1)), ..SetUp::falcon_quad().segment }),
                }
            })
            .collect()
    }
}

fn put(items: &[Made]) -> Pattern {
    let mut pattern = Pattern::new();
    for item in items {
        match item {
            Made::Leg(leg) => _ = pattern.leg(leg),
            Made::Repeat(count, inner) => _ = pattern.repeat(*count, &put(inner)).expect("a repeat that may be"),
        }
    }
    pattern
}

fn legs(items: &[Made]) -> Vec<Leg> {
    let each = |item: &Made| match item {
        Made::Leg(leg) => vec![*leg],
        Made::Repeat(count, inner) => legs(inner).repeat(usize::from(*count)),
    };
    items.iter().flat_map(each).collect()
}

fn same(pattern: &Pattern, items: &[Made]) -> bool {
    let told: Vec<PatternItem> = pattern.items().collect();
    told.len() == items.len()
        && told.iter().zip(items).all(|two| match two {
            (PatternItem::Leg(told), Made::Leg(leg)) => told == leg,
            (PatternItem::Repeat { count, inner }, Made::Repeat(times, items)) => count == times && same(inner, items),
            _ => false,
        })
}

#[test]
fn items_and_legs_that_are_apart() {
    let (mut random, mut taken, mut apart, mut counts) = (Random(1), 0, [0; MOST_LEGS], 0);
    for _ in 0..20_000 {
        let items = random.items(4);
        let (pattern, legs) = (put(&items), legs(&items));
        assert!(same(&pattern, &items), "{items:?}");
        let expected = legs.windows(2).position(|two| two[0].pf != two[1].p0).map(|before| before + 1);
        match (pattern.expand(), expected) {
            (Err(Refusal::LegCount), _) => {
                assert!(legs.is_empty() || legs.len() > MOST_LEGS);
                counts += 1;
            }
            (Err(Refusal::LegsApart(told)), expected) => {
                assert_eq!(told, expected);
                assert_eq!(Route::new(&legs), Err(Refusal::LegsApart(expected)));
                apart[expected.unwrap_or_default()] += 1;
            }
            (Ok(route), None) => {
                assert!(route.legs().eq(legs));
                taken += 1;
            }
            other => panic!("{other:?} of {items:?}"),
        }
    }
    assert!(taken > 1000 && counts > 1000 && apart[0] == 0 && apart[1..8].iter().all(|seen| *seen > 10), "{taken} {counts} {apart:?}");
}

/// Rounds in which nothing is flown take no time, however often they are asked for.
#[test]
fn empty_rounds() {
    let (mut empty, mut two) = (Pattern::new(), Pattern::new());
    for _ in 0..3 {
        let mut outer = Pattern::new();
        (0..20).for_each(|_| _ = outer.repeat(9, &empty).expect("a repeat that may be"));
        empty = outer;
    }
    let out = Leg { pf: [3.0, 0.0, 0.0], ..SetUp::falcon_quad().segment };
    two.leg(&out).repeat(9, &empty).expect("four deep").leg(&out);
    assert_eq!(two.expand(), Err(Refusal::LegsApart(Some(1))));
}
