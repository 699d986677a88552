//! What stands in a pattern's bytes. The core judges them; this reads those that it has taken for a pattern, and ends at the first that is no item.

use crate::LEG_BYTES;

/// The tag of a leg, and that of a repeat.
pub const LEG: u8 = 0;
pub const REPEAT: u8 = 1;

pub enum Item<'a> {
    /// Its 76 bytes.
    Leg(&'a [u8]),
    /// How often, and the pattern that it holds.
    Repeat(u8, &'a [u8]),
}

pub struct Items<'a>(pub &'a [u8]);

impl<'a> Iterator for Items<'a> {
    type Item = Item<'a>;

    fn next(&mut self) -> Option<Item<'a>> {
        let (item, rest) = match self.0 {
            [LEG, rest @ ..] => {
                let (leg, rest) = rest.split_at_checked(LEG_BYTES)?;
                (Item::Leg(leg), rest)
            }
            [REPEAT, count, low, high, rest @ ..] => {
                let (inner, rest) = rest.split_at_checked(usize::from(u16::from_le_bytes([*low, *high])))?;
                (Item::Repeat(*count, inner), rest)
            }
            _ => return None,
        };
        self.0 = rest;
        Some(item)
    }
}

/// Each leg in flown order; whether there is one. Rounds that fly none are not gone through again, so with few legs it is soon done, whatever the counts.
pub fn flown<'a>(pattern: &'a [u8], each: &mut dyn FnMut(&'a [u8])) -> bool {
    let mut any = false;
    for item in Items(pattern) {
        any |= match item {
            Item::Leg(leg) => {
                each(leg);
                true
            }
            Item::Repeat(count, inner) => (0..count).take_while(|_| flown(inner, each)).count() > 0,
        };
    }
    any
}
