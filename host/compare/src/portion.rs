//! How much of a long comparison is run: all of it, or the share that FOSAVALO_SHARE asks for, 10 for a tenth, as between whole gates (`make quick`).
//! The right lengths are in every share, and so is all that is by hand.

use std::env::{var, VarError};
use std::sync::OnceLock;

/// 1 is all. The tests fail, and say so, where it is something else than a whole number from 1 to 100.
pub fn share() -> u64 {
    static SHARE: OnceLock<u64> = OnceLock::new();
    *SHARE.get_or_init(|| read(var("FOSAVALO_SHARE")).unwrap_or_else(|text| panic!("{text}")))
}

fn read(value: Result<String, VarError>) -> Result<u64, String> {
    let text = match value {
        Err(VarError::NotPresent) => return Ok(1),
        Ok(text) => text,
        Err(VarError::NotUnicode(text)) => text.to_string_lossy().into_owned(),
    };
    let number = text.parse().ok().filter(|number| (1..=100).contains(number));
    number.ok_or_else(|| format!("FOSAVALO_SHARE is `{text}`, and not a whole number from 1 to 100"))
}

/// The share of so many cases: at least one.
pub fn of(cases: u64) -> u64 {
    cases.div_ceil(share())
}

/// What a count has to be above in a share, where in all cases it has to be above this: a quarter of its share, since few runs vary more than many do.
pub fn least(count: u64) -> u64 {
    match share() {
        1 => count,
        share => count / share / 4,
    }
}

/// One in how many has to be such, where in all cases one in this many has to.
pub fn one_in(many: u64) -> u64 {
    match share() {
        1 => many,
        _ => 2 * many,
    }
}

/// Whether a length is of the share: the right one and those next to it are in any, and of the others those at which this number is a multiple.
pub fn has(length: usize, right: usize, number: usize) -> bool {
    length.abs_diff(right) <= 1 || number as u64 % share() == 0
}

#[cfg(test)]
mod tests {
    use super::*;

    #[test]
    fn a_share_is_a_whole_number() {
        let given = |text: &str| read(Ok(text.to_string()));
        assert_eq!((read(Err(VarError::NotPresent)), given("1"), given("10"), given("100")), (Ok(1), Ok(1), Ok(10), Ok(100)));
        for bad in ["", "0", "101", "-1", "1.5", "a tenth", "10 ", "99999999999999999999"] {
            assert_eq!(given(bad), Err(format!("FOSAVALO_SHARE is `{bad}`, and not a whole number from 1 to 100")));
        }
    }
}
