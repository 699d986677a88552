//! Document 01's words: little-endian u32, floats as their bits, a NaN written as 7fc00000.

pub const IMAGE: usize = 396;
pub const SETUP: usize = 204;
pub const TICK: usize = 68;
pub const ANSWER: usize = 40;
pub const LEG: usize = 76;
pub const TRAILER: usize = 8;

/// The most legs of a route; before request Eight there were 8.
pub const MOST_LEGS: usize = 32;
pub const EARLIER_LEGS: usize = 8;

/// The words of an image, and what word 0 says.
pub const WORDS: usize = IMAGE / 4;

/// Where the profile stands, in an image and in a set-up; and the three peaks.
pub const PROFILE: usize = 95;
pub const PEAKS: usize = 96;
pub const SETUP_PROFILE: usize = SETUP / 4 - 1;

/// And a set-up's cut-off; the sample rate follows it.
pub const SETUP_FC: usize = 48;

/// All NaNs alike. On bits: of a float that is a NaN the optimiser may keep other bits than those asked for, and does.
#[inline]
pub fn canonical(x: f32) -> u32 {
    match x.to_bits() {
        0x7f80_0001..=0x7fff_ffff | 0xff80_0001..=0xffff_ffff => 0x7fc0_0000,
        bits => bits,
    }
}

/// The word at this place; 0 past the end.
#[inline]
pub fn word(bytes: &[u8], at: usize) -> u32 {
    match bytes.get(4 * at..4 * at + 4) {
        Some(&[a, b, c, d]) => u32::from_le_bytes([a, b, c, d]),
        _ => 0,
    }
}

#[inline]
pub fn float(bytes: &[u8], at: usize) -> f32 {
    f32::from_bits(word(bytes, at))
}

/// Puts a word; past the end nothing.
#[inline]
pub fn put(bytes: &mut [u8], at: usize, word: u32) {
    if let Some(four) = bytes.get_mut(4 * at..4 * at + 4) {
        four.copy_from_slice(&word.to_le_bytes());
    }
}

/// Takes words one after another.
pub struct Take<'a> {
    bytes: &'a [u8],
    at: usize,
}

impl<'a> Take<'a> {
    #[inline]
    pub fn from(bytes: &'a [u8], at: usize) -> Self {
        Take { bytes, at }
    }

    #[inline]
    pub fn word(&mut self) -> u32 {
        self.at += 1;
        word(self.bytes, self.at - 1)
    }

    #[inline]
    pub fn float(&mut self) -> f32 {
        f32::from_bits(self.word())
    }

    #[inline]
    pub fn floats<const N: usize>(&mut self) -> [f32; N] {
        std::array::from_fn(|_| self.float())
    }

    /// Three axes, one after another.
    #[inline]
    pub fn axes<const N: usize>(&mut self) -> [[f32; N]; 3] {
        std::array::from_fn(|_| self.floats())
    }
}

/// Puts words one after another.
pub struct Put<'a> {
    bytes: &'a mut [u8],
    at: usize,
}

impl<'a> Put<'a> {
    #[inline]
    pub fn from(bytes: &'a mut [u8], at: usize) -> Self {
        Put { bytes, at }
    }

    #[inline]
    pub fn word(&mut self, word: u32) {
        put(self.bytes, self.at, word);
        self.at += 1;
    }

    #[inline(always)]
    pub fn floats<const N: usize>(&mut self, floats: [f32; N]) {
        for x in floats {
            self.word(canonical(x));
        }
    }

    #[inline(always)]
    pub fn axes<const N: usize>(&mut self, axes: [[f32; N]; 3]) {
        for axis in axes {
            self.floats(axis);
        }
    }
}

/// Floats as bytes, every bit kept.
pub fn raw<const N: usize>(floats: &[f32]) -> [u8; N] {
    let mut bytes = [0; N];
    floats.iter().enumerate().for_each(|(at, x)| put(&mut bytes, at, x.to_bits()));
    bytes
}

#[cfg(test)]
mod tests {
    use super::*;
    use std::hint::black_box;

    /// Of roots, whose NaNs the hardware makes with the sign set, and of the ends of each range of NaNs. The inputs are hidden from the
    /// optimiser and the word is shown, which is where a test on floats was left out.
    #[test]
    fn nans_are_alike_where_it_is_optimised() {
        for (x, root) in black_box([(4.0f32, "40000000"), (-0.0, "80000000"), (-1.0, "7fc00000"), (f32::NEG_INFINITY, "7fc00000")]) {
            let word = canonical(x.sqrt());
            assert_eq!(format!("{word:08x}"), root);
        }
        for nan in black_box([0x7f80_0001, 0x7fc0_0000, 0x7fff_ffff, 0xff80_0001, 0xffc0_0000, 0xffff_ffff]) {
            assert_eq!(canonical(f32::from_bits(nan)), 0x7fc0_0000, "{nan:08x}");
        }
        for kept in black_box([0, 1, 0x7f7f_ffff, 0x7f80_0000, 0x8000_0000, 0xff7f_ffff, 0xff80_0000]) {
            assert_eq!(canonical(f32::from_bits(kept)), kept, "{kept:08x}");
        }
    }
}
