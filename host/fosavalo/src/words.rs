//! Words in bytes, little-endian, one after another. Past the end a read gives 0 and a write does nothing.

pub struct Take<'a>(pub &'a [u8]);

impl Take<'_> {
    pub fn word(&mut self) -> u32 {
        match self.0 {
            [a, b, c, d, rest @ ..] => {
                let word = u32::from_le_bytes([*a, *b, *c, *d]);
                self.0 = rest;
                word
            }
            _ => 0,
        }
    }

    pub fn float(&mut self) -> f32 {
        f32::from_bits(self.word())
    }

    pub fn floats<const N: usize>(&mut self) -> [f32; N] {
        core::array::from_fn(|_| self.float())
    }
}

pub struct Put<'a>(core::slice::ChunksExactMut<'a, u8>);

impl<'a> Put<'a> {
    pub fn to(bytes: &'a mut [u8]) -> Self {
        Put(bytes.chunks_exact_mut(4))
    }

    pub fn word(&mut self, word: u32) {
        if let Some(four) = self.0.next() {
            four.copy_from_slice(&word.to_le_bytes());
        }
    }

    pub fn floats<const N: usize>(&mut self, floats: [f32; N]) {
        for x in floats {
            self.word(x.to_bits());
        }
    }
}
