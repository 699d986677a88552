//! Bytes to lend, between guards.

const GUARD: usize = 32;

/// The longest that is lent of an image, an input or an answer.
pub const LONGEST: usize = 400;

/// Those of which a call is told, and the rest, which it may not touch.
#[derive(Clone, PartialEq, Eq)]
pub struct Lent<A = Vec<u8>> {
    all: A,
    /// Another length changes nothing else.
    pub len: usize,
}

/// In an array, for what is copied and compared at every tick.
pub type Short = Lent<[u8; GUARD + LONGEST + GUARD]>;

fn guard(at: usize) -> u8 {
    0xa5 ^ at as u8
}

impl Short {
    pub fn holding(bytes: &[u8]) -> Self {
        let mut lent = Lent { all: std::array::from_fn(guard), len: bytes.len() };
        lent.bytes_mut().copy_from_slice(bytes);
        lent
    }
}

impl Lent {
    pub fn of(bytes: &[u8]) -> Self {
        Lent { all: (0..GUARD).map(guard).chain(bytes.iter().copied()).chain((0..GUARD).map(guard)).collect(), len: bytes.len() }
    }

    /// These bytes and so many more behind them.
    pub fn with_room(bytes: &[u8], room: usize) -> Self {
        Lent::of(&[bytes, &vec![0x3c; room]].concat())
    }
}

impl<A: AsRef<[u8]> + AsMut<[u8]>> Lent<A> {
    #[inline]
    pub fn bytes(&self) -> &[u8] {
        &self.all.as_ref()[GUARD..GUARD + self.len]
    }

    #[inline]
    pub fn bytes_mut(&mut self) -> &mut [u8] {
        &mut self.all.as_mut()[GUARD..GUARD + self.len]
    }
}

/// What is lent to a call: of these it takes those that it has.
pub struct Lending<'a> {
    pub image: &'a mut [u8],
    pub input: &'a [u8],
    pub route: &'a [u8],
    pub answer: &'a mut [u8],
}

/// The same, between guards.
#[derive(Clone, PartialEq, Eq)]
pub struct Hands {
    pub image: Short,
    pub input: Short,
    pub route: Lent,
    pub answer: Short,
}

impl Hands {
    #[inline]
    pub fn lend(&mut self) -> Lending<'_> {
        let Hands { image, input, route, answer } = self;
        Lending { image: image.bytes_mut(), input: input.bytes(), route: route.bytes(), answer: answer.bytes_mut() }
    }

    /// Each by its name: what is lent, and it with the guards.
    pub fn each(&self) -> [(&'static str, &[u8], &[u8]); 4] {
        let Hands { image, input, route, answer } = self;
        [
            ("image", image.bytes(), &image.all),
            ("input", input.bytes(), &input.all),
            ("route", route.bytes(), &route.all),
            ("answer", answer.bytes(), &answer.all),
        ]
    }
}
