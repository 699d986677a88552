//! Arguments and answers as rows of f32 words, so that one comparison serves every routine. A flag is 0 or 1; an answer that
//! may be a refusal is a flag and its words, zeros where it is refused.

/// No routine takes or gives more words than this.
pub const MOST: usize = 48;

/// Words that are taken one after another. Past the last there are zeros, and `taken` tells that it happened.
pub struct In<'a> {
    words: &'a [f32],
    taken: usize,
}

impl<'a> In<'a> {
    pub fn new(words: &'a [f32]) -> Self {
        In { words, taken: 0 }
    }

    #[inline]
    pub fn get<T: Words>(&mut self) -> T {
        T::take(self)
    }

    pub fn taken(&self) -> usize {
        self.taken
    }
}

/// Words put one after another. Beyond `MOST` they are dropped, but counted.
pub struct Out {
    words: [f32; MOST],
    put: usize,
}

impl Out {
    pub fn new() -> Self {
        Out { words: [0.0; MOST], put: 0 }
    }

    pub fn words(&self) -> &[f32] {
        &self.words[..self.put.min(MOST)]
    }

    pub fn count(&self) -> usize {
        self.put
    }
}

impl Default for Out {
    fn default() -> Self {
        Out::new()
    }
}

pub trait Words: Sized {
    const LEN: usize;
    fn take(i: &mut In) -> Self;
    fn put(&self, o: &mut Out);
}

impl Words for f32 {
    const LEN: usize = 1;

    #[inline]
    fn take(i: &mut In) -> Self {
        let word = i.words.get(i.taken).copied().unwrap_or(0.0);
        i.taken += 1;
        word
    }

    #[inline]
    fn put(&self, o: &mut Out) {
        if let Some(slot) = o.words.get_mut(o.put) {
            *slot = *self;
        }
        o.put += 1;
    }
}

impl Words for bool {
    const LEN: usize = 1;

    #[inline]
    fn take(i: &mut In) -> Self {
        i.get::<f32>() != 0.0
    }

    #[inline]
    fn put(&self, o: &mut Out) {
        f32::from(u8::from(*self)).put(o);
    }
}

impl<T: Words, const N: usize> Words for [T; N] {
    const LEN: usize = N * T::LEN;

    #[inline]
    fn take(i: &mut In) -> Self {
        std::array::from_fn(|_| i.get())
    }

    #[inline]
    fn put(&self, o: &mut Out) {
        self.iter().for_each(|word| word.put(o));
    }
}

impl<A: Words, B: Words> Words for (A, B) {
    const LEN: usize = A::LEN + B::LEN;

    #[inline]
    fn take(i: &mut In) -> Self {
        (i.get(), i.get())
    }

    #[inline]
    fn put(&self, o: &mut Out) {
        self.0.put(o);
        self.1.put(o);
    }
}

impl<T: Words> Words for Option<T> {
    const LEN: usize = 1 + T::LEN;

    #[inline]
    fn take(i: &mut In) -> Self {
        let given = i.get();
        let value = i.get();
        if given {
            Some(value)
        } else {
            None
        }
    }

    #[inline]
    fn put(&self, o: &mut Out) {
        self.is_some().put(o);
        match self {
            Some(value) => value.put(o),
            None => (0..T::LEN).for_each(|_| 0.0f32.put(o)),
        }
    }
}

/// A struct whose fields are within reach: their words in order.
macro_rules! fields {
    ($($kind:ty { $($field:tt: $of:ty),* })*) => {
        $(
            impl Words for $kind {
                const LEN: usize = 0 $(+ <$of as Words>::LEN)*;

                #[inline]
                fn take(i: &mut In) -> Self {
                    Self { $($field: i.get()),* }
                }

                #[inline]
                fn put(&self, o: &mut Out) {
                    $(self.$field.put(o);)*
                }
            }
        )*
    };
}

/// A published struct with private fields, by the harness's `words` and `from_words`.
macro_rules! opened {
    ($($kind:ty = $words:ty;)*) => {
        $(
            impl Words for $kind {
                const LEN: usize = <$words as Words>::LEN;

                #[inline]
                fn take(i: &mut In) -> Self {
                    Self::from_words(i.get())
                }

                #[inline]
                fn put(&self, o: &mut Out) {
                    self.words().put(o);
                }
            }
        )*
    };
}

mod ours {
    use super::{In, Out, Words};
    use archives::{adrc::*, geo::*, pos::*, traj::*, BodyRate, Torque, Vec3};

    fields! {
        Vec3 { 0: f32, 1: f32, 2: f32 }
        BodyRate { 0: Vec3 }
        Torque { 0: Vec3 }
        Mat3 { 0: Vec3, 1: Vec3, 2: Vec3 }
        Quat { 0: f32, 1: f32, 2: f32, 3: f32 }
        AxisAnswer { given: bool, axis: Vec3 }
        AttitudeAnswer { given: bool, matrix: Mat3 }
        RateAnswer { given: bool, rate: BodyRate }
        GeoGains { k_r: Vec3, k_omega: Vec3, j: Vec3 }
        GeoAtt { gains: GeoGains }
        RecoverableSet { k_r: f32, lambda_j: f32, psi_max: f32 }
        SimplexShield { set: RecoverableSet, engaged: bool, enter: f32, exit: f32 }
        Shielded { shield: SimplexShield, command: BodyRate, fallback: bool }
        Picked { command: BodyRate, fallback: bool }
        Quintic { c5: f32, c4: f32, c3: f32, c2: f32, c1: f32, c0: f32, t_end: f32 }
        Sample { p: f32, v: f32, a: f32, j: f32 }
        JerkCoeffs { jc2: f32, jc1: f32, jc0: f32 }
        Segment3 { 0: Quintic, 1: Quintic, 2: Quintic }
        Sample3 { pos: Vec3, vel: Vec3, acc: Vec3, jerk: Vec3 }
        RefGovernor { s: f32, err_lo: f32, err_hi: f32, g_min: f32 }
        Advanced { governor: RefGovernor, time: f32 }
        AdrcGains { omega_o: f32, omega_c: f32, b0: f32, tau: f32 }
        AdrcAxis { z1: f32, z2: f32, u_prev: f32, u_act: f32, u_delivered_frac: f32, g: AdrcGains }
        AxisTick { axis: AdrcAxis, u: f32 }
        AdrcRate { roll: AdrcAxis, pitch: AdrcAxis, yaw: AdrcAxis }
        RateTick { rate: AdrcRate, torque: Torque }
        Biquad { b0: f32, b1: f32, b2: f32, a1: f32, a2: f32, x1: f32, x2: f32, y1: f32, y2: f32 }
        Filtered { biquad: Biquad, y: f32 }
        GyroLpf { roll: Biquad, pitch: Biquad, yaw: Biquad }
        GyroFiltered { lpf: GyroLpf, rate: BodyRate }
        CommandFilter { omega_n: f32, max_mag: f32, max_rate: f32, y: f32, yd: f32 }
        Stepped { filter: CommandFilter, y: f32 }
        CommandFilter3 { roll: CommandFilter, pitch: CommandFilter, yaw: CommandFilter }
        Stepped3 { filter: CommandFilter3, y: BodyRate }
        Quaternion { 0: f32, 1: f32, 2: f32, 3: f32 }
    }
}

mod theirs {
    use super::{In, Out, Words};
    use oracle::{adrc, geo, traj};

    fields! {
        geo::GeoGains { k_r: [f32; 3], k_omega: [f32; 3], j: [f32; 3] }
        geo::RecoverableSet { k_r: f32, lambda_j: f32, psi_max: f32 }
        traj::Sample { p: f32, v: f32, a: f32, j: f32 }
        traj::Sample3 { pos: [f32; 3], vel: [f32; 3], acc: [f32; 3], jerk: [f32; 3] }
    }

    opened! {
        geo::SimplexShield = [f32; 6];
        traj::Quintic = [f32; 7];
        traj::Segment3 = [[f32; 7]; 3];
        traj::RefGovernor = [f32; 4];
        adrc::AdrcGains = [f32; 4];
        adrc::AdrcAxis = [f32; 9];
        adrc::AdrcRate = [[f32; 9]; 3];
        adrc::Biquad = [f32; 9];
        adrc::GyroLpf = [[f32; 9]; 3];
        adrc::CommandFilter = [f32; 5];
        adrc::CommandFilter3 = [[f32; 5]; 3];
    }
}
