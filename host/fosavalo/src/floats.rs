use crate::calls::hidden;
use core::fmt;

/// What is wrong with the floating-point environment of the calling thread.
///
/// The core computes in the environment of the thread that calls it, and what is proved holds where that rounds to nearest and keeps
/// subnormal numbers, as operands and as results (and traps no exception). A thread that nobody told otherwise has it so. It has not after
/// C's `fesetround`, nor in a program linked with C's `-ffast-math` or once it loads a library that gcc before 13 linked so: these set the
/// processor to take subnormal numbers for zero.
///
/// So each typed call that computes asks first: [`Image::set_up`], [`Image::check`], the making of a [`Route`], both ticks, since a
/// library may be loaded in flight, and a tick may be on another thread than its set-up; and those that look at a flight afterwards,
/// [`LogView::check`] and [`slow_flags`]. It costs three sums. An image, a log or an input taken from bytes is copied and not computed
/// with, so nothing is asked; what gives no `Result` cannot refuse: before [`sinf`], [`cosf`] and [`calls`], ask [`FloatFault::check`].
///
/// [`Image::set_up`]: crate::Image::set_up
/// [`Image::check`]: crate::Image::check
/// [`Route`]: crate::Route
/// [`LogView::check`]: crate::LogView::check
/// [`slow_flags`]: crate::slow_flags
/// [`sinf`]: crate::sinf
/// [`cosf`]: crate::cosf
/// [`calls`]: crate::calls
///
/// ```
/// use fosavalo::{FloatFault, Refusal};
///
/// assert_eq!(FloatFault::check(), Ok(()));
/// let refusal = Refusal::from(FloatFault::Subnormals);
/// let told = "refused: the floating-point environment of this thread does not keep subnormal numbers";
/// assert_eq!(refusal.to_string(), told);
/// assert_eq!(refusal.number(), None); // the core was not called
/// ```
#[derive(Clone, Copy, Debug, PartialEq, Eq, Hash)]
pub enum FloatFault {
    /// It does not round to nearest, ties to even.
    Rounding,
    /// It takes subnormal numbers for zero, or makes them zero.
    Subnormals,
    /// Both are wrong.
    Both,
}

impl FloatFault {
    /// What is wrong, if anything, on this thread, now: found by computing, as bits.
    #[inline]
    pub fn check() -> Result<(), FloatFault> {
        let number = |bits| hidden(f32::from_bits(bits));
        let sum = |a, b| hidden(number(a) + number(b)).to_bits();
        // 1 and half a unit of its last place, 1 and one and a half: midway between two floats, of which the even ones are 1 and 1 and two units
        let nearest = sum(0x3f80_0000, 0x3380_0000) == 0x3f80_0000 && sum(0x3f80_0000, 0x3440_0000) == 0x3f80_0002;
        // both operands and the result are subnormal; a sum, since processors take long over a product with them
        let subnormals = sum(0x0000_0001, 0x0000_0001) == 0x0000_0002;
        match (nearest, subnormals) {
            (true, true) => Ok(()),
            (false, true) => Err(FloatFault::Rounding),
            (true, false) => Err(FloatFault::Subnormals),
            (false, false) => Err(FloatFault::Both),
        }
    }
}

impl fmt::Display for FloatFault {
    fn fmt(&self, f: &mut fmt::Formatter<'_>) -> fmt::Result {
        f.write_str("the floating-point environment of this thread ")?;
        f.write_str(match self {
            FloatFault::Rounding => "does not round to nearest",
            FloatFault::Subnormals => "does not keep subnormal numbers",
            FloatFault::Both => "neither rounds to nearest nor keeps subnormal numbers",
        })
    }
}

impl core::error::Error for FloatFault {}
