use crate::{DESK_BYTES, DESK_SETUP_BYTES, STICKS_BYTES};
use core::fmt;
use fosavalo::{FloatFault, VersionFault};

/// Why a call on a desk was refused; it changed no byte. The desk's own two come before the core's.
///
/// ```
/// use fosavalo_desk::Refusal;
///
/// assert_eq!(Refusal::from_number(0), Ok(()));
/// assert_eq!(Refusal::from_number(15), Err(Refusal::DeskLength));
/// assert_eq!(Refusal::from_number(4), Err(Refusal::Core(fosavalo::Refusal::BrokenImage)));
/// assert_eq!(Refusal::DeskLength.to_string(), "refused (15): the desk is not 60 bytes long");
/// let core = Refusal::Core(fosavalo::Refusal::ImageLength);
/// assert_eq!(core.to_string(), "refused (1): the image is not 396 bytes long");
/// ```
///
/// There may be more one day, so a match has to say what becomes of others:
///
/// ```compile_fail
/// use fosavalo_desk::Refusal;
///
/// let whose = |refusal| match refusal {
///     Refusal::DeskLength | Refusal::SticksLength => "the desk's",
///     Refusal::Core(_) => "the core's",
/// };
/// assert_eq!(whose(Refusal::DeskLength), "the desk's");
/// ```
#[derive(Clone, Copy, Debug, PartialEq, Eq, Hash)]
#[non_exhaustive]
pub enum Refusal {
    /// 15: the desk is not 60 bytes long.
    DeskLength,
    /// 16: what is said of the sticks is not 36 bytes long at set-up, 12 at a tick.
    SticksLength,
    /// What the core refuses the tick for.
    Core(fosavalo::Refusal),
}

impl Refusal {
    /// What a call's number says: nothing for 0, else the refusal.
    pub fn from_number(number: u32) -> Result<(), Refusal> {
        match number {
            15 => Err(Refusal::DeskLength),
            16 => Err(Refusal::SticksLength),
            core => fosavalo::Refusal::from_number(core).map_err(Refusal::Core),
        }
    }

    /// The name of [`Refusal::from_number`] up to 0.14.
    #[deprecated(since = "0.15.0", note = "it is `from_number`")]
    #[doc(hidden)]
    pub fn check(number: u32) -> Result<(), Refusal> {
        Refusal::from_number(number)
    }

    /// The number; None where no call was made.
    pub fn number(self) -> Option<u32> {
        match self {
            Refusal::DeskLength => Some(15),
            Refusal::SticksLength => Some(16),
            Refusal::Core(core) => core.number(),
        }
    }

    /// The meaning in words.
    ///
    /// ```
    /// use fosavalo_desk::Refusal;
    ///
    /// assert_eq!(Refusal::DeskLength.meaning().to_string(), "the desk is not 60 bytes long");
    /// let core = Refusal::from(fosavalo::Refusal::LegCount);
    /// assert_eq!(core.meaning().to_string(), "a route has 1 to 32 legs");
    /// ```
    pub fn meaning(self) -> impl fmt::Display {
        Meaning(self)
    }
}

struct Meaning(Refusal);

impl fmt::Display for Meaning {
    fn fmt(&self, f: &mut fmt::Formatter<'_>) -> fmt::Result {
        match self.0 {
            Refusal::DeskLength => write!(f, "the desk is not {DESK_BYTES} bytes long"),
            Refusal::SticksLength => {
                write!(f, "what is said of the sticks is not {DESK_SETUP_BYTES} bytes long at set-up, {STICKS_BYTES} at a tick")
            }
            Refusal::Core(core) => core.meaning().fmt(f),
        }
    }
}

impl fmt::Display for Refusal {
    fn fmt(&self, f: &mut fmt::Formatter<'_>) -> fmt::Result {
        f.write_str("refused")?;
        if let Some(number) = self.number() {
            write!(f, " ({number})")?;
        }
        write!(f, ": {}", self.meaning())
    }
}

/// What it says is all there is to say, so it has no source, as the core's.
impl core::error::Error for Refusal {}

impl From<fosavalo::Refusal> for Refusal {
    fn from(core: fosavalo::Refusal) -> Self {
        Refusal::Core(core)
    }
}

impl From<VersionFault> for Refusal {
    fn from(fault: VersionFault) -> Self {
        Refusal::Core(fault.into())
    }
}

impl From<FloatFault> for Refusal {
    fn from(fault: FloatFault) -> Self {
        Refusal::Core(fault.into())
    }
}
