use crate::{FloatFault, VersionFault, ANSWER_BYTES, IMAGE_BYTES, LEG_BYTES, MOST_LEGS, MOST_MARGINS, MOST_RECORDS};
use crate::{RECORD_BYTES, ROUTE_TRAILER_BYTES, SAMPLE_BYTES, SETUP_BYTES, TICK_BYTES};
use core::fmt;

/// Why a call was refused: the documents' number, with its meaning in words. Of 1 to 4 it is the lowest that holds; what is wrong with a
/// profile, a filter, a route or a log comes after these. A refused call changed no byte. Two refusals are the crate's own, before the core is called.
///
/// ```
/// use fosavalo::Refusal;
///
/// let refusal = Refusal::LegCount;
/// assert_eq!(refusal.number(), Some(5));
/// assert_eq!(refusal.to_string(), "refused (5): a route has 1 to 32 legs");
///
/// // an error like any other
/// fn fly() -> Result<(), Box<dyn std::error::Error>> {
///     let mut image = fosavalo::Image::from_bytes(&[0; 396])?;
///     image.tick(&fosavalo::TickInput::default())?;
///     Ok(())
/// }
/// assert!(fly().is_err());
/// ```
#[derive(Clone, Copy, Debug, PartialEq, Eq, Hash)]
#[non_exhaustive]
pub enum Refusal {
    /// 1: the image is not 396 bytes long.
    ImageLength,
    /// 2: the input is not 204 bytes long at set-up, 76 at an exchange, 68 at a tick and in a log; or what takes a log's count, the verdict on it or a route's length is not 4.
    InputLength,
    /// 3: the answer is not 40 bytes long, or the sample not 52.
    AnswerLength,
    /// 4: no set-up, no tick and no exchange leaves such an image.
    BrokenImage,
    /// 5: a route has 1 to 32 legs.
    LegCount,
    /// 6: the route is under 8 bytes long, or its length or its bytes back do not go with its count.
    RouteLength,
    /// 7: a leg of the route does not start where the one before it ends. Which, counted from 0 (in words from 1), is told where a
    /// [`Route`](crate::Route) is made; a number alone does not tell.
    LegsApart(Option<usize>),
    /// 8: a log's length and its last three words do not go together.
    BrokenLog,
    /// 9: the buffer has under 108 bytes beyond the log, or the log has 65,535 records; or there is not a flag for each margin, or more than
    /// 65,535 of them; or a pattern's route does not fit its buffer.
    NoRoom,
    /// 10: the profile of a set-up, or with which a log is checked, is neither 0 nor 1.
    WrongProfile,
    /// 11: the filter of a set-up would pass the gyro through: [`GyroFilter`](crate::GyroFilter) says which do.
    PassThrough,
    /// 12: a pattern has a tag that is neither 0 nor 1, a count that is not 1 to 9, repeats more than four deep, or a length that does not go with its items.
    BrokenPattern,
    /// 13: the log has no record at that place.
    NoRecord,
    /// 14: what takes a record is not 108 bytes long.
    RecordLength,
    /// The core was not called: the thread's floating-point environment is not the one that it computes in.
    Floats(FloatFault),
    /// The core was not called: its archive is of another version than the crate.
    Version(VersionFault),
    /// A number that this version of the crate has no words for.
    Other(u32),
}

impl Refusal {
    /// What a call's number says: nothing for 0, else the refusal.
    ///
    /// ```
    /// use fosavalo::Refusal;
    ///
    /// assert_eq!(Refusal::from_number(0), Ok(()));
    /// assert_eq!(Refusal::from_number(2), Err(Refusal::InputLength));
    /// assert_eq!(Refusal::from_number(77), Err(Refusal::Other(77)));
    /// ```
    pub fn from_number(number: u32) -> Result<(), Refusal> {
        Err(match number {
            0 => return Ok(()),
            1 => Refusal::ImageLength,
            2 => Refusal::InputLength,
            3 => Refusal::AnswerLength,
            4 => Refusal::BrokenImage,
            5 => Refusal::LegCount,
            6 => Refusal::RouteLength,
            7 => Refusal::LegsApart(None),
            8 => Refusal::BrokenLog,
            9 => Refusal::NoRoom,
            10 => Refusal::WrongProfile,
            11 => Refusal::PassThrough,
            12 => Refusal::BrokenPattern,
            13 => Refusal::NoRecord,
            14 => Refusal::RecordLength,
            other => Refusal::Other(other),
        })
    }

    /// The name of [`Refusal::from_number`] up to 0.14.
    #[deprecated(since = "0.15.0", note = "it is `from_number`")]
    #[doc(hidden)]
    pub fn check(number: u32) -> Result<(), Refusal> {
        Refusal::from_number(number)
    }

    /// The documents' number; None where the core was not called.
    pub fn number(self) -> Option<u32> {
        Some(match self {
            Refusal::ImageLength => 1,
            Refusal::InputLength => 2,
            Refusal::AnswerLength => 3,
            Refusal::BrokenImage => 4,
            Refusal::LegCount => 5,
            Refusal::RouteLength => 6,
            Refusal::LegsApart(_) => 7,
            Refusal::BrokenLog => 8,
            Refusal::NoRoom => 9,
            Refusal::WrongProfile => 10,
            Refusal::PassThrough => 11,
            Refusal::BrokenPattern => 12,
            Refusal::NoRecord => 13,
            Refusal::RecordLength => 14,
            Refusal::Floats(_) | Refusal::Version(_) => return None,
            Refusal::Other(number) => number,
        })
    }

    /// The meaning in words.
    ///
    /// ```
    /// assert_eq!(fosavalo::Refusal::LegCount.meaning().to_string(), "a route has 1 to 32 legs");
    /// ```
    pub fn meaning(self) -> impl fmt::Display {
        Meaning(self)
    }
}

struct Meaning(Refusal);

impl fmt::Display for Meaning {
    fn fmt(&self, f: &mut fmt::Formatter<'_>) -> fmt::Result {
        match self.0 {
            Refusal::ImageLength => write!(f, "the image is not {IMAGE_BYTES} bytes long"),
            Refusal::InputLength => write!(
                f,
                "the input is not {SETUP_BYTES} bytes long at set-up, {LEG_BYTES} at an exchange, {TICK_BYTES} at a tick and in a log, or what takes a log's count, its verdict or a route's length is not 4"
            ),
            Refusal::AnswerLength => write!(f, "the answer is not {ANSWER_BYTES} bytes long, or the sample not {SAMPLE_BYTES}"),
            Refusal::BrokenImage => f.write_str("the image is none that set-up, a tick or an exchange leaves"),
            Refusal::LegCount => write!(f, "a route has 1 to {MOST_LEGS} legs"),
            Refusal::RouteLength => write!(
                f,
                "the route's length or its bytes back do not go with its count of legs of {LEG_BYTES} bytes, with {ROUTE_TRAILER_BYTES} more"
            ),
            Refusal::LegsApart(None) => f.write_str("a leg of the route does not start where the one before it ends"),
            Refusal::LegsApart(Some(leg)) => {
                write!(f, "leg {} of the route does not start where leg {leg} ends", leg.saturating_add(1))
            }
            Refusal::BrokenLog => {
                write!(f, "the log's length, its count, its bytes back and its last word, {RECORD_BYTES}, do not go together")
            }
            Refusal::NoRoom => write!(
                f,
                "the buffer has no room for {RECORD_BYTES} bytes more, or the log has {MOST_RECORDS} records; or there is not a flag for each \
                 margin, or more than {MOST_MARGINS} of them; or a pattern's route does not fit its buffer"
            ),
            Refusal::WrongProfile => f.write_str("the profile is neither 0 nor 1"),
            Refusal::PassThrough => {
                f.write_str(
                    "the gyro would not be filtered: the cut-off fc has to be above 0 and below half of the sample rate fs; one below \
                     fs / 25586 would switch the gyro off",
                )
            }
            Refusal::BrokenPattern => f.write_str("the pattern has a tag, a count, a depth or a length that none has"),
            Refusal::NoRecord => f.write_str("the log has no record at that place"),
            Refusal::RecordLength => write!(f, "the record is not {RECORD_BYTES} bytes long"),
            Refusal::Floats(fault) => fault.fmt(f),
            Refusal::Version(fault) => fault.fmt(f),
            Refusal::Other(_) => f.write_str("a number that this version has no words for"),
        }
    }
}

impl fmt::Display for Refusal {
    fn fmt(&self, f: &mut fmt::Formatter<'_>) -> fmt::Result {
        f.write_str("refused")?;
        if let Some(number) = self.number() {
            write!(f, " ({number})")?;
        }
        write!(f, ": {}", self.meaning())
    }
}

/// What it says is all there is to say, so it has no source: a report that goes down the sources says each thing once.
impl core::error::Error for Refusal {}

impl From<VersionFault> for Refusal {
    fn from(fault: VersionFault) -> Self {
        Refusal::Version(fault)
    }
}

impl From<FloatFault> for Refusal {
    fn from(fault: FloatFault) -> Self {
        Refusal::Floats(fault)
    }
}
