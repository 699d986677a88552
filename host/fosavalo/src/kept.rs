use crate::{calls, Answer, LogView, Profile, Record, Records, Refusal, TickInput, Verdict};
use crate::{EMPTY_LOG, LOG_TRAILER_BYTES, MOST_RECORDS, RECORD_BYTES, TICK_BYTES};
use alloc::vec::Vec;
use core::fmt;

const LONGEST: usize = MOST_RECORDS * RECORD_BYTES + LOG_TRAILER_BYTES;

/// A flight kept tick by tick: up to 65,535 records, in the order in which they were appended. Its bytes are what goes to a file. It tells neither
/// the thresholds nor the profile that the flight was set up with. A flight that may be longer is a [`LogSeries`](crate::LogSeries).
///
/// ```
/// use fosavalo::{Image, Log, LogView, Refusal, SetUp, TickInput};
///
/// let mut image = Image::set_up(&SetUp::falcon_quad())?;
/// let mut log = Log::new();
/// for yaw in [0.0, 0.5, f32::NAN] {
///     let input = TickInput { yaw, ..TickInput::default() };
///     log.append(&input, &image.tick(&input)?)?;
/// }
///
/// // another program, another day
/// let file = log.into_bytes();
/// let flown = LogView::try_from(&file[..])?;
/// assert_eq!(flown.len(), 3);
/// let margins: Vec<f32> = flown.iter().map(|record| record.answer().margin).collect();
/// assert_eq!(margins.last(), Some(&f32::NEG_INFINITY));
/// assert_eq!(flown.get(1).map(|record| record.input().yaw), Some(0.5));
/// assert_eq!(flown.get(3), None);
///
/// // a file that lost its last byte is none
/// assert_eq!(LogView::from_bytes(&file[..file.len() - 1]), Err(Refusal::BrokenLog));
/// # Ok::<(), Refusal>(())
/// ```
#[derive(Clone)]
pub struct Log {
    /// The log, and room for more.
    buffer: Vec<u8>,
    len: usize,
}

impl Log {
    /// A log of no record.
    pub fn new() -> Self {
        Log { buffer: EMPTY_LOG.to_vec(), len: EMPTY_LOG.len() }
    }

    /// A log of no record with room for so many: appending these allocates nothing. Room for more than 65,535 is no use and not taken.
    pub fn with_capacity(records: usize) -> Self {
        let mut log = Log::new();
        log.make_room(records.min(MOST_RECORDS) * RECORD_BYTES + LOG_TRAILER_BYTES);
        log
    }

    /// A log from bytes, to be gone on with; refused where these are none. To read alone, [`LogView::from_bytes`] copies nothing.
    ///
    /// ```
    /// use fosavalo::{Log, Refusal};
    ///
    /// assert_eq!(Log::from_bytes(Log::new().as_bytes()), Ok(Log::new()));
    /// assert_eq!(Log::from_bytes(b"no log"), Err(Refusal::BrokenLog));
    /// ```
    pub fn from_bytes(bytes: &[u8]) -> Result<Self, Refusal> {
        LogView::from_bytes(bytes)?;
        Ok(Log { buffer: bytes.to_vec(), len: bytes.len() })
    }

    /// Appends a tick's input and its answer. Refused where the log has 65,535 records; it then stays as it is.
    pub fn append(&mut self, input: &TickInput, answer: &Answer) -> Result<(), Refusal> {
        self.append_bytes(&input.to_bytes(), &answer.to_bytes())
    }

    /// The same with the bytes of both, which are kept as they are.
    ///
    /// ```
    /// use fosavalo::{Log, Refusal};
    ///
    /// let mut log = Log::new();
    /// assert_eq!(log.append_bytes(&[0xff; 68], &[0xff; 40]), Ok(()));
    /// assert_eq!(log.append_bytes(&[0; 67], &[0; 40]), Err(Refusal::InputLength));
    /// assert_eq!(log.append_bytes(&[0; 68], &[0; 41]), Err(Refusal::AnswerLength));
    /// assert!(log.iter().all(|record| record.as_bytes() == &[0xff; 108]) && log.len() == 1);
    /// ```
    pub fn append_bytes(&mut self, input: &[u8], answer: &[u8]) -> Result<(), Refusal> {
        if self.buffer.len() - self.len < RECORD_BYTES {
            self.make_room(2 * self.len + RECORD_BYTES);
        }
        Refusal::from_number(calls::log_append(&mut self.buffer, self.len as u64, input, answer))?;
        self.len += RECORD_BYTES;
        Ok(())
    }

    /// Appends records, as they are; refused at the first for which there is no room, and those before it are kept.
    ///
    /// ```
    /// use fosavalo::{Log, Record, Refusal, TickInput, MOST_RECORDS};
    ///
    /// let record = Record::from_bytes(&[7; 108])?;
    /// let mut log = Log::new();
    /// log.try_extend([record; 3])?;
    /// assert_eq!(log.try_extend(std::iter::repeat(record)), Err(Refusal::NoRoom));
    /// assert_eq!(log.len(), MOST_RECORDS);
    /// # Ok::<(), Refusal>(())
    /// ```
    pub fn try_extend(&mut self, records: impl IntoIterator<Item = Record>) -> Result<(), Refusal> {
        records.into_iter().try_for_each(|record| {
            let (input, answer) = record.as_bytes().split_at(TICK_BYTES);
            self.append_bytes(input, answer)
        })
    }

    /// The bytes: 108 for each record, then the count, how many bytes back the first record starts, and 108.
    pub fn as_bytes(&self) -> &[u8] {
        self.buffer.get(..self.len).unwrap_or_default()
    }

    /// The bytes, and the log is gone; nothing is copied.
    pub fn into_bytes(mut self) -> Vec<u8> {
        self.buffer.truncate(self.len);
        self.buffer
    }

    /// The same, to be read.
    pub fn view(&self) -> LogView<'_> {
        LogView { bytes: self.as_bytes() }
    }

    /// How many records.
    pub fn len(&self) -> usize {
        self.view().len()
    }

    /// Whether there is none.
    pub fn is_empty(&self) -> bool {
        self.view().is_empty()
    }

    /// The records, in the order in which they were appended.
    pub fn iter(&self) -> Records<'_> {
        self.view().iter()
    }

    /// Whether every record is right, or the first that is not: [`LogView::check`].
    pub fn check(&self, profile: Profile, enter: f32, exit: f32) -> Result<Verdict, Refusal> {
        self.view().check(profile, enter, exit)
    }

    /// A buffer of this length, but none longer than any log.
    fn make_room(&mut self, len: usize) {
        self.buffer.resize(len.min(LONGEST).max(self.buffer.len()), 0);
    }
}

impl Default for Log {
    fn default() -> Self {
        Log::new()
    }
}

impl PartialEq for Log {
    /// The room beyond them is no part of the logs.
    fn eq(&self, other: &Self) -> bool {
        self.as_bytes() == other.as_bytes()
    }
}

impl Eq for Log {}

impl fmt::Debug for Log {
    fn fmt(&self, f: &mut fmt::Formatter<'_>) -> fmt::Result {
        f.debug_struct("Log").field("len", &self.len()).finish_non_exhaustive()
    }
}

impl<'a> IntoIterator for &'a Log {
    type Item = Record;
    type IntoIter = Records<'a>;

    fn into_iter(self) -> Records<'a> {
        self.iter()
    }
}
