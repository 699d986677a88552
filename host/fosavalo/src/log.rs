use crate::words::Take;
use crate::{calls, Answer, Refusal, TickInput, RECORD_BYTES, TICK_BYTES};
use core::fmt;

/// A log in bytes of someone else's, checked once and then read. Nothing is copied but the record that is asked for.
#[derive(Clone, Copy, PartialEq, Eq)]
pub struct LogView<'a> {
    pub(crate) bytes: &'a [u8],
}

impl<'a> LogView<'a> {
    /// These bytes as a log; refused where they are none.
    ///
    /// ```
    /// use fosavalo::{LogView, Refusal, EMPTY_LOG};
    ///
    /// assert_eq!(LogView::from_bytes(&EMPTY_LOG).map(|log| log.len()), Ok(0));
    /// assert_eq!(LogView::from_bytes(&[]), Err(Refusal::BrokenLog));
    /// ```
    pub fn from_bytes(bytes: &'a [u8]) -> Result<Self, Refusal> {
        count(bytes)?;
        Ok(LogView { bytes })
    }

    /// The bytes.
    pub fn as_bytes(&self) -> &'a [u8] {
        self.bytes
    }

    /// How many records.
    pub fn len(&self) -> usize {
        count(self.bytes).unwrap_or(0)
    }

    /// Whether there is none.
    pub fn is_empty(&self) -> bool {
        self.len() == 0
    }

    /// The record at a place, counted from 0; None from the count on.
    pub fn get(&self, place: usize) -> Option<Record> {
        let mut bytes = [0; RECORD_BYTES];
        Refusal::from_number(calls::log_record(self.bytes, place as u64, &mut bytes)).ok()?;
        Some(Record { bytes })
    }

    /// The records, in the order in which they were appended.
    pub fn iter(&self) -> Records<'a> {
        Records { log: *self, place: 0, end: self.len() }
    }
}

impl fmt::Debug for LogView<'_> {
    fn fmt(&self, f: &mut fmt::Formatter<'_>) -> fmt::Result {
        f.debug_struct("LogView").field("len", &self.len()).finish_non_exhaustive()
    }
}

impl<'a> IntoIterator for LogView<'a> {
    type Item = Record;
    type IntoIter = Records<'a>;

    fn into_iter(self) -> Records<'a> {
        self.iter()
    }
}

impl<'a> IntoIterator for &LogView<'a> {
    type Item = Record;
    type IntoIter = Records<'a>;

    fn into_iter(self) -> Records<'a> {
        self.iter()
    }
}

fn count(bytes: &[u8]) -> Result<usize, Refusal> {
    let mut count = [0; 4];
    Refusal::from_number(calls::log_count(bytes, &mut count))?;
    // at most 65,535
    Ok(u32::from_le_bytes(count) as usize)
}

/// The records of a log, one after another, and then none, for ever.
#[derive(Clone, Debug)]
pub struct Records<'a> {
    log: LogView<'a>,
    place: usize,
    end: usize,
}

impl Iterator for Records<'_> {
    type Item = Record;

    fn next(&mut self) -> Option<Record> {
        let record = self.log.get(self.place)?;
        self.place += 1;
        Some(record)
    }

    fn size_hint(&self) -> (usize, Option<usize>) {
        let left = self.end - self.place;
        (left, Some(left))
    }

    fn nth(&mut self, n: usize) -> Option<Record> {
        self.place = self.place.saturating_add(n).min(self.end);
        self.next()
    }
}

impl ExactSizeIterator for Records<'_> {}

impl core::iter::FusedIterator for Records<'_> {}

/// One tick of a log: 108 bytes, its input and its answer, as they were appended.
#[derive(Clone, Copy, PartialEq, Eq, Hash)]
pub struct Record {
    bytes: [u8; RECORD_BYTES],
}

impl Record {
    /// A tick's input and its answer.
    ///
    /// ```
    /// use fosavalo::{Image, Log, Record, SetUp, TickInput};
    ///
    /// let input = TickInput { yaw: 0.5, ..TickInput::default() };
    /// let answer = Image::set_up(&SetUp::falcon_quad())?.tick(&input)?;
    /// let record = Record::new(&input, &answer);
    /// assert_eq!((record.input(), record.answer()), (input, answer));
    /// # Ok::<(), fosavalo::Refusal>(())
    /// ```
    pub fn new(input: &TickInput, answer: &Answer) -> Self {
        let mut bytes = [0; RECORD_BYTES];
        let both = input.to_bytes().into_iter().chain(answer.to_bytes());
        bytes.iter_mut().zip(both).for_each(|(own, byte)| *own = byte);
        Record { bytes }
    }

    /// From bytes; refused where these are not 108.
    pub fn from_bytes(bytes: &[u8]) -> Result<Self, Refusal> {
        Ok(Record { bytes: bytes.try_into().map_err(|_| Refusal::RecordLength)? })
    }

    /// What the tick was given.
    pub fn input(&self) -> TickInput {
        TickInput::take(&mut Take(&self.bytes))
    }

    /// What it answered. A flag that is neither 0 nor 1, which no tick writes, counts as the fallback's.
    pub fn answer(&self) -> Answer {
        Answer::take(&mut Take(self.bytes.get(TICK_BYTES..).unwrap_or_default()))
    }

    /// The twenty-seven words: the seventeen of the input, the ten of the answer, a float as its bits.
    pub fn words(&self) -> [u32; RECORD_BYTES / 4] {
        let mut from = Take(&self.bytes);
        core::array::from_fn(|_| from.word())
    }

    /// The bytes.
    pub fn as_bytes(&self) -> &[u8; RECORD_BYTES] {
        &self.bytes
    }
}

impl fmt::Debug for Record {
    fn fmt(&self, f: &mut fmt::Formatter<'_>) -> fmt::Result {
        f.debug_struct("Record").field("input", &self.input()).field("answer", &self.answer()).finish()
    }
}
