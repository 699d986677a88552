use crate::{Answer, Log, LogView, Pilot, Profile, Record, Refusal, TickInput, Verdict, MOST_RECORDS, RECORD_BYTES, TICK_BYTES};
use alloc::{vec, vec::Vec};
use core::fmt;

/// The most records that [`LogSeries`] puts into a log, one fewer than fit: so each can be checked behind one record more.
pub const MOST_IN_SERIES: usize = MOST_RECORDS - 1;

/// A flight of any length, kept tick by tick: logs that go on, in their order. All but the last have 65,534 records.
///
/// ```
/// use fosavalo::{Image, LogSeries, Profile, SetUp, TickInput, Verdict};
///
/// let set_up = SetUp::falcon_quad();
/// let mut image = Image::set_up(&set_up)?;
/// let mut series = LogSeries::new();
/// for _ in 0..70_000 {
///     let input = TickInput::default();
///     series.append(&input, &image.tick(&input)?)?;
/// }
/// assert_eq!(series.logs().iter().map(|log| log.len()).collect::<Vec<_>>(), [65_534, 4_466]);
///
/// // the second begins in mid-flight; it is right as what it is
/// assert_eq!(series.check(Profile::Whole, set_up.enter, set_up.exit)?, Verdict::Right);
/// # Ok::<(), fosavalo::Refusal>(())
/// ```
#[derive(Clone, PartialEq, Eq)]
pub struct LogSeries {
    /// One at least.
    logs: Vec<Log>,
}

impl LogSeries {
    /// One log of no record.
    pub fn new() -> Self {
        LogSeries { logs: vec![Log::new()] }
    }

    /// Appends a tick's input and its answer.
    pub fn append(&mut self, input: &TickInput, answer: &Answer) -> Result<(), Refusal> {
        self.append_bytes(&input.to_bytes(), &answer.to_bytes())
    }

    /// The same with the bytes of both, which are kept as they are; refused where these are not 68 and 40.
    pub fn append_bytes(&mut self, input: &[u8], answer: &[u8]) -> Result<(), Refusal> {
        match self.logs.last_mut() {
            Some(last) if last.len() < MOST_IN_SERIES => last.append_bytes(input, answer),
            _ => {
                let mut next = Log::new();
                next.append_bytes(input, answer)?;
                self.logs.push(next);
                Ok(())
            }
        }
    }

    /// The logs, in their order; the first is there from the start.
    pub fn logs(&self) -> &[Log] {
        &self.logs
    }

    /// The logs, and the series is gone.
    pub fn into_logs(self) -> Vec<Log> {
        self.logs
    }

    /// How many records, in all logs.
    pub fn len(&self) -> usize {
        self.logs.iter().map(Log::len).sum()
    }

    /// Whether there is none.
    pub fn is_empty(&self) -> bool {
        self.logs.iter().all(Log::is_empty)
    }

    /// The records, in the order in which they were appended.
    pub fn iter(&self) -> impl Iterator<Item = Record> + '_ {
        self.logs.iter().flatten()
    }

    /// Whether every record is right, or the first that is not, counted from 0 over all logs: [`SeriesCheck`].
    pub fn check(&self, profile: Profile, enter: f32, exit: f32) -> Result<Verdict, Refusal> {
        let mut check = SeriesCheck::new(profile, enter, exit);
        for log in &self.logs {
            check.log(log.view())?;
        }
        Ok(check.verdict())
    }
}

impl Default for LogSeries {
    fn default() -> Self {
        LogSeries::new()
    }
}

impl fmt::Debug for LogSeries {
    fn fmt(&self, f: &mut fmt::Formatter<'_>) -> fmt::Result {
        f.debug_struct("LogSeries").field("logs", &self.logs.len()).field("len", &self.len()).finish_non_exhaustive()
    }
}

impl Extend<Record> for LogSeries {
    /// All of them: there is always room.
    fn extend<I: IntoIterator<Item = Record>>(&mut self, records: I) {
        for record in records {
            let (input, answer) = record.as_bytes().split_at(TICK_BYTES);
            // a record has the lengths that alone could be refused
            let _ = self.append_bytes(input, answer);
        }
    }
}

/// Logs that go on, of whatever box, checked one after another as the one flight that they are.
///
/// Each is checked by [`LogView::check`]. At a seam the shield stands as the last flag of the log before it says, which has been found right; where that
/// is the planner's, the next log is checked behind one record that releases a fresh shield. So the whole gets the verdict that one log of all its records
/// would get.
///
/// ```
/// use fosavalo::{Log, Pilot, Profile, Record, SeriesCheck, Verdict};
///
/// // enter 0.5, exit 1: a margin above exit releases the planner, and in the band it keeps control
/// let record = |margin: f32| {
///     let mut bytes = [0; 108];
///     bytes[104..].copy_from_slice(&margin.to_le_bytes());
///     Record::from_bytes(&bytes)
/// };
/// let (mut first, mut second) = (Log::new(), Log::new());
/// first.try_extend([record(1.5)?])?;
/// second.try_extend([record(0.75)?, record(0.25)?])?;
///
/// // by itself, as if a flight began there, the second is wrong at once
/// assert_eq!(second.check(Profile::Whole, 0.5, 1.0)?, Verdict::WrongAt(0));
///
/// let mut check = SeriesCheck::new(Profile::Whole, 0.5, 1.0);
/// assert_eq!(check.log(first.view())?, Verdict::Right);
/// assert_eq!(check.pilot(), Pilot::Planner);
/// // places are counted over both: the margin of the third record engages the shield, and its
/// // flag does not say so
/// assert_eq!(check.log(second.view())?, Verdict::WrongAt(2));
/// # Ok::<(), fosavalo::Refusal>(())
/// ```
#[derive(Clone, Debug)]
pub struct SeriesCheck {
    profile: Profile,
    enter: f32,
    exit: f32,
    pilot: Pilot,
    records: usize,
    wrong: Option<usize>,
}

impl SeriesCheck {
    /// With the thresholds and the profile of the flight, which logs do not tell; the first log begins with the flight.
    pub fn new(profile: Profile, enter: f32, exit: f32) -> Self {
        SeriesCheck { profile, enter, exit, pilot: Pilot::Fallback, records: 0, wrong: None }
    }

    /// The next log; what is then said of all of them. Once a record is wrong, nothing is looked at any more. Refused only for the
    /// [floating-point environment](crate::FloatFault), and the log then does not count.
    pub fn log(&mut self, log: LogView<'_>) -> Result<Verdict, Refusal> {
        let mut next = self.clone();
        let records = log.as_bytes().get(..log.len() * RECORD_BYTES).unwrap_or_default();
        let mut rest = records;
        while !rest.is_empty() && next.wrong.is_none() {
            let carried = usize::from(next.pilot == Pilot::Planner);
            let (piece, more) = rest.split_at(rest.len().min((MOST_RECORDS - carried) * RECORD_BYTES));
            let behind;
            let checked = match piece.len() == records.len() && carried == 0 {
                true => log,
                false => {
                    behind = behind_a_release(piece, carried);
                    LogView::from_bytes(&behind)?
                }
            };
            match checked.check(next.profile, next.enter, next.exit)? {
                Verdict::Right => {
                    next.pilot = checked.get(checked.len().wrapping_sub(1)).map_or(next.pilot, |last| last.answer().pilot);
                    next.records += piece.len() / RECORD_BYTES;
                }
                Verdict::WrongAt(place) => next.wrong = Some(next.records + place.saturating_sub(carried)),
            }
            rest = more;
        }
        *self = next;
        Ok(self.verdict())
    }

    /// What is said of the logs so far.
    pub fn verdict(&self) -> Verdict {
        self.wrong.map_or(Verdict::Right, Verdict::WrongAt)
    }

    /// Who flies at the last right record; the fallback before the first.
    pub fn pilot(&self) -> Pilot {
        self.pilot
    }
}

/// A log of these records behind one that releases a fresh shield, if there is to be one. Where exit is the greatest of all numbers it releases nothing;
/// but then no margin does, and nobody asks for it.
fn behind_a_release(records: &[u8], carried: usize) -> Vec<u8> {
    let count = carried + records.len() / RECORD_BYTES;
    let mut bytes = vec![0; carried * RECORD_BYTES];
    bytes.reserve_exact(records.len() + crate::LOG_TRAILER_BYTES);
    if let Some(margin) = bytes.last_chunk_mut() {
        *margin = f32::MAX.to_le_bytes();
    }
    bytes.extend_from_slice(records);
    // all three are small
    [count, count * RECORD_BYTES, RECORD_BYTES].into_iter().for_each(|word| bytes.extend_from_slice(&(word as u32).to_le_bytes()));
    bytes
}
