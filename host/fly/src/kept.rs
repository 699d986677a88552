//! What may be named where a log is taken: a log, logs that go on, or a flight's own file.

use crate::flight_file::FlightFile;
use crate::output::{name, read, told};
use crate::salvage::trailer;
use fosavalo::{LogView, Record, Refusal, LOG_TRAILER_BYTES, MOST_RECORDS, RECORD_BYTES};
use std::borrow::Cow;
use std::collections::{BTreeSet, HashMap};
use std::fmt;
use std::fs::File;
use std::io::{self, Read, Seek, SeekFrom};
use std::path::{Path, PathBuf};

/// One log, by its file; what came by standard input has its bytes here.
pub struct Part {
    pub path: PathBuf,
    bytes: Option<Vec<u8>>,
    /// How many records its flight's file tells of.
    told: Option<usize>,
}

/// A flight that was kept: its logs in order.
pub struct Kept {
    /// How it is named to the user, and what files made of it are called.
    pub called: String,
    pub name: String,
    pub file: Option<FlightFile>,
    pub logs: Vec<Part>,
    /// The log before its first, where these begin in mid-flight by their numbers, and whether it is there.
    pub before: Option<(String, bool)>,
}

/// How many records are checked at a time.
const PIECE: usize = 2048;

/// A file that was looked for, or why it is none.
pub type Found = (PathBuf, Result<(), String>);

/// Why nothing can be said of a flight.
#[derive(Clone, Debug, PartialEq, Eq)]
pub enum Trouble {
    /// And which log it is, where there are several.
    Refused(Option<String>, Refusal),
    Unreadable(String),
}

impl fmt::Display for Trouble {
    fn fmt(&self, f: &mut fmt::Formatter<'_>) -> fmt::Result {
        match self {
            Trouble::Refused(None, refusal) => refusal.fmt(f),
            Trouble::Refused(Some(log), refusal) => write!(f, "{log}: {refusal}"),
            Trouble::Unreadable(why) => f.write_str(why),
        }
    }
}

impl Part {
    /// Its bytes, which are a log.
    fn read(&self, several: bool) -> Result<Cow<'_, [u8]>, Trouble> {
        let log = || several.then(|| self.file_name());
        let of_log = |why: String| Trouble::Unreadable(log().map_or(String::new(), |log| format!("{log}: ")) + &why);
        let bytes = match &self.bytes {
            Some(bytes) => Cow::from(bytes),
            None => Cow::from(read(&self.path).map_err(|error| of_log(error.to_string()))?),
        };
        let count = LogView::from_bytes(&bytes).map_err(|refusal| Trouble::Refused(log(), refusal))?.len();
        match self.told {
            Some(told) if told != count => Err(of_log(format!("it has {count} records, and its flight's file tells of {told}"))),
            _ => Ok(bytes),
        }
    }

    /// Its file and how many records it has, where its length and its last words say that it is a log as its flight's file tells of it.
    fn opened(&self) -> Option<(File, usize)> {
        let mut file = File::open(&self.path).ok().filter(|_| self.bytes.is_none())?;
        let about = file.metadata().ok().filter(|about| about.is_file())?;
        let records = usize::try_from(about.len()).ok()?.checked_sub(LOG_TRAILER_BYTES)?;
        let count = records / RECORD_BYTES;
        let (mut last, fits) = ([0; LOG_TRAILER_BYTES], records % RECORD_BYTES == 0 && count <= MOST_RECORDS);
        file.seek(SeekFrom::Start(records as u64)).and_then(|_| file.read_exact(&mut last)).ok()?;
        file.seek(SeekFrom::Start(0)).ok()?;
        (fits && last == trailer(count) && self.told.is_none_or(|told| told == count)).then_some((file, count))
    }

    pub fn file_name(&self) -> String {
        self.path.file_name().map_or(String::new(), |name| name.to_string_lossy().into_owned())
    }
}

/// The stem and the number of one of the logs that go on: NAME-002.log has NAME and 2.
fn numbered(path: &Path) -> Option<(PathBuf, usize)> {
    let stem = path.file_name()?.to_str()?.strip_suffix(".log")?;
    let (stem, digits) = stem.rsplit_once('-')?;
    let usual = digits.len() >= 3 && digits.bytes().all(|byte| byte.is_ascii_digit()) && (digits.len() == 3 || !digits.starts_with('0'));
    let number = digits.parse().ok().filter(|number| usual && *number > 0)?;
    Some((path.with_file_name(stem), number))
}

/// The file of such a log.
fn with_number(stem: &Path, number: usize) -> PathBuf {
    let name = stem.file_name().map_or(String::new(), |name| name.to_string_lossy().into_owned());
    stem.with_file_name(format!("{name}-{number:03}.log"))
}

impl Kept {
    /// A log in memory.
    pub fn of_bytes(bytes: &[u8]) -> Self {
        Kept::of_part(Part { path: PathBuf::from("-"), bytes: Some(bytes.to_vec()), told: None })
    }

    fn of_part(part: Part) -> Self {
        let called = if part.path == Path::new("-") { "standard input".to_string() } else { part.path.to_string_lossy().into_owned() };
        Kept { called, name: name(&part.path), file: None, logs: vec![part], before: None }
    }

    /// A flight by its file's bytes.
    fn of_file(path: &Path, bytes: &[u8]) -> Result<Self, String> {
        let file = FlightFile::read(bytes).map_err(|mistake| mistake.to_string())?;
        let part = |(log, count): &(String, usize)| Part { path: path.with_file_name(log), bytes: None, told: Some(*count) };
        let logs = file.logs.iter().map(part).collect();
        Ok(Kept { logs, file: Some(file), ..Kept::of_part(Part { path: path.to_path_buf(), bytes: None, told: None }) })
    }

    /// Logs of these numbers, one after another.
    fn of_numbers(stem: &Path, first: usize, last: usize) -> Self {
        let part = |number| Part { path: with_number(stem, number), bytes: None, told: None };
        let logs: Vec<Part> = (first..=last).map(part).collect();
        let folder = stem.parent().unwrap_or(Path::new(""));
        let called = told(folder, &logs.iter().map(Part::file_name).collect::<Vec<_>>());
        let before = (first > 1).then(|| with_number(stem, first - 1));
        let before =
            before.map(|before| (before.file_name().map_or(String::new(), |n| n.to_string_lossy().into_owned()), before.is_file()));
        let name = if first == last { with_number(stem, first) } else { stem.with_extension("log") };
        Kept { called, name: crate::output::name(&name), file: None, logs, before }
    }

    /// The flights that these files are, in order, each as it is named to the user, or what is wrong. Logs of one name with numbers go on, the least number first, and what
    /// lies behind a gap is by itself; with `apart`, each log is a flight of its own.
    pub fn named(files: &[Found], apart: bool) -> Vec<Result<Kept, (String, String)>> {
        let number = |(path, found): &Found| numbered(path).filter(|_| found.is_ok() && !apart);
        let mut series: HashMap<PathBuf, BTreeSet<usize>> = HashMap::new();
        files.iter().filter_map(number).for_each(|(stem, number)| {
            series.entry(stem).or_default().insert(number);
        });
        let mut all = Vec::new();
        for file in files {
            match (number(file), file) {
                (_, (path, Err(why))) => all.push(Err((path.to_string_lossy().into_owned(), why.clone()))),
                (None, (path, _)) => all.push(Kept::of_path(path)),
                // all of them where the first is named
                (Some((stem, _)), _) => {
                    let numbers: Vec<usize> = series.remove(&stem).unwrap_or_default().into_iter().collect();
                    let runs = numbers.chunk_by(|a, b| a + 1 == *b).filter_map(|run| Some((*run.first()?, *run.last()?)));
                    all.extend(runs.map(|(first, last)| Ok(Kept::of_numbers(&stem, first, last))));
                }
            }
        }
        all
    }

    fn of_path(path: &Path) -> Result<Kept, (String, String)> {
        let of_path = |why: String| (path.to_string_lossy().into_owned(), why);
        let flight = path.extension().is_some_and(|extension| extension == "flight");
        if flight || path == Path::new("-") {
            let bytes = read(path).map_err(|error| of_path(error.to_string()))?;
            if flight || FlightFile::is(&bytes) {
                return Kept::of_file(path, &bytes).map_err(of_path);
            }
            return Ok(Kept::of_part(Part { path: path.to_path_buf(), bytes: Some(bytes), told: None }));
        }
        Ok(Kept::of_part(Part { path: path.to_path_buf(), bytes: None, told: None }))
    }

    /// One log after another, while it is wanted.
    pub fn each(&self, mut log: impl FnMut(LogView) -> Result<bool, Refusal>) -> Result<(), Trouble> {
        for part in &self.logs {
            let bytes = part.read(self.logs.len() > 1 || self.file.is_some())?;
            let refused = |refusal| Trouble::Refused(None, refusal);
            if !log(LogView::from_bytes(&bytes).map_err(refused)?).map_err(refused)? {
                break;
            }
        }
        Ok(())
    }

    /// The same records, of a file in pieces, each a log: so many at a time as stay near the processor between their reading and their check.
    pub fn pieces(&self, mut log: impl FnMut(LogView) -> Result<bool, Refusal>) -> Result<(), Trouble> {
        let mut piece = Vec::new();
        let refused = |refusal| Trouble::Refused(None, refusal);
        for part in &self.logs {
            let several = self.logs.len() > 1 || self.file.is_some();
            let Some((mut file, count)) = part.opened() else {
                // what is no log is told of as a whole
                let bytes = part.read(several)?;
                if !log(LogView::from_bytes(&bytes).map_err(refused)?).map_err(refused)? {
                    return Ok(());
                }
                continue;
            };
            let mut left = count;
            loop {
                let here = left.min(PIECE);
                let of_log = |error: io::Error| match several {
                    true => Trouble::Unreadable(format!("{}: {error}", part.file_name())),
                    false => Trouble::Unreadable(error.to_string()),
                };
                piece.resize(here * RECORD_BYTES, 0);
                file.read_exact(&mut piece).map_err(of_log)?;
                piece.extend(trailer(here));
                if !log(LogView::from_bytes(&piece).map_err(refused)?).map_err(refused)? {
                    return Ok(());
                }
                left -= here;
                if left == 0 {
                    break;
                }
            }
        }
        Ok(())
    }

    /// All records.
    pub fn records(&self) -> Result<Vec<Record>, Trouble> {
        let mut records = Vec::new();
        self.each(|log| {
            records.extend(log);
            Ok(true)
        })?;
        Ok(records)
    }

    /// Said before anything that is true only if these logs begin with their flight.
    pub fn as_if(&self) -> Option<String> {
        self.before.as_ref().map(|(log, there)| match there {
            true => format!("as if a flight began here ({log} goes before it)"),
            false => format!("as if a flight began here ({log} is missing)"),
        })
    }
}
