//! `salvage FILE -o LOG`: the records of a file that is no whole log, as one that is.

use super::Subcommand;
use crate::arguments::{Arguments, FILE};
use crate::output::{log_name, note, of_file, read_all, told};
use crate::salvage::salvage;
use fosavalo::{Log, LogSeries, Record, MOST_RECORDS, RECORD_BYTES};
use std::io::Write;
use std::path::Path;

pub const SUBCOMMAND: Subcommand = Subcommand {
    name: "salvage",
    takes: "FILE -o LOG",
    brief: "a log out of a file that was cut, has room behind it or was torn",
    about: || {
        "Takes the records out of a file that was to be a log, and writes a log of them, never in place. A log's end, three words that
fit the place where they stand, ends them, whatever lies behind; where there is none, zeros at the end of the file are no
data, and whole records are kept. What was dropped is counted and said on standard error."
            .to_string()
    },
    options: &[(
        &[FILE],
        "the log that is written, another file than the first; where there are more than 65535 records, several that
go on, NAME-001.log, NAME-002.log ..",
    )],
    more: String::new,
    run,
};

/// Whether both are the same file, by whatever names.
fn same(one: &Path, other: &Path) -> bool {
    #[cfg(unix)]
    if let (Ok(one), Ok(other)) = (one.metadata(), other.metadata()) {
        use std::os::unix::fs::MetadataExt;
        return (one.dev(), one.ino()) == (other.dev(), other.ino());
    }
    one.canonicalize().ok().zip(other.canonicalize().ok()).is_some_and(|(one, other)| one == other)
}

fn run(arguments: &Arguments) -> Result<u8, String> {
    let example = "fosavalo salvage night/torn.log -o night/mended.log";
    let file = arguments.one("file", example)?;
    let to = arguments.path(FILE).ok_or_else(|| arguments.which("log is to be written", example))?;
    if same(file, &to) {
        return Err(of_file(&to, "it is the file itself: salvage into another"));
    }
    let bytes = read_all(file).map_err(|error| of_file(file, error))?;
    let salvaged = salvage(&bytes);
    let records = salvaged.records.chunks_exact(RECORD_BYTES).filter_map(|record| Record::from_bytes(record).ok());
    let written = match salvaged.records.len() / RECORD_BYTES <= MOST_RECORDS {
        true => {
            let mut log = Log::new();
            log.try_extend(records).map_err(|refusal| of_file(&to, refusal))?;
            std::fs::write(&to, log.as_bytes()).map_err(|error| of_file(&to, error))?;
            to.display().to_string()
        }
        false => {
            let mut series = LogSeries::new();
            series.extend(records);
            several(&to, &series)?
        }
    };
    note(&format!("{written}: {salvaged}"));
    Ok(0)
}

/// Logs that go on, none of which is there yet.
fn several(to: &Path, series: &LogSeries) -> Result<String, String> {
    let (folder, name) =
        (to.parent().unwrap_or(Path::new("")), to.file_stem().map_or(String::new(), |stem| stem.to_string_lossy().into_owned()));
    let count = series.logs().len();
    let logs: Vec<String> = (0..count).map(|at| log_name(&name, at, count)).collect();
    for (log, name) in series.logs().iter().zip(&logs) {
        let file = folder.join(name);
        let written = std::fs::File::create_new(&file).and_then(|mut file| file.write_all(log.as_bytes()));
        written.map_err(|error| of_file(&file, error))?;
    }
    Ok(told(folder, &logs))
}
