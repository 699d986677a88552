//! What stands behind a subcommand's name: one reading of options, and one wording of mistakes in them.

use crate::check::Given;
use crate::flight_file::FlightFile;
use crate::kept::Kept;
use crate::scenario::{number, PROFILES};
use fosavalo::{Profile, SetUp};
use std::ffi::OsString;
use std::path::{Path, PathBuf};

/// An option, and what it wants; nothing where it is only given or not.
#[derive(Clone, Copy)]
pub struct Opt {
    pub name: &'static str,
    /// What the help calls its value, and what a mistake says that it wants.
    pub value: Option<(&'static str, &'static str)>,
}

const fn with(name: &'static str, called: &'static str, wants: &'static str) -> Opt {
    Opt { name, value: Some((called, wants)) }
}

const fn alone(name: &'static str) -> Opt {
    Opt { name, value: None }
}

pub const ENTER: Opt = with("--enter", "NUMBER", "a number");
pub const EXIT: Opt = with("--exit", "NUMBER", "a number");
pub const PROFILE: Opt = with("--profile", "NAME", "a name");
pub const OUT: Opt = with("--out", "FOLDER", "a folder");
pub const FILE: Opt = with("-o", "FILE", "a file");
pub const STARTS: Opt = with("--starts", "TIME", "a time of day");
pub const CSV: Opt = alone("--csv");
pub const JSON: Opt = alone("--json");
pub const APART: Opt = alone("--apart");
pub const CHOICES: Opt = alone("--choices");

/// What the words ask for.
pub enum Asked {
    Help,
    Run(Arguments),
}

/// The words that are no options, in order, and the options with their values.
pub struct Arguments {
    pub named: Vec<PathBuf>,
    given: Vec<(&'static str, OsString)>,
    /// How the help is asked for.
    help: String,
}

impl Arguments {
    /// `--name value`, `--name=value`; behind `--` nothing is an option, and neither is `-`, which is standard input.
    pub fn read(words: impl Iterator<Item = OsString>, options: &[Opt], help: &str) -> Result<Asked, String> {
        let mut arguments = Arguments { named: Vec::new(), given: Vec::new(), help: help.to_string() };
        let (mut words, mut over) = (words, false);
        while let Some(word) = words.next() {
            if over || word == "-" || !word.as_encoded_bytes().starts_with(b"-") {
                arguments.named.push(PathBuf::from(word));
                continue;
            }
            let text = word.to_string_lossy().into_owned();
            let (name, glued) = match text.split_once('=') {
                Some((name, value)) if name.starts_with("--") => (name, Some(value)),
                _ => (text.as_str(), None),
            };
            if name == "--" && glued.is_none() {
                over = true;
                continue;
            }
            if ["--help", "-h"].contains(&name) && glued.is_none() {
                return Ok(Asked::Help);
            }
            let option = options.iter().find(|option| option.name == name);
            let option = option.ok_or_else(|| format!("`{name}` is no option ({help})"))?;
            let value = match (option.value, glued) {
                (None, None) => OsString::new(),
                (None, Some(_)) => return Err(format!("{name} takes no value")),
                (Some(_), Some(value)) => OsString::from(value),
                (Some((_, wants)), None) => words.next().ok_or_else(|| format!("{name} wants {wants}"))?,
            };
            arguments.given.push((option.name, value));
        }
        Ok(Asked::Run(arguments))
    }

    /// The last one counts.
    fn value(&self, option: Opt) -> Option<&OsString> {
        self.given.iter().rev().find(|(name, _)| *name == option.name).map(|(_, value)| value)
    }

    pub fn has(&self, option: Opt) -> bool {
        self.value(option).is_some()
    }

    pub fn path(&self, option: Opt) -> Option<PathBuf> {
        self.value(option).map(PathBuf::from)
    }

    fn read_as<T>(&self, option: Opt, read: impl Fn(&str) -> Result<T, String>) -> Result<Option<T>, String> {
        let read = |value: &OsString| read(&value.to_string_lossy()).map_err(|what| format!("{}: {what}", option.name));
        self.value(option).map(read).transpose()
    }

    /// `--enter` and `--exit`, where they are given: both, and so that set-up keeps them as they are.
    pub fn thresholds(&self) -> Result<Option<(f32, f32)>, String> {
        let (enter, exit) = match (self.read_as(ENTER, number)?, self.read_as(EXIT, number)?) {
            (Some(enter), Some(exit)) => (enter, exit),
            (None, None) => return Ok(None),
            _ => return Err("--enter and --exit go together".to_string()),
        };
        let set_up = SetUp { enter, exit, ..SetUp::falcon_quad() };
        let mended: Vec<String> = set_up.mended().map(|mended| mended.to_string()).collect();
        if mended.is_empty() {
            return Ok(Some((enter, exit)));
        }
        let SetUp { enter, exit, .. } = set_up.kept();
        Err(format!("no thresholds: set-up would have made them enter {enter} and exit {exit} ({})", mended.join("; ")))
    }

    /// A time of day, in seconds.
    pub fn starts(&self) -> Result<Option<f64>, String> {
        self.read_as(STARTS, |text| {
            let none = || format!("`{text}` is no time of day, as 20:31:07.250");
            let [hours, minutes, seconds] = text.split(':').collect::<Vec<_>>()[..] else { return Err(none()) };
            let whole = |text: &str, most: u32| text.parse::<u32>().ok().filter(|n| *n <= most && text.len() <= 2).map(f64::from);
            let digits = seconds.len() >= 2 && seconds.bytes().all(|byte| byte.is_ascii_digit() || byte == b'.');
            let seconds = seconds.parse::<f64>().ok().filter(|seconds| digits && *seconds < 60.0);
            let (Some(hours), Some(minutes), Some(seconds)) = (whole(hours, 23), whole(minutes, 59), seconds) else { return Err(none()) };
            Ok(3600.0 * hours + 60.0 * minutes + seconds)
        })
    }

    /// A profile by its name or its word.
    pub fn profile(&self) -> Result<Option<Profile>, String> {
        self.read_as(PROFILE, |text| {
            if let Some((_, profile)) = PROFILES.iter().find(|(name, _)| *name == text) {
                return Ok(*profile);
            }
            let no_name = |_| format!("`{text}` is no profile; there are {}", PROFILES.map(|(name, _)| name).join(" and "));
            Profile::from_word(text.parse().map_err(no_name)?).map_err(|refusal| refusal.to_string())
        })
    }

    /// What is named, if anything, and no more than one.
    pub fn at_most_one(&self, what: &str) -> Result<Option<&Path>, String> {
        match &self.named[..] {
            [] => Ok(None),
            [one] => Ok(Some(one)),
            _ => Err(format!("one {what} at a time ({})", self.help)),
        }
    }

    /// What is named, one.
    pub fn one(&self, what: &str, example: &str) -> Result<&Path, String> {
        self.at_most_one(what)?.ok_or_else(|| self.which(what, example))
    }

    /// Nothing is named.
    pub fn which(&self, what: &str, example: &str) -> String {
        format!("which {what}? as in `{example}` ({})", self.help)
    }

    /// The flight that is named, by its file, a log or the logs of one that go on.
    pub fn flight(&self, example: &str) -> Result<Kept, String> {
        if self.named.is_empty() {
            return Err(self.which("log", example));
        }
        let mut flights = Kept::named(&self.named.iter().map(|path| (path.clone(), Ok(()))).collect::<Vec<_>>(), self.has(APART));
        match (flights.pop(), flights.is_empty()) {
            (Some(flight), true) => flight.map_err(|(called, why)| format!("{called}: {why}")),
            _ => Err(format!("one log at a time, or those of one flight ({})", self.help)),
        }
    }

    /// What a flight was set up with: as it is given here, or else as its file tells.
    pub fn given(&self, kept: &Kept) -> Result<Option<Given>, String> {
        let (thresholds, profile) = (self.thresholds()?, self.profile()?);
        let Some((enter, exit)) = thresholds.or(kept.file.as_ref().map(FlightFile::thresholds)) else { return Ok(None) };
        let profile = profile.or(kept.file.as_ref().map(|file| file.set_up.profile)).unwrap_or(Profile::Whole);
        Ok(Some(Given { profile, enter, exit }))
    }

    /// Nobody told the thresholds.
    pub fn no_thresholds(&self, kept: &Kept) -> String {
        format!("which thresholds? {} does not tell them: --enter and --exit, or its flight's file ({})", kept.called, self.help)
    }
}
