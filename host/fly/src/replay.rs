//! A flight flown again from its file: the same bits, or the first record that is different.

use crate::flight_file::Again;
use crate::json;
use crate::kept::Kept;
use crate::output::brief;
use fosavalo::Record;
use std::fmt;

/// The words of an answer, in order, and where they stand in a record.
const ANSWER: [&str; 10] = ["torque_x", "torque_y", "torque_z", "command_x", "command_y", "command_z", "flag", "time", "psi", "margin"];
const FIRST: usize = 17;

/// A word of an answer: which, in the log, and as it is now.
type Differs = (&'static str, u32, u32);

#[derive(Clone, Debug, PartialEq, Eq)]
pub enum Outcome {
    /// So many records.
    Same(usize),
    /// The first record that is different, counted from 0, of so many, with its words; and how many are in all.
    Different {
        place: usize,
        of: usize,
        words: Vec<Differs>,
        different: usize,
    },
    Trouble(String),
}

impl Outcome {
    pub fn of(kept: &Kept) -> Self {
        Outcome::flown(kept).unwrap_or_else(Outcome::Trouble)
    }

    fn flown(kept: &Kept) -> Result<Self, String> {
        let file = kept.file.as_ref().ok_or("a log alone does not tell what it was set up with: name its flight's file")?;
        let mut again = Again::new(file).map_err(|refusal| refusal.to_string())?;
        let (mut place, mut different, mut first) = (0, 0, None);
        kept.each(|log| {
            for record in log {
                let now = Record::new(&record.input(), &again.tick(&record.input())?);
                if record != now {
                    different += 1;
                    first.get_or_insert((place, record, now));
                }
                place += 1;
            }
            Ok(true)
        })
        .map_err(|trouble| trouble.to_string())?;
        Ok(match first {
            None => Outcome::Same(place),
            Some((at, record, now)) => {
                let (log, now) = (record.words(), now.words());
                let words = ANSWER.into_iter().zip(log.into_iter().zip(now).skip(FIRST)).map(|(name, (log, now))| (name, log, now));
                Outcome::Different { place: at, of: place, words: words.filter(|(_, log, now)| log != now).collect(), different }
            }
        })
    }

    /// How the program ends: 0 for the same, 1 for different, 2 for a flight that nothing is said of.
    pub fn status(&self) -> usize {
        match self {
            Outcome::Same(_) => 0,
            Outcome::Different { .. } => 1,
            Outcome::Trouble(_) => 2,
        }
    }

    /// As an object of JSON.
    pub fn json(&self, flight: &str) -> String {
        let told = match self {
            Outcome::Same(count) => format!("\"same\",\"records\":{count}"),
            Outcome::Different { place, of, words, different } => {
                let word = |(name, log, now): &Differs| format!("{{\"word\":\"{name}\",\"log\":\"{log:08x}\",\"now\":\"{now:08x}\"}}");
                let words = json::list(words.iter().map(word));
                format!("\"different\",\"record\":{},\"records\":{of},\"different\":{different},\"words\":{words}", place + 1)
            }
            Outcome::Trouble(why) => format!("\"unreadable\",\"why\":{}", json::text(why)),
        };
        format!("{{\"flight\":{},\"replay\":{told}}}", json::text(flight))
    }
}

impl fmt::Display for Outcome {
    fn fmt(&self, f: &mut fmt::Formatter<'_>) -> fmt::Result {
        let both = |name: &str, word: u32| match name {
            "flag" => format!("{word:08x}"),
            _ => format!("{word:08x} ({})", brief(f32::from_bits(word))),
        };
        match self {
            Outcome::Same(1) => f.write_str("the same, 1 record"),
            Outcome::Same(count) => write!(f, "the same, {count} records"),
            Outcome::Different { place, of, words, different } => {
                let told: Vec<String> =
                    words.iter().map(|(name, log, now)| format!("{name} was {} and is {}", both(name, *log), both(name, *now))).collect();
                write!(f, "different at {different} of {of} records, first at record {}: {}", place + 1, told.join("; "))
            }
            Outcome::Trouble(why) => write!(f, "unreadable: {why}"),
        }
    }
}
