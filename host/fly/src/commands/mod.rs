//! The subcommands of `fosavalo`: what each takes, says and does stands in one table.

mod check;
mod expand;
mod explain;
mod fly;
mod log;
pub mod new;
mod replay;
mod review;
mod salvage;

use crate::arguments::{Arguments, Asked, Opt};
use crate::output::{note, print};
use std::ffi::OsString;
use std::io::Write;
use std::process::ExitCode;

pub struct Subcommand {
    pub name: &'static str,
    /// What stands behind the name; several forms are several lines.
    takes: &'static str,
    /// In a line.
    brief: &'static str,
    /// In the help, above the options and below them.
    about: fn() -> String,
    more: fn() -> String,
    /// Each with what the help says of it.
    options: &'static [(&'static [Opt], &'static str)],
    /// How it ends, or what is wrong, which ends it with 2.
    run: fn(&Arguments) -> Result<u8, String>,
}

pub const SUBCOMMANDS: [Subcommand; 9] = [
    fly::SUBCOMMAND,
    new::SUBCOMMAND,
    log::SUBCOMMAND,
    explain::SUBCOMMAND,
    check::SUBCOMMAND,
    review::SUBCOMMAND,
    replay::SUBCOMMAND,
    salvage::SUBCOMMAND,
    expand::SUBCOMMAND,
];

/// What the help says of a number.
const NUMBER: &str = "A number is a decimal, nan, inf, -inf, or 0x and the bits";

/// And of what stands for a flight.
const LOGS: &str =
    "A flight is named by its own file, NAME.flight, which `fosavalo fly` writes; by its log; or by its logs where it has several,
NAME-001.log, NAME-002.log .., which are one flight. Bytes that are no log are refused with the number and its meaning.";

impl Subcommand {
    /// What `--help` says.
    pub fn help(&self) -> String {
        let mut text: String =
            self.takes.lines().map(|takes| format!("fosavalo {} {takes}", self.name).trim_end().to_string() + "\n").collect();
        text += &format!("\n{}\n\n", (self.about)());
        for (options, what) in self.options {
            let shown = |option: &Opt| option.value.map_or(option.name.to_string(), |(called, _)| format!("{} {called}", option.name));
            text += &beside(&options.iter().map(shown).collect::<Vec<_>>().join(", "), what);
        }
        text += &beside("--help, -h", "this");
        let more = (self.more)();
        text + &if more.is_empty() { String::new() } else { format!("\n{more}\n") }
    }
}

/// What is explained, and beside it, or below where it is long, what it is.
fn beside(what: &str, text: &str) -> String {
    let text = text.lines().collect::<Vec<_>>().join(&format!("\n{:17}", ""));
    match what.len() {
        0..=14 => format!("  {what:15}{text}\n"),
        _ => format!("  {what}\n{:17}{text}\n", ""),
    }
}

fn help() -> String {
    let each: String = SUBCOMMANDS.iter().map(|each| beside(each.name, each.brief)).collect();
    format!(
        "fosavalo SUBCOMMAND ..

Flights through the proved core: flown, kept as logs, checked, explained, flown again.

{each}
`fosavalo SUBCOMMAND --help` has what each takes. Options stand anywhere, as `--enter 0.03` or `--enter=0.03`; behind `--` nothing is one, and
`-` is standard input. Ends with 0; with 1 where something is wrong or different; and with 2 where something is refused or
cannot be read, and a line on standard error says what.
"
    )
}

/// The program: how it ends.
pub fn run(mut words: impl Iterator<Item = OsString>) -> ExitCode {
    let first = words.next().map(|word| word.to_string_lossy().into_owned());
    let said = |(name, ended): (&str, Result<u8, String>)| match ended {
        Ok(status) => ExitCode::from(status),
        Err(text) => {
            note(&format!("{name}: {text}"));
            ExitCode::from(2)
        }
    };
    said(match first.as_deref() {
        Some("--help" | "-h") => ("fosavalo", show(&help())),
        Some("--version") => ("fosavalo", show(&format!("fosavalo {}\n", env!("CARGO_PKG_VERSION")))),
        Some(name) => match SUBCOMMANDS.iter().find(|each| each.name == name) {
            Some(each) => (each.name, each.ran(words)),
            None => ("fosavalo", Err(format!("`{name}` is no subcommand; there are {} (fosavalo --help)", names()))),
        },
        None => ("fosavalo", Err(format!("which subcommand? there are {} (fosavalo --help)", names()))),
    })
}

fn names() -> String {
    SUBCOMMANDS.iter().map(|each| each.name).collect::<Vec<_>>().join(", ")
}

/// On standard output, and all is well.
fn show(text: &str) -> Result<u8, String> {
    print(|to| to.write_all(text.as_bytes())).map(|()| 0)
}

impl Subcommand {
    fn ran(&self, words: impl Iterator<Item = OsString>) -> Result<u8, String> {
        let options: Vec<Opt> = self.options.iter().flat_map(|(options, _)| options.iter().copied()).collect();
        match Arguments::read(words, &options, &format!("fosavalo {} --help", self.name))? {
            Asked::Help => show(&self.help()),
            Asked::Run(arguments) => (self.run)(&arguments),
        }
    }
}
