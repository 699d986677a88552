//! What the vectors catch: every wrong version of the host's comparison, asked every line that its calls answer.

use crate::conform::{read_rule, run, Level, Line, Report, Rule, LEVELS};
use crate::program::{Calls, Program};
use crate::questions::sections;
use crate::wrong::{Of, Wrong};
use compare::threads;
use std::convert::Infallible;
use std::fmt::Write;
use std::sync::Mutex;

/// The vectors as those see them who run them.
pub fn rules() -> Result<Vec<Rule>, String> {
    let right = Calls::right();
    sections(&right).iter().map(|section| read_rule(&format!("{}.txt", section.file), &section.text())).collect()
}

/// A wrong version and what it breaks, by rule and level.
pub struct Caught {
    pub of: Of,
    pub name: String,
    pub report: Report,
}

impl Caught {
    /// How many lines it breaks at this level.
    pub fn lines(&self, level: Level) -> usize {
        self.report.told.iter().map(|told| told[level as usize].broken).sum()
    }

    /// The lowest level that catches it.
    pub fn level(&self) -> Option<Level> {
        LEVELS.into_iter().find(|level| self.lines(*level) > 0)
    }

    /// As it is named to those who are told whose answers they have.
    pub fn named(&self) -> String {
        match self.of {
            Of::Joint => self.name.clone(),
            of => format!("{} ({})", self.name, of.name()),
        }
    }
}

/// A version through the rules that its calls have a part in; it keeps the others.
pub fn asked(rules: &[Rule], of: Of, calls: &Calls) -> Report {
    let mut program = Program::new(calls);
    let has_part = |rule: &&Rule| rule.lines.iter().any(|line| of.has(&line.question));
    let own: Vec<&Rule> = rules.iter().filter(has_part).collect();
    let answer = |_: &Rule, line: &Line| -> Result<_, Infallible> { Ok(program.answer(&line.question)) };
    let Ok(mut report) = run(&own, Level::Bytes, answer);
    let mut told = std::mem::take(&mut report.told).into_iter();
    report.told = rules.iter().map(|rule| if has_part(&rule) { told.next() } else { None }.unwrap_or_default()).collect();
    report
}

/// All of them.
pub fn caught(rules: &[Rule]) -> Vec<Caught> {
    let all = crate::wrong::all().len();
    let found = Mutex::new(Vec::new());
    // each makes its own, since a version's calls stay where they are made
    threads::each(all as u64, |at| {
        let one = crate::wrong::all().swap_remove(at as usize);
        let Wrong { of, name, calls } = one;
        let report = asked(rules, of, &calls);
        if let Ok(mut found) = found.lock() {
            found.push((at, Caught { of, name, report }));
        }
        false
    });
    let mut found = found.into_inner().unwrap_or_default();
    found.sort_by_key(|(at, _)| *at);
    found.into_iter().map(|(_, caught)| caught).collect()
}

/// CAUGHT.md's tables.
pub fn tables(caught: &[Caught]) -> String {
    let mut out = String::new();
    for of in Of::ALL {
        let own: Vec<&Caught> = caught.iter().filter(|caught| caught.of == of).collect();
        let by = |level: Level| own.iter().filter(|caught| caught.level() == Some(level)).count();
        let _ = writeln!(
            out,
            "### Of {}: {} wrong versions, caught first at rule {}, at bits {}, at bytes {}\n\n| Wrong version | caught at | lines at rule | bits | bytes |\n|---|---|---|---|---|",
            of.name(), own.len(), by(Level::Rule), by(Level::Bits), by(Level::Bytes)
        );
        for one in own {
            let level = one.level().map_or("nothing", Level::name);
            let _ = writeln!(
                out,
                "| {} | {level} | {} | {} | {} |",
                one.name,
                one.lines(Level::Rule),
                one.lines(Level::Bits),
                one.lines(Level::Bytes)
            );
        }
        out.push('\n');
    }
    out
}

/// What `conform` tells wrong versions by.
pub fn known(rules: &[Rule], caught: &[Caught]) -> String {
    let mut out = String::from("# Known wrong versions: what each breaks, by rule: lines and digest at bits, lines and digest at bytes.\n");
    for one in caught {
        let _ = writeln!(out, "version {}", one.named());
        for (rule, [_, bits, bytes]) in rules.iter().zip(&one.report.told).filter(|(_, [_, bits, bytes])| bits.broken + bytes.broken > 0) {
            let _ = writeln!(out, "{} {} {:016x} {} {:016x}", rule.file, bits.broken, bits.digest, bytes.broken, bytes.digest);
        }
    }
    out
}
