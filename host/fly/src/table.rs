//! What happened, in a few lines.

use crate::flight::{Flight, RULES};
use crate::pass::{self, Choice};
use fosavalo::Refusal;
use std::fmt::Write;

/// Both rules on one line.
pub struct Pair {
    pub name: String,
    /// In the order of `RULES`.
    pub flights: [Flight; 2],
}

impl Pair {
    pub fn new(name: impl Into<String>, fly: impl Fn(crate::flight::Rule) -> Result<Flight, Refusal>) -> Result<Self, Refusal> {
        let [shield, earlier] = RULES;
        Ok(Pair { name: name.into(), flights: [fly(shield)?, fly(earlier)?] })
    }
}

/// The pass with every seed.
pub fn passes(choice: &Choice) -> Result<Vec<Pair>, Refusal> {
    pass::SEEDS.into_iter().map(|seed| Pair::new(format!("seed {seed}"), |rule| pass::fly(choice, seed, rule))).collect()
}

/// The pass with other choices of set, filter and noise: how often control changed hands, the least and the most of all seeds.
pub fn choices() -> Result<String, Refusal> {
    let mut text = format!("{:32}{:>16}{:>20}\n", "changes of hands in the pass", "our shield", "the earlier rule");
    for choice in &pass::CHOICES {
        let pairs = passes(choice)?;
        let range = |at: fn(&Pair) -> &Flight| {
            let changes = || pairs.iter().map(|pair| at(pair).ticks.changes().len());
            format!("{} to {}", changes().min().unwrap_or(0), changes().max().unwrap_or(0))
        };
        let _ = writeln!(text, "{:32}{:>16}{:>20}", choice.name, range(|pair| &pair.flights[0]), range(|pair| &pair.flights[1]));
    }
    Ok(text)
}

pub fn table(title: &str, pairs: &[Pair]) -> String {
    let mut text = format!("{title}\n\n");
    let width = pairs.iter().map(|pair| pair.name.len()).max().unwrap_or(0).max(6);
    let group = |text: &mut String, left: &str, right: &str| {
        let line = format!("{:width$}   {left:^39}   {right:^39}", "");
        let _ = writeln!(text, "{}", line.trim_end());
    };
    group(&mut text, "OUR SHIELD", "THE EARLIER RULE");
    group(&mut text, "back to the planner above exit", "back to the planner above enter");
    let head = format!("{:>7} {:>12} {:>9} {:>8}", "changes", "worst second", "planner", "jolts");
    group(&mut text, &head, &head);
    for pair in pairs {
        let [ours, earlier] = &pair.flights;
        let cells = |flight: &Flight| {
            let (_, worst) = flight.ticks.busiest(1.0);
            format!(
                "{:7} {worst:12} {:7.1} % {:8.1}",
                flight.ticks.changes().len(),
                100.0 * flight.ticks.planner_share(),
                flight.ticks.jolts()
            )
        };
        let _ = writeln!(text, "{:width$}   {:^39}   {:^39}", pair.name, cells(ours), cells(earlier));
    }
    text.push_str(
        "\nchanges: how often control changed hands; worst second: the most changes within one second; planner: its part of the\n\
         ticks; jolts: by how much the commanded rate jumps from tick to tick, rad/s added up over a second.\n",
    );
    for flight in pairs.iter().flat_map(|pair| &pair.flights) {
        if let Some(tick) = flight.strays() {
            let _ = writeln!(text, "note: from tick {tick} on {:?} differs from its rule on the same margins", flight.rule);
        }
    }
    text
}
