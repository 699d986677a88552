//! How many lines of definitions a statement rests on, without comments, imports and blank lines, and in which files they stand: structs of `src/` too.

use crate::logic::Logic;
use std::collections::{BTreeMap, BTreeSet};
use std::fmt::Write;

const RULE: &str = "crates/latch/specs/Latch.antt:Flies";
const DEMAND: &str = "crates/runs/proofs/DemandThree.antt:demand_three";

fn listed(logic: &Logic, items: &BTreeSet<usize>) -> String {
    let mut files: BTreeMap<&str, usize> = BTreeMap::new();
    for item in items.iter().map(|at| &logic.items[*at]) {
        *files.entry(&item.file).or_default() += item.lines();
    }
    let mut list = String::new();
    for (file, lines) in &files {
        let _ = writeln!(list, "{lines:5}  {file}");
    }
    let _ = writeln!(list, "{:5}  lines of {} definitions", files.values().sum::<usize>(), items.len());
    list
}

/// Of the definitions named, each `crates/X/specs/Y.antt:name`; without one, of demand 3: first the rule alone, then all that its theorem speaks of.
pub fn counted(names: &[String]) -> Result<String, String> {
    let logic = Logic::read()?;
    let found = |name: &str| {
        let at = name.split_once(':').and_then(|(file, name)| logic.get(file, name));
        at.map(|at| BTreeSet::from([at])).ok_or(format!("no definition {name}"))
    };
    if names.is_empty() {
        let rule = listed(&logic, &logic.made_of(&found(RULE)?));
        let demand = listed(&logic, &logic.reached(&found(DEMAND)?));
        return Ok(format!("the rule\n{rule}all that demand_three speaks of\n{demand}"));
    }
    let mut all = BTreeSet::new();
    for name in names {
        all.extend(found(name)?);
    }
    Ok(listed(&logic, &logic.made_of(&all)))
}
