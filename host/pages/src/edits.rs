//! crates/EDITS.md: every must-fail edit, what it changes and what it makes false.

use crate::functions::crates;
use crate::{entries, link, text};
use std::fmt::Write;

/// Every edit there is: its crate, and its file from there.
pub(crate) fn files() -> Result<Vec<(String, String)>, String> {
    let mut found = Vec::new();
    for (krate, _) in crates()? {
        for folder in ["must-fail", "must-fail/more"] {
            let names = entries(&format!("crates/{krate}/{folder}")).unwrap_or_default();
            found.extend(names.iter().filter(|name| name.ends_with(".edit")).map(|name| (krate.clone(), format!("{folder}/{name}"))));
        }
    }
    Ok(found)
}

/// The label of an edit's file.
pub(crate) fn label(file: &str) -> &str {
    file.rsplit('/').next().and_then(|name| name.strip_suffix(".edit")).unwrap_or(file)
}

/// What an edit's file says, for a table: its own words or else its first change, the files that it changes, what it makes false.
fn said(text: &str) -> [String; 3] {
    let after = |key: &str| text.lines().filter_map(|line| line.strip_prefix(key)).map(str::trim).collect::<Vec<&str>>();
    let (files, old, new) = (after("file:"), after("old:"), after("new:"));
    let own: Vec<&str> = text.lines().take_while(|line| !line.starts_with("file:")).collect();
    let words = match (own.is_empty(), old.first(), new.first()) {
        (true, Some(old), Some(new)) => format!("`{}` becomes `{}`", old.trim_matches('`'), new.trim_matches('`')),
        _ => own.join(" "),
    };
    let mut changed: Vec<String> = files.iter().map(|file| format!("`{file}`")).collect();
    changed.dedup();
    let false_now: Vec<String> = after("fails:")
        .iter()
        .map(|fails| match fails.strip_prefix("promise of ") {
            Some(function) => format!("promise of `{function}`"),
            None => format!("`{}`", fails.split(' ').next().unwrap_or(fails)),
        })
        .collect();
    [words.replace('|', "\\|"), changed.join(", "), false_now.join(", ")]
}

/// The whole page.
pub(crate) fn page() -> Result<String, String> {
    let mut page = String::from(
        "# Edits\n\n\
         Errors that look right. Each is an edit of code, definition or promise that the gate makes in a copy; the gate passes only if the prover refuses it. It has to be refused\n\
         at the promise or the theorem that its file names in a line `fails:`, and for a fact, not for its shape. `make map` writes this page from these files.\n\
         [THEOREMS](../docs/THEOREMS.md#errors-that-look-right) says what they are for.\n",
    );
    let mut of = String::new();
    for (krate, file) in files()? {
        if krate != of {
            let _ = write!(page, "\n## {krate}\n\n| Edit | The error | Changes | Refused at |\n|---|---|---|---|\n");
            of = krate.clone();
        }
        let path = format!("crates/{krate}/{file}");
        let [words, changed, false_now] = said(&text(&path)?);
        let _ = writeln!(page, "| {} | {words} | {changed} | {false_now} |", link(label(&file), &path));
    }
    Ok(page)
}

#[cfg(test)]
mod tests {
    use super::*;

    #[test]
    fn an_edit_is_told_by_its_words_or_its_change() {
        let change =
            "file: src/a.rt\nold: x || y\nnew: y\nfile: src/a.rt\nold: p\nnew: q\nfails: promise of a::f\nfails: holds (proofs/P.antt)\n";
        let [words, changed, false_now] = said(change);
        assert_eq!(words, "`x \\|\\| y` becomes `y`");
        assert_eq!((changed.as_str(), false_now.as_str()), ("`src/a.rt`", "promise of `a::f`, `holds`"));
        assert_eq!(said(&format!("The second\nis lost.\n{change}"))[0], "The second is lost.");
    }
}
