//! `pages` writes MAP.md, PROMISES.md, STATEMENTS.md and EDITS.md of crates/. `pages names` says what the documents name that is not there, and
//! `pages definitions [FILE:NAME ..]` how many lines of definitions a statement rests on.

use std::io::Write;
use std::process::ExitCode;

fn written() -> Result<String, String> {
    for (file, page) in pages::written() {
        let written = page.and_then(|page| std::fs::write(checkout::root()?.join(file), page).map_err(|error| error.to_string()));
        written.map_err(|text| format!("{file}: {text}"))?;
    }
    Ok(String::new())
}

/// The last line counts.
fn names() -> Result<String, String> {
    let named = pages::statements::named(&pages::logic::Logic::read()?)?;
    let (items, edits, faults) = (named.items.len(), named.edits.len(), named.faults.len());
    let count = format!("{items} theorems and definitions are named, {edits} must-fail edits; mistakes: {faults}\n");
    if named.faults.is_empty() {
        Ok(count)
    } else {
        Err(format!("{}\n{count}", named.faults.join("\n")))
    }
}

fn main() -> ExitCode {
    let given: Vec<String> = std::env::args().skip(1).collect();
    let ended = match given.first().map(String::as_str) {
        None => written(),
        Some("names") => names(),
        Some("definitions") => pages::definitions::counted(&given[1..]),
        Some(other) => Err(format!("pages: {other}? `pages`, `pages names` or `pages definitions`\n")),
    };
    // one who no longer reads is no failure
    match ended {
        Ok(text) => {
            let _ = std::io::stdout().write_all(text.as_bytes());
            ExitCode::SUCCESS
        }
        Err(text) => {
            let _ = std::io::stderr().write_all(text.trim_end().as_bytes()).and_then(|()| std::io::stderr().write_all(b"\n"));
            ExitCode::FAILURE
        }
    }
}
