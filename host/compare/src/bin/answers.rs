//! Makes the list of the oracle's answers that the program `replay` runs again, and puts it where it stands: `answers`.

use compare::answers;
use std::process::ExitCode;

fn main() -> ExitCode {
    match write() {
        Ok(text) => println!("{text}"),
        Err(text) => {
            eprintln!("{text}");
            return ExitCode::FAILURE;
        }
    }
    ExitCode::SUCCESS
}

fn write() -> Result<String, String> {
    let path = answers::path()?;
    let sections = answers::sections();
    let (list, rows) = (answers::list_of(&sections), sections.iter().map(|section| section.rows.len()).sum::<usize>());
    std::fs::write(&path, &list).map_err(|error| format!("{}: {error}", path.display()))?;
    Ok(format!("{}: {rows} answers, {} bytes", path.display(), list.len()))
}
