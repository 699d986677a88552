//! Writes the kit's vectors into a folder, which is made: `kit FOLDER`. `kit --tables` prints the tables of host/conformance/CAUGHT.md.

use compare::println;
use conformance::{coverage, kit};
use std::path::Path;
use std::process::ExitCode;

fn main() -> ExitCode {
    let words: Vec<String> = std::env::args().skip(1).collect();
    let done = match &words[..] {
        [word] if word == "--tables" => coverage::rules().map(|rules| coverage::tables(&coverage::caught(&rules))),
        [folder] if !folder.starts_with('-') => write(Path::new(folder)),
        _ => {
            eprintln!("kit FOLDER | --tables");
            return ExitCode::from(2);
        }
    };
    match done {
        Ok(text) => println!("{}", text.trim_end()),
        Err(text) => {
            eprintln!("{text}");
            return ExitCode::FAILURE;
        }
    }
    ExitCode::SUCCESS
}

fn write(folder: &Path) -> Result<String, String> {
    std::fs::create_dir_all(folder).map_err(|error| format!("{}: {error}", folder.display()))?;
    let files = kit::vectors()?;
    for (name, text) in &files {
        let file = folder.join(name);
        std::fs::write(&file, text).map_err(|error| format!("{}: {error}", file.display()))?;
    }
    Ok(format!("{}: {} files, {} bytes", folder.display(), files.len(), files.iter().map(|(_, text)| text.len()).sum::<usize>()))
}
