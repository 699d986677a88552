//! The examples of both crates' pages are read without scrolling: rustdoc cuts what is longer than its column.

use std::path::PathBuf;

const COLUMN: usize = 100;

#[test]
fn no_line_of_an_example_is_cut() {
    let host = PathBuf::from(std::env::var_os("CARGO_MANIFEST_DIR").expect("cargo runs the tests")).join("..");
    let (mut examples, mut long) = (0, Vec::new());
    for file in
        ["fosavalo/src", "fosavalo-desk/src"].iter().flat_map(|folder| std::fs::read_dir(host.join(folder)).expect("a folder").flatten())
    {
        let (name, text) = (file.file_name(), std::fs::read_to_string(file.path()).expect("text"));
        let mut inside = false;
        for (number, line) in (1..).zip(text.lines()) {
            let Some(said) = line.trim_start().strip_prefix("///").or(line.trim_start().strip_prefix("//!")) else { continue };
            if said.trim_start().starts_with("```") {
                inside = !inside;
                examples += usize::from(inside);
            } else if inside && said.chars().count() > COLUMN + 1 {
                long.push(format!("{}:{number}", name.to_string_lossy()));
            }
        }
    }
    assert!(examples > 50, "{examples}");
    assert!(long.is_empty(), "longer than {COLUMN}: {long:?}");
}
