//! The files of the kit's `vectors`.

use crate::coverage::{caught, known, rules};
use crate::program::Calls;
use crate::questions::sections;

/// The name of each file and what is in it.
pub fn vectors() -> Result<Vec<(String, String)>, String> {
    let (right, rules) = (Calls::right(), rules()?);
    let mut files: Vec<(String, String)> =
        sections(&right).iter().map(|section| (format!("{}.txt", section.file), section.text())).collect();
    files.push(("known.wrong".to_string(), known(&rules, &caught(&rules))));
    Ok(files)
}
