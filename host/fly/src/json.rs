//! Values of JSON, for the lines that scripts read.

use std::fmt::Write;

/// A text, in quotes.
pub fn text(text: &str) -> String {
    let mut json = String::from("\"");
    for c in text.chars() {
        match c {
            '"' | '\\' => json.extend(['\\', c]),
            // a line stays one
            c if c.is_control() || ['\u{2028}', '\u{2029}'].contains(&c) => {
                let _ = write!(json, "\\u{:04x}", c as u32);
            }
            c => json.push(c),
        }
    }
    json + "\""
}

/// A number that gives its bits back; JSON has none that is not finite, so that is a text.
pub fn number(x: f32) -> String {
    match x.is_finite() {
        true => format!("{x:?}"),
        false => text(&x.to_string()),
    }
}

/// A list.
pub fn list(values: impl IntoIterator<Item = String>) -> String {
    format!("[{}]", values.into_iter().collect::<Vec<_>>().join(","))
}
