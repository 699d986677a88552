//! What many tries of two sides come to: medians beside least times, and a row of both.

use compare::println;

/// Nanoseconds of one call: the median of the tries, and the least.
#[derive(Clone, Copy)]
pub struct Taken {
    pub median: f64,
    pub least: f64,
}

impl Taken {
    pub fn of(mut tries: Vec<f64>) -> Self {
        tries.sort_by(f64::total_cmp);
        Taken { median: tries[tries.len() / 2], least: tries[0] }
    }

    /// Of calls that are timed part by part.
    pub fn mean(parts: impl ExactSizeIterator<Item = Taken>) -> Self {
        let n = parts.len() as f64;
        parts.fold(Taken { median: 0.0, least: 0.0 }, |sum, part| Taken {
            median: sum.median + part.median / n,
            least: sum.least + part.least / n,
        })
    }
}

/// What a row is held to: the ratio of the medians, that of the least times too, or nothing.
#[derive(Clone, Copy)]
pub enum Bar {
    Median(f64),
    Both(f64),
    None,
}

/// Prints a row; false where a ratio is over its bar.
pub fn row(name: &str, [ours, theirs]: [Taken; 2], bar: Bar) -> bool {
    let ratios = [ours.median / theirs.median, ours.least / theirs.least];
    let (bar, held) = match bar {
        Bar::Median(bar) => (Some(bar), 1),
        Bar::Both(bar) => (Some(bar), 2),
        Bar::None => (None, 0),
    };
    let within = bar.is_none_or(|bar| ratios[..held].iter().all(|&ratio| ratio <= bar));
    let verdict = bar.map_or("no bar".into(), |bar| format!("{} the bar of {bar}", if within { "within" } else { "OVER" }));
    println!(
        "{name:48} ours {:6.2} / {:6.2} ns  other {:6.2} / {:6.2} ns  ratio {:6.3} / {:5.3}  ({verdict})",
        ours.median, ours.least, theirs.median, theirs.least, ratios[0], ratios[1]
    );
    within
}
