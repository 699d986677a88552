//! Flights from above: the way as it is wanted and as it was flown, in the colour of whoever flew.

use crate::picture::{drawn, quoted};
use crate::vector::V3;
use fosavalo::Pilot;
use std::fmt::Write;
use std::io;
use std::path::Path;

/// Free about the way, and about what was flown, m.
const ROOM: f64 = 0.35;
const ROOM_FLOWN: f64 = 0.1;
/// An axis has so many marks at most.
const MARKS: f64 = 6.0;

pub struct Panel {
    pub caption: String,
    pub wanted: Vec<V3>,
    pub flown: Vec<(V3, Pilot)>,
}

/// Draws STEM.svg and STEM.png from STEM.points, the panels side by side; what came of it.
pub fn draw(stem: &Path, title: &str, panels: &[Panel]) -> io::Result<String> {
    let mut file = stem.as_os_str().to_owned();
    file.push(".points");
    std::fs::write(&file, points(panels))?;
    let [north, east] = [0, 1].map(|axis| range(panels, axis));
    let longest = (north.1 - north.0).max(east.1 - east.0);
    let captions: Vec<String> = panels.iter().map(|panel| quoted(&panel.caption)).collect();
    let settings = format!(
        "stem = {}\npoints = {}\ntitle = {}\npanels = {count}\narray captions[{count}] = [{}]\n\
         east_min = {:e}\neast_max = {:e}\nnorth_min = {:e}\nnorth_max = {:e}\nstep = {:e}\n",
        quoted(&stem.to_string_lossy()),
        quoted(&file.to_string_lossy()),
        quoted(title),
        captions.join(", "),
        east.0,
        east.1,
        north.0,
        north.1,
        step(longest),
        count = panels.len(),
    );
    Ok(drawn(stem, &settings, include_str!("../above.gp")))
}

/// Two blocks for gnuplot for each panel: the way as it is wanted, and as it was flown; east, north and who flew.
fn points(panels: &[Panel]) -> String {
    let mut text = String::new();
    for Panel { wanted, flown, .. } in panels {
        for [north, east, _] in wanted {
            let _ = writeln!(text, "{east:e} {north:e}");
        }
        text.push_str("\n\n");
        for ([north, east, _], pilot) in flown {
            let _ = writeln!(text, "{east:e} {north:e} {}", u8::from(*pilot == Pilot::Fallback));
        }
        text.push_str("\n\n");
    }
    text
}

/// What an axis shows: the way with some room, and what was flown; of a place that is no number nothing.
fn range(panels: &[Panel], axis: usize) -> (f64, f64) {
    let wanted = panels.iter().flat_map(|panel| &panel.wanted).map(|place| (place[axis], ROOM));
    let flown = panels.iter().flat_map(|panel| &panel.flown).map(|(place, _)| (place[axis], ROOM_FLOWN));
    let (least, most) = wanted
        .chain(flown)
        .filter(|(at, _)| at.is_finite())
        .fold((f64::INFINITY, f64::NEG_INFINITY), |(least, most), (at, room)| (least.min(at - room), most.max(at + room)));
    // an axis has some length
    if least < most {
        (least, most)
    } else {
        (-ROOM, ROOM)
    }
}

/// From mark to mark: 1, 2 or 5 of a power of ten, a metre at least.
fn step(longest: f64) -> f64 {
    let steps = (0..).map(|k| [1.0, 2.0, 5.0][k % 3] * 10f64.powi(k as i32 / 3));
    steps.take(60).find(|step| longest <= MARKS * step).unwrap_or(longest)
}

#[cfg(test)]
mod tests {
    use super::*;

    fn panel(wanted: &[V3], flown: &[V3]) -> Panel {
        Panel { caption: String::new(), wanted: wanted.to_vec(), flown: flown.iter().map(|place| (*place, Pilot::Planner)).collect() }
    }

    /// All of what was flown is within the axes, of all panels; a place that is none moves them nowhere, and where nothing is there is an axis all the same.
    #[test]
    fn what_the_axes_show() {
        let panels =
            [panel(&[[0.0, 1.0, -4.0], [2.0, 1.0, -4.0]], &[[0.0, 1.0, -4.0], [2.5, 1.0, -4.0]]), panel(&[], &[[f64::NAN, -7.0, 0.0]])];
        assert_eq!((range(&panels, 0), range(&panels, 1)), ((-0.35, 2.6), (-7.1, 1.35)));
        assert_eq!(range(&[], 0), (-0.35, 0.35));
    }

    /// Marks at round numbers, some and not too many.
    #[test]
    fn marks() {
        assert_eq!([0.7, 6.0, 6.1, 12.1, 31.0, 185.0].map(step), [1.0, 1.0, 2.0, 5.0, 10.0, 50.0]);
        for metres in 6..5_000 {
            let marks = f64::from(metres) / step(f64::from(metres));
            assert!((2.0..=6.0).contains(&marks), "{metres} m: {marks}");
        }
    }

    /// For each panel the way and then what was flown, east before north.
    #[test]
    fn what_gnuplot_reads() {
        let mut one = panel(&[[1.0, 2.0, -4.0]], &[[1.5, 2.5, -4.0]]);
        one.flown[0].1 = Pilot::Fallback;
        let text = points(&[one, panel(&[[3.0, 4.0, -4.0]], &[[5.0, 6.0, -4.0]])]);
        let blocks: Vec<&str> = text.trim_end().split("\n\n\n").collect();
        assert_eq!(blocks, ["2e0 1e0", "2.5e0 1.5e0 1", "4e0 3e0", "6e0 5e0 0"]);
    }
}
