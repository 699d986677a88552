use crate::{Segment, SetUp};
use core::fmt;

/// A number of a set-up that the core does not keep as it was given. [`SetUp::mended`] tells them.
#[derive(Clone, Copy, Debug, PartialEq)]
#[non_exhaustive]
pub struct Mended {
    /// The field, by its name in [`SetUp`] and what that holds.
    pub field: &'static str,
    /// Which of three, counted from 0, where the field has three.
    pub axis: Option<usize>,
    /// What was given.
    pub given: f32,
    /// What is kept in its place.
    pub kept: f32,
    /// Why: what the number would have to be.
    pub why: &'static str,
}

impl fmt::Display for Mended {
    fn fmt(&self, f: &mut fmt::Formatter<'_>) -> fmt::Result {
        f.write_str(self.field)?;
        if let Some(axis) = self.axis {
            write!(f, "[{axis}]")?;
        }
        write!(f, ": given {}, kept {}: {}", self.given, self.kept, self.why)
    }
}

impl SetUp {
    /// The set-up as the core keeps it: the image is the same, and nothing of it is mended.
    ///
    /// Of the thresholds and the segment, that is; the other numbers are kept as they are, and a tick makes do with those that
    /// are no use ([`AdrcGains::b0`](crate::AdrcGains::b0), [`Governor::g_min`](crate::Governor::g_min)).
    pub fn kept(&self) -> SetUp {
        let finite_above = |x: f32, least: f32, other: f32| if x.is_finite() && x > least { x } else { other };
        let finite = |v: [f32; 3]| v.map(|x| if x.is_finite() { x } else { 0.0 });
        let Segment { p0, v0, a0, pf, vf, af, t } = self.segment;
        let (start, mut end) = (finite(p0), pf);
        end.iter_mut().zip(start).filter(|(pf, _)| !pf.is_finite()).for_each(|(pf, p0)| *pf = p0);
        let enter = finite_above(self.enter, 0.0, 0.1);
        SetUp {
            enter,
            exit: finite_above(self.exit, enter, 2.0 * enter),
            segment: Segment {
                p0: start,
                v0: finite(v0),
                a0: finite(a0),
                pf: end,
                vf: finite(vf),
                af: finite(af),
                t: finite_above(t, 1e-3, 1e-3),
            },
            ..*self
        }
    }

    /// What the core mends of this set-up: what was given, what is kept, and why. A filter that passes everything is not
    /// mended but refused; one that is taken and still no use is told by [`GyroFilter::doubt`](crate::GyroFilter::doubt). A coefficient of the segment that overflows, which becomes 0, is no number of a set-up and not told.
    ///
    /// ```
    /// use fosavalo::{Image, SetUp};
    ///
    /// // an exit that lies under its enter
    /// let set_up = SetUp { enter: 0.5, exit: 0.25, ..SetUp::falcon_quad() };
    /// let mended: Vec<String> = set_up.mended().map(|mended| mended.to_string()).collect();
    /// assert_eq!(mended, ["exit: given 0.25, kept 1: it has to be finite and above enter"]);
    /// assert_eq!(Image::set_up(&set_up)?.exit(), 1.0);
    ///
    /// assert_eq!(set_up.kept().mended().count(), 0);
    /// # Ok::<(), fosavalo::Refusal>(())
    /// ```
    pub fn mended(&self) -> impl Iterator<Item = Mended> {
        let (from, to) = (*self, self.kept());
        let (given, kept) = (from.segment, to.segment);
        let one = |field, given, kept, why| Mended { field, axis: None, given, kept, why };
        let three = |field, given: [f32; 3], kept: [f32; 3], why| {
            let each = given.into_iter().zip(kept).enumerate();
            each.map(move |(axis, (given, kept))| Mended { field, axis: Some(axis), given, kept, why })
        };
        let thresholds = [
            one("enter", from.enter, to.enter, "it has to be finite and above 0"),
            one("exit", from.exit, to.exit, "it has to be finite and above enter"),
        ];
        let segment = [
            ("p0", given.p0, kept.p0),
            ("v0", given.v0, kept.v0),
            ("a0", given.a0, kept.a0),
            ("pf", given.pf, kept.pf),
            ("vf", given.vf, kept.vf),
            ("af", given.af, kept.af),
        ];
        let segment = segment.into_iter().flat_map(move |(field, given, kept)| three(field, given, kept, "it has to be finite"));
        let duration = [one("t", given.t, kept.t, "it has to be finite and above 0.001")];
        thresholds.into_iter().chain(segment).chain(duration).filter(|mended| mended.given != mended.kept)
    }
}
