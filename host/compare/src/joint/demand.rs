//! The third demand, by looking back over the margins of a run. Nothing is remembered from tick to tick.

/// Whether the planner's command has to be passed on at the last of these ticks: some tick had a finite margin above exit, and
/// none after it one that was non-finite or below enter. So it is among the last ticks of which none is such.
pub fn planner_flies(margins: &[f32], enter: f32, exit: f32) -> bool {
    margins.iter().rev().take_while(|m| m.is_finite() && !(**m < enter)).any(|m| *m > exit)
}

/// What is passed on: the planner's words as they are, non-finite ones made +0.0, and with a rotor lost (profile 1) the third too.
pub fn passed_on(profile: u32, agile: [u32; 3]) -> [u32; 3] {
    let [x, y, z] = agile.map(|word| if word & 0x7f80_0000 == 0x7f80_0000 { 0 } else { word });
    [x, y, if profile == 1 { 0 } else { z }]
}

#[cfg(test)]
mod tests {
    use super::*;

    #[test]
    fn every_past_of_the_band() {
        let flies = |margins: &[f32]| planner_flies(margins, 0.5, 1.0);
        // nothing yet, at exit, above it
        assert!(!flies(&[]) && !flies(&[0.75]) && !flies(&[1.0]) && flies(&[1.5]));
        // into the band from above and from below, at enter, through it
        assert!(flies(&[1.5, 0.75]) && flies(&[1.5, 0.5]) && !flies(&[1.5, 0.25]) && !flies(&[1.5, 0.25, 0.75]));
        assert!(flies(&[0.25, 1.5, 0.75, 0.75]) && !flies(&[1.5, 0.25, 1.0]) && flies(&[1.5, 0.25, 1.5]));
        // what isn't finite
        for odd in [f32::NAN, f32::INFINITY, f32::NEG_INFINITY] {
            assert!(!flies(&[odd]) && !flies(&[1.5, odd]) && !flies(&[1.5, odd, 0.75]) && flies(&[odd, 1.5]));
        }
    }

    /// The lines of `shieldtable`.
    #[test]
    fn the_table_of_document_01() {
        let margins = [1.0, 1.5, 0.75, 0.5, 0.25, 0.75, 1.5, f32::NAN, f32::INFINITY];
        let flags: Vec<u32> = (1..=margins.len()).map(|n| u32::from(!planner_flies(&margins[..n], 0.5, 1.0))).collect();
        assert_eq!(flags, [1, 0, 0, 0, 1, 1, 0, 1, 1]);
    }

    #[test]
    fn only_what_is_not_finite_is_made_zero() {
        assert_eq!(passed_on(0, [0x8000_0000, 0x7f7f_ffff, 0x7f80_0000]), [0x8000_0000, 0x7f7f_ffff, 0]);
        assert_eq!(passed_on(0, [0xff80_0000, 0xffff_ffff, 1]), [0, 0, 1]);
    }

    #[test]
    fn with_a_rotor_lost_the_third_is_zero() {
        assert_eq!(passed_on(1, [0x8000_0000, 0x7f80_0000, 0x8000_0000]), [0x8000_0000, 0, 0]);
        assert_eq!(passed_on(1, [1, 2, 0x3f80_0000]), [1, 2, 0]);
    }
}
