use crate::{calls, FloatFault, Pilot, Refusal};
use alloc::{vec, vec::Vec};

/// Who flies at each of these margins, as those find it who explain a flight: for each the list is looked back through for a release with no later
/// engagement. It keeps no latch, and is proved to say what the shield that steps says. The thresholds are mended as at set-up. Refuses with
/// [`Refusal::NoRoom`] more than [`MOST_MARGINS`](crate::MOST_MARGINS).
///
/// ```
/// use fosavalo::{slow_flags, Pilot::Fallback, Pilot::Planner};
///
/// let flown = slow_flags(&[1.0, 1.5, 0.75, 0.25, 0.75], 0.5, 1.0)?;
/// assert_eq!(flown, [Fallback, Planner, Planner, Fallback, Fallback]);
/// # Ok::<(), fosavalo::Refusal>(())
/// ```
pub fn slow_flags(margins: &[f32], enter: f32, exit: f32) -> Result<Vec<Pilot>, Refusal> {
    FloatFault::check()?;
    let words: Vec<u8> = margins.iter().flat_map(|margin| margin.to_le_bytes()).collect();
    let mut flags = vec![1; margins.len()];
    Refusal::from_number(calls::flags(&words, enter, exit, &mut flags))?;
    Ok(flags.into_iter().map(|flag| if flag == 0 { Pilot::Planner } else { Pilot::Fallback }).collect())
}
