use crate::items::flown;
use crate::words::{Put, Take};
use crate::{calls, FloatFault, Refusal, Segment, LEG_BYTES, MOST_LEGS, ROUTE_TRAILER_BYTES, SAMPLE_BYTES};
use core::fmt;

/// A leg of a route: what a [`Segment`] is to a set-up.
pub type Leg = Segment;

const LONGEST: usize = MOST_LEGS * LEG_BYTES + ROUTE_TRAILER_BYTES;

/// 1 to 32 legs, flown one after another. It is checked when it is made, so that no tick is refused for its route.
///
/// Legs meet: each `p0`, `v0`, `a0` is the `pf`, `vf`, `af` before it as a number. A leg ends at the sum of the durations up to it, as
/// set-up mends a duration; the leg flown is the first whose end is above the image's time, and past all ends the last, at its end.
///
/// ```
/// use fosavalo::{Image, Leg, Refusal, Route, SetUp, TickInput};
///
/// let rest = SetUp::falcon_quad().segment; // at the origin for 1 s
/// let out = Leg { pf: [3.0, 0.0, 0.0], vf: [0.5, 0.0, 0.0], t: 4.0, ..rest };
/// let home = Leg { p0: out.pf, v0: out.vf, pf: [0.0; 3], t: 6.0, ..rest };
/// let route = Route::new(&[rest, out, home])?;
///
/// let mut image = Image::set_up(&SetUp::falcon_quad())?;
/// let answer = image.route_tick(&TickInput { dt: 2.0, ..TickInput::default() }, &route)?;
/// assert_eq!(answer.time, 2.0); // a second into the second leg
///
/// let apart = Route::new(&[rest, out, rest]);
/// assert_eq!(apart, Err(Refusal::LegsApart(Some(2)))); // the leg, counted from 0
/// assert_eq!(Route::new(&[]), Err(Refusal::LegCount));
/// assert_eq!(Route::new(&[rest; 33]), Err(Refusal::LegCount));
/// # Ok::<(), Refusal>(())
/// ```
#[derive(Clone, PartialEq, Eq, Hash)]
pub struct Route {
    /// Zeros after the route's own.
    bytes: [u8; LONGEST],
    len: usize,
}

impl Route {
    /// A route of these legs; refused where there is none of them or more than 32, and where two do not meet.
    pub fn new(legs: &[Leg]) -> Result<Self, Refusal> {
        if legs.len() > MOST_LEGS {
            return Err(Refusal::LegCount);
        }
        let back = legs.len() * LEG_BYTES;
        let mut route = Route { bytes: [0; LONGEST], len: back + ROUTE_TRAILER_BYTES };
        let mut to = Put::to(&mut route.bytes);
        legs.iter().for_each(|leg| leg.put(&mut to));
        // both are small
        [legs.len(), back].into_iter().for_each(|word| to.word(word as u32));
        route.check()?;
        Ok(route)
    }

    /// From bytes; refused where these are no route.
    ///
    /// ```
    /// use fosavalo::{Refusal, Route, SetUp};
    ///
    /// let route = Route::new(&[SetUp::falcon_quad().segment; 3])?;
    /// let bytes = route.as_bytes();
    /// assert_eq!(bytes.len(), 3 * 76 + 8);
    /// assert_eq!(Route::from_bytes(bytes), Ok(route.clone()));
    /// assert_eq!(Route::from_bytes(&bytes[1..]), Err(Refusal::RouteLength));
    /// # Ok::<(), Refusal>(())
    /// ```
    pub fn from_bytes(bytes: &[u8]) -> Result<Self, Refusal> {
        check(bytes)?;
        let mut route = Route { bytes: [0; LONGEST], len: bytes.len() };
        route.bytes.iter_mut().zip(bytes).for_each(|(own, byte)| *own = *byte);
        Ok(route)
    }

    /// From a pattern's bytes: its legs in the order in which they are flown. Refused where these bytes are no [`Pattern`](crate::Pattern), where it has no
    /// leg or more than 32, and where two do not meet; which, is told in flown order.
    ///
    /// ```
    /// use fosavalo::{Refusal, Route};
    ///
    /// let twice = [&[1, 2, 77, 0], &[0; 77][..]].concat();
    /// assert_eq!(Route::expand(&twice)?.len(), 2);
    /// assert_eq!(Route::expand(&twice[..80]), Err(Refusal::BrokenPattern));
    /// # Ok::<(), Refusal>(())
    /// ```
    pub fn expand(pattern: &[u8]) -> Result<Self, Refusal> {
        FloatFault::check()?;
        let (mut bytes, mut written) = ([0; LONGEST], [0; 4]);
        match Refusal::from_number(calls::pattern_expand(pattern, &mut bytes, &mut written)) {
            Ok(()) => Ok(Route { bytes, len: u32::from_le_bytes(written) as usize }),
            // of 1 to 32 legs: the core has judged that before
            Err(Refusal::LegsApart(None)) => {
                let (mut legs, mut to) = (0, bytes.chunks_exact_mut(LEG_BYTES));
                flown(pattern, &mut |leg| {
                    to.next().into_iter().for_each(|own| own.copy_from_slice(leg));
                    legs += 1;
                });
                let back = legs * LEG_BYTES;
                // both are small
                let trailer = [legs, back].map(|word| (word as u32).to_le_bytes());
                bytes.iter_mut().skip(back).zip(trailer.as_flattened()).for_each(|(own, byte)| *own = *byte);
                Err(check(bytes.get(..back + ROUTE_TRAILER_BYTES).unwrap_or_default()).err().unwrap_or(Refusal::LegsApart(None)))
            }
            Err(refusal) => Err(refusal),
        }
    }

    /// The bytes: 19 words a leg, then the count and how many bytes back the first leg starts.
    pub fn as_bytes(&self) -> &[u8] {
        self.bytes.get(..self.len).unwrap_or_default()
    }

    /// How many legs.
    pub fn len(&self) -> usize {
        self.len / LEG_BYTES
    }

    /// Whether there is none: never.
    pub fn is_empty(&self) -> bool {
        self.len() == 0
    }

    /// The legs, in the order in which they are flown.
    pub fn legs(&self) -> impl ExactSizeIterator<Item = Leg> + '_ {
        self.as_bytes().chunks_exact(LEG_BYTES).map(|leg| Leg::take(&mut Take(leg)))
    }

    fn check(&self) -> Result<(), Refusal> {
        check(self.as_bytes())
    }
}

/// What the core says of these bytes, asked for a sample that is then let go: so no second judge has to agree with it. Where legs are apart, it is asked
/// of each two in turn.
fn check(route: &[u8]) -> Result<(), Refusal> {
    FloatFault::check()?;
    let said = ask(route);
    if said != Err(Refusal::LegsApart(None)) {
        return said;
    }
    let two = |at: usize| {
        let mut bytes = [0; 2 * LEG_BYTES + ROUTE_TRAILER_BYTES];
        let legs = route.iter().skip(at * LEG_BYTES).take(2 * LEG_BYTES);
        let trailer = [2, 2 * LEG_BYTES as u32].map(u32::to_le_bytes);
        bytes.iter_mut().zip(legs.chain(trailer.iter().flatten())).for_each(|(own, byte)| *own = *byte);
        bytes
    };
    Err(Refusal::LegsApart((1..MOST_LEGS).find(|leg| ask(&two(leg - 1)).is_err())))
}

fn ask(route: &[u8]) -> Result<(), Refusal> {
    Refusal::from_number(calls::route_sample(route, 0.0, &mut [0; SAMPLE_BYTES]))
}

impl fmt::Debug for Route {
    fn fmt(&self, f: &mut fmt::Formatter<'_>) -> fmt::Result {
        f.write_str("Route ")?;
        f.debug_list().entries(self.legs()).finish()
    }
}
