use crate::items::{Item, Items, LEG, REPEAT};
use crate::words::{Put, Take};
use crate::{calls, Leg, Refusal, Route, LEG_BYTES};
use alloc::vec::Vec;
use core::fmt;

/// Legs and repeats of them, before they are a [`Route`]: a list of items, perhaps empty, each a leg or a repeat, flown 1 to 9 times, that holds a
/// pattern of its own. Repeats may stand inside repeats four deep. What a `Pattern` holds has that form; whether its legs are a route is
/// told when it is expanded.
///
/// ```
/// use fosavalo::{Leg, Pattern, Refusal, SetUp};
///
/// let rest = SetUp::falcon_quad().segment; // at the origin for 1 s
/// let out = Leg { pf: [3.0, 0.0, 0.0], t: 4.0, ..rest };
/// let back = Leg { p0: out.pf, t: 6.0, ..rest };
///
/// let mut loops = Pattern::new();
/// loops.leg(&out).leg(&back);
/// let mut pattern = Pattern::new();
/// pattern.leg(&rest).repeat(3, &loops)?;
///
/// let route = pattern.expand()?;
/// assert!(route.legs().eq([rest, out, back, out, back, out, back]));
///
/// // the legs have to meet from round to round as well: the second that is flown, counted from 0
/// let mut apart = Pattern::new();
/// apart.leg(&out);
/// assert_eq!(Pattern::new().repeat(2, &apart)?.expand(), Err(Refusal::LegsApart(Some(1))));
/// # Ok::<(), Refusal>(())
/// ```
#[derive(Clone, Default, PartialEq, Eq, Hash)]
pub struct Pattern {
    bytes: Vec<u8>,
}

impl Pattern {
    /// A pattern of no item.
    pub const fn new() -> Self {
        Pattern { bytes: Vec::new() }
    }

    /// From bytes; refused where these are no pattern.
    ///
    /// ```
    /// use fosavalo::{Pattern, Refusal};
    ///
    /// let nine_times_nothing = [1, 9, 0, 0];
    /// let pattern = Pattern::from_bytes(&nine_times_nothing)?;
    /// assert_eq!(pattern.as_bytes(), nine_times_nothing);
    /// assert_eq!(pattern.expand(), Err(Refusal::LegCount)); // a pattern, but no route
    ///
    /// assert_eq!(Pattern::from_bytes(&[1, 10, 0, 0]), Err(Refusal::BrokenPattern));
    /// # Ok::<(), Refusal>(())
    /// ```
    pub fn from_bytes(bytes: &[u8]) -> Result<Self, Refusal> {
        check(bytes)?;
        Ok(Pattern { bytes: bytes.to_vec() })
    }

    /// One leg more, at the end.
    pub fn leg(&mut self, leg: &Leg) -> &mut Self {
        let mut bytes = [0; LEG_BYTES];
        leg.put(&mut Put::to(&mut bytes));
        self.bytes.push(LEG);
        self.bytes.extend(bytes);
        self
    }

    /// One repeat more, at the end. Refused where the count is not 1 to 9, where what it holds is longer than 65,535 bytes, and where repeats would stand
    /// more than four deep; the pattern then stays as it is.
    ///
    /// ```
    /// use fosavalo::{Pattern, Refusal};
    ///
    /// let mut pattern = Pattern::new();
    /// for deep in 1..=4 {
    ///     let inner = std::mem::take(&mut pattern);
    ///     pattern.repeat(deep, &inner)?;
    /// }
    /// assert_eq!(pattern.as_bytes(), [1, 4, 12, 0, 1, 3, 8, 0, 1, 2, 4, 0, 1, 1, 0, 0]);
    /// assert_eq!(Pattern::new().repeat(1, &pattern), Err(Refusal::BrokenPattern));
    /// assert_eq!(pattern.repeat(10, &Pattern::new()), Err(Refusal::BrokenPattern));
    /// assert_eq!(pattern.as_bytes().len(), 16);
    /// # Ok::<(), Refusal>(())
    /// ```
    pub fn repeat(&mut self, count: u8, inner: &Pattern) -> Result<&mut Self, Refusal> {
        let len = u16::try_from(inner.bytes.len()).map_err(|_| Refusal::BrokenPattern)?;
        let [low, high] = len.to_le_bytes();
        let before = self.bytes.len();
        self.bytes.extend([REPEAT, count, low, high]);
        self.bytes.extend(&inner.bytes);
        let said = check(self.bytes.get(before..).unwrap_or_default());
        if said.is_err() {
            self.bytes.truncate(before);
        }
        said.map(|()| self)
    }

    /// The items, as they were put there.
    ///
    /// ```
    /// use fosavalo::{Pattern, PatternItem, SetUp};
    ///
    /// let rest = SetUp::falcon_quad().segment;
    /// let mut inner = Pattern::new();
    /// inner.leg(&rest);
    /// let mut pattern = Pattern::new();
    /// pattern.leg(&rest).repeat(3, &inner)?;
    /// assert!(pattern.items().eq([PatternItem::Leg(rest), PatternItem::Repeat { count: 3, inner }]));
    /// # Ok::<(), fosavalo::Refusal>(())
    /// ```
    pub fn items(&self) -> impl Iterator<Item = PatternItem> + '_ {
        Items(&self.bytes).map(|item| match item {
            Item::Leg(leg) => PatternItem::Leg(Leg::take(&mut Take(leg))),
            Item::Repeat(count, inner) => PatternItem::Repeat { count, inner: Pattern { bytes: inner.to_vec() } },
        })
    }

    /// The bytes: for a leg 0 and its 76 bytes; for a repeat 1, its count, the length of what it holds in two bytes, little-endian, and that.
    pub fn as_bytes(&self) -> &[u8] {
        &self.bytes
    }

    /// The bytes, and the pattern is gone; nothing is copied.
    pub fn into_bytes(self) -> Vec<u8> {
        self.bytes
    }

    /// Whether there is no item.
    pub fn is_empty(&self) -> bool {
        self.bytes.is_empty()
    }

    /// The legs in the order in which they are flown, as a route; refused where these are none or more than 32, and where two do not meet, which are
    /// told in that order.
    pub fn expand(&self) -> Result<Route, Refusal> {
        Route::expand(&self.bytes)
    }
}

/// What the core says of the form of these bytes, which comes before all else that it says; there is no room for a route, so no leg is compared.
fn check(bytes: &[u8]) -> Result<(), Refusal> {
    match Refusal::from_number(calls::pattern_expand(bytes, &mut [], &mut [0; 4])) {
        Err(Refusal::BrokenPattern) => Err(Refusal::BrokenPattern),
        _ => Ok(()),
    }
}

impl fmt::Debug for Pattern {
    fn fmt(&self, f: &mut fmt::Formatter<'_>) -> fmt::Result {
        f.write_str("Pattern ")?;
        f.debug_list().entries(self.items()).finish()
    }
}

/// What stands in a [`Pattern`]: [`Pattern::items`].
#[derive(Clone, Debug, PartialEq)]
pub enum PatternItem {
    /// Flown once.
    Leg(Leg),
    /// Flown several times.
    Repeat {
        /// 1 to 9.
        count: u8,
        /// What is repeated.
        inner: Pattern,
    },
}
