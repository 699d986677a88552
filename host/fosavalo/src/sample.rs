use crate::words::{Put, Take};
use crate::{calls, FloatFault, Refusal, Route, Segment, LEG_BYTES, ROUTE_TRAILER_BYTES, SAMPLE_BYTES};

/// Where a route is at a time: north, east, down, in metres and seconds. Its distance from the aircraft is the
/// [`tracking_error`](crate::TickInput::tracking_error) that a tick is given.
///
/// ```
/// use fosavalo::{Image, SetUp, TickInput};
///
/// let segment = fosavalo::Segment { pf: [3.0, 0.0, 0.0], t: 4.0, ..SetUp::falcon_quad().segment };
/// let mut image = Image::set_up(&SetUp { segment, ..SetUp::falcon_quad() })?;
///
/// // where the aircraft is, by its own estimate
/// let aircraft = [0.25f32, 0.0, 0.0];
/// let wanted = segment.sample(image.time())?;
/// let squares = wanted.position.iter().zip(aircraft).map(|(wanted, is)| (wanted - is).powi(2));
/// let apart = squares.sum::<f32>().sqrt();
/// image.tick(&TickInput { tracking_error: apart, ..TickInput::default() })?;
/// # Ok::<(), fosavalo::Refusal>(())
/// ```
#[derive(Clone, Copy, Debug, PartialEq)]
pub struct Sample {
    /// The leg flown, counted from 0.
    pub leg: u32,
    /// m
    pub position: [f32; 3],
    /// m/s
    pub velocity: [f32; 3],
    /// m/s²: with the jerk what a tick at that time is guided by.
    pub acceleration: [f32; 3],
    /// m/s³
    pub jerk: [f32; 3],
}

impl Sample {
    /// The thirteen words.
    pub fn to_bytes(&self) -> [u8; SAMPLE_BYTES] {
        let mut bytes = [0; SAMPLE_BYTES];
        let mut to = Put::to(&mut bytes);
        to.word(self.leg);
        [self.position, self.velocity, self.acceleration, self.jerk].into_iter().for_each(|v| to.floats(v));
        bytes
    }

    /// From thirteen words; refused where these are not 52 bytes.
    pub fn from_bytes(bytes: &[u8]) -> Result<Self, Refusal> {
        if bytes.len() != SAMPLE_BYTES {
            return Err(Refusal::AnswerLength);
        }
        let mut from = Take(bytes);
        Ok(Sample { leg: from.word(), position: from.floats(), velocity: from.floats(), acceleration: from.floats(), jerk: from.floats() })
    }

    fn of(route: &[u8], time: f32) -> Result<Self, Refusal> {
        FloatFault::check()?;
        let mut bytes = [0; SAMPLE_BYTES];
        Refusal::from_number(calls::route_sample(route, time, &mut bytes))?;
        Sample::from_bytes(&bytes)
    }
}

impl Route {
    /// Where the route is at a time on the governor's clock ([`Image::time`](crate::Image::time)). Every time has an answer: below 0 the first leg's start, past
    /// the end, and where it is no number, the last leg's end.
    ///
    /// ```
    /// use fosavalo::{Leg, Route, SetUp};
    ///
    /// let rest = SetUp::falcon_quad().segment; // at the origin for 1 s
    /// let out = Leg { pf: [3.0, 0.0, 0.0], t: 4.0, ..rest };
    /// let route = Route::new(&[rest, out])?;
    /// let at = |time| route.sample(time).map(|sample| (sample.leg, sample.position));
    /// assert_eq!(at(0.5)?, (0, [0.0; 3]));
    /// assert_eq!(at(3.0)?, (1, [1.5, 0.0, 0.0])); // half of the way
    /// assert_eq!(route.sample(f32::NAN)?, route.sample(5.0)?);
    /// # Ok::<(), fosavalo::Refusal>(())
    /// ```
    pub fn sample(&self, time: f32) -> Result<Sample, Refusal> {
        Sample::of(self.as_bytes(), time)
    }
}

impl Segment {
    /// Where the segment is at a time on the governor's clock ([`Image::time`](crate::Image::time)): that of a route of this one leg.
    pub fn sample(&self, time: f32) -> Result<Sample, Refusal> {
        let mut route = [0; LEG_BYTES + ROUTE_TRAILER_BYTES];
        let mut to = Put::to(&mut route);
        self.put(&mut to);
        [1, LEG_BYTES as u32].into_iter().for_each(|word| to.word(word));
        Sample::of(&route, time)
    }
}
