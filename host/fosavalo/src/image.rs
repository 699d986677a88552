use crate::words::{Put, Take};
use crate::{calls, Answer, FloatFault, Leg, Pilot, Profile, Refusal, Route, SetUp, TickInput, VersionFault};
use crate::{ANSWER_BYTES, IMAGE_BYTES, LEG_BYTES, TICK_BYTES};
use core::fmt;

/// The state that goes from tick to tick: 396 bytes that may be copied, stored and sent.
///
/// ```
/// use fosavalo::{Image, Pilot, SetUp, TickInput};
///
/// let mut image = Image::set_up(&SetUp::falcon_quad())?; // enter 0.5, exit 1
/// // tilted, by the sine of half the angle: psi is twice its square, and the margin 1.75 less psi
/// let mut fly = |x: f32| {
///     let attitude = [(1.0 - x * x).sqrt(), x, 0.0, 0.0];
///     image.tick(&TickInput { attitude, ..TickInput::default() }).map(|a| (a.margin, a.pilot))
/// };
///
/// // a fresh shield is engaged, and the band does not release it
/// assert_eq!(fly(0.625)?, (0.96875, Pilot::Fallback));
/// assert_eq!(fly(0.5)?, (1.25, Pilot::Planner)); // above exit
/// assert_eq!(fly(0.625)?, (0.96875, Pilot::Planner)); // in the band nothing changes hands
/// assert_eq!(fly(0.8125)?, (0.4296875, Pilot::Fallback)); // below enter
/// # Ok::<(), fosavalo::Refusal>(())
/// ```
#[derive(Clone, PartialEq, Eq, Hash)]
pub struct Image {
    bytes: [u8; IMAGE_BYTES],
}

impl Image {
    /// A fresh image. Of what a [`SetUp`] can say the core refuses a filter that is none, and nothing else; what it mended, [`SetUp::mended`] tells.
    pub fn set_up(set_up: &SetUp) -> Result<Self, Refusal> {
        VersionFault::check("fosavalo", calls::version())?;
        FloatFault::check()?;
        let mut bytes = [0; IMAGE_BYTES];
        Refusal::from_number(calls::setup(&mut bytes, &set_up.to_bytes()))?;
        Ok(Image { bytes })
    }

    /// An image from bytes; refused where these are not 396, as an image from before the peaks were kept, which had 384. Whether it is
    /// broken is found by [`Image::check`] and by the next call.
    ///
    /// ```
    /// use fosavalo::{Image, Refusal, TickInput};
    ///
    /// let mut blank = Image::from_bytes(&[0; 396])?;
    /// assert_eq!(blank.check(), Err(Refusal::BrokenImage));
    /// assert_eq!(blank.tick(&TickInput::default()), Err(Refusal::BrokenImage));
    /// assert_eq!(Image::from_bytes(&[0; 384]), Err(Refusal::ImageLength));
    /// # Ok::<(), Refusal>(())
    /// ```
    pub fn from_bytes(bytes: &[u8]) -> Result<Self, Refusal> {
        Ok(Image { bytes: bytes.try_into().map_err(|_| Refusal::ImageLength)? })
    }

    /// The bytes.
    pub fn as_bytes(&self) -> &[u8; IMAGE_BYTES] {
        &self.bytes
    }

    /// The bytes, and the image is gone.
    pub fn into_bytes(self) -> [u8; IMAGE_BYTES] {
        self.bytes
    }

    /// One tick. Where it is refused the image stays as it is.
    pub fn tick(&mut self, input: &TickInput) -> Result<Answer, Refusal> {
        FloatFault::check()?;
        let mut answer = [0; ANSWER_BYTES];
        Refusal::from_number(calls::tick(&mut self.bytes, &input.to_bytes(), &mut answer))?;
        Answer::from_bytes(&answer)
    }

    /// One tick toward a route in place of the segment, which stays in the image. The clock runs on over both kinds of tick: a route that is
    /// begun late is entered where the clock is. Where it is refused the image stays as it is.
    pub fn route_tick(&mut self, input: &TickInput, route: &Route) -> Result<Answer, Refusal> {
        FloatFault::check()?;
        let mut answer = [0; ANSWER_BYTES];
        Refusal::from_number(calls::route_tick(&mut self.bytes, &input.to_bytes(), route.as_bytes(), &mut answer))?;
        Answer::from_bytes(&answer)
    }

    /// Another segment in flight, mended as at set-up and flown from its start: the time is 0 again. Who flies, the rate control and the
    /// filters go on as they were. Where it is refused the image stays as it is.
    ///
    /// ```
    /// use fosavalo::{Image, Leg, Pilot, SetUp, TickInput};
    ///
    /// let mut image = Image::set_up(&SetUp::falcon_quad())?;
    /// image.tick(&TickInput { dt: 0.5, ..TickInput::default() })?;
    /// assert_eq!((image.time(), image.pilot()), (0.5, Pilot::Planner));
    ///
    /// image.exchange(&Leg { pf: [1.0, 0.0, 0.0], t: 2.0, ..SetUp::falcon_quad().segment })?;
    /// assert_eq!((image.time(), image.pilot()), (0.0, Pilot::Planner)); // who flies is carried across
    /// assert_eq!(image.peak_abs_jerk(), [97.5, 0.0, 0.0]);
    /// # Ok::<(), fosavalo::Refusal>(())
    /// ```
    pub fn exchange(&mut self, leg: &Leg) -> Result<(), Refusal> {
        FloatFault::check()?;
        let mut bytes = [0; LEG_BYTES];
        leg.put(&mut Put::to(&mut bytes));
        Refusal::from_number(calls::exchange(&mut self.bytes, &bytes))
    }

    /// relay's bound on the size of the segment's jerk, axis by axis; +infinity where that is not finite. It is read off the image: no tick
    /// is needed, and nothing is worked out.
    pub fn peak_abs_jerk(&self) -> [f32; 3] {
        [96, 97, 98].map(|at| f32::from_bits(self.word(at)))
    }

    /// Whether a tick would take this image, and why not: what [`Image::tick`] would be refused for.
    pub fn check(&self) -> Result<(), Refusal> {
        FloatFault::check()?;
        Refusal::from_number(calls::tick_refusal(&self.bytes, TICK_BYTES, ANSWER_BYTES))
    }

    /// The lower threshold, as set-up left it.
    pub fn enter(&self) -> f32 {
        f32::from_bits(self.word(13))
    }

    /// The upper threshold, as set-up left it.
    pub fn exit(&self) -> f32 {
        f32::from_bits(self.word(14))
    }

    /// Who flew at the last tick; the fallback before the first.
    pub fn pilot(&self) -> Pilot {
        if self.word(15) == 0 {
            Pilot::Planner
        } else {
            Pilot::Fallback
        }
    }

    /// The time along the trajectory, s.
    pub fn time(&self) -> f32 {
        f32::from_bits(self.word(16))
    }

    /// What it was set up as; no call changes it. None where the word is no profile's: then the image is broken.
    ///
    /// ```
    /// use fosavalo::{Image, Profile, SetUp};
    ///
    /// let image = Image::set_up(&SetUp { profile: Profile::LostRotor, ..SetUp::falcon_quad() })?;
    /// assert_eq!(image.profile(), Some(Profile::LostRotor));
    /// assert_eq!(Image::from_bytes(&[2; 396])?.profile(), None);
    /// # Ok::<(), fosavalo::Refusal>(())
    /// ```
    pub fn profile(&self) -> Option<Profile> {
        Profile::from_word(self.word(95)).ok()
    }

    fn word(&self, at: usize) -> u32 {
        Take(self.bytes.get(4 * at..).unwrap_or_default()).word()
    }
}

impl fmt::Debug for Image {
    fn fmt(&self, f: &mut fmt::Formatter<'_>) -> fmt::Result {
        f.debug_struct("Image")
            .field("enter", &self.enter())
            .field("exit", &self.exit())
            .field("pilot", &self.pilot())
            .field("time", &self.time())
            .field("profile", &self.profile())
            .field("peak_abs_jerk", &self.peak_abs_jerk())
            .finish_non_exhaustive()
    }
}
