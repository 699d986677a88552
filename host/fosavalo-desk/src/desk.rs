use crate::{calls, Refusal, DESK_BYTES, DESK_SETUP_BYTES, STICKS_BYTES};
use core::fmt;
use fosavalo::{Answer, FloatFault, Image, Route, TickInput, VersionFault, ANSWER_BYTES, TICK_BYTES};

/// What a stick's filter is set up with. Every bit pattern is taken.
#[derive(Clone, Copy, Debug, PartialEq)]
pub struct Stick {
    /// How fast the value follows the stick, rad/s; what is not finite and above 0 becomes 1.
    pub omega_n: f32,
    /// The most that the value is in size. NaN or below zero pins it to 0; +infinity lets it pass.
    pub max_mag: f32,
    /// The most that the value's rate is in size, alike.
    pub max_rate: f32,
}

/// A desk's set-up, stick by stick.
#[derive(Clone, Copy, Debug, PartialEq)]
pub struct DeskSetUp {
    /// The heading, rad.
    pub heading: Stick,
    /// Its rate, rad/s.
    pub turn: Stick,
    /// The rate of the zoom.
    pub zoom: Stick,
}

impl DeskSetUp {
    /// The nine words.
    pub fn to_bytes(&self) -> [u8; DESK_SETUP_BYTES] {
        let words = [self.heading, self.turn, self.zoom].map(|stick| [stick.omega_n, stick.max_mag, stick.max_rate]);
        let mut bytes = [0; DESK_SETUP_BYTES];
        put(&mut bytes, words.as_flattened());
        bytes
    }
}

/// Where the sticks stand. Every bit pattern is taken; what is no number counts as 0.
#[derive(Clone, Copy, Debug, Default, PartialEq)]
pub struct Sticks {
    /// What the heading goes to, rad.
    pub heading: f32,
    /// What its rate goes to, rad/s. Heading and turn are independent sticks: a heading that moves while turn is 0 is turning that nobody commanded, which the margin
    /// counts as error. Let turn stand at the rate at which the heading is to move.
    pub turn: f32,
    /// What the rate of the zoom goes to.
    pub zoom: f32,
}

impl Sticks {
    /// The three words.
    pub fn to_bytes(&self) -> [u8; STICKS_BYTES] {
        let mut bytes = [0; STICKS_BYTES];
        put(&mut bytes, &[self.heading, self.turn, self.zoom]);
        bytes
    }
}

/// The desk's state: 60 bytes that may be copied, stored and sent. There is no broken one.
///
/// ```
/// use fosavalo_desk::{Desk, Refusal};
///
/// let desk = Desk::from_bytes(&[0xff; 60])?; // NaNs throughout are a desk like any other
/// assert!(desk.heading().is_nan());
/// assert_eq!(Desk::from_bytes(&[0; 59]), Err(Refusal::DeskLength));
/// # Ok::<(), Refusal>(())
/// ```
#[derive(Clone, PartialEq, Eq, Hash)]
pub struct Desk {
    bytes: [u8; DESK_BYTES],
}

impl Desk {
    /// A fresh desk, at rest at 0.
    pub fn set_up(set_up: &DeskSetUp) -> Result<Self, Refusal> {
        VersionFault::check("fosavalo_desk", calls::version())?;
        FloatFault::check()?;
        let mut bytes = [0; DESK_BYTES];
        Refusal::from_number(calls::setup(&mut bytes, &set_up.to_bytes()))?;
        Ok(Desk { bytes })
    }

    /// A desk from bytes; refused where these are not 60.
    pub fn from_bytes(bytes: &[u8]) -> Result<Self, Refusal> {
        Ok(Desk { bytes: bytes.try_into().map_err(|_| Refusal::DeskLength)? })
    }

    /// The bytes.
    pub fn as_bytes(&self) -> &[u8; DESK_BYTES] {
        &self.bytes
    }

    /// The centre button: values and rates become 0, nothing is stepped and nothing is flown. The heading that the next tick flies is within a step of 0.
    pub fn centre(&mut self) -> Result<(), Refusal> {
        Refusal::from_number(calls::centre(&mut self.bytes))
    }

    /// One tick: each filter steps toward its stick by the input's dt, the heading and its rate are written into the input, and the core ticks on it.
    /// Where it is refused desk, image and input stay as they are.
    ///
    /// ```
    /// use fosavalo::{Image, TickInput};
    /// use fosavalo_desk::{Desk, Refusal, Sticks};
    ///
    /// let (mut desk, mut image) = (Desk::from_bytes(&[0; 60])?, Image::from_bytes(&[0; 396])?);
    /// let mut input = TickInput { yaw: 0.25, ..TickInput::default() };
    /// let refused = desk.tick(&Sticks::default(), &mut image, &mut input);
    /// assert_eq!(refused, Err(Refusal::Core(fosavalo::Refusal::BrokenImage)));
    /// assert_eq!(input.yaw, 0.25);
    /// # Ok::<(), Refusal>(())
    /// ```
    pub fn tick(&mut self, sticks: &Sticks, image: &mut Image, input: &mut TickInput) -> Result<Answer, Refusal> {
        self.fly(image, input, |desk, image, input, answer| calls::tick(desk, &sticks.to_bytes(), image, input, answer))
    }

    /// One tick toward a route in place of the image's segment, which stays in the image. Where it is refused desk, image and input stay as they are.
    ///
    /// ```
    /// use fosavalo::{Image, Leg, Route, SetUp, TickInput};
    /// use fosavalo_desk::{Desk, Sticks};
    ///
    /// let (mut desk, mut image) = (Desk::from_bytes(&[0; 60])?, Image::set_up(&SetUp::falcon_quad())?);
    /// let route = Route::new(&[Leg { pf: [3.0, 0.0, 0.0], t: 4.0, ..SetUp::falcon_quad().segment }])?;
    /// let mut input = TickInput { yaw: 0.25, ..TickInput::default() };
    /// desk.route_tick(&Sticks::default(), &mut image, &mut input, &route)?;
    /// assert_eq!(input.yaw, 0.0); // the desk's heading, which stands at 0
    /// # Ok::<(), fosavalo_desk::Refusal>(())
    /// ```
    pub fn route_tick(&mut self, sticks: &Sticks, image: &mut Image, input: &mut TickInput, route: &Route) -> Result<Answer, Refusal> {
        self.fly(image, input, |desk, image, input, answer| {
            calls::route_tick(desk, &sticks.to_bytes(), image, input, route.as_bytes(), answer)
        })
    }

    fn fly(
        &mut self,
        image: &mut Image,
        input: &mut TickInput,
        call: impl Fn(&mut [u8; DESK_BYTES], &mut [u8], &mut [u8; TICK_BYTES], &mut [u8; ANSWER_BYTES]) -> u32,
    ) -> Result<Answer, Refusal> {
        FloatFault::check()?;
        let (mut held, mut flown, mut answer) = (*image.as_bytes(), input.to_bytes(), [0; ANSWER_BYTES]);
        Refusal::from_number(call(&mut self.bytes, &mut held, &mut flown, &mut answer))?;
        *image = Image::from_bytes(&held)?;
        // only these two words of the input are written
        (input.yaw, input.yaw_rate) = (float(&flown, 8), float(&flown, 9));
        Ok(Answer::from_bytes(&answer)?)
    }

    /// The heading, rad: what the last tick flew, and 0 after set-up and the button.
    pub fn heading(&self) -> f32 {
        float(&self.bytes, 3)
    }

    /// The heading's rate, rad/s, as the second stick asks for it.
    pub fn turn(&self) -> f32 {
        float(&self.bytes, 8)
    }

    /// The rate of the zoom, which the core does not see.
    pub fn zoom_rate(&self) -> f32 {
        float(&self.bytes, 13)
    }
}

impl fmt::Debug for Desk {
    fn fmt(&self, f: &mut fmt::Formatter<'_>) -> fmt::Result {
        let (heading, turn, zoom_rate) = (self.heading(), self.turn(), self.zoom_rate());
        f.debug_struct("Desk").field("heading", &heading).field("turn", &turn).field("zoom_rate", &zoom_rate).finish_non_exhaustive()
    }
}

impl TryFrom<&[u8]> for Desk {
    type Error = Refusal;

    fn try_from(bytes: &[u8]) -> Result<Self, Refusal> {
        Desk::from_bytes(bytes)
    }
}

/// Words one after another.
fn put(bytes: &mut [u8], floats: &[f32]) {
    for (four, x) in bytes.chunks_exact_mut(4).zip(floats) {
        four.copy_from_slice(&x.to_bits().to_le_bytes());
    }
}

/// The float at a word's place; past the end 0.
fn float(bytes: &[u8], at: usize) -> f32 {
    let four = bytes.chunks_exact(4).nth(at).and_then(|four| four.try_into().ok());
    f32::from_bits(four.map_or(0, u32::from_le_bytes))
}
