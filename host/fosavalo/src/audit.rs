use crate::{calls, FloatFault, LogView, Profile, Refusal, LOG_RIGHT};
use core::fmt;

/// What [`LogView::check`] says of a log.
#[derive(Clone, Copy, Debug, PartialEq, Eq, Hash)]
pub enum Verdict {
    /// Every record is right.
    Right,
    /// The first record that is wrong, counted from 0; nothing is said of those after it.
    WrongAt(usize),
}

impl Verdict {
    /// From the word that the C call writes: [`LOG_RIGHT`], or the place.
    ///
    /// ```
    /// use fosavalo::Verdict;
    ///
    /// assert_eq!(Verdict::from_word(0xffff_ffff), Verdict::Right);
    /// assert_eq!(Verdict::from_word(0), Verdict::WrongAt(0));
    /// ```
    pub const fn from_word(word: u32) -> Self {
        match word {
            LOG_RIGHT => Verdict::Right,
            place => Verdict::WrongAt(place as usize),
        }
    }

    /// Whether every record is right.
    pub const fn is_right(self) -> bool {
        matches!(self, Verdict::Right)
    }
}

impl fmt::Display for Verdict {
    fn fmt(&self, f: &mut fmt::Formatter<'_>) -> fmt::Result {
        match self {
            Verdict::Right => f.write_str("right"),
            Verdict::WrongAt(place) => write!(f, "wrong at place {place}, counted from 0"),
        }
    }
}

impl LogView<'_> {
    /// Whether a log, of whatever box, is one that the shield's rule allows, or the first record that is not. With the thresholds and the profile of
    /// its flight, which a log does not tell; the thresholds are mended as at set-up. A record is right if
    ///
    /// - its flag is the one that a fresh shield gives which is stepped by the log's own margins up to it, whatever the flags before it say;
    /// - where the flag is 0, the command is the planner's, bit for bit, with what is not finite made +0.0, and the third too with [`Profile::LostRotor`];
    /// - where it is 1, the command is finite. Any other flag is wrong.
    ///
    /// Nothing else of a record is judged: the margins are taken as they stand. An empty log is right, and so is that of every accepted tick of one
    /// run from set-up, plain or on routes, with exchanges between; one that begins in mid-flight need not be, since the shield starts engaged. Refused
    /// only for the [floating-point environment](FloatFault).
    ///
    /// ```
    /// use fosavalo::{BodyRate, Image, Log, Pilot, Profile, SetUp, TickInput, Verdict};
    ///
    /// let set_up = SetUp::falcon_quad();
    /// let mut image = Image::set_up(&set_up)?;
    /// let mut log = Log::new();
    /// for roll in [0.5, f32::NAN, -0.0] {
    ///     let input = TickInput { planner: BodyRate([roll, 0.0, 0.0]), ..TickInput::default() };
    ///     log.append(&input, &image.tick(&input)?)?;
    /// }
    /// assert_eq!(log.check(Profile::Whole, set_up.enter, set_up.exit)?, Verdict::Right);
    ///
    /// // a box that says that its fallback flew, at a margin that gives the planner control
    /// let (input, mut answer) = (TickInput::default(), image.tick(&TickInput::default())?);
    /// answer.pilot = Pilot::Fallback;
    /// log.append(&input, &answer)?;
    /// assert_eq!(log.check(Profile::Whole, set_up.enter, set_up.exit)?, Verdict::WrongAt(3));
    /// # Ok::<(), fosavalo::Refusal>(())
    /// ```
    pub fn check(&self, profile: Profile, enter: f32, exit: f32) -> Result<Verdict, Refusal> {
        FloatFault::check()?;
        let mut verdict = [0; 4];
        Refusal::from_number(calls::log_check(self.as_bytes(), profile.word(), enter, exit, &mut verdict))?;
        Ok(Verdict::from_word(u32::from_le_bytes(verdict)))
    }
}
