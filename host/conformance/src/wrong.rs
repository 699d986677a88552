//! Every wrong version of the host's comparison, as a program of the protocol.

use crate::program::Calls;
use compare::joint::sample;
use compare::joint::wrong::{WRONG, WRONG_CUT_OFF, WRONG_ERROR, WRONG_EXCHANGE, WRONG_ON_ROUTES, WRONG_PROFILE};
use compare::{audit, desk, log, pattern, slow};

/// Which calls a version has wrong, as CAUGHT.md names them.
#[derive(Clone, Copy, PartialEq, Eq, Debug)]
pub enum Of {
    Joint,
    Check,
    Log,
    Flags,
    Patterns,
    Sample,
    Desk,
}

impl Of {
    pub const ALL: [Of; 7] = [Of::Joint, Of::Check, Of::Log, Of::Flags, Of::Patterns, Of::Sample, Of::Desk];

    pub fn name(self) -> &'static str {
        match self {
            Of::Joint => "the joint calls",
            Of::Check => "the check of a log",
            Of::Log => "the log",
            Of::Flags => "flags",
            Of::Patterns => "patterns",
            Of::Sample => "the sample",
            Of::Desk => "the desk",
        }
    }

    /// Whether the calls of this kind answer such a line.
    pub fn has(self, question: &str) -> bool {
        let call = question.split(' ').next().unwrap_or_default();
        match self {
            Of::Joint => ["setup", "tick", "route", "exchange", "refusal"].contains(&call),
            Of::Check => call == "check",
            Of::Log => ["append", "count", "record"].contains(&call),
            Of::Flags => call == "flags",
            Of::Patterns => call == "expand",
            Of::Sample => call == "sample",
            Of::Desk => ["desksetup", "centre", "desk", "deskroute"].contains(&call),
        }
    }
}

pub struct Wrong {
    pub of: Of,
    pub name: String,
    pub calls: Calls,
}

/// Faults of patterns, of the sample and of the desk in words.
const WORDS: [(&str, &str); 70] = [
    ("FiveDeep", "repeats five deep taken"),
    ("CountFirst", "5 before 12"),
    ("JoinsBeforeRoom", "7 before 9"),
    ("OnceLess", "each repeat flown once less"),
    ("WithinARound", "joins looked at within a round alone"),
    ("ThreeDeep", "repeats four deep refused"),
    ("FiveDeepEmpty", "an empty repeat five deep taken"),
    ("CountZero", "a count of 0 taken"),
    ("CountTen", "a count of 10 taken"),
    ("CountAscii", "a count's digit taken"),
    ("OtherTag", "a tag of 2 skipped"),
    ("BigEndian", "the length's bytes the other way round"),
    ("LeftOver", "what is left over in a repeat not looked at"),
    ("InnerShort", "a length beyond the end cut"),
    ("LengthOfAll", "the length taken for that of all the repeat"),
    ("OneLegMore", "33 legs taken"),
    ("OneLegFewer", "32 legs refused"),
    ("CountWraps", "the number of legs cut to 8 bits"),
    ("CountWrapsLate", "the number of legs cut to 16 bits"),
    ("NoneTaken", "a pattern of no leg taken"),
    ("RoomFirst", "9 before 5"),
    ("RoomForLegs", "room for the legs alone thought enough"),
    ("OneByteMore", "a byte more of room wanted"),
    ("LengthLate", "2 after 12"),
    ("AcrossRounds", "joins from one round to the next not looked at"),
    ("IntoARound", "joins into a repeat not looked at"),
    ("EmptyBetween", "joins across an empty repeat not looked at"),
    ("JoinPositions", "places alone compared at joins"),
    ("JoinBits", "joins compared in bits"),
    ("LastToFirst", "the last leg to meet the first"),
    ("InnerOnce", "a repeat inside of another flown once"),
    ("ItemCount", "items counted in the trailer"),
    ("BackFromEnd", "bytes back from the end of the route"),
    ("LengthOfLegs", "the trailer left out of the length"),
    ("RestCleared", "the rest of the buffer cleared"),
    ("LengthRefused", "the length written though it is refused"),
    ("RateOfHeading", "the heading's rate for the turn"),
    ("WrittenFirst", "written before the refusal is known"),
    ("SteppedFirst", "the desk stepped before the refusal is known"),
    ("CentreSteps", "a button that steps"),
    ("DtCleanedForAll", "one cleaned dt for the desk and the core"),
    ("DtOfGovernor", "dt cleaned as the governor does"),
    ("ZoomWritten", "the zoom for the turn"),
    ("FlownAsLent", "the core ticks on the input as it was lent"),
    ("Unmended", "set-up as given, not mended"),
    ("CentreForgets", "a button that forgets the limits"),
    ("SticksBeforeDesk", "16 before 15"),
    ("CoreBeforeSticks", "the core's numbers before 16"),
    ("SegmentFlown", "the image's segment flown"),
    ("RouteNotJudged", "legs that do not meet flown"),
    ("RouteBeforeImage", "the route before the image"),
    ("SteppedThoughRoute", "the desk stepped though the route is refused"),
    ("WrittenThoughRoute", "the input written though the route is refused"),
    ("LegFromOne", "legs counted from 1"),
    ("EndOfTheLegBefore", "at a leg's start the end of the one before"),
    ("TimeOfTheRoute", "the time on the leg not reduced"),
    ("PastAtTheStart", "past all ends the last leg at 0"),
    ("NoNumberAtTheStart", "a time that is no number taken for 0"),
    ("BelowZeroRefused", "a time below 0 refused"),
    ("VelocityAfterAcceleration", "the acceleration before the velocity"),
    ("AxisByAxis", "written axis by axis"),
    ("LegAsANumber", "the leg's place as a float"),
    ("Cleaned", "what is not finite made zero"),
    ("JerkLeftOut", "a jerk of zeros"),
    ("RouteFirst", "the route before 3"),
    ("EightLegs", "the limit left at 8 legs"),
    ("JoinsNotLookedAt", "joins not looked at"),
    ("WrittenThoughRefused", "zeros written though it is refused"),
    ("ShorterTaken", "48 bytes taken"),
    ("None", "no fault"),
];

/// Or as its name spells it.
fn spelt(name: &str) -> String {
    if let Some((_, words)) = WORDS.iter().find(|(own, _)| *own == name) {
        return words.to_string();
    }
    let mut words = String::new();
    for c in name.chars() {
        if c.is_ascii_uppercase() && !words.is_empty() {
            words.push(' ');
        }
        words.push(c.to_ascii_lowercase());
    }
    words
}

pub fn all() -> Vec<Wrong> {
    let right = Calls::right;
    let mut all = Vec::new();
    let mut add = |of: Of, name: String, calls: Calls| all.push(Wrong { of, name, calls });
    for list in [WRONG, WRONG_ERROR, WRONG_PROFILE, WRONG_CUT_OFF, WRONG_EXCHANGE, WRONG_ON_ROUTES] {
        list.iter().for_each(|version| add(Of::Joint, version.name.to_string(), Calls { joint: *version, ..right() }));
    }
    for (fault, name) in audit::judge::WRONG {
        let check = |log: &[u8], given, verdict: &mut [u8]| audit::judge::check(*fault, log, given, verdict);
        add(Of::Check, name.to_string(), Calls { check: Box::new(check), ..right() });
    }
    log::parts::WRONG.iter().for_each(|face| add(Of::Log, face.name.to_string(), Calls { log: *face, ..right() }));
    for engine in slow::WRONG {
        let flags = move |margins: &[u8], enter, exit, flags: &mut [u8]| engine.flags(margins, enter, exit, flags);
        add(Of::Flags, engine.name.to_string(), Calls { flags: Box::new(flags), ..right() });
    }
    for fault in pattern::WRONG {
        let expand = |pattern: &[u8], route: &mut [u8], length: &mut [u8]| pattern::expand(*fault, pattern, route, length);
        add(Of::Patterns, spelt(&format!("{fault:?}")), Calls { expand: Box::new(expand), ..right() });
    }
    for fault in sample::WRONG {
        let sample = |route: &[u8], time, sample: &mut [u8]| sample::expected(*fault, route, time, sample);
        add(Of::Sample, spelt(&format!("{fault:?}")), Calls { sample: Box::new(sample), ..right() });
    }
    for fault in desk::WRONG {
        add(Of::Desk, spelt(&format!("{fault:?}")), Calls { desk: Box::new(|call, lent| desk::expected(*fault, call, lent)), ..right() });
    }
    all
}
