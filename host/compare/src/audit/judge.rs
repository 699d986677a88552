//! A check that goes through the log once, record by record, with a latch: right with no fault, and wrong in one place with any other. The comparison has
//! to catch every fault; one that cannot fail shows nothing.

use super::{three, Given, AGILE, COMMAND, FLAG, MARGIN, RIGHT};
use crate::joint::bytes::{float, put, word};
use crate::log::{MOST, RECORD, TRAILER};

macro_rules! faults {
    ($($fault:ident = $name:literal;)*) => {
        #[derive(Clone, Copy, PartialEq, Eq, Debug)]
        pub enum Fault {
            None,
            /// The latch is the flag of the record before. No fault: up to the first wrong record the flags are those that the margins demand.
            LastFlag,
            $($fault,)*
        }

        pub const WRONG: &[(Fault, &str)] = &[$((Fault::$fault, $name)),*];
    };
}

faults! {
    OwnFlag = "the latch fed by the flags, so that in the band either is taken";
    AsNumbers = "commands compared as numbers";
    LastUnread = "the last record not looked at";
    ProfileFirst = "10 before 8";
    ThirdKept = "the third word kept in profile 1";
    TwoIsOne = "a flag of 2 taken for 1";
    AnyIsOne = "any flag but 0 taken for 1";
    LowByte = "the flag's lowest byte alone looked at";
    FlagsAlone = "no command looked at";
    FirstAlone = "the first word of a command alone looked at";
    ThirdUnread = "the third word of a command not looked at";
    FallbackAny = "any command taken where the flag is 1";
    FallbackInfinite = "an infinite command taken where the flag is 1";
    FallbackThird = "the fallback's third word to be zero in profile 1";
    NotFiniteKept = "a word that is not finite carried as it is";
    NanCanonical = "a NaN carried as 7fc00000";
    ZeroPlain = "-0.0 carried as 0.0";
    MendsNot = "thresholds as they are given";
    ExitAlone = "an exit that is no use mended to 0.2";
    StartsReleased = "a shield that starts released";
    NotCarried = "the latch not carried: each record by a fresh shield";
    ReleasedInBand = "released in the band, as the earlier translation did";
    ReleasedAtExit = "released at exit";
    EngagedAtEnter = "engaged at enter";
    InfinityReleases = "released by +infinity";
    NanHolds = "a NaN engages nothing";
    Late = "a margin answered at the next record";
    LastWrong = "the last wrong record";
    FromOne = "places counted from 1";
    PlaceCut = "the place cut to 8 bits";
    OtherWay = "the verdict's bytes the other way round";
    EmptyWrong = "an empty log wrong at 0";
    TorqueJudged = "a torque that is not finite wrong";
    InputJudged = "an input that is not finite wrong";
    LengthLate = "2 after 8";
    ProfileAny = "a profile above 1 taken for 1";
    ProfileCut = "the profile's lowest byte alone looked at";
    WritesRefused = "the verdict written though it is refused";
    MostMore = "65,536 records taken";
    MostLess = "65,535 records refused";
}

/// How many records; None where these bytes are no log.
fn count(fault: Fault, log: &[u8]) -> Option<usize> {
    let trailer = &log[log.len().checked_sub(TRAILER)?..];
    let (count, back) = (word(trailer, 0) as usize, word(trailer, 1) as usize);
    let most = match fault {
        Fault::MostMore => MOST + 1,
        Fault::MostLess => MOST - 1,
        _ => MOST,
    };
    let right = word(trailer, 2) as usize == RECORD && count <= most && back == RECORD * count && log.len() == back + TRAILER;
    right.then_some(count)
}

fn finite(bits: u32) -> bool {
    f32::from_bits(bits).is_finite()
}

/// "enter is kept if finite and above 0, else 0.1; exit if finite and above enter, else twice enter"
fn mended(fault: Fault, enter: f32, exit: f32) -> (f32, f32) {
    if fault == Fault::MendsNot {
        return (enter, exit);
    }
    let enter = if enter.is_finite() && enter > 0.0 { enter } else { 0.1 };
    let twice = if fault == Fault::ExitAlone { 0.2 } else { 2.0 * enter };
    (enter, if exit.is_finite() && exit > enter { exit } else { twice })
}

/// Whether the shield is engaged after this margin.
fn step(fault: Fault, engaged: bool, (enter, exit): (f32, f32), margin: f32) -> bool {
    let released = match fault {
        Fault::ReleasedAtExit => margin.is_finite() && margin >= exit,
        Fault::ReleasedInBand => margin.is_finite() && margin > enter,
        Fault::InfinityReleases => margin > exit,
        _ => margin.is_finite() && margin > exit,
    };
    let engages = match fault {
        Fault::EngagedAtEnter => !margin.is_finite() || margin <= enter,
        Fault::NanHolds => margin.is_infinite() || margin < enter,
        _ => !margin.is_finite() || margin < enter,
    };
    if engaged {
        !released
    } else {
        engages
    }
}

/// Whether the command is one that goes with the flag.
fn carries(fault: Fault, record: &[u8], flag: u32, profile: u32) -> bool {
    let (agile, command) = (three(record, AGILE), three(record, COMMAND));
    let looked_at = match fault {
        Fault::FlagsAlone => 0,
        Fault::FirstAlone => 1,
        Fault::ThirdUnread => 2,
        _ => 3,
    };
    (0..looked_at).all(|k| {
        let (own, third) = (command[k], k == 2 && profile == 1);
        if flag != 0 {
            return match fault {
                Fault::FallbackAny => true,
                Fault::FallbackInfinite => !f32::from_bits(own).is_nan(),
                Fault::FallbackThird if third => own == 0,
                _ => finite(own),
            };
        }
        let wanted = match agile[k] {
            _ if third && fault != Fault::ThirdKept => 0,
            bits if !finite(bits) && fault == Fault::NotFiniteKept => bits,
            bits if f32::from_bits(bits).is_nan() && fault == Fault::NanCanonical => 0x7fc0_0000,
            bits if !finite(bits) => 0,
            0x8000_0000 if fault == Fault::ZeroPlain => 0,
            bits => bits,
        };
        own == wanted || (fault == Fault::AsNumbers && f32::from_bits(own) == f32::from_bits(wanted))
    })
}

pub fn check(fault: Fault, log: &[u8], Given { profile, enter, exit }: Given, verdict: &mut [u8]) -> u32 {
    let profile = if fault == Fault::ProfileCut { profile & 0xff } else { profile };
    let (count, no_profile) = (count(fault, log), profile > 1 && fault != Fault::ProfileAny);
    if fault == Fault::LengthLate && count.is_none() {
        return 8;
    }
    if verdict.len() != 4 {
        return 2;
    }
    if fault == Fault::WritesRefused {
        put(verdict, 0, 0);
    }
    if fault == Fault::ProfileFirst && no_profile {
        return 10;
    }
    let Some(count) = count else {
        return 8;
    };
    if no_profile {
        return 10;
    }
    let (profile, thresholds) = (profile.min(1), mended(fault, enter, exit));
    let (mut engaged, mut wrong) = (fault != Fault::StartsReleased, None);
    let looked_at = if fault == Fault::LastUnread { count.saturating_sub(1) } else { count };
    for (place, record) in log.chunks_exact(RECORD).take(looked_at).enumerate() {
        let flag = match (fault, word(record, FLAG)) {
            (Fault::TwoIsOne, 2) | (Fault::AnyIsOne, 1..) => 1,
            (Fault::LowByte, flag) => flag & 0xff,
            (_, flag) => flag,
        };
        match fault {
            Fault::OwnFlag => engaged = flag != 0,
            Fault::NotCarried => engaged = true,
            _ => {}
        }
        let before = engaged;
        engaged = step(fault, engaged, thresholds, float(record, MARGIN));
        let demanded = if fault == Fault::Late { before } else { engaged };
        let judged = match fault {
            Fault::TorqueJudged => three(record, 17).iter().all(|bits| finite(*bits)),
            Fault::InputJudged => (0..AGILE).all(|at| finite(word(record, at))),
            _ => true,
        };
        if flag != u32::from(demanded) || !carries(fault, record, flag, profile) || !judged {
            wrong = Some(place as u32);
            if fault != Fault::LastWrong {
                break;
            }
        }
        if fault == Fault::LastFlag {
            engaged = flag != 0;
        }
    }
    let word = match (wrong, fault) {
        (None, Fault::EmptyWrong) if count == 0 => 0,
        (None, _) => RIGHT,
        (Some(place), Fault::FromOne) => place + 1,
        (Some(place), Fault::PlaceCut) => place & 0xff,
        (Some(place), Fault::OtherWay) => place.swap_bytes(),
        (Some(place), _) => place,
    };
    put(verdict, 0, word);
    0
}
