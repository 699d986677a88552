//! Another segment in flight.

use super::flights::flown;
use super::{Leg, Made, Section, SetUp, Tick, REQUESTS};
use crate::conform::Level;
use compare::answers::{filled, LEG_PARTS};
use compare::generate::{Kind, Rng};
use compare::joint::bytes::put;

pub const SECTIONS: &[Made] = &[
    Made { file: "20-exchange", name: "another segment in flight", words: &["a new call exchanges the segment in flight, from a leg's 19 words, and sets the clock to 0. Shield, ADRC and filters go on, so demand 3 runs on across it; the time never falls between exchanges."], place: REQUESTS, level: Level::Bits, lines: in_flight },
    Made { file: "21-kept-nans", name: "a NaN that is only kept", words: &["any that is written into an image or an answer is 7fc00000, also in a word that is only kept."], place: super::ARITHMETIC, level: Level::Bytes, lines: kept },
];

fn in_flight(s: &mut Section) {
    const KINDS: [Kind; 4] = [Kind::Flight, Kind::Flight, Kind::Damaged, Kind::Special];
    for profile in [0, 1] {
        let mut rng = Rng::new("kit exchanges", profile.into());
        s.set_up(&SetUp::new(profile).with(9, &[1.0, 0.8, 0.75, 0.2, 0.45]));
        for n in 0..40 {
            (0..1 + n % 4).for_each(|_| drop(s.tick(&flown(&mut rng))));
            s.exchange(&Leg(filled(KINDS[n % 4], &LEG_PARTS, &mut rng)));
            s.tick(&flown(&mut rng));
            if n % 4 == 1 {
                s.look();
            }
            // back to level and still, for one tick above exit
            if n % 8 == 7 {
                s.exchange(&Leg::rest(5.0));
                s.tick(&Tick::still());
                s.tick(&Tick::still());
            }
        }
    }
}

/// Words of an image that a tick and an exchange keep, with a NaN that is not the canonical one; each call in both profiles.
fn kept(s: &mut Section) {
    for profile in [0, 1] {
        s.set_up(&SetUp::new(profile));
        s.tick(&Tick::still());
        let image = s.image().to_vec();
        for at in (1..13).chain(17..20).chain(41..95) {
            for bits in [0x7f80_0001u32, 0xffff_ffff] {
                let mut damaged = image.clone();
                put(&mut damaged, at, bits);
                let looks: [fn(&mut Section); 2] = [|s| drop(s.tick(&Tick::still())), |s| drop(s.exchange(&Leg::rest(2.0)))];
                for call in &looks[usize::from(bits == 0xffff_ffff)..][..1] {
                    s.give(&damaged);
                    call(s);
                    drop(s.ask("image"));
                }
            }
        }
    }
}
