//! A program of the protocol, of the host's models: what the vectors expect, and with one call in another's place what a wrong version would answer.

use crate::conform::{bytes_of, Answer};
use compare::audit::{self, Given};
use compare::joint::bytes::{float, word, ANSWER, IMAGE, LEG, MOST_LEGS, TRAILER};
use compare::joint::lent::Lending;
use compare::joint::{self, sample, wrong::Version};
use compare::{desk, log, pattern, slow};

/// The room of a log that is begun by `log` alone, in records.
const ROOM: usize = 400;

type Check = dyn Fn(&[u8], Given, &mut [u8]) -> u32;
type Flags = dyn Fn(&[u8], f32, f32, &mut [u8]) -> u32;
type Expand = dyn Fn(&[u8], &mut [u8], &mut [u8]) -> u32;
type Sample = dyn Fn(&[u8], f32, &mut [u8]) -> u32;
type Desk = dyn Fn(desk::Call, &mut desk::Lent) -> u32;

/// Who answers each call.
pub struct Calls {
    pub joint: Version,
    pub log: log::Face,
    pub check: Box<Check>,
    pub flags: Box<Flags>,
    pub expand: Box<Expand>,
    pub sample: Box<Sample>,
    pub desk: Box<Desk>,
}

impl Calls {
    /// The Rust's own objects, and the models of what relay has not.
    pub fn right() -> Self {
        Calls {
            joint: joint::model::Right::VERSION,
            log: log::Face { name: "model", append: log::model::append, count: log::model::count, record: log::model::record },
            check: Box::new(audit::model::check),
            flags: Box::new(stepped),
            expand: Box::new(|pattern, route, length| pattern::expand(pattern::Fault::None, pattern, route, length)),
            sample: Box::new(|route, time, sample| sample::expected(sample::Fault::None, route, time, sample)),
            desk: Box::new(|call, lent| desk::expected(desk::Fault::None, call, lent)),
        }
    }
}

/// Relay's shield, stepped; request Nine's lengths.
fn stepped(margins: &[u8], enter: f32, exit: f32, flags: &mut [u8]) -> u32 {
    if margins.len() != 4 * flags.len() || flags.len() > slow::MOST {
        return 9;
    }
    let margins: Vec<f32> = (0..flags.len()).map(|at| float(margins, at)).collect();
    flags.copy_from_slice(&slow::stepped(&margins, enter, exit));
    0
}

/// Its state is what goes from line to line.
pub struct Program<'a> {
    calls: &'a Calls,
    pub image: Vec<u8>,
    pub desk: Vec<u8>,
    buffer: Vec<u8>,
    log_len: u64,
}

fn said(number: u32, told: &[u8]) -> Answer {
    Answer::Said(number, if number == 0 { vec![told.to_vec()] } else { Vec::new() })
}

fn number(number: u32) -> Answer {
    Answer::Said(number, Vec::new())
}

impl<'a> Program<'a> {
    pub fn new(calls: &'a Calls) -> Self {
        Program { calls, image: vec![0; IMAGE], desk: vec![0; desk::DESK], buffer: log::model::written(&[]), log_len: 12 }
    }

    /// One line. A call that is told a buffer for what it writes tells all of that buffer, refused or not.
    pub fn answer(&mut self, question: &str) -> Answer {
        let words: Vec<&str> = question.split(' ').collect();
        let Some((call, words)) = words.split_first() else { return Answer::Unsupported };
        let plain = |at: usize| words.get(at).and_then(|word| word.parse::<u64>().ok());
        let bytes: Vec<Vec<u8>> = words.iter().map(|word| bytes_of(word).unwrap_or_default()).collect();
        let bits = |at: usize| float(&bytes[at], 0);
        match (*call, words.len()) {
            ("setup", 1) => number(self.joint(joint::Call::SetUp, &bytes[0], &[], &mut [])),
            ("exchange", 1) => number(self.joint(joint::Call::Exchange, &bytes[0], &[], &mut [])),
            ("tick", 1 | 2) => {
                let room = bytes.get(1).cloned();
                self.told(room, ANSWER, |own, room| own.joint(joint::Call::Tick, &bytes[0], &[], room))
            }
            ("route", 2 | 3) => {
                let room = bytes.get(2).cloned();
                self.told(room, ANSWER, |own, room| own.joint(joint::Call::RouteTick, &bytes[0], &bytes[1], room))
            }
            ("sample", 2 | 3) => self.told(bytes.get(2).cloned(), sample::SAMPLE, |own, room| (own.calls.sample)(&bytes[0], bits(1), room)),
            ("image", 0) => said(0, &self.image),
            ("image", 1) => {
                self.image.clone_from(&bytes[0]);
                number(0)
            }
            ("refusal", 2) => match (plain(0), plain(1)) {
                (Some(input @ 0..=4096), Some(answer @ 0..=4096)) => {
                    let kept = self.image.clone();
                    let refusal = self.joint(joint::Call::Tick, &vec![0; input as usize], &[], &mut vec![0; answer as usize]);
                    self.image = kept;
                    number(refusal)
                }
                _ => Answer::Unsupported,
            },
            ("log", 0) => {
                self.begin(log::model::written(&[]), log::RECORD * ROOM);
                number(0)
            }
            ("log", 2) => {
                self.begin(bytes[0].clone(), 0);
                self.buffer.extend_from_slice(&bytes[1]);
                number(0)
            }
            ("append", 2 | 3) => {
                let log_len = plain(2).unwrap_or(self.log_len);
                let refusal = (self.calls.log.append)(&mut self.buffer, log_len, &bytes[0], &bytes[1]);
                if refusal == 0 {
                    self.log_len = (log_len.saturating_add(108)).min(self.buffer.len() as u64);
                }
                number(refusal)
            }
            ("bytes", 2) => match (plain(0), plain(1)) {
                (Some(from), Some(count)) => {
                    let there = self.buffer.iter().skip(from as usize).take(count as usize).copied().collect::<Vec<u8>>();
                    said(0, &there)
                }
                _ => Answer::Unsupported,
            },
            ("count", 0 | 1) => self.told(bytes.first().cloned(), 4, |own, room| (own.calls.log.count)(own.log(), room)),
            ("record", 1 | 2) => match plain(0) {
                Some(place) => self.told(bytes.get(1).cloned(), log::RECORD, |own, room| (own.calls.log.record)(own.log(), place, room)),
                None => Answer::Unsupported,
            },
            ("check", 3 | 4) => {
                let given = Given { profile: word(&bytes[0], 0), enter: bits(1), exit: bits(2) };
                self.told(bytes.get(3).cloned(), 4, |own, room| (own.calls.check)(own.log(), given, room))
            }
            ("flags", 3 | 4) => {
                self.told(bytes.get(3).cloned(), bytes[0].len() / 4, |own, room| (own.calls.flags)(&bytes[0], bits(1), bits(2), room))
            }
            ("expand", 1) => {
                let (mut route, mut length) = (vec![0; LEG * MOST_LEGS + TRAILER], [0; 4]);
                let refusal = (self.calls.expand)(&bytes[0], &mut route, &mut length);
                said(refusal, &route[..(word(&length, 0) as usize).min(route.len())])
            }
            ("expand", 3) => {
                let (mut route, mut length) = (bytes[1].clone(), bytes[2].clone());
                let refusal = (self.calls.expand)(&bytes[0], &mut route, &mut length);
                Answer::Said(refusal, vec![route, length])
            }
            ("desksetup", 1) => {
                let mut lent = self.lend(&bytes[0], &[], Vec::new());
                let refusal = (self.calls.desk)(desk::Call::SetUp, &mut lent);
                self.desk = lent.desk;
                number(refusal)
            }
            ("centre", 0) => {
                let mut lent = self.lend(&[], &[], Vec::new());
                let refusal = (self.calls.desk)(desk::Call::Centre, &mut lent);
                self.desk = lent.desk;
                number(refusal)
            }
            ("desk", 2 | 3) => self.desk_tick(desk::Call::Tick, [&bytes[0], &bytes[1], &[]], bytes.get(2).cloned()),
            ("deskroute", 3 | 4) => self.desk_tick(desk::Call::RouteTick, [&bytes[0], &bytes[1], &bytes[2]], bytes.get(3).cloned()),
            ("deskimage", 0) => said(0, &self.desk),
            ("deskimage", 1) => {
                self.desk.clone_from(&bytes[0]);
                number(0)
            }
            _ => Answer::Unsupported,
        }
    }

    /// Into a buffer of its own of this length, told where the number is 0; or into the one that was lent, told in any case.
    fn told(&mut self, lent: Option<Vec<u8>>, own: usize, call: impl FnOnce(&mut Self, &mut [u8]) -> u32) -> Answer {
        match lent {
            Some(mut room) => {
                let refusal = call(self, &mut room);
                Answer::Said(refusal, vec![room])
            }
            None => {
                let mut room = vec![0; own];
                let refusal = call(self, &mut room);
                said(refusal, &room)
            }
        }
    }

    fn joint(&mut self, call: joint::Call, input: &[u8], route: &[u8], answer: &mut [u8]) -> u32 {
        (self.calls.joint.call)(call, &mut Lending { image: &mut self.image, input, route, answer })
    }

    /// With a buffer that is lent, the input as it is then too.
    fn desk_tick(&mut self, call: desk::Call, [sticks, input, route]: [&[u8]; 3], room: Option<Vec<u8>>) -> Answer {
        let mut lent = self.lend(sticks, input, room.clone().unwrap_or_else(|| vec![0; ANSWER]));
        lent.route = route.to_vec();
        let refusal = (self.calls.desk)(call, &mut lent);
        (self.desk, self.image) = (lent.desk, lent.image);
        match room {
            Some(_) => Answer::Said(refusal, vec![lent.answer, lent.input]),
            None => said(refusal, &lent.answer),
        }
    }

    fn begin(&mut self, log: Vec<u8>, room: usize) {
        self.log_len = log.len() as u64;
        self.buffer = log;
        self.buffer.resize(self.buffer.len() + room, 0);
    }

    fn log(&self) -> &[u8] {
        &self.buffer[..(self.log_len as usize).min(self.buffer.len())]
    }

    fn lend(&self, sticks: &[u8], input: &[u8], answer: Vec<u8>) -> desk::Lent {
        let (desk, image, route) = (self.desk.clone(), self.image.clone(), Vec::new());
        desk::Lent { desk, sticks: sticks.to_vec(), image, input: input.to_vec(), route, answer }
    }
}
