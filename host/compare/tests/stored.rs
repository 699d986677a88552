//! The stored answers beside wrong versions of their calls: each version has to be seen by a stored row, for the list is all that a target or another language's
//! binding is held to. Those that no row can show are named, with the reason.

use compare::answers::{self, Row, Section};
use compare::audit::{self, judge, Given};
use compare::desk;
use compare::joint::bytes::{float, word};
use compare::joint::lent::Lending;
use compare::joint::refusal::Refusals;
use compare::joint::wrong::{self, Version};
use compare::joint::{sample, Call};
use compare::log;
use compare::pattern;
use compare::slow;
use std::fmt::Debug;

/// A buffer as it is stored, and how many bytes of it are lent.
struct Lent {
    bytes: Vec<u8>,
    len: usize,
}

impl Lent {
    fn lent(&self) -> &[u8] {
        &self.bytes[..self.len]
    }

    fn lent_mut(&mut self) -> &mut [u8] {
        &mut self.bytes[..self.len]
    }
}

/// The next buffer.
fn taken(words: &mut &[u32]) -> Lent {
    let (stored, len) = (words[0] as usize, words[1] as usize);
    let bytes = words[2..2 + stored].iter().flat_map(|word| word.to_le_bytes()).collect();
    *words = &words[2 + stored..];
    Lent { bytes, len }
}

/// Whether the row has another answer than this.
fn differs(row: &Row, number: u32, changed: &[&Lent]) -> bool {
    let words =
        changed.iter().flat_map(|lent| lent.bytes.chunks_exact(4).map(|four| u32::from_le_bytes([four[0], four[1], four[2], four[3]])));
    !std::iter::once(number).chain(words).eq(row.answer.iter().copied())
}

/// Whether the row shows that a call on the four buffers is wrong.
fn shows(row: &Row, call: impl FnOnce(&mut [u8], &[u8], &mut [u8], &[u8], u64) -> u32) -> bool {
    let mut words = &row.given[..];
    let [mut a, b, mut c, d] = [(); 4].map(|()| taken(&mut words));
    let number = call(a.lent_mut(), b.lent(), c.lent_mut(), d.lent(), words[0].into());
    differs(row, number, &[&a, &c])
}

/// The same of the six of a desk's.
fn desk_shows(row: &Row, call: impl FnOnce(&mut desk::Lent) -> u32) -> bool {
    let mut words = &row.given[..];
    let mut six = [(); 6].map(|()| taken(&mut words));
    let [desk, sticks, image, input, route, answer] = six.each_ref().map(|lent| lent.lent().to_vec());
    let mut after = desk::Lent { desk, sticks, image, input, route, answer };
    let number = call(&mut after);
    [(0, after.desk), (2, after.image), (3, after.input), (5, after.answer)]
        .into_iter()
        .for_each(|(at, after)| six[at].lent_mut().copy_from_slice(&after));
    differs(row, number, &[&six[0], &six[2], &six[3], &six[5]])
}

fn rows(sections: &[Section], number: u32) -> &[Row] {
    &sections.iter().find(|section| section.number == number).expect("a section of that number").rows
}

/// Every version is seen but these, which no row can show.
fn all_seen<V>(versions: impl IntoIterator<Item = (String, V)>, unseen: &[&str], seen: impl Fn(&V) -> usize) {
    let counts: Vec<(String, usize)> = versions.into_iter().map(|(name, version)| (name, seen(&version))).collect();
    counts.iter().for_each(|(name, rows)| println!("{name}: {rows} rows"));
    let missed: Vec<&String> = counts.iter().filter(|(_, rows)| *rows == 0).map(|(name, _)| name).collect();
    assert_eq!(missed, unseen, "versions that no stored row shows");
}

/// Faults by their names.
fn faults<F: Copy + Debug>(all: &[F]) -> Vec<(String, F)> {
    all.iter().map(|fault| (format!("{fault:?}"), *fault)).collect()
}

/// The calls on an image, by their sections.
const JOINT: [(u32, Call); 4] = [(500, Call::SetUp), (501, Call::Tick), (502, Call::RouteTick), (506, Call::Exchange)];

#[test]
fn the_joint_calls() {
    let sections = answers::sections();
    let seen = |version: &Version| {
        let on = |call: Call, row: &Row| {
            shows(row, |image, input, answer, route, _| (version.call)(call, &mut Lending { image, input, route, answer }))
        };
        JOINT.iter().map(|(number, call)| rows(&sections, *number).iter().filter(|row| on(*call, row)).count()).sum()
    };
    let all = [wrong::WRONG, wrong::WRONG_ERROR, wrong::WRONG_PROFILE, wrong::WRONG_ON_ROUTES, wrong::WRONG_EXCHANGE, wrong::WRONG_CUT_OFF];
    all_seen(all.into_iter().flatten().map(|version| (version.name.to_string(), *version)), &[], seen);
}

/// The versions of what is refused of an image, asked alone.
#[test]
fn the_refusal_of_a_tick() {
    let sections = answers::sections();
    let versions: [(&str, &dyn Refusals); 12] = [
        (wrong::EngagedTwo::VERSION.name, &wrong::EngagedTwo),
        (wrong::FirstEndOnly::VERSION.name, &wrong::FirstEndOnly),
        (wrong::ShortestEnd::VERSION.name, &wrong::ShortestEnd),
        (wrong::AnyProfile::VERSION.name, &wrong::AnyProfile),
        (wrong::OldCount::VERSION.name, &wrong::OldCount),
        (wrong::PeakOfFirst::VERSION.name, &wrong::PeakOfFirst),
        (wrong::PeaksAsNumbers::VERSION.name, &wrong::PeaksAsNumbers),
        (wrong::PeaksUnread::VERSION.name, &wrong::PeaksUnread),
        (wrong::PeakOfFirstRead::VERSION.name, &wrong::PeakOfFirstRead),
        (wrong::NanPeakTaken::VERSION.name, &wrong::NanPeakTaken),
        (wrong::TickThrough::VERSION.name, &wrong::TickThrough),
        (CutLengths::NAME, &CutLengths),
    ];
    all_seen(versions.map(|(name, version)| (name.to_string(), version)), &[], |version| {
        let on =
            |row: &&Row| shows(row, |_, image, _, lengths, _| version.of_tick(image, word(lengths, 0) as usize, word(lengths, 1) as usize));
        rows(&sections, 509).iter().filter(on).count()
    });
}

struct CutLengths;

impl CutLengths {
    const NAME: &'static str = "lengths cut to 16 bits";
}

impl Refusals for CutLengths {
    fn of_tick(&self, image: &[u8], input: usize, answer: usize) -> u32 {
        compare::joint::model::Right.of_tick(image, input & 0xffff, answer & 0xffff)
    }
}

#[test]
fn the_sample_of_a_route() {
    let sections = answers::sections();
    all_seen(faults(sample::WRONG), &[], |fault| {
        let on = |row: &&Row| shows(row, |_, time, sample, route, _| sample::expected(*fault, route, float(time, 0), sample));
        rows(&sections, 508).iter().filter(on).count()
    });
}

/// Three are of logs of more than 255 records; a row has room for 23.
#[test]
fn the_check_of_a_log() {
    let sections = answers::sections();
    let unseen = ["the place cut to 8 bits", "65,536 records taken", "65,535 records refused"];
    all_seen(judge::WRONG.iter().map(|(fault, name)| (name.to_string(), *fault)), &unseen, |fault| {
        let given = |words: &[u8]| Given { profile: word(words, 0), enter: float(words, 1), exit: float(words, 2) };
        let on = |row: &&Row| shows(row, |_, words, verdict, log, _| judge::check(*fault, log, given(words), verdict));
        rows(&sections, 510).iter().filter(on).count()
    });
    // and the judge with no fault is the model's equal
    assert!(rows(&sections, 510).iter().all(|row| !shows(row, |_, words, verdict, log, _| {
        let given = Given { profile: word(words, 0), enter: float(words, 1), exit: float(words, 2) };
        audit::judge::check(judge::Fault::None, log, given, verdict)
    })));
}

#[test]
fn patterns() {
    let sections = answers::sections();
    all_seen(faults(pattern::WRONG), &[], |fault| {
        let on = |row: &&Row| shows(row, |route, _, length, pattern, _| pattern::expand(*fault, pattern, route, length));
        rows(&sections, 511).iter().filter(on).count()
    });
}

#[test]
fn the_desk() {
    let sections = answers::sections();
    let calls = [(512, desk::Call::Tick), (513, desk::Call::RouteTick), (514, desk::Call::SetUp), (515, desk::Call::Centre)];
    all_seen(faults(desk::WRONG), &[], |fault| {
        let on = |call: desk::Call, row: &Row| desk_shows(row, |lent| desk::expected(*fault, call, lent));
        calls.iter().map(|(number, call)| rows(&sections, *number).iter().filter(|row| on(*call, row)).count()).sum()
    });
}

/// Three are of 65,535 records, and two of a length and a place above 32 bits, which are a word in a row.
#[test]
fn the_log() {
    let sections = answers::sections();
    let unseen = [
        "65,536 records taken",
        "the length cut to 32 bits",
        "a record more appended to 65,535",
        "none appended to 65,534",
        "the place cut to 32 bits",
    ];
    all_seen(log::parts::WRONG.iter().map(|face| (face.name.to_string(), face)), &unseen, |face| {
        let count = |number: u32, on: &dyn Fn(&Row) -> bool| rows(&sections, number).iter().filter(|row| on(row)).count();
        count(503, &|row| shows(row, |buffer, input, _, answer, len| (face.append)(buffer, len, input, answer)))
            + count(504, &|row| shows(row, |_, log, to, _, _| (face.count)(log, to)))
            + count(505, &|row| shows(row, |_, log, to, _, place| (face.record)(log, place, to)))
    });
}

/// Two are of 65,535 margins; a row has 40.
#[test]
fn flags() {
    let sections = answers::sections();
    all_seen(slow::WRONG.iter().map(|engine| (engine.name.to_string(), engine)), &["65,536 taken", "65,535 refused"], |engine| {
        let on = |row: &&Row| {
            shows(row, |_, margins, flags, thresholds, _| engine.flags(margins, float(thresholds, 0), float(thresholds, 1), flags))
        };
        rows(&sections, 507).iter().filter(on).count()
    });
}
