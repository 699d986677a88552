//! What the kit's vectors catch, held to CAUGHT.md; that they speak in the words of docs/REQUEST.md; and that the runner judges as the core does.

use compare::audit::sweep::{other, spoil, Record};
use compare::audit::{Given, RIGHT};
use compare::generate::Rng;
use compare::log::model::written;
use compare::slow::threshold;
use conformance::conform::{named, read_known, Answer, Level, Log, Rule};
use conformance::coverage::{asked, caught, known, rules, tables};
use conformance::program::{Calls, Program};
use conformance::wrong::Of;
use std::path::PathBuf;

fn page(name: &str) -> String {
    let file: PathBuf = checkout::root().expect("a checkout").join(name);
    std::fs::read_to_string(&file).unwrap_or_else(|error| panic!("{}: {error}", file.display()))
}

/// With single spaces.
fn words(text: &str) -> String {
    text.split_whitespace().collect::<Vec<_>>().join(" ")
}

/// Whether the two name another pilot.
fn another_flies(right: &Answer, own: &Answer) -> bool {
    let flag = |answer: &Answer| match answer {
        Answer::Said(0, told) => told.first().filter(|told| told.len() == 40).map(|told| told[24]),
        _ => None,
    };
    flag(right).zip(flag(own)).is_some_and(|(right, own)| right != own)
}

/// What the rule leaves to the bits of those that let another fly at any line: other last places of a margin, and quaternions whose products overflow.
const OF_BITS: [&str; 3] =
    ["R_d times the feedforward, then R transposed", "a refused feedforward taken for zeros", "a feedforward of zeros taken for refused"];

#[test]
fn every_wrong_release_and_engagement_is_caught_at_the_rule() {
    let rules = rules().unwrap_or_else(|text| panic!("{text}"));
    let (mut flown, mut left) = (0, Vec::new());
    for wrong in conformance::wrong::all().into_iter().filter(|wrong| wrong.of == Of::Joint) {
        let mut program = Program::new(&wrong.calls);
        let mut lines = rules.iter().flat_map(|rule| &rule.lines);
        if lines.any(|line| another_flies(&line.expected, &program.answer(&line.question))) {
            flown += 1;
            let at_rule: usize = asked(&rules, wrong.of, &wrong.calls).told.iter().map(|[rule, ..]| rule.broken).sum();
            left.extend((at_rule == 0).then_some(wrong.name));
        }
    }
    println!("{flown} wrong versions let another fly; the rule leaves {left:?} to the bits");
    assert!(flown > 25 && left == OF_BITS, "{flown}: {left:?}");
}

/// Those of the shield itself.
const OF_THE_SHIELD: [&str; 5] = [
    "released in the band",
    "released at exit itself",
    "engaged at enter itself",
    "an exchange that resets the shield",
    "an exchange that gives the planner control",
];

#[test]
fn every_wrong_version_is_caught_and_named() {
    let rules = rules().unwrap_or_else(|text| panic!("{text}"));
    let caught = caught(&rules);
    let missed: Vec<&str> = caught.iter().filter(|one| one.level().is_none()).map(|one| one.name.as_str()).collect();
    assert!(missed.is_empty(), "not caught: {missed:?}");
    for name in OF_THE_SHIELD {
        let found = caught.iter().find(|one| one.of == Of::Joint && one.name == name);
        assert_eq!(found.map(|one| (one.level(), &one.report.by_rule[..])), Some((Some(Level::Rule), &[name][..])));
    }
    // none but what is wrong
    let right = asked(&rules, Of::Joint, &Calls::right());
    assert!(right.told.iter().flatten().all(|told| told.broken == 0));
    // each by its name, and by no other's where its answers are its own
    let (known, all) = (read_known(&known(&rules, &caught)).expect("its own form"), rules.iter().collect::<Vec<&Rule>>());
    let mut alike = Vec::new();
    for one in &caught {
        for claimed in [Level::Bits, Level::Bytes] {
            let names = named(&all, &one.report, claimed, &known);
            if one.lines(claimed) > 0 {
                assert!(names.contains(&one.named()), "{}: {names:?} at {}", one.named(), claimed.name());
            }
            if names.len() > 1 && claimed == Level::Bytes {
                alike.push(names);
            }
        }
    }
    assert!(alike.is_empty(), "of the same answers: {alike:?}");
    // CAUGHT.md has the tables: `kit --tables` prints them
    let (page, tables) = (page("host/conformance/CAUGHT.md"), tables(&caught));
    let first = tables.lines().filter(|line| !page.lines().any(|own| own == *line)).collect::<Vec<_>>();
    assert!(page.contains(tables.trim_end()), "host/conformance/CAUGHT.md has other tables than `kit --tables` prints: {first:#?}");
}

#[test]
fn the_words_are_the_documents() {
    let request = page("docs/REQUEST.md");
    let headings: Vec<String> =
        request.lines().filter(|line| line.starts_with("## ")).map(|line| line[3..].to_lowercase().replace(' ', "-")).collect();
    for rule in rules().unwrap_or_else(|text| panic!("{text}")) {
        assert!(!rule.words.is_empty(), "{} has no words", rule.file);
        for own in &rule.words {
            assert!(words(&request).contains(&words(own)), "{}: docs/REQUEST.md has not: {own}", rule.file);
        }
        let place = rule.place.strip_prefix("docs/REQUEST.md#").unwrap_or_default();
        assert!(headings.iter().any(|heading| heading == place), "{}: {} is no heading", rule.file, rule.place);
    }
}

/// The first wrong record by the runner.
fn first_wrong(records: &[Record], given: Given) -> u32 {
    let mut log = Log::new(given.profile, given.enter, given.exit);
    records.iter().position(|record| log.next(&record[..68], &record[68..]).is_some()).map_or(RIGHT, |place| place as u32)
}

/// What the level of the rule goes by is `fosavalo_log_check` of the proved archive, on logs of other boxes, right ones and spoilt ones.
#[test]
fn the_rule_is_the_core_s_check_of_a_log() {
    let (mut rng, mut wrong) = (Rng::new("kit judged", 0), 0);
    for round in 0..20_000 {
        let given = Given { profile: round % 2, enter: threshold(&mut rng), exit: threshold(&mut rng) };
        let length = 1 + rng.below(30);
        let mut records = other(&mut rng, given, length);
        for _ in 0..rng.below(3) {
            let place = rng.below(records.len());
            spoil(&mut rng, &mut records[place], given);
        }
        let (log, mut verdict) = (written(&records.iter().map(|record| &record[..]).collect::<Vec<_>>()), [0; 4]);
        assert_eq!(archives::log_check(&log, given.profile, given.enter, given.exit, &mut verdict), 0);
        assert_eq!(first_wrong(&records, given), u32::from_le_bytes(verdict), "{given:?}");
        wrong += u32::from(verdict != [0xff; 4]);
    }
    assert!((2_000..18_000).contains(&wrong), "{wrong} wrong logs of 20000");
}
