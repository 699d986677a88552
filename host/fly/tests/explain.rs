//! A flight explained, and the command `explain`.

use fly::explain::{mended, Cause, Explained};
use fly::flight::{Flight, Rule};
use fly::output;
use fly::pass;
use fly::scenario::Scenario;
use fosavalo::{slow_flags, Answer, Log, Pilot, Profile, TickInput, ANSWER_BYTES, MOST_RECORDS};
use std::path::PathBuf;
use std::process::{Command, Output};

/// A log of these margins and flags, a tick each hundredth of a second.
fn log(margins: &[f32], flags: &[u32]) -> Log {
    let mut log = Log::new();
    let input = TickInput { dt: 0.01, ..TickInput::default() };
    for (margin, flag) in margins.iter().zip(flags) {
        let mut answer = [0; ANSWER_BYTES];
        answer[24..28].copy_from_slice(&flag.to_le_bytes());
        answer[36..40].copy_from_slice(&margin.to_le_bytes());
        log.append_bytes(&input.to_bytes(), &answer).expect("it fits");
    }
    log
}

fn explained(log: &Log, enter: f32, exit: f32) -> Explained {
    let verdict = log.check(Profile::Whole, enter, exit).expect("no log is refused");
    Explained::of(&log.iter().collect::<Vec<_>>(), verdict, enter, exit).expect("no log is refused")
}

fn told(log: &Log, enter: f32, exit: f32) -> (String, String) {
    let explained = explained(log, enter, exit);
    let (mut text, mut csv) = (Vec::new(), Vec::new());
    explained.tell(&mut text).expect("a vector takes all");
    explained.csv(&mut csv).expect("a vector takes all");
    (String::from_utf8(text).expect("it is text"), String::from_utf8(csv).expect("it is text"))
}

const MARGINS: [f32; 8] = [0.0625, 0.125, 0.0625, 0.03125, 0.0078125, f32::NAN, 0.25, f32::INFINITY];
const FLAGS: [u32; 8] = [1, 0, 1, 2, 1, 1, 0, 1];

/// Every sentence, worked out by hand: enter is 1/64 and exit 1/16.
#[test]
fn by_hand() {
    let (text, csv) = told(&log(&MARGINS, &FLAGS), 0.015625, 0.0625);
    assert_eq!(
        text,
        "The log has 8 records. The planner is released by a margin above 0.0625, and relieved by one below 0.015625 or not finite.
Record 1, at 0.000 s: the fallback flew. A fresh shield starts so, and no margin was above 0.0625. The margin was 0.0625.
Records 2 to 4, 0.010 s to 0.030 s: by the rule the planner was to fly; the log says that the fallback did at 1 of them, and the log's flag is neither 0 nor 1 at 1 of them. The margin of record 2, 0.125, released it: it is above 0.0625. Margins went from 0.03125 to 0.125.
Records 5 to 6, 0.040 s to 0.050 s: the fallback flew. The margin of record 5, 0.0078125, engaged it: it is below 0.015625. The margin was 0.0078125, and 1 was not finite.
Record 7, at 0.060 s: the planner flew. The margin of record 7, 0.25, released it: it is above 0.0625. The margin was 0.25.
Record 8, at 0.070 s: the fallback flew. The margin of record 8, inf, engaged it: it is not finite. No margin was finite.
The log's own flags say otherwise at 2 records: 3 to 4.
"
    );
    assert_eq!(
        csv,
        "from,to,from_seconds,to_seconds,pilot,cause,margin,least,greatest,not_finite,flags_differ
1,1,0.000000,0.000000,fallback,start,0.0625,0.0625,0.0625,0,0
2,4,0.010000,0.030000,planner,above_exit,0.125,0.03125,0.125,0,2
5,6,0.040000,0.050000,fallback,below_enter,0.0078125,0.0078125,0.0078125,1,0
7,7,0.060000,0.060000,planner,above_exit,0.25,0.25,0.25,0,0
8,8,0.070000,0.070000,fallback,not_finite,inf,,,1,0
"
    );
}

#[test]
fn the_shortest() {
    assert_eq!(told(&log(&[], &[]), 0.5, 1.0).0, "The log has no record.\n");
    let (text, _) = told(&log(&[2.0], &[1]), 0.5, 1.0);
    assert!(text.starts_with("The log has one record. "), "{text}");
    assert!(text.ends_with("\nThe log's own flag says otherwise at one record: 1.\n"), "{text}");
    let (text, _) = told(&log(&[2.0], &[0]), 0.5, 1.0);
    assert!(text.ends_with("\nThe log's own flags say the same at every record.\n"), "{text}");
    // nothing that is kept is given: 0.1, and twice that
    assert!(told(&log(&[2.0], &[0]), f32::NAN, -1.0).0.contains("above 0.2, and relieved by one below 0.1 "));
}

fn flown(scenario: &[u8]) -> (Flight, Scenario) {
    let scenario = Scenario::read(scenario).expect("it is a scenario");
    let flight = Flight::of(&scenario.set_up, Rule::Shield, scenario.route.clone(), &scenario.inputs).expect("no set-up is refused");
    (flight, scenario)
}

/// The stretches take every record once and in order, and change hands where the shield that flew did: nothing differs.
#[test]
fn a_flight_by_the_shield() {
    for scenario in [
        &include_bytes!("../scenarios/band.txt")[..],
        include_bytes!("../scenarios/headings.txt"),
        include_bytes!("../scenarios/route.txt"),
    ] {
        let (flight, scenario) = flown(scenario);
        let log = output::log(&flight).expect("it fits");
        let explained = explained(&log, scenario.set_up.enter, scenario.set_up.exit);
        let pilots: Vec<Pilot> = explained.stretches.iter().flat_map(|s| vec![s.pilot; s.to + 1 - s.from]).collect();
        assert_eq!(pilots, flight.ticks.iter().map(|tick| tick.answer.pilot).collect::<Vec<_>>());
        assert_eq!(explained.differ, []);
        let starts: Vec<usize> = explained.stretches.iter().skip(1).map(|s| s.from).collect();
        assert_eq!(starts, flight.ticks.changes());
    }
}

/// The earlier rule hands back within the band: there its flags differ, and nowhere else.
#[test]
fn a_flight_by_the_earlier_rule() {
    let flight = pass::fly(&pass::SHOWN, pass::DRAWN, Rule::Earlier).expect("no pass is refused");
    let log = output::log(&flight).expect("it fits");
    let (enter, exit) = (pass::SHOWN.enter, pass::SHOWN.exit);
    let explained = explained(&log, enter, exit);
    let (low, high) = mended(enter, exit).expect("it is set up");
    let mut engaged = true;
    let mut expected = Vec::new();
    for (at, tick) in flight.ticks.iter().enumerate().take(log.len()) {
        let Answer { margin, pilot, .. } = tick.answer;
        engaged = if engaged { !(margin.is_finite() && margin > high) } else { !margin.is_finite() || margin < low };
        if engaged != (pilot == Pilot::Fallback) {
            expected.push(at);
        }
    }
    let differ: Vec<usize> = explained.differ.iter().flat_map(|(from, to)| *from..=*to).collect();
    assert!(differ == expected && !differ.is_empty());
    assert_eq!(differ.len(), explained.stretches.iter().map(|s| s.differ()).sum::<usize>());
    assert!(explained.stretches.iter().skip(1).all(|s| s.cause != Cause::Start));
}

fn command(arguments: &[&str], folder: &PathBuf) -> Output {
    Command::new(checkout::program("fosavalo")).arg("explain").args(arguments).current_dir(folder).output().expect("it runs")
}

fn said(output: &Output) -> (Option<i32>, String, String) {
    let text = |bytes: &[u8]| String::from_utf8_lossy(bytes).into_owned();
    (output.status.code(), text(&output.stdout), text(&output.stderr))
}

#[test]
fn the_command() {
    let folder = checkout::scratch("explains");
    let log = log(&MARGINS, &FLAGS);
    std::fs::write(folder.join("flown.log"), log.as_bytes()).expect("it is written");
    std::fs::write(folder.join("bad.log"), [0; 12]).expect("it is written");
    let (text, csv) = told(&log, 0.015625, 0.0625);
    let given = ["flown.log", "--enter", "0.015625", "--exit", "0.0625"];
    assert_eq!(said(&command(&given, &folder)), (Some(0), text, String::new()));
    assert_eq!(said(&command(&[&given[..], &["--csv"]].concat(), &folder)), (Some(0), csv, String::new()));
    let refusal = fosavalo::LogView::from_bytes(&[0; 12]).expect_err("it is no log");
    for (arguments, what) in [
        (&["bad.log", "--enter", "1", "--exit", "2"][..], format!("explain: bad.log: {refusal}\n")),
        (&["missing.log", "--enter", "1", "--exit", "2"], "explain: missing.log: ".to_string()),
        (&[], "explain: which log?".to_string()),
        (&["flown.log"], "explain: which thresholds?".to_string()),
        (&["flown.log", "--enter", "1"], "explain: --enter and --exit go together\n".to_string()),
        (
            &["flown.log", "--enter", "0.5", "--exit", "0.5"],
            "explain: no thresholds: set-up would have made them enter 0.5 and exit 1 (exit: given 0.5, kept 1: it has to be finite and above enter)\n".to_string(),
        ),
        (&["flown.log", "--exit", "one"], "explain: --exit: `one` is no number\n".to_string()),
        (&["a", "b"], "explain: one log at a time".to_string()),
        (&["--other"], "explain: `--other` is no option".to_string()),
    ] {
        let (code, out, err) = said(&command(arguments, &folder));
        assert_eq!((code, out.as_str(), err.starts_with(&what)), (Some(2), "", true), "{err}");
    }
}

/// "Flew" is said only where the flags agree; else who was to fly, and what the log says.
#[test]
fn who_flew_and_who_was_to() {
    // engaged and never released, by the rule
    let mut flags = vec![1; 1500];
    flags.extend([0; 1500]);
    let (text, _) = told(&log(&[0.5; 3000], &flags), 0.5, 1.0);
    let line = text.lines().nth(1).unwrap_or_default();
    assert!(
        line.starts_with("Records 1 to 3000, 0.000 s to 29.990 s: by the rule the fallback was to fly; the log says that the planner did at 1500 of them. A fresh"),
        "{line}"
    );
    for (flag, who) in [
        (0, "the planner flew"),
        (1, "by the rule the planner was to fly; the log says that the fallback did"),
        (9, "by the rule the planner was to fly; the log's flag is neither 0 nor 1"),
    ] {
        let (text, _) = told(&log(&[2.0], &[flag]), 0.5, 1.0);
        assert!(text.contains(&format!("\nRecord 1, at 0.000 s: {who}. The margin of record 1, 2, released it")), "{text}");
    }
    let (text, _) = told(&log(&[2.0, 2.0], &[7, 7]), 0.5, 1.0);
    assert!(text.contains("was to fly; the log's flag is neither 0 nor 1 at 2 of them. "), "{text}");
}

/// Whatever the flags say, and from wherever the records are wrong, the stretches are those of looking back through the whole list at once.
#[test]
fn as_looked_back_at_once() {
    let mut bits = 3u64;
    let mut next = |n: u64| {
        bits = bits.wrapping_mul(6364136223846793005).wrapping_add(1442695040888963407);
        (bits >> 33) % n
    };
    for round in 0..40 {
        let count = 1 + next(14_000) as usize;
        // now and then a margin that changes hands
        let margin = |of: u64| [0.25, 1.5, f32::NAN, f32::INFINITY, f32::MAX][of as usize];
        let margins: Vec<f32> = (0..count).map(|_| if next(2_000) < 3 { margin(next(5)) } else { 0.75 }).collect();
        let (enter, exit) = [(0.5, 1.0), (0.5, f32::MAX)][next(2) as usize];
        let flown = slow_flags(&margins, enter, exit).expect("there is room");
        let wrong = next(count as u64 + 1) as usize;
        let flag = |(at, pilot): (usize, &Pilot)| u32::from(*pilot == Pilot::Fallback) ^ u32::from(at >= wrong && next(3) == 0);
        let flags: Vec<u32> = flown.iter().enumerate().map(flag).collect();
        let explained = explained(&log(&margins, &flags), enter, exit);
        let pilots: Vec<Pilot> = explained.stretches.iter().flat_map(|s| vec![s.pilot; s.to + 1 - s.from]).collect();
        assert!(pilots == flown, "round {round}");
        let differ = flags.iter().zip(&flown).filter(|(flag, pilot)| **flag != u32::from(**pilot == Pilot::Fallback)).count();
        assert_eq!(explained.stretches.iter().map(|s| s.differ()).sum::<usize>(), differ);
    }
}

/// A full log whose margins stay in the band, right or wrong at once: looking back through all of them from each, which is what it was, takes many times as
/// long as this may.
#[test]
fn within_the_band_it_is_soon_explained() {
    let mut flags = vec![0; MOST_RECORDS];
    let mut margins = vec![0.75; MOST_RECORDS];
    margins[0] = 2.0;
    let start = std::time::Instant::now();
    let slow = slow_flags(&margins, 0.5, 1.0).expect("there is room");
    let slow_flags = start.elapsed();
    assert!(slow.iter().all(|pilot| *pilot == Pilot::Planner));
    for wrong in [false, true] {
        flags[0] = u32::from(wrong);
        let (log, start) = (log(&margins, &flags), std::time::Instant::now());
        let explained = explained(&log, 0.5, 1.0);
        assert_eq!((explained.stretches.len(), explained.stretches[0].differ()), (1, usize::from(wrong)));
        assert!(4 * start.elapsed() < slow_flags, "{:?} of {slow_flags:?}", start.elapsed());
    }
}

/// For scripts: an object on a line, numbers that give their bits back, and what is not finite as text.
#[test]
fn as_json() {
    let folder = checkout::scratch("explains-json");
    std::fs::write(folder.join("a \"b\".log"), log(&MARGINS, &FLAGS).as_bytes()).expect("it is written");
    let given = ["a \"b\".log", "--enter", "0.015625", "--exit", "0.0625", "--json"];
    let (code, out, err) = said(&command(&given, &folder));
    assert_eq!((code, err.as_str(), out.lines().count()), (Some(0), "", 5));
    let lines: Vec<&str> = out.lines().collect();
    assert_eq!(
        lines[1],
        r#"{"flight":"a \"b\".log","from":2,"to":4,"from_seconds":0.010000,"to_seconds":0.030000,"pilot":"planner","cause":"above_exit","margin":0.125,"least":0.03125,"greatest":0.125,"not_finite":0,"flags_differ":2}"#
    );
    assert_eq!(
        lines[4],
        r#"{"flight":"a \"b\".log","from":8,"to":8,"from_seconds":0.070000,"to_seconds":0.070000,"pilot":"fallback","cause":"not_finite","margin":"inf","least":null,"greatest":null,"not_finite":1,"flags_differ":0}"#
    );
}
