//! Logs checked, and the command `check`.

use fly::check::{files, on_a_line, Given, Outcome};
use fly::flight::{Flight, Rule};
use fly::kept::Kept;
use fly::output;
use fly::pass;
use fly::scenario::Scenario;
use fosavalo::{Log, LogView, Profile, Refusal};
use std::path::{Path, PathBuf};
use std::process::{Command, Output, Stdio};

const GIVEN: Given = Given { profile: Profile::Whole, enter: 0.015625, exit: 0.0625 };
const LOST: Given = Given { profile: Profile::LostRotor, ..GIVEN };

/// A record: the planner's words, the command's, the flag and the margin, all else zero.
type Words = ([u32; 3], [u32; 3], u32, f32);

fn log(records: &[Words]) -> Log {
    let mut log = Log::new();
    for (planner, command, flag, margin) in records {
        let mut words = [0u32; 27];
        words[11..14].copy_from_slice(planner);
        words[20..23].copy_from_slice(command);
        (words[23], words[26]) = (*flag, margin.to_bits());
        let bytes: Vec<u8> = words.into_iter().flat_map(u32::to_le_bytes).collect();
        log.append_bytes(&bytes[..68], &bytes[68..]).expect("it fits");
    }
    log
}

fn of(log: &[u8], given: &Given) -> Outcome {
    Outcome::of(&Kept::of_bytes(log), given)
}

fn told(records: &[Words], given: &Given) -> String {
    of(log(records).as_bytes(), given).to_string()
}

const ONE: u32 = 0x3f80_0000;
const NAN: u32 = 0x7fc0_0000;
const FLOWN: Words = ([ONE; 3], [ONE; 3], 0, 0.125);
const HELD: Words = ([ONE; 3], [0; 3], 1, 0.0625);

/// Every sentence, worked out by hand: enter is 1/64 and exit 1/16.
#[test]
fn by_hand() {
    assert_eq!((told(&[], &GIVEN), told(&[HELD], &GIVEN)), ("right, 0 records".to_string(), "right, 1 record".to_string()));
    assert_eq!(told(&[HELD, FLOWN, FLOWN], &GIVEN), "right, 3 records");
    let words = "planner 3f800000 3f800000 3f800000, command";
    for (records, given, text) in [
        (
            &[HELD, ([ONE; 3], [0; 3], 1, 0.125)][..],
            &GIVEN,
            format!(
                "wrong at record 2 (place 1): its flag says that the fallback flies, and by the margins the planner does, since record 2, whose margin, 0.125, \
                 is above exit, 0.0625; its words: {words} 00000000 00000000 00000000, flag 00000001, margin 3e000000"
            ),
        ),
        (
            &[([ONE; 3], [ONE; 3], 0, 0.0625)],
            &GIVEN,
            format!(
                "wrong at record 1 (place 0): its flag says that the planner flies, and by the margins the fallback does, as a fresh shield does until a margin is \
                 above exit, 0.0625; its words: {words} 3f800000 3f800000 3f800000, flag 00000000, margin 3d800000"
            ),
        ),
        (
            &[FLOWN, ([ONE; 3], [0; 3], 1, 0.0078125), ([ONE; 3], [ONE, 0, ONE], 0, 0.03125)],
            &GIVEN,
            format!(
                "wrong at record 3 (place 2): its flag says that the planner flies, and by the margins the fallback does, since record 2, whose margin, 0.0078125, \
                 is below enter, 0.015625; its command's y is 00000000 (0), not the planner's 3f800000 (1); its words: {words} 3f800000 00000000 3f800000, \
                 flag 00000000, margin 3d000000"
            ),
        ),
        (
            &[FLOWN, ([ONE; 3], [NAN, 0, 0xff80_0000], 2, f32::NAN)],
            &GIVEN,
            format!(
                "wrong at record 2 (place 1): its flag is 2, neither 0 nor 1; by the margins the fallback flies, since record 2, whose margin, NaN, is not finite; \
                 its words: {words} 7fc00000 00000000 ff800000, flag 00000002, margin 7fc00000"
            ),
        ),
        (
            &[([ONE; 3], [NAN, 0, 0xff80_0000], 1, 0.0)],
            &GIVEN,
            format!(
                "wrong at record 1 (place 0): its command's x is 7fc00000 (NaN), not finite; its command's z is ff800000 (-inf), not finite; \
                 its words: {words} 7fc00000 00000000 ff800000, flag 00000001, margin 00000000"
            ),
        ),
        (
            &[([NAN, 0x8000_0000, ONE], [0x8000_0000, 0, ONE], 0, 0.125)],
            &LOST,
            "wrong at record 1 (place 0): its command's x is 80000000 (-0), not the zero that is passed on for 7fc00000, which is not finite; \
             its command's y is 00000000 (0), not the planner's 80000000 (-0); its command's z is 3f800000 (1), not the zero that is passed on with a rotor lost; \
             its words: planner 7fc00000 80000000 3f800000, command 80000000 00000000 3f800000, flag 00000000, margin 3e000000"
                .to_string(),
        ),
    ] {
        assert_eq!(told(records, given), text);
    }
}

/// Each word of some records made another: for every record that the archive finds wrong there are words.
#[test]
fn what_is_wrong_is_found() {
    let flights = [
        (pass::fly(&pass::SHOWN, pass::DRAWN, Rule::Shield).expect("no pass is refused"), Profile::Whole),
        (flown(include_bytes!("../scenarios/rotor.txt")), Profile::LostRotor),
    ];
    for (flight, profile) in flights {
        let given = Given { profile, enter: flight.enter, exit: flight.exit };
        let mut flown = output::log(&flight).expect("it fits").into_bytes();
        let records = (flown.len() - 12) / 108;
        assert_eq!(of(&flown, &given), Outcome::Right(records));
        let mut wrong = 0;
        for at in 0..27 {
            for (step, new) in [0, 1, 2, ONE, NAN, 0x8000_0000, 0xff80_0000, u32::MAX].into_iter().enumerate() {
                let place = (1 + 97 * (27 * step + at)) % records;
                let word = 108 * place + 4 * at..108 * place + 4 * at + 4;
                let kept: [u8; 4] = flown[word.clone()].try_into().expect("four bytes");
                flown[word.clone()].copy_from_slice(&u32::to_le_bytes(new));
                let outcome = of(&flown, &given);
                if let Outcome::Wrong { faults, .. } = &outcome {
                    assert!(!faults.iter().any(|fault| fault.contains("no fault")), "{outcome}");
                    wrong += 1;
                }
                flown[word].copy_from_slice(&kept);
            }
        }
        assert!(wrong > 20, "{wrong}");
    }
}

fn flown(scenario: &[u8]) -> Flight {
    let scenario = Scenario::read(scenario).expect("it is a scenario");
    Flight::of(&scenario.set_up, Rule::Shield, scenario.route.clone(), &scenario.inputs).expect("no set-up is refused")
}

/// Each flight by the shield is right with its own thresholds, on routes and with a rotor lost; one by the earlier rule is not, but with its own.
#[test]
fn flights() {
    let check = |flight: &Flight, profile, enter, exit| {
        let log = output::log(flight).expect("it fits");
        of(log.as_bytes(), &Given { profile, enter, exit })
    };
    for (scenario, profile) in [
        (&include_bytes!("../scenarios/band.txt")[..], Profile::Whole),
        (include_bytes!("../scenarios/headings.txt"), Profile::Whole),
        (include_bytes!("../scenarios/route.txt"), Profile::Whole),
        (include_bytes!("../scenarios/rotor.txt"), Profile::LostRotor),
    ] {
        let flight = flown(scenario);
        assert_eq!(check(&flight, profile, flight.enter, flight.exit), Outcome::Right(flight.ticks.len()));
    }
    let (enter, exit) = (pass::SHOWN.enter, pass::SHOWN.exit);
    let earlier = pass::fly(&pass::SHOWN, pass::DRAWN, Rule::Earlier).expect("no pass is refused");
    assert_eq!(check(&earlier, Profile::Whole, enter, exit).status(), 1);
    assert_eq!(check(&earlier, Profile::Whole, enter, enter.next_up()), Outcome::Right(earlier.ticks.len()));
}

fn command(arguments: &[&str], folder: &Path) -> Command {
    let mut command = Command::new(checkout::program("fosavalo"));
    command.arg("check").args(arguments).current_dir(folder);
    command
}

fn said(output: &Output) -> (Option<i32>, String, String) {
    let text = |bytes: &[u8]| String::from_utf8_lossy(bytes).into_owned();
    (output.status.code(), text(&output.stdout), text(&output.stderr))
}

fn run(arguments: &[&str], folder: &Path) -> (Option<i32>, String, String) {
    said(&command(arguments, folder).output().expect("it runs"))
}

fn put(folder: &Path, name: &str, bytes: &[u8]) {
    let path = folder.join(name);
    std::fs::create_dir_all(path.parent().expect("it is in a folder")).expect("a folder");
    std::fs::write(path, bytes).expect("it is written");
}

const THRESHOLDS: [&str; 4] = ["--enter", "0.015625", "--exit", "0.0625"];

/// A line for each file in the order given, a folder's by name, and the greatest of their statuses.
#[test]
fn the_command() {
    let folder = checkout::scratch("checks");
    let (right, wrong) = (log(&[HELD, FLOWN]), log(&[HELD, ([ONE; 3], [ONE; 3], 3, 0.0)]));
    put(&folder, "night/b.log", right.as_bytes());
    put(&folder, "night/a.log", wrong.as_bytes());
    put(&folder, "night/box 2/c.log", right.as_bytes());
    put(&folder, "night/notes.txt", b"no log");
    put(&folder, "right/only.log", right.as_bytes());
    put(&folder, "broken", &[0; 12]);
    std::fs::create_dir(folder.join("empty")).expect("a folder");
    let with = |named: &[&str]| run(&[named, &THRESHOLDS].concat(), &folder);
    let told = of(wrong.as_bytes(), &GIVEN);
    let refusal = LogView::from_bytes(&[0; 12]).expect_err("it is no log");
    assert_eq!(refusal, Refusal::BrokenLog);
    let ok = "right, 2 records";
    assert_eq!(with(&["right/only.log"]), (Some(0), format!("right/only.log: {ok}\n"), String::new()));
    assert_eq!(with(&["right"]), (Some(0), format!("right/only.log: {ok}\n"), String::new()));
    let night = format!("night/a.log: {told}\nnight/b.log: {ok}\nnight/box 2/c.log: {ok}\n");
    assert_eq!(with(&["night"]), (Some(1), night.clone(), "check: 3 logs: 2 right, 1 wrong, 0 refused or unreadable\n".to_string()));
    let (code, out, err) = with(&["broken", "night", "missing.log", "empty", "right"]);
    let lines = format!("broken: {refusal}\n{night}missing.log: unreadable: ");
    assert!(out.starts_with(&lines), "{out}");
    assert!(out.ends_with(&format!("\nempty: unreadable: no file below this folder ends in .log\nright/only.log: {ok}\n")), "{out}");
    assert_eq!((code, out.lines().count(), err.as_str()), (Some(2), 7, "check: 7 logs: 3 right, 1 wrong, 3 refused or unreadable\n"));
    // the third word, which profile 1 has as zero
    for (name, code) in [("whole", 0), ("0", 0), ("lost-rotor", 1), ("1", 1)] {
        assert_eq!(run(&[&["right", "--profile", name], &THRESHOLDS[..]].concat(), &folder).0, Some(code), "{name}");
    }
}

#[test]
fn mistakes() {
    let folder = checkout::scratch("checks-not");
    put(&folder, "a.log", Log::new().as_bytes());
    for (arguments, what) in [
        (&[][..], "check: which logs?"),
        (&["--enter", "1", "--exit", "2"], "check: which logs?"),
        (&["a.log"], "check: which thresholds?"),
        (&["a.log", "--enter", "1"], "check: --enter and --exit go together\n"),
        (
            &["a.log", "--enter", "0.07", "--exit", "0.03"],
            "check: no thresholds: set-up would have made them enter 0.07 and exit 0.14 (exit: given 0.03, kept 0.14: it has to be finite and above enter)\n",
        ),
        (&["a.log", "--enter=nan", "--exit=-1"], "check: no thresholds: set-up would have made them enter 0.1 and exit 0.2 (enter: given NaN, kept 0.1: "),
        (&["a.log", "--exit", "one"], "check: --exit: `one` is no number\n"),
        (&["a.log", "--enter"], "check: --enter wants a number\n"),
        (&["a.log", "--profile", "2"], "check: --profile: refused (10): the profile is neither 0 nor 1\n"),
        (&["a.log", "--profile", "other"], "check: --profile: `other` is no profile; there are whole and lost-rotor\n"),
        (&["--other"], "check: `--other` is no option"),
    ] {
        let (code, out, err) = run(arguments, &folder);
        assert_eq!((code, out.as_str(), err.starts_with(what), err.lines().count()), (Some(2), "", true, 1), "{err}");
    }
}

/// Many files, far more than cores: every line, in order; and a reader that goes away early changes nothing of how it ends.
#[test]
fn many_files() {
    let folder = checkout::scratch("checks-many");
    let (right, wrong) = (log(&[HELD; 300]), log(&[FLOWN; 2]));
    for n in 0..500 {
        put(&folder, &format!("night/{n:03}.log"), if n % 2 == 0 { right.as_bytes() } else { wrong.as_bytes() });
    }
    put(&folder, "night/499.log", log(&[([0; 3], [0; 3], 9, 0.0)]).as_bytes());
    let arguments = [&["night"], &THRESHOLDS[..]].concat();
    let (code, out, _) = run(&arguments, &folder);
    let line = |n: usize| format!("night/{n:03}.log: right, {} records", [300, 2][n % 2]);
    assert_eq!(out.lines().take(499).map(str::to_string).collect::<Vec<_>>(), (0..499).map(line).collect::<Vec<_>>());
    assert_eq!((code, out.lines().count()), (Some(1), 500));
    let mut child = command(&arguments, &folder).stdout(Stdio::piped()).stderr(Stdio::piped()).spawn().expect("it runs");
    drop(child.stdout.take());
    let (code, _, err) = said(&child.wait_with_output().expect("it ends"));
    assert_eq!((code, err.as_str()), (Some(1), "check: 500 logs: 499 right, 1 wrong, 0 refused or unreadable\n"));
}

/// A name of any letters is one line; a link that leads back to its folder does not lead round and round.
#[cfg(unix)]
#[test]
fn odd_names() {
    use std::os::unix::ffi::OsStrExt;
    assert_eq!(on_a_line("night/a b\nc\t.log"), "night/a b\\nc\\t.log");
    let odd = PathBuf::from(std::ffi::OsStr::from_bytes(b"\xff\n.log"));
    assert_eq!(on_a_line(&odd.to_string_lossy()), "\u{fffd}\\n.log");
    let folder = checkout::scratch("checks-odd");
    put(&folder, "night/a.log", Log::new().as_bytes());
    std::os::unix::fs::symlink(folder.join("night"), folder.join("night/round")).expect("a link");
    std::os::unix::fs::symlink(folder.join("night/a.log"), folder.join("night/b.log")).expect("a link");
    std::os::unix::fs::symlink(folder.join("gone"), folder.join("night/c.log")).expect("a link");
    let found: Vec<PathBuf> = files(&[folder.join("night")], &["log"]).into_iter().map(|(path, _)| path).collect();
    assert_eq!(found, ["a.log", "b.log", "c.log"].map(|name| folder.join("night").join(name)));
}

/// For scripts: an object on a line for each flight, in order, with the words in bits.
#[test]
fn as_json() {
    let folder = checkout::scratch("checks-json");
    put(&folder, "a.log", log(&[HELD, FLOWN]).as_bytes());
    put(&folder, "b.log", log(&[FLOWN, ([ONE, 0, 2], [ONE; 3], 1, f32::NAN), ([0; 3], [NAN, 0, 0], 1, 0.0)]).as_bytes());
    put(&folder, "c\n.log", &[0; 12]);
    put(&folder, "d-002.log", log(&[HELD]).as_bytes());
    let names = ["a.log", "b.log", "c\n.log", "missing.log", "d-002.log"];
    let (code, out, _) = run(&[&names[..], &THRESHOLDS, &["--json"]].concat(), &folder);
    let lines: Vec<&str> = out.lines().collect();
    assert_eq!((code, lines.len()), (Some(2), 5), "{out}");
    assert_eq!(lines[0], r#"{"flight":"a.log","verdict":"right","records":2}"#);
    assert_eq!(
        lines[1],
        r#"{"flight":"b.log","verdict":"wrong","record":3,"place":2,"faults":["its command's x is 7fc00000 (NaN), not finite"],"planner":["00000000","00000000","00000000"],"command":["7fc00000","00000000","00000000"],"flag":"00000001","margin":"00000000"}"#
    );
    let meaning = Refusal::BrokenLog.meaning();
    assert_eq!(lines[2], format!(r#"{{"flight":"c\u000a.log","verdict":"refused","number":8,"why":"{meaning}"}}"#));
    assert!(lines[3].starts_with(r#"{"flight":"missing.log","verdict":"unreadable","why":""#), "{}", lines[3]);
    assert_eq!(
        lines[4],
        r#"{"flight":"d-002.log","verdict":"right","records":1,"as_if":"as if a flight began here (d-001.log is missing)"}"#
    );
}
