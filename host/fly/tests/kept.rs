//! Flights kept whole: the flight's file, logs that go on, flown again, salvaged; and that nothing is said of a part that is true of a whole alone.

use fly::commands::new;
use fly::flight::{Flight, Rule};
use fly::flight_file::{Again, FlightFile};
use fly::kept::Kept;
use fly::output;
use fly::replay;
use fly::salvage::{salvage, End};
use fly::scenario::{fields, Scenario};
use fly::{curve, desk, exchange, legs, pass, rotor, loop_thrice};
use fosavalo::{BodyRate, Leg, Log, LogSeries, LogView, Profile, Record, SetUp, TickInput, MOST_IN_SERIES, SETUP_BYTES};
use std::path::{Path, PathBuf};
use std::process::Command;

struct Random(u64);

impl Random {
    fn below(&mut self, n: usize) -> usize {
        self.0 ^= self.0 << 13;
        self.0 ^= self.0 >> 7;
        self.0 ^= self.0 << 17;
        (self.0 >> 33) as usize % n
    }
}

fn fosavalo(arguments: &[&str], folder: &Path) -> (Option<i32>, String, String) {
    let output = Command::new(checkout::program("fosavalo")).args(arguments).current_dir(folder).env("PATH", "").output().expect("it runs");
    let text = |bytes: &[u8]| String::from_utf8_lossy(bytes).into_owned();
    (output.status.code(), text(&output.stdout), text(&output.stderr))
}

/// Every kind of flight that `fly` keeps.
fn flights() -> Vec<(&'static str, Flight)> {
    let pass = |rule| pass::fly(&pass::SHOWN, pass::DRAWN, rule).expect("no pass is refused");
    let down = |profile| rotor::fly(&rotor::SHOWN, profile, pass::DRAWN).expect("no pass is refused").flight;
    vec![
        ("pass-shield", pass(Rule::Shield)),
        ("pass-earlier", pass(Rule::Earlier)),
        ("legs", legs::fly(pass::DRAWN).expect("the legs meet")),
        ("exchange", exchange::fly(pass::DRAWN).expect("no pass is refused").flight),
        ("thrice", loop_thrice::fly(pass::DRAWN).expect("the legs meet").flight),
        ("curve", curve::fly(&pass::SHOWN, pass::DRAWN).expect("the legs meet").flight),
        ("rotor-lost", down(Profile::LostRotor)),
        ("rotor-whole", down(Profile::Whole)),
        ("desk", desk::fly(&pass::SHOWN, pass::DRAWN).expect("no pass is refused").flight),
    ]
}

/// All flights of `make fly` are kept with their file; each replays as the same, is right by what its file tells, and reads as its CSV; and one ulp in a
/// gain, or an exchange or a route left out, is named.
#[test]
fn every_flight_is_flown_again() {
    let folder = checkout::scratch("flown-again");
    let (code, out, err) = fosavalo(&["fly", "--out", "."], &folder);
    assert_eq!((code, err.as_str()), (Some(0), ""));
    let flights = flights();
    let records = |name: &str| flights.iter().find(|(own, _)| *own == name).map_or(0, |(_, flight)| flight.ticks.len());
    let mut named: Vec<String> = flights.iter().map(|(name, _)| format!("{name}.flight")).collect();
    assert!(named.iter().all(|name| out.contains(&format!("./{name}"))), "{out}");
    named.sort();
    let same: String =
        named.iter().map(|name| format!("./{name}: the same, {} records\n", records(name.trim_end_matches(".flight")))).collect();
    assert_eq!(
        fosavalo(&["replay", "."], &folder),
        (Some(0), same.clone(), "replay: 9 flights: 9 the same, 0 different, 0 refused or unreadable\n".to_string())
    );
    // and of a folder with flights' files no thresholds are asked for
    let right = fosavalo(&["check", "."], &folder);
    assert_eq!(
        right,
        (Some(0), same.replace("the same", "right"), "check: 9 flights: 9 right, 0 wrong, 0 refused or unreadable\n".to_string())
    );
    for (name, flight) in &flights {
        let text = std::fs::read_to_string(folder.join(format!("{name}.flight"))).expect("it is text");
        let file = FlightFile::read(text.as_bytes()).expect("it is a flight's file");
        assert_eq!(file, FlightFile::of(flight, vec![(format!("{name}.log"), flight.ticks.len())]));
        assert_eq!((file.text(), file.exchanges.len()), (text.clone(), if *name == "exchange" { 2 } else { 0 }));
        let csv = std::fs::read_to_string(folder.join(format!("{name}.csv"))).expect("it is text");
        let (code, out, _) = fosavalo(&["log", &format!("{name}.flight"), "--out", "drawn"], &folder);
        assert!(code == Some(0) && out == csv, "{name}");
        // one ulp of a gain, and what else the file tells that the log does not
        let mut others = vec![FlightFile { set_up: ulp(&file.set_up), ..file.clone() }];
        others.extend((!file.exchanges.is_empty()).then(|| FlightFile { exchanges: Vec::new(), ..file.clone() }));
        others.extend(file.route.is_some().then(|| FlightFile { on_route: Vec::new(), ..file.clone() }));
        for other in others {
            std::fs::write(folder.join("other.flight"), other.text()).expect("it is written");
            let (code, out, _) = fosavalo(&["replay", "other.flight"], &folder);
            assert_eq!((code, out.starts_with("other.flight: different at ")), (Some(1), true), "{name}: {out}");
        }
    }
    // the two rules are told apart by what their files tell, and where the other's thresholds are given they count
    let given = fosavalo(&["check", "pass-earlier.flight", "--enter", "0.03", "--exit", "0.07"], &folder);
    assert!(given.0 == Some(1) && given.1.starts_with("pass-earlier.flight: wrong at record "), "{given:?}");
}

/// A gain of the rate controller, since the fallback's counts only where it flies.
fn ulp(set_up: &SetUp) -> SetUp {
    let mut other = *set_up;
    other.adrc[0].omega_c = other.adrc[0].omega_c.next_up();
    other
}

/// So do the scenarios that stand beside the program, by both rules.
#[test]
fn every_scenario_is_flown_again() {
    let folder = checkout::scratch("scenarios-again");
    let mut names: Vec<PathBuf> = std::fs::read_dir("scenarios").expect("a folder").map(|file| file.expect("a file").path()).collect();
    names.sort();
    for file in &names {
        let text = std::fs::read(file).expect("it is there");
        let name = output::name(file);
        std::fs::write(folder.join(format!("{name}.txt")), text).expect("it is written");
        assert_eq!(fosavalo(&["fly", &format!("{name}.txt"), "--out", "."], &folder).0, Some(0));
    }
    for (command, all) in [("replay", "the same"), ("check", "right")] {
        let (code, out, _) = fosavalo(&[command, "."], &folder);
        assert_eq!((code, out.lines().filter(|line| line.contains(&format!(": {all}, "))).count()), (Some(0), 2 * names.len()), "{out}");
    }
}

/// A flight that goes onto its route and off it again, with exchanges between and several before one tick: it is flown again as it was, and any other telling of it is
/// not the same.
#[test]
fn on_the_route_and_off_it() {
    let folder = checkout::scratch("on-and-off");
    let set_up = SetUp::falcon_quad();
    let leg = |x: f32| Leg { pf: [x, 0.5, -1.0], t: 0.5, ..set_up.segment };
    let away = Leg { p0: leg(3.0).pf, pf: [0.0; 3], t: 0.5, ..set_up.segment };
    let route = fosavalo::Route::new(&[leg(3.0), away]).expect("they meet");
    let file = FlightFile {
        set_up,
        route: Some(route.clone()),
        on_route: vec![(0, 9), (20, 59), (60, 60), (199, 199)],
        exchanges: vec![(0, leg(1.0)), (15, leg(2.0)), (60, leg(5.0)), (60, leg(-4.0)), (150, leg(7.0))],
        logs: vec![("odd.log".to_string(), 200)],
    };
    // by hand, call by call
    let mut image = fosavalo::Image::set_up(&set_up).expect("it is set up");
    let (mut log, input) = (Log::new(), TickInput { attitude: [0.96, 0.28, 0.0, 0.0], dt: 0.004, ..TickInput::default() });
    for k in 0..200 {
        for (_, leg) in file.exchanges.iter().filter(|(tick, _)| *tick == k) {
            image.exchange(leg).expect("it is exchanged");
        }
        let on = file.on_route.iter().any(|(from, to)| (*from..=*to).contains(&k));
        let answer = if on { image.route_tick(&input, &route) } else { image.tick(&input) };
        log.append(&input, &answer.expect("no tick is refused")).expect("it fits");
    }
    std::fs::write(folder.join("odd.log"), log.as_bytes()).expect("it is written");
    let replay = |file: &FlightFile| {
        std::fs::write(folder.join("odd.flight"), file.text()).expect("it is written");
        fosavalo(&["replay", "odd.flight"], &folder).0
    };
    assert_eq!(replay(&file), Some(0));
    let without = |at: usize| file.exchanges.iter().enumerate().filter(|(k, _)| *k != at).map(|(_, each)| *each).collect();
    for at in [0, 1, 3, 4] {
        assert_eq!(replay(&FlightFile { exchanges: without(at), ..file.clone() }), Some(1), "{at}");
    }
    for on_route in [
        vec![(0, 9), (20, 59), (199, 199)],
        vec![(0, 10), (20, 60), (199, 199)],
        vec![(1, 9), (20, 60), (199, 199)],
        vec![(0, 9), (20, 60)],
    ] {
        assert_eq!(replay(&FlightFile { on_route, ..file.clone() }), Some(1));
    }
}

/// The words that differ are named with both of their bits.
#[test]
fn what_differs_is_named() {
    let folder = checkout::scratch("differs");
    std::fs::write(folder.join("my.txt"), "tick 30 gyro 0.5 0 0\n").expect("it is written");
    assert_eq!(fosavalo(&["fly", "my.txt", "--out", "."], &folder).0, Some(0));
    let mut bytes = std::fs::read(folder.join("my-shield.log")).expect("it is there");
    let word = |bytes: &[u8], at: usize| u32::from_le_bytes(bytes[at..at + 4].try_into().expect("four bytes"));
    let (torque, margin) = (108 * 16 + 68, 108 * 16 + 104);
    let was = [word(&bytes, torque), word(&bytes, margin)];
    for at in [torque, margin] {
        bytes[at] ^= 1;
    }
    std::fs::write(folder.join("my-shield.log"), &bytes).expect("it is written");
    let brief = |word: u32| output::brief(f32::from_bits(word));
    let [one, other] = was.map(|was| format!("was {:08x} ({}) and is {was:08x} ({})", was ^ 1, brief(was ^ 1), brief(was)));
    let line = format!("my-shield.flight: different at 1 of 30 records, first at record 17: torque_x {one}; margin {other}\n");
    assert_eq!(fosavalo(&["replay", "my-shield.flight"], &folder), (Some(1), line, String::new()));
    let (code, out, _) = fosavalo(&["replay", "--json", "my-shield.flight"], &folder);
    let word = |name: &str, was: u32| format!("{{\"word\":\"{name}\",\"log\":\"{:08x}\",\"now\":\"{was:08x}\"}}", was ^ 1);
    let words = [word("torque_x", was[0]), word("margin", was[1])].join(",");
    let line = format!(
        "{{\"flight\":\"my-shield.flight\",\"replay\":\"different\",\"record\":17,\"records\":30,\"different\":1,\"words\":[{words}]}}\n"
    );
    assert_eq!((code, out), (Some(1), line));
    // a log alone cannot be flown again
    let (code, out, _) = fosavalo(&["replay", "my-shield.log"], &folder);
    assert!(code == Some(2) && out.starts_with("my-shield.log: unreadable: a log alone does not tell"), "{out}");
}

/// Any set-up, route, exchanges and names give their bits back; a file that lacks a line is none.
#[test]
fn a_flight_s_file_gives_its_bits_back() {
    let mut random = Random(99);
    let mut any = |special: bool| {
        let x = [0x7f80_0001, 0xffc0_0000, 0x8000_0000, 1, 0x7f80_0000, 0xff80_0000];
        match random.below(4) {
            0 if special => x[random.below(x.len())],
            _ => 0x3f80_0000 + random.below(1 << 22) as u32,
        }
    };
    for round in 0..300 {
        let mut bytes: Vec<u8> = (0..SETUP_BYTES / 4).flat_map(|_| any(true).to_le_bytes()).collect();
        // a filter that set-up takes, and a profile
        bytes[192..204].copy_from_slice(&[80f32.to_bits(), 1000f32.to_bits(), round % 2].map(u32::to_le_bytes).concat());
        let set_up = SetUp::from_bytes(&bytes).expect("it has a profile");
        let mut leg = || {
            let mut three = || [0; 3].map(|_| f32::from_bits(any(true)));
            Leg { p0: three(), v0: three(), a0: three(), pf: three(), vf: three(), af: three(), t: f32::from_bits(any(true)) }
        };
        let (first, second) = (leg(), leg());
        let route = (round % 3 > 0)
            .then(|| fosavalo::Route::new(&[SetUp::falcon_quad().segment, SetUp::falcon_quad().segment]).expect("they meet"));
        let on_route = if route.is_some() { vec![(0, 0), (3, 70_000)] } else { Vec::new() };
        let logs = vec![("a name # {of} any kind.log".to_string(), 65_534), ("7 7.log".to_string(), 7_000)];
        let file = FlightFile { set_up, route, on_route, exchanges: vec![(0, first), (7, second), (7, first)], logs };
        let again = FlightFile::read(file.text().as_bytes()).expect("it is a flight's file");
        assert_eq!(again.text(), file.text());
        assert_eq!(again.set_up.to_bytes(), file.set_up.to_bytes());
        let bits = |file: &FlightFile| -> Vec<u32> {
            file.exchanges
                .iter()
                .flat_map(|(_, l)| [l.p0, l.v0, l.a0, l.pf, l.vf, l.af].concat().into_iter().chain([l.t]))
                .map(f32::to_bits)
                .collect()
        };
        assert_eq!((bits(&again), &again.logs, &again.on_route), (bits(&file), &file.logs, &file.on_route));
        if round == 0 {
            let text = file.text();
            for at in 0..text.lines().count() {
                let without: String =
                    text.lines().enumerate().filter(|(line, _)| *line != at).map(|(_, line)| format!("{line}\n")).collect();
                let left_out = text.lines().nth(at).unwrap_or_default();
                // an exchange that is left out is another flight; all else is missed
                assert_eq!(FlightFile::read(without.as_bytes()).is_ok(), left_out.starts_with("exchange "), "{left_out}");
            }
        }
    }
}

#[test]
fn what_is_no_flight_s_file() {
    let flight = flown(b"tick 5");
    let text = FlightFile::of(&flight, vec![("a.log".to_string(), 5)]).text();
    assert!(FlightFile::read(text.as_bytes()).is_ok());
    for (bytes, what) in [
        (String::new(), "no flight file: its first line is `flight 1`"),
        ("flight 2\n".to_string(), "line 1: no flight file: its first line is `flight 1`"),
        ("tick 5\n".to_string(), "line 1: no flight file: its first line is `flight 1`"),
        (text.replace("profile whole\n", ""), "profile: is not given: a flight file has all of its set-up"),
        (text.replace("ticks 5", "ticks 6"), "ticks: 6 are told of, and the logs have 5: a line may be lost"),
        (text.replace("ticks 5", "ticks 99999999999999999999"), "line 2: ticks: `99999999999999999999` is no whole number"),
        (text.clone() + "gyro 0 0 0\n", "line 26: gyro: no field of a flight file"),
        (text.clone() + "route 1 5\n", "route: there is no leg of it"),
        (text.clone() + "exchange 0 0 0 0  0 0 0  0 0 0  0 0 0  0 0 0  0 0 0  1\n", "line 26: exchange: ticks are counted from 1"),
        (text.clone() + "exchange 6 0 0 0  0 0 0  0 0 0  0 0 0  0 0 0  0 0 0  1\n", "exchange: its ticks go up, to at most 5"),
        (text.clone() + "exchange 1 0\n", "line 26: exchange: takes 19 numbers, here are 1"),
        (text.clone() + "log 3\n", "line 26: log: how many records, of which file? as in `log 20000 pass-shield.log`"),
    ] {
        assert_eq!(FlightFile::read(bytes.as_bytes()).map_err(|mistake| mistake.to_string()), Err(what.to_string()));
    }
    let mut random = Random(5);
    for _ in 0..3_000 {
        let mut bytes = text.clone().into_bytes();
        for _ in 0..=random.below(3) {
            let at = random.below(bytes.len());
            match random.below(3) {
                0 => bytes[at] = random.below(256) as u8,
                1 => bytes.truncate(at.max(1)),
                _ => bytes.insert(at, b"0 #-}{\nx"[random.below(8)]),
            }
        }
        // never panics
        if let Ok(file) = FlightFile::read(&bytes) {
            let _ = Again::new(&file).and_then(|mut again| again.tick(&TickInput::default()));
        }
    }
}

fn flown(scenario: &[u8]) -> Flight {
    let scenario = Scenario::read(scenario).expect("it is a scenario");
    Flight::of(&scenario.set_up, Rule::Shield, scenario.route.clone(), &scenario.inputs).expect("no set-up is refused")
}

/// A flight of so many ticks that is engaged, released, and for a while in the band with the planner, as it is at the first seams.
fn long(ticks: usize) -> String {
    let piece = |(k, from): (usize, usize)| {
        let (gyro, left) = ([1.9, 0.2, 1.8][k % 3], ticks - from);
        format!("tick {} gyro {gyro} 0 0\n", left.min(400))
            + &if left > 400 { format!("tick {}\n", (left - 400).min(597)) } else { String::new() }
    };
    (0..ticks).step_by(997).enumerate().map(piece).collect()
}

/// A flight longer than a log: every subcommand takes its logs, by their file or by their names, as one flight; a part by itself is told as what it is,
/// a gap is named; and a shorter flight of the same name leaves none of them behind.
#[test]
fn logs_that_go_on() {
    let folder = checkout::scratch("goes-on");
    let ticks = 2 * MOST_IN_SERIES + 5_000;
    std::fs::write(folder.join("long.txt"), long(ticks)).expect("it is written");
    let (code, out, _) = fosavalo(&["fly", "long.txt", "--out", "."], &folder);
    assert!(
        code == Some(0)
            && out.contains("the logs: ./long-shield-001.log to long-shield-003.log, ./long-earlier-001.log to long-earlier-003.log ("),
        "{out}"
    );
    let logs = ["001", "002", "003"].map(|number| format!("long-shield-{number}.log"));
    let [one, two, three] = logs.each_ref().map(String::as_str);
    let flight = flown(long(ticks).as_bytes());
    let kept: Vec<Record> = logs
        .iter()
        .flat_map(|log| {
            let bytes = std::fs::read(folder.join(log)).expect("it is there");
            LogView::from_bytes(&bytes).expect("it is a log").iter().collect::<Vec<_>>()
        })
        .collect();
    assert!(kept.iter().copied().eq(output::rows(&flight).map(|(_, record)| record)) && kept.len() == ticks);
    let given = ["--enter", "0.5", "--exit", "1"];
    let with = |names: &[&str]| fosavalo(&[&["check"], names, &given[..]].concat(), &folder);
    let all = format!("{one} to {three}: right, {ticks} records\n");
    assert_eq!(with(&[one, two, three]), (Some(0), all.clone(), String::new()));
    // in whatever order they are named, and as often
    assert_eq!(with(&[three, one, two, one]), (Some(0), all, String::new()));
    assert_eq!(
        fosavalo(&["check", "long-shield.flight"], &folder),
        (Some(0), format!("long-shield.flight: right, {ticks} records\n"), String::new())
    );
    // by itself the second begins in mid-flight, with the planner in control within the band
    let (code, out, _) = with(&[two]);
    assert_eq!(code, Some(1));
    assert!(out.starts_with(&format!("{two}: as if a flight began here ({one} goes before it): wrong at record 1 (place 0): ")), "{out}");
    let (code, out, _) = with(&[one, three]);
    let lines: Vec<&str> = out.lines().collect();
    assert_eq!(lines[0], format!("{one}: right, {MOST_IN_SERIES} records"));
    assert!(code == Some(1) && lines[1].starts_with(&format!("{three}: as if a flight began here ({two} goes before it): wrong")), "{out}");
    std::fs::rename(folder.join(two), folder.join("aside")).expect("it is there");
    let (_, out, _) = with(&[one, three]);
    assert!(out.contains(&format!("{three}: as if a flight began here ({two} is missing): wrong at record 1 ")), "{out}");
    let (code, out, _) = fosavalo(&["check", "long-shield.flight"], &folder);
    assert!(code == Some(2) && out.starts_with(&format!("long-shield.flight: unreadable: {two}: ")), "{out}");
    // one of another length than the file tells of
    std::fs::write(folder.join(two), Log::new().as_bytes()).expect("it is written");
    let (code, out, _) = fosavalo(&["check", "long-shield.flight"], &folder);
    assert_eq!(
        (code, out),
        (Some(2), format!("long-shield.flight: unreadable: {two}: it has 0 records, and its flight's file tells of {MOST_IN_SERIES}\n"))
    );
    std::fs::rename(folder.join("aside"), folder.join(two)).expect("it is there");
    // apart, each is taken as a flight
    let (code, out, _) = fosavalo(&[&["check", one, two, three, "--apart"], &given[..]].concat(), &folder);
    assert!(code == Some(1) && out.lines().count() == 3 && out.contains(&format!("\n{two}: wrong at record 1 ")), "{out}");
    let explained = |more: &[&str]| fosavalo(&[&["explain", two], &given[..], more].concat(), &folder).1;
    assert!(explained(&[]).contains("as if a flight began here"));
    assert!(!explained(&["--apart"]).contains("as if a flight began here"));
    let (code, _, err) = fosavalo(&[&["explain", one, two, "--apart"], &given[..]].concat(), &folder);
    assert!(code == Some(2) && err.starts_with("explain: one log at a time, or those of one flight"), "{err}");
    // a wrong record is counted over all of them, and found in its own
    let mut bytes = std::fs::read(folder.join(two)).expect("it is there");
    bytes[108 * 41 + 92] = 7;
    std::fs::write(folder.join(two), &bytes).expect("it is written");
    let place = MOST_IN_SERIES + 41;
    let (code, out, _) = with(&[one, two, three]);
    let line = format!("{one} to {three}: wrong at record {} (place {place}), record 42 of {two}: its flag is 7, neither 0 nor 1; by the margins the planner flies, since record ", place + 1);
    assert!(code == Some(1) && out.starts_with(&line), "{out}");
    bytes[108 * 41 + 92] = 0;
    std::fs::write(folder.join(two), &bytes).expect("it is written");
    // explained and printed as one
    let [by_file, by_names] = [&["explain", "long-shield.flight"][..], &[&["explain", one, two, three], &given[..]].concat()]
        .map(|words| fosavalo(words, &folder));
    assert!(
        by_file.1.starts_with(&format!("The 3 logs have {ticks} records. "))
            && by_file.1.ends_with("\nThe logs' own flags say the same at every record.\n")
    );
    assert!(by_file == by_names && by_file.0 == Some(0));
    let changes = flight.ticks.changes().len();
    assert_eq!(by_file.1.lines().count(), changes + 3);
    let (code, out, _) = fosavalo(&[&["explain", two], &given[..]].concat(), &folder);
    assert!(
        code == Some(0)
            && out.starts_with(&format!("The log has {MOST_IN_SERIES} records, as if a flight began here ({one} goes before it). ")),
        "{out}"
    );
    assert!(
        out.lines()
            .nth(1)
            .is_some_and(|line| line.contains(": by the rule the fallback was to fly; the log says that the planner did at ")
                && line.contains("As if a flight began here: a fresh shield starts so, and no margin was above 1.")),
        "{out}"
    );
    let csv = std::fs::read_to_string(folder.join("long-shield.csv")).expect("it is text");
    let (code, out, _) = fosavalo(&["log", one, two, three, "--out", "drawn"], &folder);
    assert!(code == Some(0) && out == csv);
    assert_eq!(fosavalo(&["explain", one, three, "--enter", "0.5", "--exit", "1"], &folder).0, Some(2));
    // a shorter one takes its place
    std::fs::write(folder.join("long.txt"), "tick 10\n").expect("it is written");
    assert_eq!(fosavalo(&["fly", "long.txt", "--out", "."], &folder).0, Some(0));
    assert!(logs.iter().all(|log| !folder.join(log).exists()) && folder.join("long-shield.log").is_file());
    std::fs::write(folder.join("long.txt"), long(MOST_IN_SERIES + 1)).expect("it is written");
    assert_eq!(fosavalo(&["fly", "long.txt", "--out", "."], &folder).0, Some(0));
    assert_eq!([one, two, three, "long-shield.log"].map(|log| folder.join(log).exists()), [true, true, false, false]);
}

/// A flight of 900,000 ticks is right as a series, and replays as the same.
#[test]
fn a_quarter_of_an_hour() {
    let folder = checkout::scratch("quarter");
    std::fs::write(folder.join("long.txt"), long(900_000)).expect("it is written");
    assert_eq!(fosavalo(&["fly", "long.txt", "--out", "."], &folder).0, Some(0));
    let (code, out, _) = fosavalo(&["check", "long-shield.flight", "long-earlier.flight"], &folder);
    assert_eq!((code, out.as_str()), (Some(0), "long-shield.flight: right, 900000 records\nlong-earlier.flight: right, 900000 records\n"));
    let (code, out, _) = fosavalo(&["replay", "long-shield.flight"], &folder);
    assert_eq!((code, out.as_str()), (Some(0), "long-shield.flight: the same, 900000 records\n"));
    std::fs::remove_dir_all(folder).expect("it is there");
}

fn log_of(records: &[Record]) -> Vec<u8> {
    let mut log = Log::new();
    log.try_extend(records.iter().copied()).expect("it fits");
    log.into_bytes()
}

/// Every cut of a log, room behind it, and an append torn at each of its 120 bytes, the file as long as it was or as it was to be: no record is lost, and none
/// is invented.
#[test]
fn salvaged() {
    let flight = flown(b"tick 7 gyro 0.5 0 0");
    let records: Vec<Record> = output::rows(&flight).map(|(_, record)| record).collect();
    assert!(records.iter().all(|record| record.as_bytes()[107] != 0 && record.as_bytes()[..12] != [0; 12]));
    let bytes = |records: &[Record]| records.iter().flat_map(|record| *record.as_bytes()).collect::<Vec<u8>>();
    let whole = log_of(&records);
    for cut in 0..=whole.len() {
        let salvaged = salvage(&whole[..cut]);
        assert_eq!(salvaged.records, bytes(&records[..(cut / 108).min(7)]), "{cut}");
        let dropped = cut - salvaged.records.len();
        match salvaged.end {
            End::Whole => assert_eq!(cut, whole.len()),
            End::Found(_) => panic!("{cut}"),
            End::None(own, zeros) => assert_eq!((own, zeros), (dropped, whole[..cut].iter().rev().take_while(|byte| **byte == 0).count())),
        }
    }
    for room in [1, 12, 107, 108, 500, 5_000] {
        for filling in [0, 0xa5] {
            let salvaged = [&whole[..], &vec![filling; room]].concat();
            assert_eq!((salvage(&salvaged).records, salvage(&salvaged).end), (&bytes(&records)[..], End::Found(room)));
        }
    }
    let (old, new) = (log_of(&records[..6]), whole);
    for torn in 0..=120 {
        let start = 6 * 108;
        let written = [&new[..start + torn], old.get(start + torn..).unwrap_or_default()].concat();
        for length in [written.len(), new.len()] {
            let mut file = written.clone();
            file.resize(length.max(written.len()), 0);
            let salvaged = salvage(&file);
            let kept = if torn >= 108 { 7 } else { 6 };
            assert_eq!(salvaged.records, bytes(&records[..kept]), "{torn} {length}");
        }
    }
}

#[test]
fn the_command_salvage() {
    let folder = checkout::scratch("salvages");
    let whole = log_of(&output::rows(&flown(b"tick 20 gyro 0.5 0 0")).map(|(_, record)| record).collect::<Vec<_>>());
    let put = |name: &str, bytes: &[u8]| std::fs::write(folder.join(name), bytes).expect("it is written");
    put("whole.log", &whole);
    put("cut.log", &whole[..108 * 13 + 50]);
    put("room.log", &[&whole[..], &[0; 1000]].concat());
    for (name, count, said) in [
        ("whole.log", 20, "20 records, a whole log; nothing was dropped"),
        ("cut.log", 13, "13 records; no log's end was found, and 50 bytes behind them dropped, 6 of them zeros at the end"),
        ("room.log", 20, "20 records up to the log's end; 1000 bytes behind it dropped"),
    ] {
        assert_eq!(fosavalo(&["salvage", name, "-o", "y.log"], &folder), (Some(0), String::new(), format!("y.log: {said}\n")));
        let salvaged = std::fs::read(folder.join("y.log")).expect("it is there");
        let log = LogView::from_bytes(&salvaged).expect("it is a log");
        assert_eq!((log.len(), &salvaged[..108 * count]), (count, &whole[..108 * count]));
    }
    // never in place, by whatever name
    #[cfg(unix)]
    std::os::unix::fs::symlink(folder.join("cut.log"), folder.join("link.log")).expect("a link");
    std::fs::hard_link(folder.join("cut.log"), folder.join("hard.log")).expect("a link");
    for to in ["cut.log", "./cut.log", "link.log", "hard.log"] {
        let (code, out, err) = fosavalo(&["salvage", "cut.log", "-o", to], &folder);
        assert_eq!((code, out.as_str(), err), (Some(2), "", format!("salvage: {to}: it is the file itself: salvage into another\n")));
    }
    assert_eq!(std::fs::read(folder.join("cut.log")).expect("it is there").len(), 108 * 13 + 50);
    for (words, what) in
        [(&["salvage", "cut.log"][..], "salvage: which log is to be written? "), (&["salvage", "-o", "y.log"], "salvage: which file? ")]
    {
        let (code, out, err) = fosavalo(words, &folder);
        assert_eq!((code, out.as_str(), err.starts_with(what)), (Some(2), "", true), "{err}");
    }
    // more than a log holds: logs that go on
    put("dump", &whole[..108].repeat(70_000));
    let (code, _, err) = fosavalo(&["salvage", "dump", "-o", "long.log"], &folder);
    assert!(code == Some(0) && err.starts_with("long-001.log to long-002.log: 70000 records; no log's end"), "{err}");
    let count = |name: &str| std::fs::read(folder.join(name)).map(|bytes| LogView::from_bytes(&bytes).map(|log| log.len()));
    assert_eq!([count("long-001.log"), count("long-002.log")].map(|count| count.expect("it is there")), [Ok(65_534), Ok(4_466)]);
    // and none is written over
    assert_eq!(fosavalo(&["salvage", "dump", "-o", "long.log"], &folder).0, Some(2));
}

/// The scenario of `new` has every field once, with a comment, and its numbers are those that hold without it.
#[test]
fn a_new_scenario() {
    let text = new::scenario();
    let scenario = Scenario::read(text.as_bytes()).expect("it is a scenario");
    assert_eq!((scenario.set_up.to_bytes(), scenario.inputs.len()), (SetUp::falcon_quad().to_bytes(), 600));
    assert_eq!(scenario.inputs[0], TickInput::default());
    assert_eq!(scenario.inputs[599], TickInput { gyro: BodyRate([1.8, 0.0, 0.0]), ..TickInput::default() });
    for (name, count) in fields().concat().into_iter().filter(|(name, _)| !["adrc", "set_up"].contains(name)) {
        let lines: Vec<&str> = text.lines().filter(|line| line.split_whitespace().next() == Some(name)).collect();
        let [line] = lines[..] else { panic!("{name}: {lines:?}") };
        let (field, comment) = line.split_once(" # ").expect("there is a comment");
        assert!(field.split_whitespace().count() == count + 1 && comment.len() > 5, "{line}");
    }
    for name in ["profile", "tick", "leg", "repeat", "aircraft", "seed", "noise", "camera", "desk", "sticks", "exchange", "centre"] {
        assert!(text.lines().any(|line| line.trim_start_matches("# ").starts_with(&format!("{name} "))), "{name}");
    }
    let folder = checkout::scratch("new");
    assert_eq!(fosavalo(&["new"], &folder), (Some(0), text.clone(), String::new()));
    assert_eq!(fosavalo(&["new", "my.txt"], &folder).0, Some(0));
    assert_eq!(std::fs::read_to_string(folder.join("my.txt")).expect("it is text"), text);
    assert_eq!(fosavalo(&["fly", "my.txt"], &folder).0, Some(0));
    let (code, _, err) = fosavalo(&["new", "my.txt"], &folder);
    assert!(code == Some(2) && err.starts_with("new: my.txt: "), "{err}");
}

/// What a simulated aircraft flew is kept, checked, explained and flown again as any flight; a file gives the same bytes each time, and one is told which loop it was.
#[test]
fn a_simulated_scenario_is_kept() {
    let folder = checkout::scratch("simulated");
    let text = std::fs::read_to_string("scenarios/simulated.txt").expect("the example, from where cargo runs a test");
    std::fs::write(folder.join("one.txt"), &text).expect("it is written");
    let desk = "desk 2 0.5 0.12 8 0.12 0.5 1 1 0.4\n";
    let more = "sticks 0.4 0.1 0\ntick 9000\nexchange here 0 0 -4 0 0 0 0 0 0 5\ncentre\ntick 6000\n";
    std::fs::write(folder.join("two.txt"), format!("{desk}{}\n{more}", text.split("\ntick").next().unwrap_or_default()))
        .expect("it is written");
    std::fs::write(folder.join("typed.txt"), "tick 50\n").expect("it is written");
    for (name, ticks) in [("one", 24_500), ("two", 15_000)] {
        let (code, out, err) = fosavalo(&["fly", &format!("{name}.txt"), "--out", "."], &folder);
        assert_eq!((code, err.as_str()), (Some(0), ""));
        assert!(out.contains(", aircraft simulated, seed 1\n") && out.contains("\nmetres from the way "), "{out}");
        assert!(folder.join(format!("{name}-above.points")).is_file());
        for rule in ["shield", "earlier"] {
            let flight = format!("{name}-{rule}.flight");
            assert_eq!(fosavalo(&["replay", &flight], &folder).1, format!("{flight}: the same, {ticks} records\n"));
            assert_eq!(fosavalo(&["check", &flight], &folder).1, format!("{flight}: right, {ticks} records\n"));
            let (code, out, _) = fosavalo(&["explain", &flight], &folder);
            assert!(code == Some(0) && out.ends_with("The log's own flags say the same at every record.\n"), "{out}");
        }
    }
    let bytes =
        || ["one-shield.log", "two-shield.log", "one-above.points"].map(|name| std::fs::read(folder.join(name)).expect("it is there"));
    let before = bytes();
    assert!(["one.txt", "two.txt"].iter().all(|name| fosavalo(&["fly", name, "--out", "."], &folder).0 == Some(0)));
    assert!(bytes() == before);
    let (_, out, _) = fosavalo(&["fly", "typed.txt", "--out", "."], &folder);
    assert!(out.contains("\nOpen loop: ") && out.contains("no torque moves them") && !folder.join("typed-above.points").exists(), "{out}");
}

/// Standard input is a log or a flight's file, and no file of that name is looked for.
#[test]
fn by_standard_input() {
    use std::io::Write;
    use std::process::Stdio;
    let folder = checkout::scratch("by-input");
    std::fs::write(folder.join("my.txt"), "tick 50\n").expect("it is written");
    assert_eq!(fosavalo(&["fly", "my.txt", "--out", "."], &folder).0, Some(0));
    for (name, more) in [("my-shield.log", &["--enter=0.5", "--exit=1"][..]), ("my-shield.flight", &[])] {
        let mut command = Command::new(checkout::program("fosavalo"));
        command.args(["check", "-"]).args(more).current_dir(&folder).stdin(Stdio::piped()).stdout(Stdio::piped());
        let mut child = command.spawn().expect("it runs");
        let bytes = std::fs::read(folder.join(name)).expect("it is there");
        child.stdin.take().expect("it is piped").write_all(&bytes).expect("it reads");
        let ended = child.wait_with_output().expect("it ends");
        assert_eq!((ended.status.code(), ended.stdout), (Some(0), b"standard input: right, 50 records\n".to_vec()));
    }
}

/// Records kept by `LogSeries` and by the files are the same flight.
#[test]
fn kept_as_a_series() {
    let folder: PathBuf = checkout::scratch("as-a-series");
    let mut series = LogSeries::new();
    let flight = flown(b"tick 100 gyro 1.9 0 0");
    series.extend(output::rows(&flight).map(|(_, record)| record));
    let logs = output::keep_logs(&folder, "x", &series).expect("they are written");
    assert_eq!(logs, ["x.log"]);
    let Some(Ok(kept)) = Kept::named(&[(folder.join("x.log"), Ok(()))], false).pop() else { panic!("it is there") };
    assert!(kept.records().expect("it is a log").into_iter().eq(series.iter()) && kept.as_if().is_none());
    assert_eq!(replay::Outcome::of(&kept).status(), 2);
}
