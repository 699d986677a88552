//! The logs that `fly` keeps, the CSV, and the command `log`.

use fly::flight::{Flight, Rule};
use fly::output;
use fly::pass;
use fly::scenario::{number, Scenario};
use fly::ticks::Ticks;
use fosavalo::{Log, Record, TickInput, MOST_RECORDS};
use std::io::Read;
use std::path::PathBuf;
use std::process::{Command, Output, Stdio};

fn csv(ticks: impl Iterator<Item = (f64, Record)>) -> String {
    let mut bytes = Vec::new();
    output::csv(ticks, &mut bytes).expect("a vector takes all");
    String::from_utf8(bytes).expect("it is text")
}

fn flown(scenario: &[u8]) -> Flight {
    let scenario = Scenario::read(scenario).expect("it is a scenario");
    Flight::of(&scenario.set_up, Rule::Shield, scenario.route.clone(), &scenario.inputs).expect("no set-up is refused")
}

fn flights() -> [Flight; 5] {
    [
        flown(include_bytes!("../scenarios/band.txt")),
        flown(include_bytes!("../scenarios/headings.txt")),
        flown(include_bytes!("../scenarios/clock.txt")),
        flown(include_bytes!("../scenarios/route.txt")),
        pass::fly(&pass::SHOWN, pass::DRAWN, Rule::Earlier).expect("no pass is refused"),
    ]
}

/// The log has the flight: the same ticks at the same times, and so the same CSV.
#[test]
fn a_log_is_its_flight() {
    for flight in flights() {
        let log = output::log(&flight).expect("it fits");
        let ticks = Ticks::of(&log.iter().collect::<Vec<_>>());
        assert_eq!((log.len(), ticks.len()), (flight.ticks.len(), flight.ticks.len()));
        assert_eq!(ticks.changes(), flight.ticks.changes());
        assert!(csv(ticks.iter().map(|tick| tick.seconds).zip(&log)) == csv(output::rows(&flight)));
    }
}

/// Every cell of the CSV reads as the bits that it is, of flights and of records that no tick makes.
#[test]
fn the_csv_has_every_bit() {
    let mut log = Log::new();
    let mut bits = 1u64;
    let mut any = || {
        bits = bits.wrapping_mul(6364136223846793005).wrapping_add(1442695040888963407);
        let word = (bits >> 32) as u32;
        if word & 3 == 0 { word | 0x7f80_0000 } else { word }.to_le_bytes()
    };
    for _ in 0..2000 {
        let (input, answer): (Vec<u8>, Vec<u8>) = ((0..17).flat_map(|_| any()).collect(), (0..10).flat_map(|_| any()).collect());
        log.append_bytes(&input, &answer).expect("it fits");
    }
    let logs = flights().into_iter().map(|flight| output::log(&flight).expect("it fits")).chain([log]);
    for log in logs {
        let text = csv(log.iter().map(|record| (0.0, record)));
        let mut lines = text.lines();
        let names: Vec<&str> = lines.next().unwrap_or_default().split(',').collect();
        assert_eq!((names.len(), names[2], names[18], names[25], names[28]), (29, "gyro_x", "delivered_z", "flag", "margin"));
        for (line, record) in lines.by_ref().zip(&log) {
            let cells: Vec<&str> = line.split(',').skip(2).collect();
            let word = |(at, cell): (usize, &&str)| match at {
                23 => cell.parse().expect("a whole number"),
                _ => number(cell).expect("a number").to_bits(),
            };
            assert_eq!(cells.iter().enumerate().map(word).collect::<Vec<u32>>(), record.words(), "{line}");
        }
        assert_eq!((lines.next(), text.lines().count()), (None, log.len() + 1));
    }
}

/// The command; it finds no gnuplot, which it does not need.
fn command(arguments: &[&str], folder: &PathBuf) -> Command {
    let mut command = Command::new(checkout::program("fosavalo"));
    command.arg("log").args(arguments).arg("--out").arg(folder).current_dir(folder).env("PATH", "");
    command
}

fn said(output: &Output) -> (Option<i32>, String, String) {
    let text = |bytes: &[u8]| String::from_utf8_lossy(bytes).into_owned();
    (output.status.code(), text(&output.stdout), text(&output.stderr))
}

#[test]
fn the_command_prints_a_log() {
    let folder = checkout::scratch("prints");
    let flight = flown(include_bytes!("../scenarios/headings.txt"));
    std::fs::write(folder.join("flown.log"), output::log(&flight).expect("it fits").as_bytes()).expect("it is written");
    for more in [&[][..], &["--enter", "0.2", "--exit=0.4"]] {
        let (code, out, err) = said(&command(&[&["flown.log"], more].concat(), &folder).output().expect("it runs"));
        assert_eq!((code, err.as_str()), (Some(0), "no picture: gnuplot is missing (Debian: apt-get install gnuplot-nox)\n"));
        assert!(out == csv(output::rows(&flight)));
    }
    std::fs::write(folder.join("empty.log"), Log::new().as_bytes()).expect("it is written");
    let (code, out, err) = said(&command(&["empty.log"], &folder).output().expect("it runs"));
    assert_eq!((code, out.lines().count(), err.as_str()), (Some(0), 1, "no picture: no tick\n"));
}

#[test]
fn the_command_refuses_what_is_no_log() {
    let folder = checkout::scratch("refuses");
    let whole = output::log(&flown(b"tick 20")).expect("it fits").as_bytes().to_vec();
    let short = whole[..whole.len() - 1].to_vec();
    let mut counted = whole.clone();
    counted[whole.len() - 12] ^= 1;
    for bytes in [&short[..], &counted, &[&whole[..], &[0]].concat(), b"", b"tick,seconds\n", &[0; 12]] {
        std::fs::write(folder.join("bad.log"), bytes).expect("it is written");
        let (code, out, err) = said(&command(&["bad.log"], &folder).output().expect("it runs"));
        assert_eq!((code, out.as_str()), (Some(2), ""));
        let refusal = fosavalo::LogView::from_bytes(bytes).expect_err("it is no log");
        assert_eq!((err, refusal.number()), (format!("log: bad.log: {refusal}\n"), Some(8)));
    }
    for (arguments, what) in [
        (&["missing.log"][..], "log: missing.log: "),
        (&[], "log: which log?"),
        (&["a", "b"], "log: one log at a time"),
        (&["--other"], "log: `--other` is no option"),
        (&["bad.log", "--enter", "1"], "log: --enter and --exit go together\n"),
        (&["bad.log", "--exit", "one"], "log: --exit: `one` is no number\n"),
        (&["bad.log", "--enter", "0.4", "--exit", "0.2"], "log: no thresholds: set-up would have made them enter 0.4 and exit 0.8 ("),
    ] {
        let (code, out, err) = said(&command(arguments, &folder).output().expect("it runs"));
        assert_eq!((code, out.as_str(), err.starts_with(what)), (Some(2), "", true), "{err}");
    }
}

/// A reader that goes away early is no mistake, and nothing panics.
#[test]
fn the_command_s_reader_may_go_away() {
    let folder = checkout::scratch("goes-away");
    let mut log = Log::new();
    let answer = flown(b"tick 1").ticks[0].answer;
    (0..MOST_RECORDS).for_each(|_| log.append(&TickInput::default(), &answer).expect("it fits"));
    std::fs::write(folder.join("long.log"), log.as_bytes()).expect("it is written");
    let mut child = command(&["long.log"], &folder).stdout(Stdio::piped()).stderr(Stdio::piped()).spawn().expect("it runs");
    let mut start = [0; 100];
    child.stdout.take().expect("it is piped").read_exact(&mut start).expect("there is more than that");
    assert!(start.starts_with(b"tick,seconds,gyro_x,"));
    let (code, _, err) = said(&child.wait_with_output().expect("it ends"));
    assert_eq!((code, err.starts_with("no picture: ")), (Some(0), true), "{err}");
}
