//! The program as a whole, and its command `fly`: where its files go, what it says, what is drawn.

use fly::commands::SUBCOMMANDS;
use fly::flight::{Flight, Rule};
use fly::picture::{Picture, Row};
use fly::scenario::{fields, Scenario};
use fly::table::Pair;
use fly::{curve, desk, output, rotor};
use std::path::PathBuf;
use std::process::{Command, Stdio};

/// The folder of what was built with this test.
fn built() -> PathBuf {
    let test = std::env::current_exe().expect("a test knows where it is");
    test.ancestors().nth(2).expect("it is in a folder `deps` there").to_path_buf()
}

/// A folder of a test's own, empty.
fn folder(name: &str) -> PathBuf {
    let folder = built().join("scratch/commands").join(name);
    let _ = std::fs::remove_dir_all(&folder);
    std::fs::create_dir_all(&folder).expect("a folder");
    folder
}

/// The command in that folder; it finds no gnuplot, which it does not need.
fn fly(arguments: &[&str], folder: &PathBuf) -> Command {
    program(&[&["fly"], arguments].concat(), folder)
}

fn program(arguments: &[&str], folder: &PathBuf) -> Command {
    let mut command = Command::new(built().join("fosavalo"));
    command.args(arguments).current_dir(folder).env("PATH", "");
    command
}

fn said(command: &mut Command) -> (Option<i32>, String, String) {
    let output = command.output().expect("it runs");
    let text = |bytes: &[u8]| String::from_utf8_lossy(bytes).into_owned();
    (output.status.code(), text(&output.stdout), text(&output.stderr))
}

/// Flights go to `flights`, which is not below `target`, or to the folder that is named.
#[test]
fn where_files_go() {
    let folder = folder("where");
    std::fs::write(folder.join("my.txt"), "tick 3\ndt 2.5\ntick 1\ndt nan\ntick 1\ndt -1\ntick 1\n").expect("it is written");
    for (arguments, to) in [(&["my.txt"][..], "flights"), (&["my.txt", "--out", "else/where"], "else/where")] {
        let (code, out, err) = said(&mut fly(arguments, &folder));
        assert_eq!((code, err.as_str()), (Some(0), ""));
        assert!(out.contains(&format!("`fosavalo log {to}/my-shield.flight`")), "{out}");
        for file in ["my-shield.csv", "my-earlier.csv", "my-shield.log", "my-earlier.log", "my-shield.flight", "my-earlier.flight"] {
            assert!(folder.join(to).join(file).is_file(), "{file}");
        }
    }
    assert!(!folder.join("target").exists());
    // the seconds are those that were given; a dt that tells no time is a millisecond
    let csv = std::fs::read_to_string(folder.join("flights/my-shield.csv")).expect("it is text");
    let seconds: Vec<&str> = csv.lines().skip(1).filter_map(|line| line.split(',').nth(1)).collect();
    assert_eq!(seconds, ["0.000000", "0.001000", "0.002000", "2.502000", "2.503000", "2.504000"]);
}

#[test]
fn mistakes() {
    let folder = folder("mistakes");
    std::fs::write(folder.join("bad.txt"), "gyro 1\ntick 1\n").expect("it is written");
    for (arguments, what) in [
        (&["bad.txt"][..], "fly: bad.txt: line 1: gyro: takes 3 numbers, here are 1\n"),
        (&["missing.txt"], "fly: missing.txt: "),
        (&["bad.txt", "bad.txt"], "fly: one scenario at a time"),
        (&["--other"], "fly: `--other` is no option"),
        (&["--out"], "fly: --out wants a folder"),
    ] {
        let (code, out, err) = said(&mut fly(arguments, &folder));
        assert_eq!((code, out.as_str(), err.starts_with(what), err.lines().count()), (Some(2), "", true, 1), "{err}");
    }
}

/// The help has every option and every field.
#[test]
fn help() {
    let (code, out, err) = said(&mut fly(&["--help"], &folder("help")));
    assert_eq!((code, err.as_str()), (Some(0), ""));
    let fields = fields().concat();
    let named = fields.iter().map(|(name, count)| format!("{name} {count}"));
    let others = [
        "aircraft NAME",
        "seed N",
        "noise NUMBER",
        "camera NAME",
        "desk NUMBERS",
        "exchange NUMBERS",
        "centre",
        "planner typed NUMBERS",
        "planner simulated",
    ];
    for word in ["--out FOLDER", "--choices", "--help", "profile NAME", "leg NUMBERS", "repeat N { .. }", "tick N", "row NUMBERS"]
        .into_iter()
        .chain(others)
        .map(String::from)
        .chain(named)
    {
        assert!(out.contains(&format!(" {word}")), "{word}");
    }
}

/// A reader that goes away early, as `head`, is no mistake, and the files are there all the same.
#[test]
fn the_reader_may_go_away() {
    let folder = folder("goes-away");
    let mut child = fly(&[], &folder).stdout(Stdio::piped()).stderr(Stdio::piped()).spawn().expect("it runs");
    drop(child.stdout.take());
    let ended = child.wait_with_output().expect("it ends");
    assert_eq!((ended.status.code(), String::from_utf8_lossy(&ended.stderr).as_ref()), (Some(0), ""));
    assert!(folder.join("flights/pass-earlier.log").is_file());
}

/// Where gnuplot is there: a flight that the planner flew no tick of has its colour in the legend alone.
#[test]
fn nobody_is_painted_where_nobody_flew() {
    let folder = folder("drawn");
    let scenario = Scenario::read(b"yaw nan\ntick 50\n").expect("it is a scenario");
    let flight = Flight::of(&scenario.set_up, Rule::Shield, None, &scenario.inputs).expect("no set-up is refused");
    let row = Row { suffix: "", caption: "a flight without a margin", ticks: &flight.ticks, would: false, end: "" };
    let said = Picture { title: "drawn", thresholds: Some((0.5, 1.0)), rows: &[row] }.draw(&folder.join("drawn")).expect("a folder");
    if said.starts_with("no picture: gnuplot is missing") {
        eprintln!("{said}, so nothing was looked at");
        return;
    }
    assert!(said.starts_with("the picture: "), "{said}");
    let svg = std::fs::read_to_string(folder.join("drawn.svg")).expect("it is text");
    let painted = |colour: &str| svg.to_ascii_lowercase().matches(&format!("<polygon fill = '{colour}'")).count();
    // in the legend; and there, in the flight and in the close-up
    assert_eq!(["rgb( 42, 157, 143)", "rgb(231, 111,  81)"].map(painted), [1, 3]);
}

/// The command that is printed for a look at a log may be pasted into a shell, whatever the folder is called.
#[test]
fn what_is_printed_can_be_pasted() {
    let folder = folder("pasted");
    std::fs::write(folder.join("s.txt"), "tick 5\n").expect("it is written");
    for out in ["plain", "my flights", "it's; mine"] {
        let (code, said, _) = said(&mut program(&["fly", "s.txt", "--out", out], &folder));
        assert_eq!(code, Some(0));
        let printed = said.split('`').find_map(|word| word.strip_prefix("fosavalo log ")).expect("the command");
        assert_eq!(out == "plain", !printed.contains('\''), "{printed}");
        let line = format!("exec '{}' log {printed} --out again", checkout::program("fosavalo").display());
        let ran = Command::new("sh").args(["-c", &line]).current_dir(&folder).output().expect("it runs");
        assert!(ran.status.success() && ran.stdout.starts_with(b"tick,seconds,"), "{}", String::from_utf8_lossy(&ran.stderr));
    }
}

/// What the pictures say beside their lines, those of the pages and, where gnuplot is there, as they are drawn now.
#[test]
fn what_the_pictures_say() {
    let folder = folder("say");
    let says = |svg: &str, name: &str| {
        let wanted: &[(&str, usize)] = match name {
            "desk" => &[("seconds", 1), ("the centre button", 1), ("no number: the cable is out", 1)],
            "curve" => &[("control never changed hands", 1), ("control would have changed hands 2 times", 1)],
            "rotor" => &[("on the ground", 2), ("control changed hands 3 times", 1)],
            _ => &[("seconds; 202 ticks beyond pauses are not shown", 1)],
        };
        for (text, times) in wanted {
            assert_eq!(svg.matches(&format!("<text>{text}</text>")).count(), *times, "{name}: {text}");
        }
    };
    let top = checkout::root().expect("a checkout");
    for name in ["desk", "curve", "rotor"] {
        says(&std::fs::read_to_string(top.join(format!("docs/{name}.svg"))).expect("a page's picture"), name);
    }
    let clock = Scenario::read(include_bytes!("../scenarios/clock.txt")).expect("it is a scenario");
    let pair = Pair::new("clock", |rule| Flight::of(&clock.set_up, rule, None, &clock.inputs)).expect("no set-up is refused");
    let drawn = [
        ("clock", output::write(&folder, "clock", "clock", &pair)),
        ("desk", desk::write(&folder)),
        ("curve", curve::write(&folder)),
        ("rotor", rotor::write(&folder)),
    ];
    for (name, said) in drawn {
        let said = said.expect("a folder").pop().expect("a line");
        if said.starts_with("no picture: gnuplot is missing") {
            eprintln!("{said}, so no new one was looked at");
            return;
        }
        assert!(said.starts_with("the picture: "), "{said}");
        says(&std::fs::read_to_string(folder.join(format!("{name}.svg"))).expect("it is text"), name);
    }
}

/// Each subcommand is in the help, has a help of its own, and words mistakes alike; every mistake is one line and ends with 2.
#[test]
fn one_program() {
    let folder = folder("one-program");
    let (code, out, err) = said(&mut program(&["--help"], &folder));
    assert_eq!((code, err.as_str()), (Some(0), ""));
    for subcommand in &SUBCOMMANDS {
        let name = subcommand.name;
        assert!(out.contains(&format!("\n  {name} ")), "{name}");
        for help in ["--help", "-h"] {
            assert_eq!(said(&mut program(&[name, help], &folder)), (Some(0), subcommand.help(), String::new()));
        }
        assert!(
            subcommand.help().starts_with(&format!("fosavalo {name}")) && subcommand.help().contains("\n  --help, -h     this\n"),
            "{name}"
        );
        let widest = subcommand.help().lines().map(|line| line.chars().count()).max();
        assert!(widest <= Some(130), "{name}: {widest:?}");
        for option in ["--other", "--other=1", "-x"] {
            let what = format!("{name}: `{}` is no option (fosavalo {name} --help)\n", option.trim_end_matches("=1"));
            assert_eq!(said(&mut program(&[name, option], &folder)), (Some(2), String::new(), what));
        }
    }
    let names = SUBCOMMANDS.each_ref().map(|subcommand| subcommand.name).join(", ");
    for (arguments, what) in [
        (&[][..], format!("fosavalo: which subcommand? there are {names} (fosavalo --help)\n")),
        (&["land"], format!("fosavalo: `land` is no subcommand; there are {names} (fosavalo --help)\n")),
    ] {
        assert_eq!(said(&mut program(arguments, &folder)), (Some(2), String::new(), what));
    }
}

/// An option and its value in one word or two, before a file or behind it; behind `--` nothing is an option, and `-` is standard input.
#[test]
fn one_reading() {
    let folder = folder("one-reading");
    std::fs::write(folder.join("-x.txt"), "tick 3\n").expect("it is written");
    let table = said(&mut fly(&["./-x.txt"], &folder));
    assert_eq!(table.0, Some(0));
    for arguments in
        [&["--out", "flights", "--", "-x.txt"][..], &["--out=else", "--out=flights", "./-x.txt"], &["./-x.txt", "--out=flights"]]
    {
        assert_eq!(said(&mut fly(arguments, &folder)), table);
    }
    let mut child = fly(&["-"], &folder).stdin(Stdio::piped()).stdout(Stdio::piped()).stderr(Stdio::piped()).spawn().expect("it runs");
    std::io::Write::write_all(&mut child.stdin.take().expect("it is piped"), b"tick 3\n").expect("it reads");
    let ended = child.wait_with_output().expect("it ends");
    assert_eq!(ended.status.code(), Some(0), "{}", String::from_utf8_lossy(&ended.stderr));
    let [one, other] = ["-x", "stdin"].map(|name| std::fs::read(folder.join(format!("flights/{name}-shield.log"))).expect("it is there"));
    assert_eq!(one, other);
    let (code, out, err) = said(&mut fly(&["./-x.txt", "--choices=yes"], &folder));
    assert_eq!((code, out.as_str(), err.as_str()), (Some(2), "", "fly: --choices takes no value\n"));
}
