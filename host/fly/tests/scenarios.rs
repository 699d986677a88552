//! Scenarios: what is read, and what is said of a bad one; what is typed and what an aircraft flies.

use fly::flight::{Flight, Rule, RULES};
use fly::flight_file::{Again, FlightFile};
use fly::pass::{self, Choice, Heading, Way};
use fly::pattern::{exactly, leg_words};
use fly::scenario::{fields, pattern, set_up_words, Scenario, MOST_TICKS, OTHERS};
use fly::simulated::{self, Flown};
use fly::table::{table, Pair};
use fly::{desk, output};
use fosavalo::{Answer, BodyRate, Image, Leg, Pilot, Profile, SetUp, TickInput};
use fosavalo_desk::{Desk, DeskSetUp, Stick, Sticks};

fn mistake(text: &str) -> String {
    match Scenario::read(text.as_bytes()) {
        Ok(_) => "none".to_string(),
        Err(mistake) => mistake.to_string(),
    }
}

#[test]
fn mistakes_name_their_line_and_field() {
    let field = "exit 1\n\ngyro";
    assert_eq!(mistake(&format!("{field} 1 2\ntick 1")), "line 3: gyro: takes 3 numbers, here are 2");
    assert_eq!(mistake(&format!("{field} 1 2 3 4 # four\ntick 1")), "line 3: gyro: takes 3 numbers, here are 4");
    assert_eq!(mistake(&format!("{field} 1 2 o\ntick 1")), "line 3: gyro: `o` is no number");
    assert_eq!(mistake("enter 1e39\ntick 1"), "line 1: enter: `1e39` is beyond f32; write inf or -inf");
    assert_eq!(mistake("enter 0x123456789\ntick 1"), "line 1: enter: `0x123456789` is no pattern of 32 bits");
    assert_eq!(mistake("enter 0x+1\ntick 1"), "line 1: enter: `0x+1` is no pattern of 32 bits");
    assert_eq!(mistake("enter\ntick 1"), "line 1: enter: takes 1 number, here are 0");
    assert_eq!(mistake("enter 1\nenter 2\ntick 1"), "line 2: enter: given before, in line 1");
    assert_eq!(mistake("adrc_yaw 1 2 3 4\nadrc 1 2 3 4 1 2 3 4 1 2 3 4\ntick 1"), "line 2: adrc: given before, in line 1");
    assert_eq!(mistake("tick 1\nenter 2\n"), "line 2: enter: belongs to the set-up, which stands before the first tick");
    assert_eq!(mistake("tick\n"), "line 1: tick: how many? as in `tick 100`");
    assert_eq!(mistake("tick -1\n"), "line 1: tick: `-1` is no whole number above 0");
    assert_eq!(mistake("tick 0\n"), "line 1: tick: `0` is no whole number above 0");
    assert_eq!(mistake("tick 5 gyro 1 2\n"), "line 1: gyro: takes 3 numbers, here are 2");
    assert_eq!(mistake("tick 5 gyro 1 2 3 yaw\n"), "line 1: yaw: takes 1 number, here are 0");
    assert!(mistake("tick 5 enter 1\n").starts_with("line 1: tick: `enter` is no field of an input; there are gyro, attitude, "));
    assert_eq!(mistake("row 1 2 3\n"), "line 1: row: takes 17 numbers, here are 3");
    assert!(mistake("\n\nGyro 0 0 0\n").starts_with("line 3: Gyro: no such field; there are k_r, "));
    assert!(mistake("enter 0.5\n").starts_with("no ticks: "));
    assert_eq!(mistake("profile\ntick 1"), "line 1: profile: is whole or lost-rotor");
    assert_eq!(mistake("profile 1\ntick 1"), "line 1: profile: is whole or lost-rotor");
    assert_eq!(mistake("profile whole lost-rotor\ntick 1"), "line 1: profile: is whole or lost-rotor");
    assert_eq!(mistake("profile whole\nprofile lost-rotor\ntick 1"), "line 2: profile: given before, in line 1");
    assert_eq!(mistake("tick 1\nprofile whole"), "line 2: profile: belongs to the set-up, which stands before the first tick");
    assert_eq!(mistake(&format!("tick {MOST_TICKS}\ntick 1")), "line 2: tick: more than 1000000 ticks in all");
    assert_eq!(mistake("tick 99999999999999999999\n"), "line 1: tick: `99999999999999999999` is no whole number above 0");
    assert_eq!(
        Scenario::read(b"enter 1\n\xff\ntick 1\n").map(|_| ()).map_err(|m| m.to_string()),
        Err("line 2: not UTF-8 text".to_string())
    );
    assert_eq!(mistake("\u{feff}enter 1\r\ntick 1\r\n"), "none");
    // no filter at all
    let unfiltered = |line: usize, both: &str| {
        let what = "the gyro would not be filtered, which set-up refuses (11): give an fc above 0 and below half of fs, or leave both out for 80 of 1000";
        format!("line {line}: fc: with {both} {what}")
    };
    assert_eq!(mistake("enter 1\nfc 0\ntick 1"), unfiltered(2, "fc 0 and fs 1000"));
    assert_eq!(mistake("fc 100\n\nfs 200\ntick 1"), unfiltered(3, "fc 100 and fs 200"));
    assert_eq!(mistake("fc nan\ntick 1"), unfiltered(1, "fc NaN and fs 1000"));
    assert_eq!(mistake(&format!("set_up {}\ntick 1", "0 ".repeat(50))), unfiltered(1, "fc 0 and fs 0"));
    assert_eq!((mistake("fc 499.9\ntick 1"), mistake("fs inf\ntick 1")), ("none".to_string(), "none".to_string()));
}

/// Legs make a route, which is flown in place of the segment; ones that do not are a mistake.
#[test]
fn legs() {
    let leg = |from: &str, to: &str| format!("leg {from} 0 0  0 0 0  0 0 0   {to} 0 0  0 0 0  0 0 0   0.5\n");
    let scenario = |legs: &str| Scenario::read(format!("{legs}tick 1000\n").as_bytes()).expect("it is a scenario");
    let two = scenario(&(leg("0", "1") + &leg("1", "0")));
    assert_eq!(two.route.as_ref().map(|route| route.legs().count()), Some(2));
    let fly =
        |scenario: &Scenario| Flight::of(&scenario.set_up, Rule::Shield, scenario.route.clone(), &scenario.inputs).expect("it is flown");
    let psi = |scenario: &Scenario| fly(scenario).ticks.iter().map(|tick| tick.answer.psi).fold(0.0, f32::max);
    assert!(psi(&two) > 0.1 && psi(&scenario("")) == 0.0);
    let apart = leg("0", "1") + "\n# and\n" + &leg("1", "0") + &leg("2", "0") + &leg("3", "0") + "tick 1";
    assert!(mistake(&apart).starts_with("line 5: leg 3: refused (7): "), "{}", mistake(&apart));
    assert!(mistake(&(leg("0", "0").repeat(34) + "tick 1")).starts_with("line 33: leg 33: refused (5): "));
    assert_eq!(scenario(&leg("0", "0").repeat(32)).route.map(|route| route.len()), Some(32));
    assert_eq!(mistake("leg 1 2 3\ntick 1"), "line 1: leg: takes 19 numbers, here are 3");
    assert_eq!(mistake(&("tick 1\n".to_string() + &leg("0", "0"))), "line 2: leg: stands before the first tick");
}

/// Legs are flown in place of the segment, so both are a mistake, in whatever order; a tick that is a row as well.
#[test]
fn a_segment_beside_legs() {
    let said = |field: &str, line: usize| {
        format!("line 3: tick: {field} of line {line} is the segment's, and the legs are flown in its place: leave out one or the other")
    };
    for (field, numbers) in [("p0", "0 0 0"), ("pf", "1 0 0"), ("af", "0 0 0"), ("t", "2")] {
        assert_eq!(mistake(&format!("{field} {numbers}\n{}\ntick 5\n", leg("0", "1"))), said(field, 1));
        assert_eq!(mistake(&format!("repeat 1 {{ {} }}\n{field} {numbers}\ntick 5\n", leg("0", "1"))), said(field, 2));
    }
    assert_eq!(mistake(&format!("{}\nt 2\nrow {}\n", leg("0", "1"), "0 ".repeat(17))), said("t", 2).replace("tick:", "row:"));
    let set_up = format!("enter 0.3\n{}\ntick 5\n", leg("0", "1"));
    assert!(Scenario::read(set_up.as_bytes()).is_ok() && Scenario::read(b"pf 1 0 0\nt 2\ntick 5\n").is_ok());
}

/// A number that is too large is called too large.
#[test]
fn too_many_ticks() {
    for count in ["10000001", "18446744073709551615"] {
        let said = mistake(&format!("tick {count}\n"));
        assert!(said.starts_with("line 1: tick: more than ") && said.ends_with(" ticks in all"), "{said}");
    }
    assert_eq!(mistake("tick -1\n"), "line 1: tick: `-1` is no whole number above 0");
    assert_eq!(mistake("yaw 1e39\ntick 1\n"), "line 1: yaw: `1e39` is beyond f32; write inf or -inf");
}

/// A leg of half a second along the first axis.
fn leg(from: &str, to: &str) -> String {
    format!("leg {from} 0 0  0 0 0  0 0 0   {to} 0 0  0 0 0  0 0 0   0.5")
}

/// Repeats make the route that their legs make when they are written out, on lines of their own or not.
#[test]
fn repeats() {
    let route = |text: &str| Scenario::read(format!("{text}\ntick 1\n").as_bytes()).expect("it is a scenario").route.expect("it has legs");
    let (out, there, back, home) = (leg("0", "1"), leg("1", "2"), leg("2", "1"), leg("1", "0"));
    let written_out = [&out, &there, &back, &there, &back, &there, &back, &home].map(|leg| leg.clone() + "\n").concat();
    for text in [
        format!("{out}\nrepeat 3 {{\n{there}\n{back}\n}}\n{home}"),
        format!("{out} repeat 3 {{ {there} {back} }} {home}"),
        format!("{out}\nrepeat 3{{{there}\n{back}}}{home} # all of it"),
        format!("{out} repeat 1 {{ repeat 1 {{ repeat 1 {{ repeat 3 {{ {there} {back} }} }} }} }} repeat 9 {{ }} {home}"),
        format!("{out}\nrepeat 1 {{ {there} {back} }}\nrepeat 2 {{\nrepeat 9 {{}}\n{there} {back} }}\n{home}"),
    ] {
        assert_eq!(route(&text), route(&written_out), "{text}");
    }
    let one = include_bytes!("../scenarios/loop.txt");
    let other = Scenario::read(include_bytes!("../scenarios/rounds.txt")).expect("it is a scenario");
    assert_eq!(Scenario::read(one).expect("it is a scenario").route, other.route);
    let expanded = pattern(one).expect("it is a pattern");
    assert!(expanded.legs.iter().map(|placed| placed.leg).eq(expanded.route.legs()));
    assert_eq!(expanded.legs.iter().map(|placed| placed.line).collect::<Vec<_>>(), [6, 8, 9, 10, 11, 8, 9, 10, 11, 8, 9, 10, 11, 13]);
    assert_eq!((expanded.seconds(), expanded.pattern.as_bytes().len(), expanded.route.len()), (28.0, 6 * 77 + 4, 14));
}

/// And what is wrong with one, by line and field.
#[test]
fn repeats_that_are_none() {
    let stay = leg("0", "0");
    for (count, word) in [("0", "0"), ("10", "10"), ("-1", "-1"), ("x", "x"), ("3.0", "3.0")] {
        let said = format!("line 2: repeat: `{word}` is no count: a repeat is flown 1 to 9 times");
        assert_eq!(mistake(&format!("{stay}\nrepeat {count} {{ {stay} }}\ntick 1")), said);
    }
    for text in ["repeat {\n}", "repeat 3\n{\n}", "repeat\n", "repeat 3 3 {\n}"] {
        assert_eq!(mistake(text), "line 1: repeat: wants a count and a brace, as in `repeat 3 {`");
    }
    assert_eq!(mistake(&format!("repeat 2 {{\n{stay}\n}}\n}}\ntick 1")), "line 4: }: closes nothing");
    assert_eq!(mistake(&format!("repeat 2 {{\nrepeat 3 {{ {stay}\n}}\n")), "line 1: repeat: has no `}`");
    assert_eq!(mistake("\nrepeat 2 {\nrepeat 3 {\n"), "line 3: repeat: has no `}`");
    let five = "repeat 1 {\n".repeat(5);
    assert_eq!(mistake(&format!("{five}{stay}")), "line 5: repeat: stands inside 4 others, and so deep they may stand");
    assert_eq!(mistake("repeat 2 {\nleg 1 2 3 }\ntick 1"), "line 2: leg: takes 19 numbers, here are 3");
    for field in ["tick 5", "dt 0.1", "enter 1", "row", "profile whole", "Leg"] {
        let name = field.split(' ').next().unwrap_or_default();
        let said = format!("line 4: {name}: stands inside the repeat of line 2, which holds legs and repeats");
        assert_eq!(mistake(&format!("\nrepeat 2 {{\n{stay}\n{field} }}\n")), said);
    }
    assert_eq!(mistake(&format!("tick 1\nrepeat 2 {{ {stay} }}")), "line 2: repeat: stands before the first tick");
    assert_eq!(mistake("tick 1\n}"), "line 2: }: stands before the first tick");
    // what the core refuses is told of the leg: of the round after, of the 33rd, of none
    let (out, back) = (leg("0", "1"), leg("1", "2"));
    let apart = format!("{stay}\nrepeat 3 {{\n{out}\n{back}\n}}\ntick 1");
    assert_eq!(mistake(&apart), "line 3: leg 4: refused (7): leg 4 of the route does not start where leg 3 ends, in line 4");
    let many = format!("repeat 3 {{\n{stay}\n{stay}\nrepeat 9 {{ {stay} }}\n}}\ntick 1");
    assert_eq!(mistake(&many), "line 4: leg 33: refused (5): a route has 1 to 32 legs");
    assert_eq!(mistake("\nrepeat 9 { repeat 9 {} }\ntick 1"), "line 2: repeat: refused (5): a route has 1 to 32 legs");
    // 851 legs are the most that a repeat holds, and the form comes before the count
    let long = |legs: usize| mistake(&format!("repeat 1 {{\n{}}}\ntick 1", format!("{stay}\n").repeat(legs)));
    assert_eq!(long(851), "line 34: leg 33: refused (5): a route has 1 to 32 legs");
    assert_eq!(long(852), "line 854: }: the repeat of line 1 holds 65604 bytes, and the most are 65535");
    assert_eq!(pattern(b"enter 0.5\n").map(|_| ()).map_err(|mistake| mistake.line), Err(0));
}

#[test]
fn what_is_read() {
    let text = "enter 0x3f000000\nfc 80\nadrc_pitch 1 2 3 4\nyaw nan\ntick 2\nyaw 1\ntick 4 yaw 2 gyro 4 0 0 # evenly\n\
                row 1 2 3 4 5 6 7 8 9 10 11 12 13 14 15 16 17";
    let Scenario { set_up, inputs, .. } = Scenario::read(text.as_bytes()).expect("it is a scenario");
    assert_eq!(set_up.profile, Profile::Whole);
    assert_eq!((set_up.enter, set_up.exit, set_up.filter.fc, set_up.adrc[1].tau, set_up.adrc[2].b0), (0.5, 1.0, 80.0, 4.0, 18.0));
    assert!(inputs[0].yaw.is_nan() && inputs[1].yaw.is_nan());
    let led: Vec<(f32, f32)> = inputs[2..6].iter().map(|input| (input.yaw, input.gyro.0[0])).collect();
    assert_eq!(led, [(1.25, 1.0), (1.5, 2.0), (1.75, 3.0), (2.0, 4.0)]);
    let last = inputs[6];
    assert_eq!(
        (last.gyro.0, last.attitude, last.dt, last.planner.0, last.delivered),
        ([1.0, 2.0, 3.0], [4.0, 5.0, 6.0, 7.0], 11.0, [12.0, 13.0, 14.0], [15.0, 16.0, 17.0])
    );
    assert_eq!(inputs.len(), 7);
}

/// docs/SCENARIOS.md has every field, with how many numbers it takes.
#[test]
fn the_fields_are_documented() {
    let page = std::fs::read_to_string("../../docs/SCENARIOS.md").expect("the page, from where cargo runs a test");
    let (_, table) = page.split_once("| Set-up field |").expect("the table of fields");
    let (table, _) = table.split_once("\n\n").expect("its end");
    let mut documented = Vec::new();
    for row in table.lines().skip(2) {
        let cells: Vec<&str> = row.split('|').map(str::trim).collect();
        for (names, numbers) in [(cells[1], cells[2]), (cells[4], cells[5])] {
            let count = numbers.split(' ').next().and_then(|count| count.parse().ok());
            documented.extend(names.split('`').skip(1).step_by(2).map(|name| (name, count)));
        }
    }
    let mut fields: Vec<(&str, Option<usize>)> = fields().concat().into_iter().map(|(name, count)| (name, Some(count))).collect();
    documented.sort();
    fields.sort();
    assert_eq!(documented, fields);
    for name in OTHERS {
        let named = [format!("`{name}`"), format!("`{name} ")];
        let shown = |line: &str| line.split_whitespace().next() == Some(name) || named.iter().any(|named| line.contains(named));
        assert!(page.lines().any(shown), "{name}");
    }
}

/// The page's examples are scenarios, each that has a tick.
#[test]
fn the_examples_of_the_page() {
    let page = std::fs::read_to_string("../../docs/SCENARIOS.md").expect("the page, from where cargo runs a test");
    let blocks: Vec<&str> = page.split("```").skip(1).step_by(2).filter(|block| block.contains("\ntick ")).collect();
    for block in &blocks {
        assert_eq!(mistake(block), "none", "{block}");
        Scenario::read(block.as_bytes()).expect("it is a scenario").fly(Rule::Shield).expect("no set-up is refused");
    }
    assert_eq!(blocks.len(), 3);
    // and the other page says first which loop it is
    let flying = std::fs::read_to_string("../../docs/FLYING.md").expect("the page, from where cargo runs a test");
    let first = flying.lines().skip(1).find(|line| !line.is_empty()).unwrap_or_default();
    assert!(first.contains("open loop") && first.contains("`aircraft simulated`"), "{first}");
}

/// Any bytes, and scenarios with a byte changed: a flight or a mistake, never a panic.
#[test]
fn any_bytes() {
    let whole = [
        &include_bytes!("../scenarios/headings.txt")[..],
        include_bytes!("../scenarios/route.txt"),
        include_bytes!("../scenarios/rotor.txt"),
        include_bytes!("../scenarios/loop.txt"),
    ];
    let mut x = 1u64;
    let mut random = || {
        x = x.wrapping_mul(6364136223846793005).wrapping_add(1442695040888963407);
        (x >> 33) as usize
    };
    for round in 0..4000 {
        let mut bytes = whole[round % 4].to_vec();
        for _ in 0..1 + round % 5 {
            let at = random() % bytes.len();
            match random() % 3 {
                0 => bytes[at] = random() as u8,
                1 => drop(bytes.drain(at..(at + random() % 20).min(bytes.len()))),
                _ => bytes.insert(at, b" \n#xn.-+e09{}"[random() % 13]),
            }
        }
        if let Ok(scenario) = Scenario::read(&bytes) {
            let few = &scenario.inputs[..scenario.inputs.len().min(1000)];
            Flight::of(&scenario.set_up, Rule::Shield, scenario.route.clone(), few).expect("no set-up is refused");
        }
    }
}

/// And of those whose inputs an aircraft or a desk gives.
#[test]
fn any_bytes_of_what_an_aircraft_flies() {
    let whole = [
        &include_bytes!("../scenarios/simulated.txt")[..],
        EVERYTHING.as_bytes(),
    ];
    let mut x = 1u64;
    let mut random = || {
        x = x.wrapping_mul(6364136223846793005).wrapping_add(1442695040888963407);
        (x >> 33) as usize
    };
    for round in 0..2000 {
        let mut bytes = whole[round % whole.len()].to_vec();
        for _ in 0..1 + round % 5 {
            let at = random() % bytes.len();
            match random() % 3 {
                0 => bytes[at] = random() as u8,
                1 => drop(bytes.drain(at..(at + random() % 20).min(bytes.len()))),
                _ => bytes.insert(at, b" \n#xn.-+e09{}"[random() % 13]),
            }
        }
        if let Ok(mut scenario) = Scenario::read(&bytes) {
            scenario.inputs.truncate(1000);
            scenario.fly(Rule::Shield).expect("no set-up is refused");
        }
    }
}

/// Every line that goes with a simulated aircraft.
const EVERYTHING: &str = "aircraft simulated\nseed 3\nnoise 0.01\ncamera roams\ndesk 2 0.5 0.12 8 0.12 0.5 1 1 0.4\n\
    leg 0 0 -4 0 0 0 0 0 0 1 0 -4 0 0 0 0 0 0 3\nsticks 0.2 0.1 0\ntick 200\nplanner typed 0 0.2 0\ntick 40 planner 0 0 0\n\
    planner simulated\ntick 60 sticks 0 0 0.5\ncentre\nexchange here 0 0 -4  0 0 0  0 0 0  4\ndt 0.002\ntick 300\n\
    exchange 0 0 -4 0 0 0 0 0 0 0 1 -4 0 0 0 0 0 0 3\ntick 200 dt 0.001\n";

fn records(flight: &Flight) -> Vec<fosavalo::Record> {
    output::rows(flight).map(|(_, record)| record).collect()
}

/// A set-up as lines.
fn lines_of(set_up: &SetUp) -> String {
    set_up_words(set_up)
        .map(|(name, numbers)| format!("{name} {}\n", numbers.into_iter().map(exactly).collect::<Vec<_>>().join(" ")))
        .collect()
}

fn flown(text: &str, rule: Rule) -> Flown {
    Scenario::read(text.as_bytes()).expect("it is a scenario").fly(rule).expect("no set-up is refused")
}

/// The table of the example, number by number; on its gentle legs the planner flies, on its fast ones the shield takes over and gives back; and the aircraft ends where the
/// route does, which it does not where the planner says nothing.
#[test]
fn a_simulated_aircraft() {
    let text = include_str!("../scenarios/simulated.txt");
    let [ours, earlier] = RULES.map(|rule| flown(text, rule));
    let end = |flown: &Flown| {
        let [north, east, down] = flown.places.last().expect("there are ticks").is;
        ((north - 1.0).powi(2) + (east - 1.0).powi(2) + (down + 4.0).powi(2)).sqrt()
    };
    let apart = [end(&ours), end(&earlier)];
    assert!(apart.iter().all(|apart| *apart < 0.1), "{apart:?}");
    let silent = flown(&text.replace("\ntick", "\nplanner typed 0 0 0\ntick"), Rule::Shield);
    assert!(end(&silent) > 2.0, "{}", end(&silent));
    let by = |from: f32, to: f32| {
        let own = ours.flight.ticks.iter().filter(|tick| (from..to).contains(&tick.answer.time));
        own.filter(|tick| tick.answer.pilot == Pilot::Fallback).count()
    };
    assert!(by(0.0, 9.5) == 0 && by(9.5, 19.5) > 1000 && by(20.5, 30.0) == 0, "{} {} {}", by(0.0, 9.5), by(9.5, 19.5), by(20.5, 30.0));
    let pair = Pair { name: "simulated".to_string(), flights: [ours.flight, earlier.flight] };
    let [ours, earlier] = &pair.flights;
    assert_eq!((ours.strays(), earlier.strays()), (None, None));
    let now = format!("{}\n{}", table("simulated.txt", std::slice::from_ref(&pair)), simulated::table([ours, earlier]));
    assert_eq!(now, include_str!("simulated.txt"), "\n{now}");
}

/// It is the aircraft, the planner and the noise of the slow pass: with a heading that stands, the same bits, with a planner that looks about and with one that does not.
#[test]
fn the_aircraft_of_the_pass() {
    let choice = Choice { gyro_noise: 0.03, ..pass::SHOWN };
    let mut logs = Vec::new();
    for (camera, own) in [("steady", true), ("roams", false)] {
        let lines = lines_of(&pass::set_up(&choice));
        let text =
            format!("{lines}aircraft simulated\nseed 4\nnoise 0.03\ncamera {camera}\nyaw 0.25\nyaw_rate -0.125\ntick {}\n", pass::TICKS);
        let heading = |_| Heading { yaw: 0.25, turn: -0.125, own };
        for rule in RULES {
            let way = Way { reference: pass::reference, heading };
            let shipped = pass::fly_along(&choice, 4, rule, None, way, |_, _| {}).expect("no pass is refused");
            let own = flown(&text, rule);
            assert!(records(&own.flight) == records(&shipped), "{camera}, {rule:?}");
            logs.push(records(&shipped));
        }
        // and by default seed 1 and the noise of the pass
        let text = text.replace("seed 4\nnoise 0.03\n", "");
        let way = Way { reference: pass::reference, heading };
        let shipped = pass::fly_along(&pass::SHOWN, pass::DRAWN, Rule::Shield, None, way, |_, _| {}).expect("no pass is refused");
        assert!(records(&flown(&text, Rule::Shield).flight) == records(&shipped), "{camera}");
    }
    assert!(logs[0] != logs[2]);
}

/// The pass from a desk, as a scenario, has the same bits.
#[test]
fn the_desk_of_the_pass() {
    let DeskSetUp { heading, turn, zoom } = desk::SET_UP;
    let filters = [heading, turn, zoom].map(|Stick { omega_n, max_mag, max_rate }| format!("{omega_n} {max_mag} {max_rate}")).join("  ");
    let text = format!(
        "{}aircraft simulated\ndesk {filters}\ntick 2000\nsticks 0.8 0.12 1.5\ntick 4000\nsticks 0.8 0 1.5\ntick 2000\n\
         sticks -0.2 -0.12 -0.5\ntick 5600\nsticks -0.2 0 -0.5\ntick 400\nsticks nan nan nan\ntick 2999\ncentre\ntick 1\n\
         sticks 0.1 0 0\ntick 3000\n",
        lines_of(&pass::set_up(&pass::SHOWN))
    );
    let desk::ByDesk { flight, .. } = desk::fly(&pass::SHOWN, pass::DRAWN).expect("no pass is refused");
    assert!(records(&flown(&text, Rule::Shield).flight) == records(&flight));
}

/// Where inputs are typed, exchanges and sticks are the core's own calls, one after another, on a route too; and sticks may be led.
#[test]
fn exchanges_and_sticks_of_what_is_typed() {
    let rest = SetUp::falcon_quad().segment;
    let (out, back) = (Leg { pf: [3.0, 0.0, -1.0], t: 2.0, ..rest }, Leg { p0: [1.0, 1.0, 0.0], pf: [0.0, 1.0, 0.0], t: 0.75, ..rest });
    let stick = Stick { omega_n: 2.0, max_mag: 0.5, max_rate: 0.25 };
    let set_up = DeskSetUp { heading: stick, turn: Stick { max_mag: 0.25, ..stick }, zoom: stick };
    let text = format!(
        "desk 2 0.5 0.25  2 0.25 0.25  2 0.5 0.25\nleg {}\nplanner 0.1 0 0\ntick 300 sticks 1 0.5 0\nexchange {}\ncentre\ntick 300\n\
         exchange here 9 8 7  6 5 4  3 2 1  5\ntick 300\n",
        leg_words(&out),
        leg_words(&back)
    );
    let own = flown(&text, Rule::Shield);
    let (mut image, mut desk) = (Image::set_up(&SetUp::falcon_quad()).expect("it is set up"), Desk::set_up(&set_up).expect("it is set up"));
    let route = fosavalo::Route::new(&[out]).expect("one leg is a route");
    let mut last = back;
    for (k, tick) in own.flight.ticks.iter().enumerate() {
        let mut input = TickInput { planner: BodyRate([0.1, 0.0, 0.0]), ..TickInput::default() };
        let part = (k + 1).min(300) as f64 / 300.0;
        let sticks = Sticks { heading: part as f32, turn: (0.5 * part) as f32, zoom: 0.0 };
        match k {
            300 => {
                image.exchange(&back).expect("it is taken");
                desk.centre().expect("it is pressed");
            }
            600 => {
                let now = back.sample(image.time()).expect("a leg by itself is a route");
                last = Leg {
                    p0: now.position,
                    v0: now.velocity,
                    a0: now.acceleration,
                    pf: [9.0, 8.0, 7.0],
                    vf: [6.0, 5.0, 4.0],
                    af: [3.0, 2.0, 1.0],
                    t: 5.0,
                };
                image.exchange(&last).expect("it is taken");
            }
            _ => {}
        }
        let answer: Answer = match k {
            0..300 => desk.route_tick(&sticks, &mut image, &mut input, &route),
            _ => desk.tick(&sticks, &mut image, &mut input),
        }
        .expect("no tick is refused");
        assert_eq!((tick.input, tick.answer), (input, answer), "tick {k}");
    }
    assert_eq!((own.flight.ticks.len(), own.places.len(), own.flight.exchanges), (900, 0, vec![(300, back), (600, last)]));
}

/// An exchange in a closed loop: the aircraft comes to where the new segment ends, and its file tells enough to fly it again.
#[test]
fn exchanged_in_a_closed_loop() {
    let text =
        "aircraft simulated\nleg 0 0 -4 0 0 0 0 0 0 3 0 -4 0 0 0 0 0 0 8\ntick 3000\nexchange here 1 2 -5  0 0 0  0 0 0  8\ntick 10000\n";
    for (text, end) in [
        (text, [1.0, 2.0, -5.0]),
        (&text.replace("tick 10000", "tick 100\nexchange here 0 0 -4 0 0 0 0 0 0 9\ntick 11000"), [0.0, 0.0, -4.0]),
    ] {
        let Flown { flight, places } = flown(text, Rule::Shield);
        let [last, join] = [places.len() - 1, 3000].map(|at| places[at]);
        assert!(last.is.iter().zip(end).all(|(is, end)| (is - end).abs() < 0.1), "{:?}", last.is);
        // no jump of the way where it is exchanged
        let before = places[2999];
        assert!(join.wanted.iter().zip(before.wanted).all(|(now, before)| (now - before).abs() < 0.01));
        let file = FlightFile::of(&flight, vec![("x.log".to_string(), flight.ticks.len())]);
        let file = FlightFile::read(file.text().as_bytes()).expect("it is a flight's file");
        assert_eq!(file.on_route, [(0, 2999)]);
        let mut again = Again::new(&file).expect("it is set up");
        assert!(flight.ticks.iter().all(|tick| again.tick(&tick.input).as_ref() == Ok(&tick.answer)));
    }
}

/// A planner that says what is typed for a while: very wrong, and then its own again. The shield takes over, and the aircraft is back on its way.
#[test]
fn a_planner_that_goes_wrong() {
    let text =
        "aircraft simulated\nset 0.6 0.04 0.12\nenter 0.06\nexit 0.09\npf 2 0 0\nt 4\ntick 3000\nplanner typed 0.5 nan 0\ntick 500\n\
                tick 200 planner 1.5 0 0\nplanner simulated\ntick 9000\n";
    let Flown { flight, places } = flown(text, Rule::Shield);
    let ticks = &flight.ticks;
    assert_eq!(ticks[3000].input.planner.0.map(f32::to_bits), [0.5, f32::NAN, 0.0].map(f32::to_bits));
    assert_eq!(ticks[3699].input.planner.0, [1.5, 0.0, 0.0]);
    assert!(ticks[2999].input.planner.0[0].abs() < 0.5 && ticks[3700].input.planner.0 != [1.5, 0.0, 0.0]);
    assert!(ticks[3000..3700].iter().any(|tick| tick.answer.pilot == Pilot::Fallback));
    assert!(ticks[..3000].iter().chain(&ticks[8000..]).all(|tick| tick.answer.pilot == Pilot::Planner));
    let [north, east, down] = places[places.len() - 1].is;
    assert!((north - 2.0).abs() < 0.1 && east.abs() < 0.1 && down.abs() < 0.1, "{north} {east} {down}");
}

/// With the profile for a lost rotor the simulated aircraft has three: it spins, stays level, and comes down as the segment does.
#[test]
fn a_simulated_lost_rotor() {
    let text = "profile lost-rotor\naircraft simulated\nset 0.6 0.04 0.22\nenter 0.06\nexit 0.14\np0 0 0 -6\nv0 0 0 0.6\npf 0 0 0\nvf 0 0 0.6\nt 10\ntick 8000\n";
    let Flown { flight, places } = flown(text, Rule::Shield);
    let (first, last) = (&flight.ticks[0], &flight.ticks[7999]);
    assert!(first.input.gyro.0[2].abs() < 0.2 && last.input.gyro.0[2].abs() > 5.0);
    assert!((places[7999].is[2] - places[0].is[2] - 4.8).abs() < 0.5, "{:?}", places[7999].is);
    // with four rotors it does not spin
    let whole = flown(&text.replace("profile lost-rotor\n", ""), Rule::Shield);
    assert!(whole.flight.ticks.iter().all(|tick| tick.input.gyro.0[2].abs() < 0.5));
}

/// It starts where the way does, as fast as that, and looks along the heading; where that is none, north.
#[test]
fn how_it_starts() {
    let text = "aircraft simulated\nnoise 0\np0 1 2 -4\nv0 1 0 0\npf 9 2 -4\nvf 1 0 0\nt 8\n";
    for (yaw, [w, z]) in [("0", [1.0, 0.0]), ("2", [1f32.cos(), 1f32.sin()]), ("nan", [1.0, 0.0]), ("1e30", [1.0, 0.0])] {
        let Flown { flight, places } = flown(&format!("{text}yaw {yaw}\ntick 500\n"), Rule::Shield);
        let [own_w, x, y, own_z] = flight.ticks[0].input.attitude;
        assert!((own_w - w).abs() < 1e-5 && (own_z - z).abs() < 1e-5 && x == 0.0 && y == 0.0, "{yaw}: {own_w} {own_z}");
        assert_eq!((places[0].is, places[0].wanted), ([1.0, 2.0, -4.0], [1.0, 2.0, -4.0]));
        let furthest = flight.ticks.iter().map(|tick| tick.input.tracking_error).fold(0.0, f32::max);
        // a planner without a heading holds no path
        assert!(furthest < 0.1 || !["0", "2"].contains(&yaw), "{furthest}");
    }
}

/// With the governor as it is by default the way waits for an aircraft that lags, and the planner knows it: after the shield took over it is soon back.
#[test]
fn a_way_that_waits() {
    let text: String = include_str!("../scenarios/simulated.txt")
        .lines()
        .filter(|line| !line.starts_with("err_") && !line.starts_with("g_min"))
        .fold(String::new(), |text, line| text + &line.replace("tick 24500", "tick 27000") + "\n");
    let Flown { flight, places } = flown(&text, Rule::Shield);
    let furthest = flight.ticks.iter().map(|tick| tick.input.tracking_error).fold(0.0, f32::max);
    let late = flight.ticks.iter().position(|tick| tick.answer.time >= 23.5);
    assert!((0.5..1.0).contains(&furthest) && late > Some(24_500), "{furthest}, {late:?}");
    let [north, east, down] = places[places.len() - 1].is;
    assert!((north - 1.0).abs() < 0.1 && (east - 1.0).abs() < 0.1 && (down + 4.0).abs() < 0.1, "{north} {east} {down}");
}

/// A step of two milliseconds is simulated as such.
#[test]
fn a_step_of_its_own() {
    let text = "aircraft simulated\npf 2 0 0\nt 4\n";
    let [one, two] = ["tick 8000\n", "dt 0.002\ntick 4000\n"].map(|ticks| flown(&format!("{text}{ticks}"), Rule::Shield));
    let [one, two] = [&one, &two].map(|flown| (flown.places[flown.places.len() - 1].is, flown.flight.ticks.seconds()));
    assert!((one.0[0] - two.0[0]).abs() < 0.05 && (one.0[0] - 2.0).abs() < 0.1, "{one:?} {two:?}");
    assert!((one.1 - two.1).abs() < 0.01);
}

/// What does not go together is refused, with its line, whichever of the two comes first.
#[test]
fn what_does_not_go_together() {
    for (name, numbers) in [("gyro", "1 0 0"), ("attitude", "1 0 0 0"), ("tracking_error", "1"), ("delivered", "1 1 1")] {
        let said = "comes from the simulated aircraft, as all of gyro, attitude, tracking_error, delivered, planner do: leave it out";
        assert_eq!(mistake(&format!("aircraft simulated\n\n{name} {numbers}\ntick 1")), format!("line 3: {name}: {said}"));
        assert_eq!(mistake(&format!("{name} {numbers}\naircraft simulated\ntick 1")), format!("line 1: {name}: {said}"));
        assert_eq!(mistake(&format!("aircraft simulated\ntick 3\ntick 5 yaw 1 {name} {numbers}\n")), format!("line 3: {name}: {said}"));
        assert_eq!(mistake(&format!("aircraft typed\n{name} {numbers}\ntick 1")), "none");
    }
    let row = "row 0 0 0  1 0 0 0  0 0 0 0.001  0 0 0  1 1 1";
    assert_eq!(
        mistake(&format!("aircraft simulated\n{row}")),
        "line 2: row: has numbers that come from the simulated aircraft: take `tick`"
    );
    let desk = "desk 1 1 1  1 1 1  1 1 1";
    assert_eq!(mistake(&format!("{desk}\n{row}")), "line 2: row: has a heading, which comes from the desk: take `tick`");
    for name in ["yaw", "yaw_rate"] {
        assert_eq!(mistake(&format!("{name} 1\n{desk}\ntick 1")), format!("line 1: {name}: comes from the desk: its sticks give it"));
        assert_eq!(mistake(&format!("{desk}\ntick 5 {name} 1")), format!("line 2: {name}: comes from the desk: its sticks give it"));
        assert_eq!(mistake(&format!("aircraft simulated\n{name} 1\ntick 5 {name} 2")), "none");
    }
    for dt in ["0", "-1", "nan", "inf", "0.02"] {
        let said = "dt: a step of the simulated aircraft is above 0 and at most 0.01 s";
        assert_eq!(mistake(&format!("aircraft simulated\ntick 1\ndt {dt}\ntick 1")), format!("line 3: {said}"));
        assert_eq!(mistake(&format!("aircraft simulated\ntick 9 dt {dt}")), format!("line 2: {said}"));
    }
    assert_eq!(mistake("aircraft simulated\ndt 0.01\ntick 1"), "none");
    for line in ["seed 2", "noise 0", "camera roams"] {
        let name = line.split(' ').next().unwrap_or_default();
        let said = format!("line 1: {name}: is of a simulated aircraft, and there is no line `aircraft simulated`");
        assert_eq!((mistake(&format!("{line}\ntick 1")), mistake(&format!("{line}\naircraft typed\ntick 1"))), (said.clone(), said));
        assert_eq!(mistake(&format!("{line}\naircraft simulated\ntick 1")), "none");
        assert_eq!(mistake(&format!("{line}\n{line}\naircraft simulated\ntick 1")), format!("line 2: {name}: given before, in line 1"));
        let late = format!("line 3: {name}: belongs to the set-up, which stands before the first tick");
        assert_eq!(mistake(&format!("aircraft simulated\ntick 1\n{line}")), late);
    }
    for line in ["sticks 0 0 0\ntick 1", "tick 5 sticks 1 0 0", "centre\ntick 1"] {
        let name = if line.starts_with("centre") { "centre" } else { "sticks" };
        assert_eq!(mistake(line), format!("line 1: {name}: is of a desk, and there is no line `desk`"));
        assert_eq!(mistake(&format!("{desk}\n{line}")), "none");
    }
    for line in ["planner simulated", "planner typed 0 0 0"] {
        let said = "line 1: planner: is typed, for there is no line `aircraft simulated`: give its numbers alone";
        assert_eq!(mistake(&format!("{line}\ntick 1")), said);
        assert_eq!(mistake(&format!("{line}\naircraft simulated\ntick 1")), "none");
    }
    let planner = |line: usize| {
        let all = "gyro, attitude, tracking_error, delivered, planner";
        format!("line {line}: planner: comes from the simulated aircraft, as all of {all} do: leave it out, or write `planner typed` and numbers")
    };
    assert_eq!(mistake("aircraft simulated\nplanner 0 0 0\ntick 1"), planner(2));
    assert_eq!(mistake("aircraft simulated\ntick 1\ntick 5 planner 1 0 0"), planner(3));
    assert_eq!(mistake("aircraft simulated\nplanner typed 0 0 0\ntick 1\nplanner simulated\ntick 5 planner 1 0 0"), planner(5));
    assert_eq!(mistake("aircraft simulated\nplanner typed 0 0 0\ntick 5 planner 1 0 0\ntick 5 planner 0 0 0"), "none");
    assert_eq!(mistake("aircraft simulated\nplanner typed 0 0\ntick 5"), "line 2: planner typed: takes 3 numbers, here are 2");
    assert_eq!(mistake("aircraft simulated\nplanner simulated 0\ntick 5"), "line 2: planner simulated: takes 0 numbers, here are 1");
    assert_eq!(mistake("aircraft Simulated\ntick 1"), "line 1: aircraft: is typed or simulated");
    assert_eq!(mistake("aircraft simulated\naircraft typed\ntick 1"), "line 2: aircraft: given before, in line 1");
    assert_eq!(mistake("tick 1\naircraft simulated"), "line 2: aircraft: belongs to the set-up, which stands before the first tick");
    assert_eq!(mistake("aircraft simulated\ncamera on\ntick 1"), "line 2: camera: is steady or roams");
    for seed in ["-1", "1.5", "4294967296", "one"] {
        let said = format!("line 1: seed: `{seed}` is no whole number from 0 to 4294967295");
        assert_eq!(mistake(&format!("seed {seed}\naircraft simulated\ntick 1")), said);
    }
    for noise in ["-0.1", "nan", "inf", "10.1", "much"] {
        let said = format!("line 1: noise: `{noise}` is no deviation from 0 to 10 rad/s");
        assert_eq!(mistake(&format!("noise {noise}\naircraft simulated\ntick 1")), said);
    }
    assert_eq!(mistake("seed 1 2\naircraft simulated\ntick 1"), "line 1: seed: takes 1 number, here are 2");
    assert_eq!(mistake("desk 1 2 3\ntick 1"), "line 1: desk: takes 9 numbers, here are 3");
    assert_eq!(mistake(&format!("{desk}\n{desk}\ntick 1")), "line 2: desk: given before, in line 1");
    assert_eq!(mistake(&format!("{desk}\ncentre 1\ntick 1")), "line 2: centre: is the desk's button, and takes nothing");
    let leg = leg("0", "0").replace("leg", "exchange");
    assert_eq!(
        mistake(&format!("{leg}\ntick 1")),
        "line 1: exchange: stands between ticks; before the first one p0 to t are the segment, or the legs"
    );
    assert_eq!(mistake(&format!("tick 1\n{leg}\n")), "line 2: exchange: no tick follows it");
    assert_eq!(mistake(&format!("{desk}\ntick 1\ncentre\n")), "line 3: centre: no tick follows it");
    assert_eq!(mistake("tick 1\nexchange 1 2 3\ntick 1"), "line 2: exchange: takes 19 numbers, here are 3");
    assert_eq!(mistake("tick 1\nexchange here 1 2 3\ntick 1"), "line 2: exchange here: takes 10 numbers, here are 3");
    assert_eq!((mistake(&format!("tick 1\n{leg}\ntick 1")), mistake(EVERYTHING)), ("none".to_string(), "none".to_string()));
}

/// The examples do what their comments say.
#[test]
fn the_examples() {
    let pilots = |bytes: &[u8], rule| {
        let scenario = Scenario::read(bytes).expect("it is a scenario");
        let flight = Flight::of(&scenario.set_up, rule, scenario.route.clone(), &scenario.inputs).expect("no set-up is refused");
        assert_eq!(flight.strays(), None);
        flight
    };
    let band = include_bytes!("../scenarios/band.txt");
    assert_eq!((pilots(band, Rule::Shield).ticks.changes().len(), pilots(band, Rule::Earlier).ticks.changes().len()), (6, 14));
    let headings = pilots(include_bytes!("../scenarios/headings.txt"), Rule::Shield);
    let flew: Vec<Pilot> = [100, 220, 300, 380, 450, 560].iter().map(|at| headings.ticks[*at].answer.pilot).collect();
    use Pilot::{Fallback, Planner};
    assert_eq!(flew, [Planner, Fallback, Planner, Fallback, Planner, Planner]);
    assert_eq!(headings.ticks[450].answer.command.0, [0.0; 3]);
    // no heading, a spin, and the third number of the planner's: only the tilting takes control
    let rotor = pilots(include_bytes!("../scenarios/rotor.txt"), Rule::Shield);
    let flew: Vec<Pilot> = [100, 300, 600, 950, 1100].iter().map(|at| rotor.ticks[*at].answer.pilot).collect();
    assert_eq!(flew, [Planner, Planner, Planner, Fallback, Planner]);
    assert_eq!((rotor.ticks[600].answer.command.0, rotor.ticks[600].input.planner.0[2]), ([0.1, 0.0, 0.0], 0.2));
    let clock = pilots(include_bytes!("../scenarios/clock.txt"), Rule::Shield);
    let time = |at: usize| clock.ticks[at].answer.time;
    assert!(time(199) > 0.0 && time(219) == time(199));
    assert_eq!((clock.ticks.len(), time(421)), (422, f32::INFINITY));
    // halfway along a leg it tilts, at rest past all ends it does not
    let route = pilots(include_bytes!("../scenarios/route.txt"), Rule::Shield);
    let off = |at: usize| route.ticks[at].answer.psi - route.ticks.last().map_or(0.0, |last| last.answer.psi);
    assert!(off(14_500) == 0.0 && off(13_000) > 1e-4 && route.ticks.len() == 15_000);
    // each round of the fourteen legs as the one before it, bit for bit, and none of its legs as the next
    let rounds = pilots(include_bytes!("../scenarios/rounds.txt"), Rule::Shield);
    let (leg, psi) =
        (2048, |from: usize| rounds.ticks.iter().skip(from).take(2048).map(|tick| tick.answer.psi.to_bits()).collect::<Vec<_>>());
    let round = |from: usize| [0, 1, 2, 3].map(|k| psi(from + k * leg));
    assert_eq!((round(leg), round(leg)), (round(5 * leg), round(9 * leg)));
    let [a, b, c, d] = round(leg);
    assert!(a != b && b != c && c != d && psi(13 * leg) != a);
    assert_eq!((rounds.ticks.len(), rounds.ticks.last().map(|tick| tick.answer.time)), (14 * leg + 1024, Some(29.0)));
}
