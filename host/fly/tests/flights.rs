//! The table of `make fly`, number by number; and that what is drawn beside our shield is the earlier rule and nothing else.

use fly::flight::{Flight, Rule, RULES};
use fly::table::{choices, passes, table};
use fly::{curve, desk, exchange, legs, output, pass, rotor, loop_thrice};
use fosavalo::{BodyRate, GyroFilter, Image, Leg, Pilot, Profile, Route, SetUp, TickInput};

#[test]
fn the_table() {
    let pairs = passes(&pass::SHOWN).expect("no pass is refused");
    let now = table(&pass::title(), &pairs);
    assert_eq!(now, include_str!("table.txt"), "\n{now}");
}

/// And of the pass of three legs, in which every flag is what the rule says.
#[test]
fn the_legs() {
    let flight = legs::fly(pass::DRAWN).expect("the legs meet");
    let now = legs::table(&flight);
    assert_eq!(now, include_str!("legs.txt"), "\n{now}");
    assert_eq!(flight.strays(), None);
}

/// And of the pass whose segment is exchanged: the rule is kept over all of its ticks, so who flies is carried across, and ticks keep the peaks.
#[test]
fn the_exchanges() {
    let now = exchange::table(&exchange::fly(pass::DRAWN).expect("no pass is refused"));
    assert_eq!(now, include_str!("exchange.txt"), "\n{now}");
    let mut carried = [0; 2];
    for seed in pass::SEEDS {
        let flown = exchange::fly(seed).expect("no pass is refused");
        assert_eq!((flown.flight.strays(), flown.stretches.len()), (None, 3));
        for stretch in &flown.stretches[1..] {
            let ticks = &flown.flight.ticks;
            assert!(ticks[stretch.from].answer.time < 0.002 && ticks[stretch.from - 1].answer.time > 1.0);
            assert_eq!(stretch.pilot, ticks[stretch.from - 1].answer.pilot);
            carried[usize::from(stretch.pilot == Pilot::Planner)] += 1;
        }
    }
    assert!(carried[1] > 0, "the planner had control at none of the exchanges: {carried:?}");
}

/// The three legs cut into 32 are the same way: what is wanted hardly differs at any tick. With the first eight of them alone it soon does.
#[test]
fn the_legs_in_pieces() {
    let legs = legs::legs();
    let mut pieces = Vec::new();
    for (leg, count) in legs.iter().zip([11u8, 11, 10]) {
        let t = leg.t / f32::from(count);
        let at = |k: u8| {
            let there = leg.sample(t * f32::from(k)).expect("a leg by itself is a route");
            [there.position, there.velocity, there.acceleration]
        };
        for k in 0..count {
            let ([p0, v0, a0], [pf, vf, af]) = (at(k), if k + 1 == count { [leg.pf, leg.vf, leg.af] } else { at(k + 1) });
            pieces.push(Leg { p0, v0, a0, pf, vf, af, t });
        }
    }
    // tilted, so that psi goes evenly with what is wanted
    let input = TickInput { attitude: [0.96, 0.28, 0.0, 0.0], dt: 1e-3, ..TickInput::default() };
    let psi = |legs: &[Leg]| -> Vec<f32> {
        let route = Route::new(legs).expect("the legs meet");
        let flight = Flight::of(&SetUp::falcon_quad(), Rule::Shield, Some(route), &[input; 20_000]).expect("it is flown");
        flight.ticks.iter().map(|tick| tick.answer.psi).collect()
    };
    let apart = |a: &[f32], b: &[f32]| a.iter().zip(b).map(|(a, b)| (a - b).abs()).fold(0.0, f32::max);
    let whole = psi(&legs);
    assert_eq!(pieces.len(), fosavalo::MOST_LEGS);
    let (same, cut) = (apart(&whole, &psi(&pieces)), apart(&whole, &psi(&pieces[..8])));
    assert!(same < 1e-5 && cut > 1e-3, "{same}, {cut}");
}

/// And of the pass from a desk: every value and rate within its limit, at a cable that is out too; and the log keeps what was flown, so that plain ticks of its inputs
/// answer the same.
#[test]
fn the_desk() {
    let now = desk::table().expect("no pass is refused");
    assert_eq!(now, include_str!("desk.txt"), "\n{now}");
    let desk::ByDesk { flight, moved } = desk::fly(&pass::SHOWN, pass::DRAWN).expect("no pass is refused");
    assert_eq!(flight.strays(), None);
    let limits = [desk::SET_UP.heading, desk::SET_UP.turn, desk::SET_UP.zoom];
    for (tick, moved) in flight.ticks.iter().zip(&moved) {
        assert_eq!((tick.input.yaw, tick.input.yaw_rate), (moved.values[0], moved.values[1]));
        for (stick, limit) in limits.iter().enumerate() {
            assert!(moved.values[stick].abs() <= limit.max_mag && moved.rates[stick].abs() <= limit.max_rate, "at {} s", tick.seconds);
        }
    }
    // the script goes where the limits matter
    let at = |of: &dyn Fn(&desk::Moved) -> bool| moved.iter().filter(|moved| of(moved)).count();
    assert!(at(&|moved| moved.values[0] == 0.5) > 1_000 && at(&|moved| moved.rates[0].abs() == 0.12) > 1_000);
    assert_eq!(at(&|moved| moved.sticks.heading.is_nan()), 3_000);

    let inputs: Vec<TickInput> = flight.ticks.iter().map(|tick| tick.input).collect();
    let plain = Flight::of(&pass::set_up(&pass::SHOWN), Rule::Shield, None, &inputs).expect("no pass is refused");
    assert!(flight.ticks.iter().zip(plain.ticks.iter()).all(|(desk, plain)| desk.answer == plain.answer));
}

/// And of the loop that is flown three times: each round is four legs, the same ones, and takes its eight seconds; and the aircraft is where the loop is.
#[test]
fn the_loop() {
    let now = loop_thrice::table().expect("the pattern is one");
    assert_eq!(now, include_str!("loop_thrice.txt"), "\n{now}");
    for seed in pass::SEEDS {
        let flown = loop_thrice::fly(seed).expect("the pattern is one");
        assert_eq!((flown.flight.strays(), flown.places.len()), (None, flown.flight.ticks.len()));
        assert_eq!(flown.rounds, [0, 1, 1, 1, 1, 2, 2, 2, 2, 3, 3, 3, 3, 4]);
        let legs: Vec<Leg> = flown.route.legs().collect();
        assert!(legs[1..5] == legs[5..9] && legs[1..5] == legs[9..13] && legs[0] != legs[4]);
        for round in 1..=3 {
            let part = flown.part(round);
            assert!((7_900..8_100).contains(&part.ticks) && part.furthest < 0.3, "round {round} of seed {seed}");
        }
        // half way round, at the far corner, two metres from where it began on either axis
        for (k, tick) in
            flown.flight.ticks.iter().enumerate().filter(|(_, tick)| [6.0, 14.0, 22.0].iter().any(|t| (tick.answer.time - t).abs() < 5e-4))
        {
            let [north, east, _] = flown.places[k];
            assert!(north.abs() < 0.3 && (east - 2.0).abs() < 0.3, "{north}, {east} at {}", tick.answer.time);
        }
    }
}

/// And of the curved pass: what is flown is never taken from the planner, and document 01's margin would take it.
#[test]
fn the_curve() {
    let now = curve::table().expect("the legs meet");
    assert_eq!(now, include_str!("curve.txt"), "\n{now}");
    for seed in pass::SEEDS {
        let curved = curve::fly(&pass::SHOWN, seed).expect("the legs meet");
        assert_eq!((curved.flight.strays(), curve::taken(&curved.flight.ticks)), (None, 0));
        assert!(curve::taken(&curved.before) > 0);
    }
}

/// And of the pass in which a rotor stops: with its own profile the aircraft comes down level and slowly, and no other number is asked of the third
/// axis than 0.
#[test]
fn the_lost_rotor() {
    let now = rotor::table().expect("no pass is refused");
    assert_eq!(now, include_str!("rotor.txt"), "\n{now}");
    for (choice, seed) in [rotor::SHOWN, rotor::ALONE].iter().flat_map(|choice| pass::SEEDS.map(|seed| (choice, seed))) {
        let [lost, whole] = rotor::PROFILES.map(|profile| rotor::fly(choice, profile, seed).expect("no pass is refused"));
        assert_eq!((lost.flight.strays(), whole.flight.strays(), lost.landed, whole.landed), (None, None, true, true));
        assert!(lost.tilt < whole.tilt && 2.0 * lost.last_tilt < whole.last_tilt && 1.5 * lost.descent < whole.descent);
        assert!(lost.spin > 5.0 && lost.flight.ticks.iter().all(|tick| (tick.answer.command.0[2], tick.answer.torque.0[2]) == (0.0, 0.0)));
        assert!(whole.flight.ticks.iter().any(|tick| tick.answer.torque.0[2].abs() > 0.5));
    }
    assert_eq!(rotor::PROFILES, [Profile::LostRotor, Profile::Whole]);
}

/// The margin that is worked out beside it is the core's own, bit for bit, where nothing is commanded.
#[test]
fn document_01_s_margin_is_the_core_s_where_nothing_turns() {
    let set_up = SetUp { filter: GyroFilter { fc: 200.0, fs: 1000.0 }, ..SetUp::falcon_quad() };
    let mut image = Image::set_up(&set_up).expect("no set-up is refused");
    let mut lowest = f32::INFINITY;
    for k in 0..1000 {
        let x = 0.01 * k as f32;
        let input =
            TickInput { gyro: BodyRate([x, -0.5 * x, 0.25 * x]), attitude: [1.0, 0.002 * x, 0.03 * x, -0.02 * x], ..TickInput::default() };
        let answer = image.tick(&input).expect("no tick is refused");
        assert_eq!(curve::margin_before(&set_up.set, &image, answer.psi).to_bits(), answer.margin.to_bits());
        lowest = lowest.min(answer.margin);
    }
    assert!(lowest < 0.0, "the rate never carried the margin: {lowest}");
}

/// And with other choices of set, filter and noise.
#[test]
fn the_choices() {
    let now = choices().expect("no pass is refused");
    assert_eq!(now, include_str!("choices.txt"), "\n{now}");
}

/// Every flag is what the rule says of the margins, under both rules; and the two differ as much as the picture shows.
#[test]
fn each_flight_keeps_its_rule() {
    for pair in passes(&pass::SHOWN).expect("no pass is refused") {
        let [ours, earlier] = &pair.flights;
        assert_eq!((ours.rule, earlier.rule), (Rule::Shield, Rule::Earlier));
        assert_eq!((ours.strays(), earlier.strays()), (None, None));
        assert_eq!((ours.ticks.len(), earlier.ticks.len()), (20_000, 20_000));
        assert!(earlier.ticks.changes().len() > 10 * ours.ticks.changes().len(), "{}", pair.name);
    }
}

/// A margin at which the core's shield with exit one f32 above enter is not the earlier rule: that f32. `strays` finds it.
#[test]
fn the_one_number_at_which_they_differ_is_found() {
    // level and still: the margin is 1.75
    let set_up = SetUp { enter: 1.75f32.next_down(), ..SetUp::falcon_quad() };
    let flight = Flight::of(&set_up, Rule::Earlier, None, &[TickInput::default()]).expect("no set-up is refused");
    assert_eq!((flight.ticks[0].answer.margin, flight.strays()), (1.75, Some(1)));
    let set_up = SetUp { enter: 1.75f32.next_down().next_down(), ..set_up };
    let flight = Flight::of(&set_up, Rule::Earlier, None, &[TickInput::default()]).expect("no set-up is refused");
    assert_eq!((flight.ticks[0].answer.pilot, flight.strays()), (Pilot::Planner, None));
}

#[test]
fn the_same_seed_flies_the_same() {
    let csv = |rule| {
        let mut bytes = Vec::new();
        let flight = pass::fly(&pass::SHOWN, pass::DRAWN, rule).expect("no pass is refused");
        output::csv(output::rows(&flight), &mut bytes).expect("a vector takes all");
        bytes
    };
    RULES.into_iter().for_each(|rule| assert!(csv(rule) == csv(rule)));
}
