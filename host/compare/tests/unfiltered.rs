//! Request Twelve: images that the release before it set up with no gyro filter keep ticking. `unfiltered.txt` has them as that release's archive wrote
//! them; what is expected of them is the Rust's, worked out here.

use compare::generate::Rng;
use compare::joint::bytes::{float, put, raw, word, ANSWER, IMAGE, LEG, PROFILE, SETUP, TICK};
use compare::joint::demand;
use compare::joint::lent::Lending;
use compare::joint::model::{self, Flight};
use compare::joint::{archive, Call};
use fosavalo::{Answer, Log, LogView, TickInput};

struct Before {
    name: String,
    set_up: [u8; SETUP],
    image: [u8; IMAGE],
}

/// The words of a line that begins with this.
fn words<const N: usize>(line: Option<&str>, begins: &str) -> [u8; N] {
    let words = line.and_then(|line| line.strip_prefix(begins)).expect("a line of words");
    let words: Vec<u32> = words.split_whitespace().map(|word| u32::from_str_radix(word, 16).expect("a word")).collect();
    assert_eq!(4 * words.len(), N);
    let mut bytes = [0; N];
    words.iter().enumerate().for_each(|(at, word)| put(&mut bytes, at, *word));
    bytes
}

fn before() -> Vec<Before> {
    let path = checkout::root().expect("a checkout").join("host/compare/tests/unfiltered.txt");
    let text = std::fs::read_to_string(path).expect("the images of before");
    let mut lines = text.lines().filter(|line| !line.starts_with('#'));
    let mut all = Vec::new();
    while let Some(name) = lines.next() {
        all.push(Before { name: name.to_string(), set_up: words(lines.next(), "set-up "), image: words(lines.next(), "image ") });
    }
    // both profiles, each fresh, with the planner flying and with the fallback; every filter a pass-through
    for profile in [0, 1] {
        let own = || all.iter().filter(|one| word(&one.image, PROFILE) == profile);
        assert!([0, 1].iter().all(|engaged| own().any(|one| word(&one.image, 15) == *engaged && float(&one.image, 16) > 0.0)));
        assert!(own().any(|one| float(&one.image, 16) == 0.0));
    }
    let through = [0x3f80_0000, 0, 0, 0, 0];
    assert!(all.iter().all(|one| [68, 77, 86].iter().all(|axis| (*axis..).zip(through).all(|(at, w)| word(&one.image, at) == w))));
    all
}

/// Set-up refuses their words with 11 and changes nothing. It is the Rust's constructors that made them.
#[test]
fn set_up_no_longer_takes_them() {
    for Before { name, set_up, image } in before() {
        let mut lent = [0xee; IMAGE];
        assert_eq!((archives::setup(&mut lent, &set_up), lent), (11, [0xee; IMAGE]), "{name}");
        if float(&image, 16) == 0.0 {
            Flight::set_up(&set_up).write(&mut lent);
            assert_eq!(lent, image, "{name}");
        }
    }
}

/// Level, the roll rate about those at which the margin is enter and exit, so that both fly in the band.
fn input(rng: &mut Rng) -> [u8; TICK] {
    let mut words = [0.0; TICK / 4];
    words[..3].copy_from_slice(&[
        rng.of(&[1.0, 1.74, 1.8, 1.8, 1.8, 1.86, 1.9]).unwrap_or(1.8),
        rng.range(-0.1, 0.1),
        rng.range(-0.1, 0.1),
    ]);
    words[3..11].copy_from_slice(&[1.0, 0.0, 0.0, 0.0, rng.range(0.0, 1.2), rng.range(-0.1, 0.1), 0.0, 0.001]);
    (11..14).for_each(|at| words[at] = rng.range(-2.0, 2.0));
    words[14..].fill(1.0);
    raw(&words)
}

/// Two thousand ticks each: every byte is the Rust's, who flies is what the margins say, and the log of them reads back.
#[test]
fn they_keep_ticking() {
    for (number, Before { name, image: start, .. }) in before().into_iter().enumerate() {
        let (mut rng, mut image, mut flight) = (Rng::new("unfiltered", number as u64), start, Flight::from_image(&start));
        let [enter, exit] = [float(&start, 13), float(&start, 14)];
        // what released it before, where the planner flies
        let mut margins = if word(&start, 15) == 0 { vec![2.0 * exit] } else { vec![] };
        let (mut log, mut flown, mut band) = (Log::new(), Vec::new(), [0u32; 2]);
        assert_eq!(archives::tick_refusal(&start, TICK, ANSWER), 0, "{name}");
        for _ in 0..2000 {
            let (input, mut answer, mut expected) = (input(&mut rng), [0; ANSWER], [0; ANSWER]);
            assert_eq!(archives::tick(&mut image, &input, &mut answer), 0, "{name}");
            flight.tick(&input, &mut expected);
            let mut later = [0; IMAGE];
            flight.write(&mut later);
            assert_eq!((answer, image), (expected, later), "{name}");
            margins.push(float(&answer, 9));
            let planner = demand::planner_flies(&margins, enter, exit);
            assert_eq!(word(&answer, 6), u32::from(!planner), "{name}");
            if planner {
                let agile = [11, 12, 13].map(|at| word(&input, at));
                assert_eq!([3, 4, 5].map(|at| word(&answer, at)), demand::passed_on(word(&image, PROFILE), agile), "{name}");
            }
            band[usize::from(!planner)] += u32::from((enter..=exit).contains(&float(&answer, 9)));
            let typed = (TickInput::from_bytes(&input).expect("an input"), Answer::from_bytes(&answer).expect("an answer"));
            log.append(&typed.0, &typed.1).expect("there is room");
            flown.push((input, answer));
        }
        assert!(band.iter().all(|ticks| *ticks > 100), "{name}: {band:?}");
        let file = log.into_bytes();
        let read = LogView::from_bytes(&file).expect("a log").iter().map(|record| (record.input().to_bytes(), record.answer().to_bytes()));
        assert!(read.eq(flown), "{name}");
    }
}

/// On a route, and across an exchange.
#[test]
fn they_fly_routes_and_exchange() {
    let leg: [u8; LEG] = raw(&[&[0.0; 9][..], &[1.0, 0.5, -0.5], &[0.0; 6], &[2.0]].concat());
    let route = [&leg[..], &1u32.to_le_bytes(), &(LEG as u32).to_le_bytes()].concat();
    for (number, Before { name, image, .. }) in before().into_iter().enumerate() {
        let (mut rng, mut ours, mut theirs) = (Rng::new("unfiltered routes", number as u64), (image, [0; ANSWER]), (image, [0; ANSWER]));
        for turn in 0..400 {
            let (call, input): (Call, Vec<u8>) = match turn % 40 {
                20 => (Call::Exchange, leg.to_vec()),
                n if n % 2 == 0 => (Call::Tick, input(&mut rng).to_vec()),
                _ => (Call::RouteTick, input(&mut rng).to_vec()),
            };
            let route = if call == Call::RouteTick { &route[..] } else { &[] };
            let returned = archive(call, &mut Lending { image: &mut ours.0, input: &input, route, answer: &mut ours.1 });
            let number = model::call(call, &mut Lending { image: &mut theirs.0, input: &input, route, answer: &mut theirs.1 });
            assert_eq!((returned, ours), (0, theirs), "{name}: {call:?}");
            assert_eq!(number, 0, "{name}: {call:?}");
        }
    }
}
