//! The operator's desk.

use super::flights::flown;
use super::refused::{flying, pairs, Ailment, Lent, OF_A_ROUTE};
use super::routes::{back, loops, there};
use super::{plain, route_of, Leg, Made, Section, SetUp, Tick, BEYOND, REFUSALS, REQUESTS};
use crate::conform::{word_of, Level};
use compare::generate::Rng;
use compare::joint::bytes::{put, raw};

pub const SECTIONS: &[Made] = &[
    Made { file: "40-desk", name: "an operator's desk", words: &["three sticks through a command filter each, two of their values written over heading and heading rate of the lent input before the core ticks.", "Value and rate stay within their limits after anything."], place: REQUESTS, level: Level::Bits, lines: desk },
    Made { file: "41-desk-bytes", name: "a desk's bytes, and every refusal of its calls", words: &["a desk that is not 60 bytes; its set-up not 36 or the sticks not 12"], place: REFUSALS, level: Level::Bytes, lines: refused },
];

pub const ON_ROUTES: &[Made] = &[
    Made { file: "45-desk-routes", name: "an operator's desk on a route", words: &["the desk tick with a route tick in place of the tick", "three sticks through a command filter each, two of their values written over heading and heading rate of the lent input before the core ticks."], place: BEYOND, level: Level::Bits, lines: on_routes },
    Made { file: "46-desk-routes-bytes", name: "every refusal of a desk tick on a route, and every pair", words: &["15, 16, then what the route tick tells."], place: BEYOND, level: Level::Bytes, lines: routes_refused },
];

/// Bandwidth, limit of the value, limit of its rate.
const STICKS: [f32; 9] = [8.0, 0.6, 1.5, 5.0, 0.8, 3.0, 20.0, 1.0, 4.0];

fn sticks(x: [f32; 3]) -> String {
    plain(&raw::<12>(&x))
}

fn set_up(s: &mut Section, words: [f32; 9]) {
    s.ask(format!("desksetup {}", plain(&raw::<36>(&words))));
}

fn tick(s: &mut Section, at: [f32; 3], input: &Tick) {
    s.ask(format!("desk {} {}", sticks(at), word_of(&input.bytes())));
}

fn route_tick(s: &mut Section, at: [f32; 3], input: &Tick, route: &str) {
    s.ask(format!("deskroute {} {} {route}", sticks(at), word_of(&input.bytes())));
}

fn look(s: &mut Section) {
    s.at(Level::Bytes, |s| drop(s.ask("deskimage")));
}

fn desk(s: &mut Section) {
    let (nan, inf) = (f32::NAN, f32::INFINITY);
    let mut rng = Rng::new("kit desks", 0);
    for profile in [0, 1] {
        // the margin goes about its thresholds, so that the fallback, and with it the heading rate, is seen
        s.set_up(&SetUp::new(profile).with(9, &[1.0, 5.0, 0.75, 0.3, 0.6]));
        set_up(s, STICKS);
        look(s);
        for n in 0..60 {
            // hard over, back, beyond the limits; now and then the button
            let at = [[1.0, -1.0, 0.5], [0.25, 0.5, -2.0], [-1.0, 1.0, 0.0], [5.0, -5.0, 5.0]][n / 4 % 4];
            tick(s, at, &flown(&mut rng));
            if n % 17 == 16 {
                s.ask("centre");
                look(s);
            }
        }
        look(s);
        s.look();
    }
    // sticks and steps that are no number; an input's own heading is written over
    s.set_up(&SetUp::new(0));
    set_up(s, STICKS);
    for odd in [nan, inf, -inf, 1e-45, f32::MAX, -0.0] {
        (0..3).for_each(|at| {
            let mut all = [0.25, -0.25, 0.125];
            all[at] = odd;
            tick(s, all, &Tick::still().with(8, &[odd, odd]));
        });
        tick(s, [0.5, 0.5, 0.5], &Tick::still().with(10, &[odd]));
        tick(s, [0.5, -0.5, 0.5], &Tick::still().with(0, &[0.1, 0.2, 0.3]));
        look(s);
    }
    for dt in [0.0, -0.01, 5e-5, 1e-4, 0.05, 0.1, 0.2, 3.0] {
        tick(s, [0.5, 0.25, -0.5], &Tick::still().with(10, &[dt]));
        tick(s, [-0.5, 0.75, 0.5], &Tick::still());
    }
    look(s);
    // set-ups that are mended
    for odd in [nan, inf, -inf, 0.0, -0.0, -1.0, 1e-45, 0.3] {
        for at in 0..3 {
            let mut words = STICKS;
            (0..3).for_each(|stick| words[3 * stick + at] = odd);
            set_up(s, words);
            look(s);
            for k in 0..4 {
                tick(s, [0.9, -0.9, 0.9], &Tick::still().with(10, &[0.02 + 0.01 * k as f32]));
            }
            look(s);
        }
    }
}

fn refused(s: &mut Section) {
    s.set_up(&SetUp::new(0));
    set_up(s, STICKS);
    (0..4).for_each(|_| tick(s, [0.5, -0.5, 0.25], &Tick::still()));
    let (image, desk, input) = (s.image().to_vec(), plain(&s.program.desk), plain(&Tick::still().bytes()));
    let mut broken = image.clone();
    put(&mut broken, 15, 2);
    let (image, broken) = (plain(&image), plain(&broken));
    let good = sticks([0.5, 0.25, -0.5]);
    // every pair of a wrong desk, wrong sticks, a wrong image, input and answer, a broken image
    let ailing = |which: usize, right: &str, short: &str, long: &str| match which {
        0 => right.to_string(),
        1 => short.to_string(),
        _ => long.to_string(),
    };
    let mut ways = vec![[0; 5]];
    for at in 0..5 {
        for other in at..5 {
            for kind in 1..3 {
                let mut way = [0; 5];
                (way[at], way[other]) = (kind, kind);
                ways.push(way);
            }
        }
    }
    for way in ways {
        s.ask(format!("deskimage {}", ailing(way[0], &desk, "3c*59", "3c*61")));
        s.ask(format!("image {}", ailing(way[2], &image, "3c*395", &broken)));
        let [lent, input, room] =
            [ailing(way[1], &good, "3c*11", "3c*13"), ailing(way[3], &input, "3c*67", "3c*69"), ailing(way[4], "a5*40", "a5*39", "a5*41")];
        s.ask(format!("desk {lent} {input} {room}"));
        s.ask("deskimage");
        drop(s.ask("image"));
    }
    for length in [0, 1, 35, 36, 37, 60, 72] {
        for lent in [0, 1, 59, 60, 61] {
            s.ask(format!("deskimage {}", word_of(&vec![0x3c; lent])));
            s.ask(format!("desksetup {}", word_of(&vec![0x3e; length])));
            s.ask("deskimage");
            s.ask("centre");
            s.ask("deskimage");
        }
    }
    // every bit pattern is a desk: NaNs are made one, limits and bandwidths stay
    for odd in ["0100807f*15", "ffffffff*15", "0000c0ff*15", "00*60", "0000807f*15", "000080ff*15"] {
        s.ask(format!("image {image}"));
        s.ask(format!("deskimage {odd}"));
        s.ask(format!("desk {good} {input} a5*40"));
        s.ask("deskimage");
        s.ask(format!("deskimage {odd}"));
        s.ask("centre");
        s.ask("deskimage");
    }
}

fn on_routes(s: &mut Section) {
    let (nan, inf) = (f32::NAN, f32::INFINITY);
    let mut rng = Rng::new("kit desks on routes", 0);
    let over = [[1.0, -1.0, 0.5], [0.25, 0.5, -2.0], [-1.0, 1.0, 0.0], [5.0, -5.0, 5.0]];
    for profile in [0, 1] {
        s.set_up(&SetUp::new(profile).with(9, &[1.0, 5.0, 0.75, 0.3, 0.6]));
        set_up(s, STICKS);
        for (round, legs) in [1, 2, 8, 9, 32].into_iter().enumerate() {
            s.exchange(&Leg::rest(3.0));
            let route = loops(legs, 0.3, 0.2);
            // ticks of every kind in any order: clock, shield and desk go on over them
            for n in 0..8 {
                let (at, input) = (over[(round + n / 2) % 4], flown(&mut rng));
                let input = if n % 2 == 0 { input.with(7, &[0.0]).with(10, &[0.1 * (1 + n) as f32]) } else { input };
                match n {
                    2 => tick(s, at, &input),
                    4 => drop(s.route(&input, &route)),
                    5 => drop(s.tick(&input)),
                    _ => route_tick(s, at, &input, &route),
                }
            }
            s.ask("centre");
            route_tick(s, [0.5, -0.5, 0.5], &flown(&mut rng), &route);
            look(s);
        }
        s.look();
    }
    // a route that is refused, and the desk and the craft go on as they were
    s.set_up(&SetUp::new(0));
    set_up(s, STICKS);
    let good = route_of(&[there(1.0), back(1.0)], 1);
    for refused in
        [route_of(&[there(1.0), there(1.0)], 1), loops(33, 0.3, 0.2), "00*8".to_string(), "00*7".to_string(), format!("{good}+00")]
    {
        route_tick(s, [0.9, -0.9, 0.9], &Tick::still().with(10, &[0.05]), &refused);
        route_tick(s, [0.5, 0.25, -0.5], &Tick::still(), &good);
        tick(s, [0.5, 0.25, -0.5], &Tick::still());
    }
    // sticks and steps that are no number; an input's own heading is written over
    for odd in [nan, inf, -inf, 1e-45, f32::MAX, -0.0] {
        for at in 0..3 {
            let mut all = [0.25, -0.25, 0.125];
            all[at] = odd;
            route_tick(s, all, &Tick::still().with(8, &[odd, odd]), &good);
        }
        route_tick(s, [0.5, 0.5, 0.5], &Tick::still().with(10, &[odd]), &good);
        route_tick(s, [0.5, -0.5, 0.5], &Tick::still().with(0, &[0.1, 0.2, 0.3]), &good);
    }
    for dt in [0.0, -0.01, 5e-5, 0.2, 3.0] {
        route_tick(s, [0.5, 0.25, -0.5], &Tick::still().with(10, &[dt]), &good);
        tick(s, [-0.5, 0.75, 0.5], &Tick::still());
    }
    look(s);
}

/// With the image and the desk before and after it.
fn lend(s: &mut Section, lent: &Lent) {
    s.ask(format!("deskimage {}", word_of(&lent.desk)));
    s.give(&lent.image);
    let [sticks, input, route, room] = [&lent.sticks, &lent.input, &lent.route, &lent.room].map(|bytes| word_of(bytes));
    s.ask(format!("deskroute {sticks} {input} {route} {room}"));
    s.ask("deskimage");
    drop(s.ask("image"));
}

fn routes_refused(s: &mut Section) {
    let fresh = flying(s);
    set_up(s, STICKS);
    (0..4).for_each(|_| tick(s, [0.5, -0.5, 0.25], &Tick::still()));
    let fresh = Lent { desk: s.program.desk.clone(), sticks: raw::<12>(&[0.5, 0.25, -0.5]).to_vec(), ..fresh };
    let own: [Ailment; 6] = [
        |lent| lent.desk.truncate(59),
        |lent| lent.sticks.push(0),
        |lent| lent.image.truncate(395),
        |lent| lent.input.truncate(67),
        |lent| lent.room.push(0xa5),
        |lent| put(&mut lent.image, 15, 2),
    ];
    // of each number of a route one, and both of 6
    let of_a_route = [0, 1, 3, 6].map(|at| OF_A_ROUTE[at]);
    for pair in pairs(&own.into_iter().chain(of_a_route).collect::<Vec<_>>()) {
        lend(s, &fresh.ailing(&pair));
    }
    // every other one by itself
    let others: [Ailment; 8] = [
        |lent| lent.desk.push(0),
        |lent| lent.sticks.truncate(11),
        |lent| lent.sticks.resize(36, 0),
        |lent| lent.image.push(0),
        |lent| lent.input.push(0),
        |lent| lent.room.truncate(39),
        |lent| lent.route.clear(),
        |lent| put(&mut lent.image, 96, 1),
    ];
    for other in others.into_iter().chain([2, 4, 5, 7].map(|at| OF_A_ROUTE[at])) {
        lend(s, &fresh.ailing(&[other]));
    }
    // every bit pattern is a desk, on a route too
    for odd in [0x7f80_0001u32, u32::MAX, 0, 0x7f80_0000] {
        lend(s, &Lent { desk: odd.to_le_bytes().repeat(15), ..fresh.clone() });
    }
}
