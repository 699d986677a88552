//! Heading and turn are independent sticks, and what comes of it.

use fosavalo::{Answer, Image, Pilot, SetUp, TickInput};
use fosavalo_desk::{Desk, DeskSetUp, Refusal, Stick, Sticks};

/// A second after the heading's stick went to 3 rad, which it may approach at 2 rad/s; the aircraft follows at once.
fn turning(turn: f32) -> Result<Answer, Refusal> {
    let stick = Stick { omega_n: 20.0, max_mag: 3.1, max_rate: 2.0 };
    let mut desk = Desk::set_up(&DeskSetUp { heading: stick, turn: Stick { max_rate: f32::INFINITY, ..stick }, zoom: stick })?;
    let mut image = Image::set_up(&SetUp::falcon_quad())?;
    let (mut input, mut last) = (TickInput { dt: 0.001, ..TickInput::default() }, None);
    for _ in 0..1000 {
        let before = desk.heading();
        last = Some(desk.tick(&Sticks { heading: 3.0, turn, zoom: 0.0 }, &mut image, &mut input)?);
        let (half, rate) = (0.5 * desk.heading(), (desk.heading() - before) / 0.001);
        input = TickInput { attitude: [half.cos(), 0.0, 0.0, half.sin()], gyro: [0.0, 0.0, rate].into(), ..input };
    }
    Ok(last.expect("a thousand ticks"))
}

#[test]
fn a_heading_moved_with_turn_at_0_is_error() -> Result<(), Refusal> {
    let (told, untold) = (turning(2.0)?, turning(0.0)?);
    assert_eq!(told.pilot, Pilot::Planner, "{told:?}");
    assert!(told.margin > 1.7, "{told:?}");
    // the set's 4 less the square of 2 rad/s
    assert!(untold.margin.abs() < 0.1 && untold.pilot == Pilot::Fallback, "{untold:?}");
    Ok(())
}

#[test]
fn it_is_said_where_people_look() {
    let top = std::path::PathBuf::from(std::env::var_os("CARGO_MANIFEST_DIR").expect("cargo runs the tests")).join("../..");
    for path in ["host/fosavalo-desk/src/desk.rs", "include/fosavalo_desk.h", "web/fosavalo.d.ts", "python/fosavalo.py"] {
        let page = std::fs::read_to_string(top.join(path)).unwrap_or_else(|error| panic!("{path}: {error}"));
        let plain: Vec<&str> = page.split_whitespace().filter(|word| !["*", "///"].contains(word)).collect();
        let said = "a heading that moves while turn is 0 is turning that nobody commanded";
        assert!(plain.join(" ").contains(said), "{path} does not say: {said}");
    }
}
