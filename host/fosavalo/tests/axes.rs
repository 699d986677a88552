//! What is said of axes, signs and units, flown; and that it stands where people look for it.

use fosavalo::{Answer, GyroFilter, Image, Profile, Refusal, Segment, SetUp, TickInput};
use std::f32::consts::{FRAC_PI_2, FRAC_PI_4};

/// At the start of a segment with this acceleration.
fn flown(acceleration: [f32; 3], input: &TickInput) -> Result<Answer, Refusal> {
    let segment = Segment { a0: acceleration, af: acceleration, ..SetUp::falcon_quad().segment };
    let filter = GyroFilter { fc: 499.0, fs: 1000.0 };
    Image::set_up(&SetUp { segment, filter, profile: Profile::Whole, ..SetUp::falcon_quad() })?.tick(&TickInput { dt: 1e-6, ..*input })
}

fn turned(angle: f32, axis: usize) -> [f32; 4] {
    let mut attitude = [(0.5 * angle).cos(), 0.0, 0.0, 0.0];
    attitude[1 + axis] = (0.5 * angle).sin();
    attitude
}

#[test]
fn a_heading_is_clockwise_from_north_and_so_is_the_attitude() -> Result<(), Refusal> {
    for heading in [FRAC_PI_4, FRAC_PI_2, -FRAC_PI_4] {
        let psi = |attitude| flown([0.0; 3], &TickInput { yaw: heading, attitude, ..TickInput::default() }).map(|answer| answer.psi);
        assert!(psi(turned(heading, 2))?.abs() < 1e-5);
        assert!(psi(turned(-heading, 2))? > 0.5);
    }
    Ok(())
}

/// To go north the nose goes down, with the heading north; to go east the right side does. Up is below 0: to go down faster than what falls, it has to be upside down.
#[test]
fn the_world_is_north_east_down() -> Result<(), Refusal> {
    let lean = 3.0f32.atan2(9.81);
    for (acceleration, axis, angle) in [([3.0, 0.0, 0.0], 1, -lean), ([0.0, 3.0, 0.0], 0, lean)] {
        let psi = |attitude| flown(acceleration, &TickInput { attitude, ..TickInput::default() }).map(|answer| answer.psi);
        assert!(psi(turned(angle, axis))?.abs() < 1e-4, "{acceleration:?}");
        assert!(psi(turned(-angle, axis))? > 0.1, "{acceleration:?}");
    }
    assert!(flown([0.0, 0.0, 20.0], &TickInput::default())?.psi > 1.9);
    assert_eq!(flown([0.0, 0.0, -20.0], &TickInput::default())?.psi, 0.0);
    Ok(())
}

/// The fallback turns against an attitude that is off, and the torque has the command's sign: with a rate that is wanted and none that is measured it is
/// omega_c / b0 of it.
#[test]
fn rates_and_torques_turn_by_the_right_hand() -> Result<(), Refusal> {
    for axis in 0..3 {
        let level = flown([0.0; 3], &TickInput { attitude: turned(2.0, axis), ..TickInput::default() })?;
        assert!(level.command.0[axis] < -0.1, "axis {axis}: {level:?}");
        let mut planner = [0.0; 3];
        planner[axis] = 0.5;
        let answer = flown([0.0; 3], &TickInput { planner: planner.into(), ..TickInput::default() })?;
        let gains = SetUp::falcon_quad().adrc[axis];
        assert!((answer.torque.0[axis] - 0.5 * gains.omega_c / gains.b0).abs() < 1e-6, "axis {axis}: {answer:?}");
    }
    Ok(())
}

#[test]
fn it_is_said_where_people_look() {
    let top = std::path::PathBuf::from(std::env::var_os("CARGO_MANIFEST_DIR").expect("cargo runs the tests")).join("../..");
    let text = |path: &str| std::fs::read_to_string(top.join(path)).unwrap_or_else(|error| panic!("{path}: {error}"));
    // without the marks of comments, whatever the lines' ends
    let plain = |path: &str| text(path).replace(" * ", " ").split_whitespace().collect::<Vec<_>>().join(" ").to_lowercase();
    for path in ["host/fosavalo/src/axes.md", "include/fosavalo.h", "web/fosavalo.d.ts", "README.md"] {
        let page = plain(path);
        for said in [
            "north, east",
            "unit quaternion of hamilton's form, w x y z",
            "clockwise from north",
            "by the right hand",
            "one unit",
            "the thrust is not the core's",
            "docs/axes.svg",
        ] {
            assert!(page.contains(said), "{path} does not say: {said}");
        }
    }
    // and so is what tells where the aircraft should be
    for (path, call) in [
        ("README.md", "fosavalo_route_sample"),
        ("docs/FLYING.md", "fosavalo_route_sample"),
        ("examples/c/main.c", "fosavalo_route_sample("),
        ("examples/rust/src/main.rs", ".sample("),
        ("python/example.py", ".sample("),
    ] {
        let page = plain(path);
        assert!(page.contains(call) && page.contains("tracking_error"), "{path} does not show the sample: {call}");
    }
    let included = |path: &str| text(path).matches("#[doc = include_str!(\"axes.md\")]").count();
    assert_eq!((included("host/fosavalo/src/tick.rs"), included("host/fosavalo/src/setup.rs")), (2, 1));
    assert!(text("docs/axes.svg").contains("<svg"));
}
