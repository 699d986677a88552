//! Request Five: what takes a heading serves it up to 8192 in size, as the Rust does with our sine and cosine, and refuses it beyond, as it did beyond 128.

use archives::geo::{self, Quat};
use archives::Vec3;
use fosavalo::{Image, Pilot, Route, SetUp, TickInput};
use oracle::geo as rust;

/// At the earlier limit and one unit past it, at the limit, and one unit past it: whether it is served.
const HEADINGS: [(u32, bool); 4] = [(0x4300_0000, true), (0x4300_0001, true), (0x4600_0000, true), (0x4600_0001, false)];

/// The same for an angle of which the half is taken.
const HALVED: [(u32, bool); 4] = [(0x4380_0000, true), (0x4380_0001, true), (0x4680_0000, true), (0x4680_0001, false)];

/// Of either sign.
fn signed(all: [(u32, bool); 4]) -> impl Iterator<Item = (f32, bool)> {
    all.into_iter().flat_map(|(bits, served)| [f32::from_bits(bits), -f32::from_bits(bits)].map(|x| (x, served)))
}

fn bits(v: Vec3) -> [u32; 3] {
    [v.0, v.1, v.2].map(f32::to_bits)
}

#[test]
fn the_routines_that_take_a_yaw() {
    let (tilt, array) = (Vec3(0.25, 0.5, 0.75), [0.25, 0.5, 0.75]);
    let (ours, theirs) = (geo::geoatt_new(geo::geogains_falcon_quad()), rust::GeoAtt::new(rust::GeoGains::FALCON_QUAD));
    for (yaw, served) in signed(HEADINGS) {
        let (attitude, same) = (geo::desired_attitude(tilt, yaw), rust::desired_attitude(array, yaw));
        assert_eq!([attitude.given, same.is_some()], [served; 2], "{yaw}");
        let rows = same.unwrap_or_default().map(|row| row.map(f32::to_bits));
        assert!(!served || [attitude.matrix.0, attitude.matrix.1, attitude.matrix.2].map(bits) == rows, "{yaw}");
        let (ahead, same) = (geo::flatness_omega_ff(tilt, tilt, yaw, 0.5), rust::flatness_omega_ff(array, array, yaw, 0.5));
        assert_eq!([ahead.given, same.is_some()], [served; 2], "{yaw}");
        assert!(!served || bits(ahead.rate.0) == same.unwrap_or_default().map(f32::to_bits), "{yaw}");
        let rate = geo::geoatt_desired_rate(ours, Quat(0.9, 0.1, 0.2, 0.3), tilt, yaw);
        assert_eq!(bits(rate.0), theirs.desired_rate([0.9, 0.1, 0.2, 0.3], array, yaw).map(f32::to_bits), "{yaw}");
        assert_eq!(bits(rate.0) == [0; 3], !served, "{yaw}");
    }
    for (angle, served) in signed(HALVED) {
        for [roll, pitch, yaw] in [[angle, 0.25, 0.5], [0.25, angle, 0.5], [0.25, 0.5, angle]] {
            let q = archives::pos::euler_to_quaternion(roll, pitch, yaw);
            let q = [q.0, q.1, q.2, q.3];
            assert_eq!(q.map(f32::to_bits), oracle::pos::euler_to_quaternion(roll, pitch, yaw).map(f32::to_bits), "{angle}");
            assert_eq!(q != [0.0; 4], served, "{angle}");
        }
    }
}

/// The attitude of the heading is flown, so that nothing but its size decides who flies.
#[test]
fn both_ticks() {
    let leg = SetUp::falcon_quad().segment; // at the origin for 1 s
    let route = Route::new(&[leg, leg]).expect("legs at rest meet");
    for (yaw, served) in signed(HEADINGS) {
        let mut images = [0; 2].map(|_| Image::set_up(&SetUp::falcon_quad()).expect("a set-up"));
        let half = f64::from(yaw).rem_euclid(std::f64::consts::TAU) / 2.0;
        let attitude = [half.cos() as f32, 0.0, 0.0, half.sin() as f32];
        let input = TickInput { yaw, attitude, ..TickInput::default() };
        let [plain, on_route] = &mut images;
        for answer in [plain.tick(&input), on_route.route_tick(&input, &route)] {
            let answer = answer.expect("a tick");
            let pilot = if served { Pilot::Planner } else { Pilot::Fallback };
            assert_eq!((answer.pilot, answer.psi.is_nan(), answer.margin == f32::NEG_INFINITY), (pilot, !served, !served), "{yaw}");
        }
    }
}
