//! The safe crate beside what the comparison knows of the calls.

use compare::joint::bytes;
use compare::log;
use archives::{adrc, geo, Vec3};

#[test]
fn the_same_lengths() {
    use fosavalo::{ANSWER_BYTES, IMAGE_BYTES, LEG_BYTES, ROUTE_TRAILER_BYTES, SETUP_BYTES, TICK_BYTES};
    use fosavalo::{EMPTY_LOG, LOG_TRAILER_BYTES, MOST_RECORDS, RECORD_BYTES};
    assert_eq!((IMAGE_BYTES, SETUP_BYTES, TICK_BYTES, ANSWER_BYTES), (bytes::IMAGE, bytes::SETUP, bytes::TICK, bytes::ANSWER));
    assert_eq!((LEG_BYTES, ROUTE_TRAILER_BYTES), (bytes::LEG, bytes::TRAILER));
    assert_eq!((RECORD_BYTES, LOG_TRAILER_BYTES, MOST_RECORDS), (log::RECORD, log::TRAILER, log::MOST));
    assert_eq!(EMPTY_LOG[..], log::model::written(&[]));
    assert_eq!(fosavalo::MOST_MARGINS, compare::slow::MOST);
    assert_eq!(fosavalo::LOG_RIGHT, compare::audit::RIGHT);
    assert_eq!((fosavalo::DEEPEST_REPEAT, fosavalo::MOST_LEGS), (compare::pattern::DEEP, bytes::MOST_LEGS));
}

/// Its falcon_quad has relay's gains.
#[test]
fn the_same_gains() {
    let ours = fosavalo::SetUp::falcon_quad();
    let vec = |Vec3(x, y, z): Vec3| [x, y, z];
    let gains = geo::geogains_falcon_quad();
    assert_eq!((ours.gains.k_r, ours.gains.k_omega, ours.gains.j), (vec(gains.k_r), vec(gains.k_omega), vec(gains.j)));
    let rate = adrc::adrcrate_falcon_quad();
    for (own, axis) in ours.adrc.iter().zip([rate.roll, rate.pitch, rate.yaw]) {
        let adrc::AdrcGains { omega_o, omega_c, b0, tau } = axis.g;
        assert_eq!((own.omega_o, own.omega_c, own.b0, own.tau), (omega_o, omega_c, b0, tau));
    }
}
