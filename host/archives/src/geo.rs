//! relay_geo: vectors, attitudes, the controller, the recoverable set, the shield.

use crate::{BodyRate, Torque, Vec3};

/// Row-major.
#[repr(C)]
#[derive(Clone, Copy, Debug)]
pub struct Mat3(pub Vec3, pub Vec3, pub Vec3);

/// w, x, y, z.
#[repr(C)]
#[derive(Clone, Copy, Debug)]
pub struct Quat(pub f32, pub f32, pub f32, pub f32);

by_place!(Mat3, Quat);

structs! {
    /// A routine that refuses has `given` false, and zeros.
    AxisAnswer { given: bool, axis: Vec3 }
    AttitudeAnswer { given: bool, matrix: Mat3 }
    RateAnswer { given: bool, rate: BodyRate }
    GeoGains { k_r: Vec3, k_omega: Vec3, j: Vec3 }
    GeoAtt { gains: GeoGains }
    RecoverableSet { k_r: f32, lambda_j: f32, psi_max: f32 }
    SimplexShield { set: RecoverableSet, engaged: bool, enter: f32, exit: f32 }
    Shielded { shield: SimplexShield, command: BodyRate, fallback: bool }
    Picked { command: BodyRate, fallback: bool }
}

calls! {
    probe_gravity_ned = gravity_ned() -> Vec3;
    probe_cross = cross(a: Vec3, b: Vec3) -> Vec3;
    probe_dot = dot(a: Vec3, b: Vec3) -> f32;
    probe_norm = norm(a: Vec3) -> f32;
    probe_normalize = normalize(a: Vec3) -> AxisAnswer;
    probe_identity3 = identity3() -> Mat3;
    probe_transpose3 = transpose3(m: Mat3) -> Mat3;
    probe_matmul3 = matmul3(a: Mat3, b: Mat3) -> Mat3;
    probe_vee = vee(m: Mat3) -> Vec3;
    probe_sanitise3 = sanitise3(v: Vec3) -> Vec3;
    probe_quat_to_rotmat = quat_to_rotmat(q: Quat) -> Mat3;
    probe_desired_attitude = desired_attitude(b3_d: Vec3, yaw: f32) -> AttitudeAnswer;
    probe_thrust_axis_ned = thrust_axis_ned(a_cmd: Vec3) -> AxisAnswer;
    probe_thrust_attitude = thrust_attitude(a_cmd: Vec3, yaw: f32) -> AttitudeAnswer;
    probe_flatness_omega_ff = flatness_omega_ff(a_cmd: Vec3, j_cmd: Vec3, yaw: f32, yaw_rate: f32) -> RateAnswer;
    probe_feedforward_from = feedforward_from(a_cmd: Vec3, j_cmd: Vec3, yaw: f32, yaw_rate: f32) -> RateAnswer;
    probe_geogains_falcon_quad = geogains_falcon_quad() -> GeoGains;
    probe_geoatt_new = geoatt_new(gains: GeoGains) -> GeoAtt;
    probe_geoatt_psi = geoatt_psi(r: Mat3, r_d: Mat3) -> f32;
    probe_geoatt_attitude_error = geoatt_attitude_error(r: Mat3, r_d: Mat3) -> Vec3;
    probe_geoatt_attitude_error_reduced = geoatt_attitude_error_reduced(r: Mat3, b3_d: Vec3) -> Vec3;
    probe_geoatt_moment_reduced = geoatt_moment_reduced(c: GeoAtt, r: Mat3, omega: BodyRate, b3_d: Vec3) -> Torque;
    probe_geoatt_moment = geoatt_moment(c: GeoAtt, r: Mat3, omega: BodyRate, r_d: Mat3) -> Torque;
    probe_geoatt_desired_rate = geoatt_desired_rate(c: GeoAtt, q_est: Quat, a_cmd_ned: Vec3, yaw_d: f32) -> BodyRate;
    probe_geoatt_tick = geoatt_tick(c: GeoAtt, q_est: Quat, omega_body: BodyRate, a_cmd_ned: Vec3, yaw_d: f32) -> Torque;
    probe_recoverableset_new = recoverableset_new(k_r: f32, lambda_j: f32, psi_max: f32) -> RecoverableSet;
    probe_recoverableset_margin = recoverableset_margin(s: RecoverableSet, psi: f32, e_omega_sq: f32) -> f32;
    probe_recoverableset_recoverable = recoverableset_recoverable(s: RecoverableSet, psi: f32, e_omega_sq: f32) -> bool;
    probe_simplexshield_new = simplexshield_new(set: RecoverableSet, enter: f32, exit: f32) -> SimplexShield;
    probe_simplexshield_fallback_engaged = simplexshield_fallback_engaged(s: SimplexShield) -> bool;
    probe_simplexshield_filter = simplexshield_filter(s: SimplexShield, psi: f32, e_omega_sq: f32, agile: BodyRate, fallback: BodyRate) -> Shielded;
    probe_simplexshield_step = simplexshield_step(s: SimplexShield, margin: f32, agile: BodyRate, fallback: BodyRate) -> Shielded;
    probe_simplexshield_step_lent = simplexshield_step_lent(s: &mut SimplexShield, margin: f32, agile: BodyRate, fallback: BodyRate) -> Picked;
}
