//! Ways to be wrong that look right, each beside the Rust as if it were ours. The generator has to catch every one:
//! a comparison that cannot fail shows nothing.

use crate::numbers::LIMIT;
use crate::routine::Routine;
use crate::words::{In, Words};
use archives::geo::AxisAnswer;
use archives::{adrc, geo, traj, BodyRate, Torque, Vec3};
use oracle::geo::private as vectors;

/// The routine of the table with `ours` in the place of ours.
fn instead<A: Words>(of: &str, name: &'static str, ours: impl Fn(&mut In) -> A + Send + Sync + 'static) -> Option<Routine> {
    super::all().into_iter().find(|routine| routine.name == of).map(|routine| routine.with_ours(name, ours))
}

type M = [[f32; 3]; 3];
type V = [f32; 3];

/// The wrong variants. A name that the table doesn't have would drop its variant, so a test counts them.
pub fn all() -> Vec<Routine> {
    [geometry(), shield(), trajectory(), control()].into_iter().flatten().flatten().collect()
}

pub const COUNT: usize = 32;

fn geometry() -> Vec<Option<Routine>> {
    vec![
        instead("dot", "dot regrouped", |i| {
            let (a, b): (V, V) = i.get();
            a[0] * b[0] + (a[1] * b[1] + a[2] * b[2])
        }),
        instead("dot", "dot fused", |i| {
            let (a, b): (V, V) = i.get();
            a[2].mul_add(b[2], a[0] * b[0] + a[1] * b[1])
        }),
        instead("normalize", "normalize takes 1e-9 itself", |i| {
            let a: V = i.get();
            let n = vectors::norm(a);
            (n.is_finite() && n >= 1e-9).then(|| a.map(|x| x / n))
        }),
        instead("matmul3", "a product that does not start from 0.0", |i| {
            let (a, b): (M, M) = i.get();
            let columns = vectors::transpose3(b);
            a.map(|row| columns.map(|column| vectors::dot(row, column)))
        }),
        instead("vee", "vee without its difference", |i| {
            let m: M = i.get();
            [m[2][1], m[0][2], m[1][0]]
        }),
        instead("GeoAtt::attitude_error", "attitude error halved", |i| {
            let Vec3(x, y, z) = geo::geoatt_attitude_error(i.get(), i.get());
            [0.5 * x, 0.5 * y, 0.5 * z]
        }),
        instead("thrust_axis_ned", "0.0 - a as a negation", |i| {
            let a: V = i.get();
            geo::normalize(Vec3(-a[0], -a[1], 9.81 - a[2]))
        }),
        instead("desired_attitude", "an axis taken as given, not normalised again", |i| {
            let (b3, yaw): (V, f32) = i.get();
            let AxisAnswer { given, .. } = geo::normalize(Vec3(b3[0], b3[1], b3[2]));
            let (s, c) = archives::sincos(yaw);
            let b2 = vectors::normalize(vectors::cross(b3, [c, s, 0.0])).filter(|_| given);
            b2.map(|b2| vectors::transpose3([vectors::cross(b2, b3), b2, b3]))
        }),
        instead("flatness_omega_ff", "the feedforward's sign as in its comment", |i| {
            let (a, j): (Vec3, V) = i.get();
            geo::flatness_omega_ff(a, Vec3(-j[0], -j[1], -j[2]), i.get(), i.get())
        }),
        instead("flatness_omega_ff", "a thrust of 1e-3 itself taken", |i| {
            let (a, j): (V, Vec3) = i.get();
            let mut answer = geo::flatness_omega_ff(Vec3(a[0], a[1], a[2]), j, i.get(), i.get());
            answer.given |= vectors::norm([0.0 - a[0], 0.0 - a[1], 9.81 - a[2]]) == 1e-3;
            answer
        }),
        instead("desired_attitude", "a heading at the limit itself refused", |i| {
            let (b3, yaw): (Vec3, f32) = i.get();
            geo::desired_attitude(b3, if yaw.abs() == LIMIT { f32::NAN } else { yaw })
        }),
        instead("GeoAtt::tick", "no damping where there is no attitude", |i| {
            let (gains, q): (geo::GeoAtt, geo::Quat) = i.get();
            let (omega, a): (BodyRate, Vec3) = i.get();
            let yaw = i.get();
            if geo::thrust_attitude(geo::sanitise3(a), yaw).given {
                geo::geoatt_tick(gains, q, omega, a, yaw)
            } else {
                Torque(Vec3(0.0, 0.0, 0.0))
            }
        }),
    ]
}

fn shield() -> Vec<Option<Routine>> {
    vec![
        instead("RecoverableSet::margin", "margin with the comparison the other way", |i| {
            let (s, (psi, sq)): (geo::RecoverableSet, (f32, f32)) = i.get();
            let (a, b) = (s.psi_max - psi, 2.0 * s.k_r * (2.0 - psi) / s.lambda_j - sq);
            let known = psi.is_finite() && sq.is_finite() && s.lambda_j.is_finite() && s.lambda_j > 0.0;
            let m = if b < a { b } else { a };
            if known && m.is_finite() {
                m
            } else {
                f32::NEG_INFINITY
            }
        }),
        instead("RecoverableSet::recoverable", "the boundary itself left out", |i| {
            geo::recoverableset_margin(i.get(), i.get(), i.get()) > 0.0
        }),
        instead("SimplexShield::step", "engaged at enter itself", |i| {
            let (shield, (margin, (agile, fallback))): (geo::SimplexShield, (f32, (BodyRate, BodyRate))) = i.get();
            let bad = !shield.engaged && margin == shield.enter;
            geo::simplexshield_step(shield, if bad { f32::NAN } else { margin }, agile, fallback)
        }),
        instead("SimplexShield::new", "an infinite exit kept", |i| {
            let (set, (enter, exit)): (geo::RecoverableSet, (f32, f32)) = i.get();
            let mut shield = geo::simplexshield_new(set, enter, exit);
            if exit > shield.enter {
                shield.exit = exit;
            }
            shield
        }),
        instead("SimplexShield::step", "released at exit itself", |i| {
            let (shield, (margin, (agile, fallback))): (geo::SimplexShield, (f32, (BodyRate, BodyRate))) = i.get();
            let lower =
                if shield.engaged && margin == shield.exit { f32::from_bits(margin.to_bits().wrapping_sub(1)) } else { shield.exit };
            let mut answer = geo::simplexshield_step(geo::SimplexShield { exit: lower, ..shield }, margin, agile, fallback);
            answer.shield.exit = shield.exit;
            answer
        }),
        instead("SimplexShield::step", "released inside the band", |i| {
            let (shield, (margin, (agile, fallback))): (geo::SimplexShield, (f32, (BodyRate, BodyRate))) = i.get();
            let mut answer = geo::simplexshield_step(geo::SimplexShield { exit: shield.enter, ..shield }, margin, agile, fallback);
            answer.shield.exit = shield.exit;
            answer
        }),
        instead("SimplexShield::step, lent", "a lent shield left as it was", |i| {
            let shield: geo::SimplexShield = i.get();
            (shield, geo::simplexshield_step_lent(&mut { shield }, i.get(), i.get(), i.get()))
        }),
    ]
}

fn trajectory() -> Vec<Option<Routine>> {
    vec![
        instead("Quintic::new", "a bad end position made 0", |i| {
            let ([p0, v0, a0], [pf, vf, af]): (V, V) = i.get();
            let pf = if pf.is_finite() { pf } else { 0.0 };
            traj::quintic_new(p0, v0, a0, pf, vf, af, i.get())
        }),
        instead("Quintic::eval", "an infinite time taken as the end", |i| {
            let (q, t): (traj::Quintic, f32) = i.get();
            traj::quintic_eval(q, if t == f32::INFINITY { q.t_end } else { t })
        }),
        instead("Quintic::eval", "a Horner step regrouped", |i| {
            let (q, t): (traj::Quintic, f32) = i.get();
            let answer = traj::quintic_eval(q, t);
            let t = if t.is_finite() { t.clamp(0.0, q.t_end) } else { 0.0 };
            traj::Sample { j: 60.0 * q.c5 * (t * t) + 24.0 * q.c4 * t + 6.0 * q.c3, ..answer }
        }),
        instead("RefGovernor::advance", "the governor with the step of ADRC", |i| {
            let (g, (err, dt)): (traj::RefGovernor, (f32, f32)) = i.get();
            let dt = if dt.is_finite() { dt.clamp(1e-4, 0.1) } else { 1e-3 };
            traj::refgovernor_advance(g, err, dt)
        }),
        instead("RefGovernor::advance, lent", "a lent governor left as it was", |i| {
            let governor: traj::RefGovernor = i.get();
            (governor, traj::refgovernor_advance_lent(&mut { governor }, i.get(), i.get()))
        }),
    ]
}

fn control() -> Vec<Option<Routine>> {
    vec![
        instead("AdrcGains::well_separated", "a ratio of the least itself left out", |i| {
            let (g, ratio): (adrc::AdrcGains, f32) = i.get();
            adrc::adrcgains_well_separated(g, ratio) && g.omega_o > ratio * g.omega_c
        }),
        instead("AdrcGains::eso_dt_stable", "the bound itself taken", |i| {
            let (g, (dt, margin)): (adrc::AdrcGains, (f32, f32)) = i.get();
            g.omega_o.is_finite() && dt.is_finite() && dt > 0.0 && g.omega_o * dt <= 2.0 * margin
        }),
        instead("CommandFilter::step", "dt not clamped from below", |i| {
            let (filter, (u, dt)): (adrc::CommandFilter, (f32, f32)) = i.get();
            if dt == f32::from_bits(1e-4f32.to_bits() - 1) {
                let yd = filter.yd + dt * (filter.omega_n * filter.omega_n * (u - filter.y) - 2.0 * filter.omega_n * filter.yd);
                let answer = adrc::commandfilter_step(filter, u, dt);
                adrc::Stepped { filter: adrc::CommandFilter { yd, ..answer.filter }, ..answer }
            } else {
                adrc::commandfilter_step(filter, u, dt)
            }
        }),
        instead("AdrcAxis::tick", "the fraction on this tick's command", |i| {
            let (axis, (meas, (want, dt))): (adrc::AdrcAxis, (f32, (f32, f32))) = i.get();
            let frac = axis.u_delivered_frac;
            let mut answer = adrc::adrcaxis_tick(adrc::AdrcAxis { u_delivered_frac: 1.0, ..axis }, meas, want, dt);
            answer.u *= frac;
            answer.axis.u_prev *= frac;
            answer.axis.u_delivered_frac = frac;
            answer
        }),
        instead("AdrcAxis::tick", "b0 of 1e-3 itself kept", |i| {
            let (mut axis, (meas, (want, dt))): (adrc::AdrcAxis, (f32, (f32, f32))) = i.get();
            let b0 = axis.g.b0;
            if b0.abs() == 1e-3 {
                axis.g.b0 = f32::from_bits(b0.to_bits() + 1);
            }
            let mut answer = adrc::adrcaxis_tick(axis, meas, want, dt);
            answer.axis.g.b0 = b0;
            answer
        }),
        instead("Biquad::lowpass", "a cut-off of half the rate taken", |i| {
            let (fc, fs): (f32, f32) = i.get();
            let below = if fc == 0.5 * fs { f32::from_bits(fc.to_bits().saturating_sub(1)) } else { fc };
            adrc::biquad_lowpass(below, fs)
        }),
        instead("Biquad::filter", "a pass-through that hands x back", |i| {
            let (filter, x): (adrc::Biquad, f32) = i.get();
            let mut answer = adrc::biquad_filter(filter, x);
            if filter.b0 == 1.0 && [filter.b1, filter.b2, filter.a1, filter.a2] == [0.0; 4] && x.is_finite() {
                (answer.y, answer.biquad.y1) = (x, x);
            }
            answer
        }),
        instead("clamp_sym", "a number that isn't one put to the bound", |i| {
            let (x, m): (f32, f32) = i.get();
            adrc::clamp_sym(if x.is_finite() { x } else { m }, m)
        }),
    ]
}
