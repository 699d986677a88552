//! relay_traj: the quintic of one axis, the segment of three, the governor.

use crate::Vec3;

structs! {
    Quintic { c5: f32, c4: f32, c3: f32, c2: f32, c1: f32, c0: f32, t_end: f32 }
    Sample { p: f32, v: f32, a: f32, j: f32 }
    JerkCoeffs { jc2: f32, jc1: f32, jc0: f32 }
    Sample3 { pos: Vec3, vel: Vec3, acc: Vec3, jerk: Vec3 }
    RefGovernor { s: f32, err_lo: f32, err_hi: f32, g_min: f32 }
    Advanced { governor: RefGovernor, time: f32 }
}

#[repr(C)]
#[derive(Clone, Copy, Debug)]
pub struct Segment3(pub Quintic, pub Quintic, pub Quintic);

by_place!(Segment3);

calls! {
    probe_fin = fin(x: f32, fallback: f32) -> f32;
    probe_quintic_new = quintic_new(p0: f32, v0: f32, a0: f32, pf: f32, vf: f32, af: f32, t: f32) -> Quintic;
    probe_quintic_duration = quintic_duration(q: Quintic) -> f32;
    probe_quintic_eval = quintic_eval(q: Quintic, t: f32) -> Sample;
    probe_quintic_jerk_coeffs = quintic_jerk_coeffs(q: Quintic) -> JerkCoeffs;
    probe_quintic_peak_abs_jerk = quintic_peak_abs_jerk(q: Quintic) -> f32;
    probe_segment3_new = segment3_new(p0: Vec3, v0: Vec3, a0: Vec3, pf: Vec3, vf: Vec3, af: Vec3, t: f32) -> Segment3;
    probe_segment3_rest_to_rest = segment3_rest_to_rest(from: Vec3, to: Vec3, t: f32) -> Segment3;
    probe_segment3_duration = segment3_duration(s: Segment3) -> f32;
    probe_segment3_eval = segment3_eval(s: Segment3, t: f32) -> Sample3;
    probe_segment3_peak_abs_jerk = segment3_peak_abs_jerk(s: Segment3) -> Vec3;
    probe_clamp_to = clamp_to(x: f32, lo: f32) -> f32;
    probe_gate_factor = gate_factor(err: f32, lo: f32, hi: f32, g_min: f32) -> f32;
    probe_refgovernor_new = refgovernor_new(err_lo: f32, err_hi: f32, g_min: f32) -> RefGovernor;
    probe_refgovernor_gate = refgovernor_gate(g: RefGovernor, track_err: f32) -> f32;
    probe_refgovernor_advance = refgovernor_advance(g: RefGovernor, track_err: f32, dt: f32) -> Advanced;
    probe_refgovernor_advance_lent = refgovernor_advance_lent(g: &mut RefGovernor, track_err: f32, dt: f32) -> f32;
    probe_refgovernor_time = refgovernor_time(g: RefGovernor) -> f32;
    probe_refgovernor_reset = refgovernor_reset(g: RefGovernor) -> RefGovernor;
}
