//! relay_adrc: gains, one axis and three, the low-pass, the command filter.

use crate::{BodyRate, Torque, Vec3};

structs! {
    AdrcGains { omega_o: f32, omega_c: f32, b0: f32, tau: f32 }
    AdrcAxis { z1: f32, z2: f32, u_prev: f32, u_act: f32, u_delivered_frac: f32, g: AdrcGains }
    AxisTick { axis: AdrcAxis, u: f32 }
    AdrcRate { roll: AdrcAxis, pitch: AdrcAxis, yaw: AdrcAxis }
    RateTick { rate: AdrcRate, torque: Torque }
    Biquad { b0: f32, b1: f32, b2: f32, a1: f32, a2: f32, x1: f32, x2: f32, y1: f32, y2: f32 }
    Filtered { biquad: Biquad, y: f32 }
    GyroLpf { roll: Biquad, pitch: Biquad, yaw: Biquad }
    GyroFiltered { lpf: GyroLpf, rate: BodyRate }
    CommandFilter { omega_n: f32, max_mag: f32, max_rate: f32, y: f32, yd: f32 }
    Stepped { filter: CommandFilter, y: f32 }
    CommandFilter3 { roll: CommandFilter, pitch: CommandFilter, yaw: CommandFilter }
    Stepped3 { filter: CommandFilter3, y: BodyRate }
}

calls! {
    probe_adrcgains_new = adrcgains_new(omega_o: f32, omega_c: f32, b0: f32) -> AdrcGains;
    probe_adrcgains_with_tau = adrcgains_with_tau(omega_o: f32, omega_c: f32, b0: f32, tau: f32) -> AdrcGains;
    probe_adrcgains_from_bandwidth = adrcgains_from_bandwidth(omega_c: f32, separation: f32, b0: f32, tau: f32) -> AdrcGains;
    probe_adrcgains_well_separated = adrcgains_well_separated(g: AdrcGains, min_ratio: f32) -> bool;
    probe_adrcgains_eso_dt_stable = adrcgains_eso_dt_stable(g: AdrcGains, dt: f32, margin: f32) -> bool;
    probe_sanitise = sanitise(x: f32, fallback: f32) -> f32;
    probe_adrcaxis_new = adrcaxis_new(g: AdrcGains) -> AdrcAxis;
    probe_adrcaxis_disturbance = adrcaxis_disturbance(a: AdrcAxis) -> f32;
    probe_adrcaxis_tick = adrcaxis_tick(a: AdrcAxis, omega_meas: f32, omega_d: f32, dt: f32) -> AxisTick;
    probe_adrcaxis_reset = adrcaxis_reset(a: AdrcAxis) -> AdrcAxis;
    probe_adrcaxis_set_delivered_fraction = adrcaxis_set_delivered_fraction(a: AdrcAxis, frac: f32) -> AdrcAxis;
    probe_biquad_lowpass = biquad_lowpass(fc: f32, fs: f32) -> Biquad;
    probe_biquad_passthrough = biquad_passthrough() -> Biquad;
    probe_biquad_filter = biquad_filter(f: Biquad, x: f32) -> Filtered;
    probe_gyrolpf_new = gyrolpf_new(fc: f32, fs: f32) -> GyroLpf;
    probe_gyrolpf_filter = gyrolpf_filter(f: GyroLpf, gyro: BodyRate) -> GyroFiltered;
    probe_adrcrate_new = adrcrate_new(roll: AdrcGains, pitch: AdrcGains, yaw: AdrcGains) -> AdrcRate;
    probe_adrcrate_falcon_quad = adrcrate_falcon_quad() -> AdrcRate;
    probe_adrcrate_tick = adrcrate_tick(a: AdrcRate, omega_meas: BodyRate, omega_d: BodyRate, dt: f32) -> RateTick;
    probe_adrcrate_reset = adrcrate_reset(a: AdrcRate) -> AdrcRate;
    probe_adrcrate_set_delivered_fraction = adrcrate_set_delivered_fraction(a: AdrcRate, frac: Vec3) -> AdrcRate;
    probe_adrcrate_disturbance = adrcrate_disturbance(a: AdrcRate) -> Vec3;
    probe_clamp_sym = clamp_sym(x: f32, m: f32) -> f32;
    probe_commandfilter_new = commandfilter_new(omega_n: f32, max_mag: f32, max_rate: f32) -> CommandFilter;
    probe_commandfilter_step = commandfilter_step(f: CommandFilter, u: f32, dt: f32) -> Stepped;
    probe_commandfilter_value = commandfilter_value(f: CommandFilter) -> f32;
    probe_commandfilter_rate = commandfilter_rate(f: CommandFilter) -> f32;
    probe_commandfilter_reset = commandfilter_reset(f: CommandFilter) -> CommandFilter;
    probe_commandfilter3_new = commandfilter3_new(omega_n: f32, max_mag: f32, max_rate: f32) -> CommandFilter3;
    probe_commandfilter3_step = commandfilter3_step(f: CommandFilter3, u: BodyRate, dt: f32) -> Stepped3;
    probe_commandfilter3_reset = commandfilter3_reset(f: CommandFilter3) -> CommandFilter3;
}
