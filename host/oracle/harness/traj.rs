// Ours, from here on: a way in for tests. Nothing above is changed.

/// The private functions.
pub mod private {
    pub fn fin(x: f32, fallback: f32) -> f32 {
        super::fin(x, fallback)
    }

    pub fn clamp_to(x: f32, lo: f32) -> f32 {
        super::clamp_to(x, lo)
    }

    pub fn gate_factor(err: f32, lo: f32, hi: f32, g_min: f32) -> f32 {
        super::gate_factor(err, lo, hi, g_min)
    }

    pub fn jerk_coeffs(q: super::Quintic) -> [f32; 3] {
        let (a, b, c) = q.jerk_coeffs();
        [a, b, c]
    }
}

words!(Quintic[7] { c5, c4, c3, c2, c1, c0, t_end });
words!(Segment3 of Quintic[7]);
words!(RefGovernor[4] { s, err_lo, err_hi, g_min });
