// Ours, from here on: a way in for tests. Nothing above is changed.

/// The private functions.
pub mod private {
    use super::Biquad;

    pub fn sanitise(x: f32, fallback: f32) -> f32 {
        super::sanitise(x, fallback)
    }

    pub fn clamp_sym(x: f32, m: f32) -> f32 {
        super::clamp_sym(x, m)
    }

    pub fn passthrough() -> Biquad {
        Biquad::passthrough()
    }
}

words!(AdrcGains[4] { omega_o, omega_c, b0, tau });

impl AdrcAxis {
    pub fn words(&self) -> [f32; 9] {
        let g = self.g;
        [self.z1, self.z2, self.u_prev, self.u_act, self.u_delivered_frac, g.omega_o, g.omega_c, g.b0, g.tau]
    }

    pub fn from_words([z1, z2, u_prev, u_act, u_delivered_frac, omega_o, omega_c, b0, tau]: [f32; 9]) -> Self {
        AdrcAxis { z1, z2, u_prev, u_act, u_delivered_frac, g: AdrcGains { omega_o, omega_c, b0, tau } }
    }
}

words!(AdrcRate of AdrcAxis[9]);
words!(Biquad[9] { b0, b1, b2, a1, a2, x1, x2, y1, y2 });
words!(GyroLpf of Biquad[9]);
words!(CommandFilter[5] { omega_n, max_mag, max_rate, y, yd });
words!(CommandFilter3 of CommandFilter[5]);
