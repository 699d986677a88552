// Ours, from here on: a way in for tests. Nothing above is changed.

/// The private functions.
pub mod private {
    use super::{Mat3, Vec3};

    pub fn cross(a: Vec3, b: Vec3) -> Vec3 {
        super::cross(a, b)
    }

    pub fn dot(a: Vec3, b: Vec3) -> f32 {
        super::dot(a, b)
    }

    pub fn norm(a: Vec3) -> f32 {
        super::norm(a)
    }

    pub fn normalize(a: Vec3) -> Option<Vec3> {
        super::normalize(a)
    }

    pub fn transpose3(m: Mat3) -> Mat3 {
        super::transpose3(&m)
    }

    pub fn matmul3(a: Mat3, b: Mat3) -> Mat3 {
        super::matmul3(&a, &b)
    }

    pub fn vee(m: Mat3) -> Vec3 {
        super::vee(&m)
    }

    pub fn sanitise3(v: Vec3) -> Vec3 {
        super::sanitise3(v)
    }
}

impl GeoAtt {
    pub fn words(&self) -> [[f32; 3]; 3] {
        [self.gains.k_r, self.gains.k_omega, self.gains.j]
    }
}

impl SimplexShield {
    /// The set, the flag as 0 or 1, and the two thresholds.
    pub fn words(&self) -> [f32; 6] {
        let flag = if self.engaged { 1.0 } else { 0.0 };
        [self.set.k_r, self.set.lambda_j, self.set.psi_max, flag, self.enter, self.exit]
    }

    pub fn from_words(w: [f32; 6]) -> Self {
        SimplexShield { set: RecoverableSet::new(w[0], w[1], w[2]), engaged: w[3] != 0.0, enter: w[4], exit: w[5] }
    }
}
