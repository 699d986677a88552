//! Attitudes and vectors, by the Rust's own routines.

use oracle::geo::private::{dot, matmul3, transpose3};
use oracle::geo::{self, Mat3, Vec3};

/// R_d.
#[inline]
pub fn attitude(acc: Vec3, yaw: f32) -> Option<Mat3> {
    geo::thrust_axis_ned(acc).and_then(|b3| geo::desired_attitude(b3, yaw))
}

/// Rᵀ R_d.
#[inline]
pub fn product(r: &Mat3, r_d: &Mat3) -> Mat3 {
    matmul3(transpose3(*r), *r_d)
}

/// A matrix times a vector, row by row.
#[inline]
pub fn times(m: &Mat3, v: Vec3) -> Vec3 {
    m.map(|row| dot(row, v))
}

#[inline]
pub fn less(a: Vec3, b: Vec3) -> Vec3 {
    std::array::from_fn(|k| a[k] - b[k])
}
