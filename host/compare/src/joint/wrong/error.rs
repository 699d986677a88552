//! Versions of request Four's rate error.

use super::versions;
use crate::joint::frames::{less, product, times};
use crate::joint::model::{Right, Steps};
use oracle::geo::private::transpose3;
use oracle::geo::{Mat3, Vec3};

versions! {
    /// Those of the rate error.
    WRONG_ERROR {
        WholeRate: Steps = "commanded turning counted as error";
        VectorFirst: Steps = "R_d times the feedforward, then R transposed";
        OtherTransposed: Steps = "R_d transposed times R";
        PlusCommanded: Steps = "the rate plus what is commanded";
        RefusedAsZeros: Steps = "a refused feedforward taken for zeros";
        ZerosAsRefused: Steps = "a feedforward of zeros taken for refused";
    }
}

impl Steps for WholeRate {
    fn rate_error(&self, omega: Vec3, _: &Mat3, _: &Mat3, _: Option<Vec3>) -> Vec3 {
        omega
    }
}

impl Steps for VectorFirst {
    fn rate_error(&self, omega: Vec3, r: &Mat3, r_d: &Mat3, ahead: Option<Vec3>) -> Vec3 {
        ahead.map_or(omega, |ff| less(omega, times(&transpose3(*r), times(r_d, ff))))
    }
}

impl Steps for OtherTransposed {
    fn rate_error(&self, omega: Vec3, r: &Mat3, r_d: &Mat3, ahead: Option<Vec3>) -> Vec3 {
        ahead.map_or(omega, |ff| less(omega, times(&transpose3(product(r, r_d)), ff)))
    }
}

impl Steps for PlusCommanded {
    fn rate_error(&self, omega: Vec3, r: &Mat3, r_d: &Mat3, ahead: Option<Vec3>) -> Vec3 {
        Right.rate_error(omega, r, r_d, ahead.map(|ff| ff.map(|x| -x)))
    }
}

impl Steps for RefusedAsZeros {
    fn rate_error(&self, omega: Vec3, r: &Mat3, r_d: &Mat3, ahead: Option<Vec3>) -> Vec3 {
        Right.rate_error(omega, r, r_d, ahead.or(Some([0.0; 3])))
    }
}

impl Steps for ZerosAsRefused {
    fn rate_error(&self, omega: Vec3, r: &Mat3, r_d: &Mat3, ahead: Option<Vec3>) -> Vec3 {
        Right.rate_error(omega, r, r_d, ahead.filter(|ff| *ff != [0.0; 3]))
    }
}
