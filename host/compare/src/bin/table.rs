//! A short table: our roots, sines and cosines beside the hardware's and document 01's.

use compare::exact;
use compare::joint::bytes::canonical;
use compare::println;
use std::f32::consts::{FRAC_PI_2, FRAC_PI_4, PI};

fn main() {
    println!("        x |     root  hardware  nearest f32 by document 01");
    for x in [4.0f32, 2.0, 1e-9, 9.81, f32::from_bits(1), 3.4e38, -0.0, -1.0, f32::INFINITY, f32::NAN] {
        let r = archives::sqrtf(x);
        let nearest = match exact::is_nearest_root(x, r) {
            _ if !(x.is_finite() && x > 0.0) => "(a case of its own)",
            true => "yes",
            false => "NO",
        };
        println!("{x:9.3e} | {:08x}  {:08x}  {nearest}", canonical(r), canonical(x.sqrt()));
    }
    println!();
    println!("        x |        sine  document 01's  this machine's |      cosine  document 01's  this machine's");
    for x in [0.0f32, -0.0, 1e-4, 0.5, -FRAC_PI_4, FRAC_PI_2, PI, 57.0, 128.000_02, 8192.0, 8192.001, f32::NAN] {
        let (s, c) = archives::sincos(x);
        if x.abs() <= compare::numbers::LIMIT {
            let ((es, ec), (ts, tc)) = (exact::sincos(x), f64::from(x).sin_cos());
            println!("{x:9.3e} | {s:11.8}    {es:11.8}     {ts:11.8} | {c:11.8}    {ec:11.8}     {tc:11.8}");
        } else {
            println!("{x:9.3e} | {s:11.8}     (not served)              | {c:11.8}     (not served)");
        }
    }
}
