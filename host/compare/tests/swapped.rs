//! Request Eleven: actual and desired exchanged, on the archive's own calls.

use compare::generate::{self, Kind, Part, Rng};
use compare::{same, portion, threads};
use archives::geo::{self, Mat3};
use archives::Vec3;
use std::sync::atomic::{AtomicU64, Ordering};

type Rows = [[f32; 3]; 3];

const BOUND: f32 = 1000.0;
const PAIRS: u64 = 10_000_000;
const JOBS: u64 = 1000;

fn matrix(m: Rows) -> Mat3 {
    let [a, b, c] = m.map(|[x, y, z]| Vec3(x, y, z));
    Mat3(a, b, c)
}

fn error(r: Rows, r_d: Rows) -> [f32; 3] {
    let Vec3(x, y, z) = geo::geoatt_attitude_error(matrix(r), matrix(r_d));
    [x, y, z]
}

/// By `==`, to which -0.0 and 0.0 are one.
fn opposite(a: [f32; 3], b: [f32; 3]) -> [bool; 3] {
    std::array::from_fn(|k| a[k] == -b[k])
}

/// Two attitudes; any bits; any numbers; numbers at the bound, at 1 and at 0. Within the bound each.
fn pair(number: u64) -> (Rows, Rows) {
    let rng = &mut Rng::new("swapped", number);
    let mut words = [0.0f32; 18];
    match number % 4 {
        0 => generate::fill_as(Kind::Flight, &[Part::Rotation; 2], None, number, rng, &mut words),
        1 => words.fill_with(|| rng.word()),
        2 => words.fill_with(|| rng.range(-BOUND, BOUND)),
        _ => words.fill_with(|| rng.near_one(&[BOUND, BOUND, 1.0, 0.0])),
    }
    // what is beyond it keeps its digits
    let within =
        words.map(|x| if x.abs() <= BOUND { x } else { f32::from_bits(x.to_bits() & 0x807f_ffff | 0x4400_0000).clamp(-BOUND, BOUND) });
    let rows = |from: usize| std::array::from_fn(|i| std::array::from_fn(|j| within[from + 3 * i + j]));
    (rows(0), rows(9))
}

/// Of the pairs: those that a version of the error fails on, and the components of the others that are not zero and that are.
fn sweep(pairs: u64, error: impl Fn(Rows, Rows) -> [f32; 3] + Sync) -> [u64; 3] {
    let counts = [0; 3].map(AtomicU64::new);
    threads::each(JOBS, |job| {
        let mut found = [0; 3];
        for number in (job..pairs).step_by(JOBS as usize) {
            let (r, r_d) = pair(number);
            assert!(r.iter().chain(&r_d).flatten().all(|x| x.abs() <= BOUND), "pair {number} is beyond the bound");
            let (here, there) = (error(r, r_d), error(r_d, r));
            if opposite(there, here) == [true; 3] {
                let other = here.iter().filter(|x| **x != 0.0).count() as u64;
                found[1] += other;
                found[2] += 3 - other;
            } else {
                found[0] += 1;
            }
        }
        counts.iter().zip(found).for_each(|(count, n)| _ = count.fetch_add(n, Ordering::Relaxed));
        false
    });
    counts.map(AtomicU64::into_inner)
}

#[test]
fn the_error_is_the_negative_within_the_bound() {
    let pairs = portion::of(PAIRS);
    let [failed, other, zero] = sweep(pairs, error);
    println!("{pairs} pairs: {failed} fail; {other} components are not zero, {zero} are");
    assert_eq!(failed, 0, "of {pairs} pairs");
    assert!(other > pairs && zero > pairs / 1000, "{other} components are not zero, {zero} are");
}

/// Every entry at the bound or at its negative.
#[test]
fn the_error_is_the_negative_at_the_bound() {
    let corner = |signs: u32| -> Rows {
        std::array::from_fn(|i| std::array::from_fn(|j| if signs >> (3 * i + j) & 1 == 1 { -BOUND } else { BOUND }))
    };
    let mut largest = 0.0f32;
    for signs in 0..1u32 << 18 {
        let (r, r_d) = (corner(signs), corner(signs >> 9));
        let (here, there) = (error(r, r_d), error(r_d, r));
        assert_eq!(opposite(there, here), [true; 3], "{r:?} {r_d:?}");
        largest = here.iter().fold(largest, |most, x| most.max(x.abs()));
    }
    assert_eq!(largest, 6.0 * BOUND * BOUND);
}

/// The four products without the brackets, which is the same in exact numbers: the must-fail edit, and what the sweep has to catch.
#[test]
fn a_regrouped_error_is_not() {
    let regrouped = |r: Rows, r_d: Rows| {
        let entry = |a: &Rows, i: usize, b: &Rows, j: usize| 0.0 + a[0][i] * b[0][j] + a[1][i] * b[1][j] + a[2][i] * b[2][j];
        [(2, 1), (0, 2), (1, 0)]
            .map(|(i, j)| 0.5 * (entry(&r_d, i, &r, j) - entry(&r, i, &r_d, j) - entry(&r_d, j, &r, i) + entry(&r, j, &r_d, i)))
    };
    let [failed, ..] = sweep(10_000, regrouped);
    println!("regrouped: {failed} of 10000 pairs fail");
    assert!(failed > 1000, "{failed} of 10000 pairs");
}

/// Of any bits, NaNs counted alike.
#[test]
fn psi_is_the_same_for_all_bits() {
    let mut numbers = 0u64;
    for number in 0..portion::of(1_000_000) {
        let mut words = [0.0f32; 18];
        generate::fill(&[Part::Rotation; 2], None, "psi swapped", number, &mut words);
        let rows = |from: usize| matrix(std::array::from_fn(|i| std::array::from_fn(|j| words[from + 3 * i + j])));
        let (here, there) = (geo::geoatt_psi(rows(0), rows(9)), geo::geoatt_psi(rows(9), rows(0)));
        assert!(same(here, there), "pair {number}: {here} and {there}");
        numbers += u64::from(!here.is_nan());
    }
    assert!(numbers > portion::of(200_000), "{numbers} are numbers");
}

/// 2⁶⁴ in two columns: both products overflow, the component that has these columns is inf - inf, and the others hold.
#[test]
fn beyond_the_bound_each_component_can_fail() {
    let large = 2f32.powi(64);
    for (k, (i, j)) in [(2, 1), (0, 2), (1, 0)].into_iter().enumerate() {
        let mut r = [[0.0; 3]; 3];
        (r[0][i], r[0][j]) = (large, large);
        let e = error(r, r);
        assert!(e[k].is_nan());
        assert_eq!(opposite(e, e), std::array::from_fn(|at| at != k));
        // one product that overflows alone is an infinity, and its negative
        let (mut a, mut b) = ([[0.0; 3]; 3], [[0.0; 3]; 3]);
        (a[0][j], b[0][i]) = (large, large);
        assert_eq!([error(a, b)[k], error(b, a)[k]], [f32::INFINITY, f32::NEG_INFINITY]);
    }
}
