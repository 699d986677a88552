//! The proved archives as safe Rust functions: `fosavalo`, what a simulator links, by its own crate, and `probe`, the test face.
//! Nothing checks these declarations against the Rattle source but the tests that call them.
//!
//! The numbers of relay_math stand here; `geo`, `traj`, `adrc` and `pos` have the calls of those crates, a method `f` of a
//! type `T` as `t_f`.

/// How an argument is handed over: a number as itself, a struct by where it stands, so that every machine's rules for calls are alike.
pub(crate) trait Given {
    type Handed;
    fn handed(&mut self) -> Self::Handed;
}

impl Given for f32 {
    type Handed = f32;
    fn handed(&mut self) -> f32 {
        *self
    }
}

impl<T> Given for &mut T {
    type Handed = *mut T;
    fn handed(&mut self) -> *mut T {
        *self
    }
}

/// Declares calls of the archive `probe`, each with a safe function of its own name without `probe_`.
macro_rules! calls {
    ($($symbol:ident = $name:ident($($given:ident: $kind:ty),*) -> $answer:ident;)*) => {
        $(call! { $answer, $symbol = $name($($given: $kind),*) })*
    };
}

/// One of them: a number or a flag is returned, any other answer is written where the first argument says.
macro_rules! call {
    (f32, $($call:tt)*) => { call! { plain f32, $($call)* } };
    (bool, $($call:tt)*) => { call! { plain bool, $($call)* } };
    (plain $answer:ident, $symbol:ident = $name:ident($($given:ident: $kind:ty),*)) => {
        #[inline]
        #[allow(unused_mut)]
        pub fn $name($(mut $given: $kind),*) -> $answer {
            #[allow(unused_imports)]
            use crate::Given;
            extern "C" {
                fn $symbol($($given: <$kind as Given>::Handed),*) -> $answer;
            }
            // SAFETY: numbers go in by value, structs are this function's own or are lent to it; the function is proved total.
            unsafe { $symbol($($given.handed()),*) }
        }
    };
    ($answer:ident, $symbol:ident = $name:ident($($given:ident: $kind:ty),*)) => {
        #[inline]
        #[allow(unused_mut)]
        pub fn $name($(mut $given: $kind),*) -> $answer {
            #[allow(unused_imports)]
            use crate::Given;
            extern "C" {
                fn $symbol(answer: *mut $answer $(, $given: <$kind as Given>::Handed)*);
            }
            let mut answer = std::mem::MaybeUninit::uninit();
            // SAFETY: as above; it writes the whole answer.
            unsafe {
                $symbol(answer.as_mut_ptr() $(, $given.handed())*);
                answer.assume_init()
            }
        }
    };
}

/// That structs are handed over by where they stand.
macro_rules! by_place {
    ($($name:ident),*) => {
        $(
            impl crate::Given for $name {
                type Handed = *mut $name;
                fn handed(&mut self) -> *mut $name {
                    self
                }
            }
        )*
    };
}

/// Declares structs as the archive lays them out.
macro_rules! structs {
    ($($(#[$note:meta])* $name:ident { $($field:ident: $kind:ty),* $(,)? })*) => {
        $(
            $(#[$note])*
            #[repr(C)]
            #[derive(Clone, Copy, Debug)]
            pub struct $name {
                $(pub $field: $kind,)*
            }
        )*
        by_place!($($name),*);
    };
}

pub mod adrc;
pub mod geo;
pub mod pos;
pub mod traj;

pub use fosavalo::calls::{
    cosf, exchange, flags, log_append, log_check, log_count, log_record, pattern_expand, route_sample, route_tick, setup, sinf, tick,
    tick_refusal,
};

/// Three numbers with no meaning of their own.
#[repr(C)]
#[derive(Clone, Copy, Debug)]
pub struct Vec3(pub f32, pub f32, pub f32);

/// An angular velocity in the body's axes, rad/s.
#[repr(C)]
#[derive(Clone, Copy, Debug)]
pub struct BodyRate(pub Vec3);

/// A torque about the body's axes.
#[repr(C)]
#[derive(Clone, Copy, Debug)]
pub struct Torque(pub Vec3);

by_place!(Vec3, BodyRate, Torque);

mod raw {
    extern "C" {
        pub fn probe_sqrtf(x: f32) -> f32;
        pub fn probe_sincos(x: f32, sine: &mut f32) -> f32;
        pub fn probe_fabsf(x: f32) -> f32;
        pub fn probe_is_finite(x: f32) -> bool;
        pub fn probe_finite_or(x: f32, d: f32) -> f32;
    }
}

pub fn sqrtf(x: f32) -> f32 {
    // SAFETY: a number in, a number out; the function is proved total.
    unsafe { raw::probe_sqrtf(x) }
}

/// Sine and cosine by one reduction.
pub fn sincos(x: f32) -> (f32, f32) {
    let mut sine = 0.0;
    // SAFETY: as above; `sine` is a live f32 that nothing else refers to.
    let cosine = unsafe { raw::probe_sincos(x, &mut sine) };
    (sine, cosine)
}

pub fn fabsf(x: f32) -> f32 {
    // SAFETY: as above.
    unsafe { raw::probe_fabsf(x) }
}

pub fn is_finite(x: f32) -> bool {
    // SAFETY: as above.
    unsafe { raw::probe_is_finite(x) }
}

pub fn finite_or(x: f32, d: f32) -> f32 {
    // SAFETY: as above.
    unsafe { raw::probe_finite_or(x, d) }
}
