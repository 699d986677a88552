//! The Rust as published, byte for byte, with its private items within reach: `geo::private`, `traj::private`, `adrc::private`, and `words`
//! and `from_words` on each type that has private fields. build.rs puts them together.
//!
//! The numbers that the published text asks for stand here, under the name that it knows them by. Sine and cosine are ours, by the exported
//! calls (document 01: "the oracle build uses those angle functions"); the root and the absolute value are IEEE 754's, by the standard library;
//! `atan2f` is called only by what is not ported. In `oracle-published`, whose manifest has another crate as `archives`, sine and cosine are relay's.

extern crate self as relay_math;

/// `words` and `from_words` of a struct of floats, and of one of three axes.
macro_rules! words {
    ($kind:ident[$count:literal] { $($field:ident),* }) => {
        impl $kind {
            pub fn words(&self) -> [f32; $count] {
                [$(self.$field),*]
            }

            pub fn from_words([$($field),*]: [f32; $count]) -> Self {
                $kind { $($field),* }
            }
        }
    };
    ($kind:ident of $axis:ident[$count:literal]) => {
        impl $kind {
            pub fn words(&self) -> [[f32; $count]; 3] {
                [self.axes[0].words(), self.axes[1].words(), self.axes[2].words()]
            }

            pub fn from_words(w: [[f32; $count]; 3]) -> Self {
                $kind { axes: w.map($axis::from_words) }
            }
        }
    };
}

include!(concat!(env!("OUT_DIR"), "/modules.rs"));

pub use archives::{cosf, sinf};
pub use libm::{atan2f, fabsf, sqrtf};

#[cfg(test)]
mod tests {
    /// A module, and what was compiled of it.
    macro_rules! compiled {
        ($($name:literal),*) => {
            [$(($name, &include_bytes!(concat!(env!("OUT_DIR"), "/", $name, ".rs"))[..])),*]
        };
    }

    /// A file of this checkout; a test runs in its package's folder.
    fn file(path: String) -> Vec<u8> {
        std::fs::read(&path).unwrap_or_else(|error| panic!("{path}: {error}"))
    }

    #[test]
    fn what_is_compiled_is_the_published_text_and_the_harness_after_it() {
        for (name, compiled) in compiled!("geo", "traj", "adrc", "pos") {
            let published = file(format!("../../docs/src/crates/relay-{name}/plain/src/lib.rs"));
            assert!(published.len() > 10_000);
            assert_eq!(compiled.strip_prefix(&published[..]), Some(&file(format!("harness/{name}.rs"))[..]));
        }
    }
}
