//! Versions that look right and are wrong in one place. The comparison has to catch every one of them.

/// Declares the faults of a model, each of them once: the enum, in which `None` is the right version, and the list of the wrong ones.
macro_rules! faults {
    ($($(#[$note:meta])* $fault:ident,)*) => {
        /// What is wrong with a version that is wrong.
        #[derive(Clone, Copy, Debug, PartialEq, Eq)]
        pub enum Fault {
            None,
            $($(#[$note])* $fault,)*
        }

        pub const WRONG: &[Fault] = &[$(Fault::$fault,)*];
    };
}
pub(crate) use faults;
