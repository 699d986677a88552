//! Structs of counts, which add up.

pub trait Counts {
    const NONE: Self;
    fn add(&mut self, other: &Self);
}

impl Counts for u64 {
    const NONE: Self = 0;

    fn add(&mut self, other: &Self) {
        *self += other;
    }
}

impl<T: Counts, const N: usize> Counts for [T; N] {
    const NONE: Self = [T::NONE; N];

    fn add(&mut self, other: &Self) {
        self.iter_mut().zip(other).for_each(|(own, new)| own.add(new));
    }
}

/// Declares such a struct.
macro_rules! counts {
    ($(#[$note:meta])* pub struct $name:ident { $($(#[$on:meta])* pub $field:ident: $kind:ty,)* }) => {
        $(#[$note])*
        #[derive(Clone)]
        pub struct $name {
            $($(#[$on])* pub $field: $kind,)*
        }

        impl $crate::counts::Counts for $name {
            const NONE: Self = $name { $($field: <$kind as $crate::counts::Counts>::NONE,)* };

            fn add(&mut self, other: &Self) {
                $($crate::counts::Counts::add(&mut self.$field, &other.$field);)*
            }
        }
    };
}
pub(crate) use counts;
