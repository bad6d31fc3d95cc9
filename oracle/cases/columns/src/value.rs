//! The numbers of a column, and what is done to columns whatever they hold.

use std::fmt::Debug;

/// A number of a column.
pub trait Value: Copy + Debug + PartialEq {
    /// The number itself, or the bits of a float.
    fn bits(self) -> u64;

    /// The number of the lowest of these bits.
    fn of_bits(bits: u64) -> Self;
}

/// Something done to a column.
pub trait Change {
    fn column<T: Value>(&mut self, name: &'static str, column: &mut Vec<T>);
}

/// Something read off a column.
pub trait Read {
    fn column<T: Value>(&mut self, name: &'static str, column: &[T]);
}

/// Something read off two columns of the same name.
pub trait ReadBoth {
    fn columns<T: Value>(&mut self, name: &'static str, one: &[T], other: &[T]);
}

impl Value for f64 {
    fn bits(self) -> u64 {
        self.to_bits()
    }

    fn of_bits(bits: u64) -> f64 {
        f64::from_bits(bits)
    }
}

macro_rules! whole {
    ($($kind:ty),*) => {$(
        impl Value for $kind {
            fn bits(self) -> u64 {
                self.into()
            }

            fn of_bits(bits: u64) -> $kind {
                bits as $kind
            }
        }
    )*};
}

whole!(u8, u32, u64);
