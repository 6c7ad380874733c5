//! Stands in for the crate `bitflags`: the macro, and of what it makes only
//! the functions that the Rust calls.

#[macro_export]
macro_rules! bitflags {
    (
        pub struct $name:ident : $bits:ty {
            $( const $flag:ident = $value:expr; )*
        }
    ) => {
        #[derive(Clone, Copy, PartialEq, Eq)]
        pub struct $name {
            bits: $bits,
        }

        #[allow(dead_code)]
        impl $name {
            $( pub const $flag: $name = $name { bits: $value }; )*

            pub const fn all() -> $name {
                $name { bits: 0 $( | $value )* }
            }

            pub const fn bits(&self) -> $bits {
                self.bits
            }

            pub const fn from_bits_truncate(bits: $bits) -> $name {
                $name { bits: bits & $name::all().bits }
            }

            pub const fn contains(&self, other: $name) -> bool {
                self.bits & other.bits == other.bits
            }

            pub fn insert(&mut self, other: $name) {
                self.bits |= other.bits;
            }

            pub fn remove(&mut self, other: $name) {
                self.bits &= !other.bits;
            }
        }

        impl ::core::ops::BitOr for $name {
            type Output = $name;

            fn bitor(self, other: $name) -> $name {
                $name { bits: self.bits | other.bits }
            }
        }
    };
}
