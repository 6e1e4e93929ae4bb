//! Stand-in for bitflags 2, which Debian 12 does not have: the macro's form
//! and the six functions that the original uses, behaving as the crate's do.

#![no_std]

/// Declares a flags type over an integer, as bitflags 2 does.
///
/// The type stays a plain wrapper with the derives it was given, so its
/// constants can stand in patterns.
#[macro_export]
macro_rules! bitflags {
    (
        $(#[$outer:meta])*
        $vis:vis struct $Name:ident: $Bits:ty {
            $(
                $(#[$inner:meta])*
                const $FLAG:ident = $value:expr;
            )*
        }
    ) => {
        $(#[$outer])*
        $vis struct $Name($Bits);

        #[allow(dead_code)]
        impl $Name {
            $(
                $(#[$inner])*
                pub const $FLAG: Self = Self($value);
            )*

            pub const fn empty() -> Self {
                Self(0)
            }

            pub const fn all() -> Self {
                Self(0 $(| $value)*)
            }

            pub const fn bits(&self) -> $Bits {
                self.0
            }

            pub const fn from_bits_truncate(bits: $Bits) -> Self {
                Self(bits & Self::all().0)
            }

            pub const fn contains(&self, other: Self) -> bool {
                self.0 & other.0 == other.0
            }

            pub fn set(&mut self, other: Self, value: bool) {
                if value {
                    self.0 |= other.0;
                } else {
                    self.0 &= !other.0;
                }
            }
        }
    };
}
