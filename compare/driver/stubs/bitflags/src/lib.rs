//! A stand-in for bitflags 2: the part that ron's `extensions.rs` and its users call.

#[macro_export]
macro_rules! bitflags {
    (
        $(#[$outer:meta])*
        pub struct $Name:ident: $Bits:ty {
            $($(#[$inner:meta])* const $Flag:ident = $value:expr;)*
        }
    ) => {
        $(#[$outer])*
        pub struct $Name($Bits);

        #[allow(dead_code)]
        impl $Name {
            $($(#[$inner])* pub const $Flag: Self = Self($value);)*

            const NAMED: &'static [(&'static str, Self)] = &[$((stringify!($Flag), Self::$Flag)),*];

            pub const fn empty() -> Self {
                Self(0)
            }

            pub const fn all() -> Self {
                Self(0 $(| $value)*)
            }

            pub const fn bits(&self) -> $Bits {
                self.0
            }

            pub const fn is_empty(&self) -> bool {
                self.0 == 0
            }

            pub const fn contains(&self, other: Self) -> bool {
                self.0 & other.0 == other.0
            }

            pub fn insert(&mut self, other: Self) {
                self.0 |= other.0;
            }

            /// The named flags that are set, in declared order.
            pub fn iter_names(&self) -> impl Iterator<Item = (&'static str, Self)> {
                let set = *self;
                Self::NAMED.iter().copied().filter(move |(_, flag)| set.contains(*flag))
            }
        }

        impl core::ops::Not for $Name {
            type Output = Self;
            fn not(self) -> Self {
                Self(!self.0 & Self::all().0)
            }
        }

        impl core::ops::BitAnd for $Name {
            type Output = Self;
            fn bitand(self, other: Self) -> Self {
                Self(self.0 & other.0)
            }
        }

        impl core::ops::BitOr for $Name {
            type Output = Self;
            fn bitor(self, other: Self) -> Self {
                Self(self.0 | other.0)
            }
        }

        impl core::ops::BitAndAssign for $Name {
            fn bitand_assign(&mut self, other: Self) {
                self.0 &= other.0;
            }
        }

        impl core::ops::BitOrAssign for $Name {
            fn bitor_assign(&mut self, other: Self) {
                self.0 |= other.0;
            }
        }
    };
}
