//! Stands for the crate `bitflags`: a set of bits in an integer, with the
//! methods that the published files call. Ground: the crate's documentation;
//! `contains`, `set`, `|` and `empty` are what the reference's functions use.

#[macro_export]
macro_rules! bitflags {
    ($($(#[$meta:meta])* $vis:vis struct $name:ident: $int:ty {
        $($(#[$inner:meta])* const $flag:ident = $value:expr;)*
    })*) => {$(
        $(#[$meta])*
        $vis struct $name($int);

        #[allow(dead_code)]
        impl $name {
            $($(#[$inner])* pub const $flag: Self = Self($value);)*
            pub const fn empty() -> Self { Self(0) }
            pub const fn all() -> Self { Self(0 $(| $value)*) }
            pub const fn bits(self) -> $int { self.0 }
            pub const fn from_bits_truncate(bits: $int) -> Self { Self(bits & Self::all().0) }
            pub const fn is_empty(self) -> bool { self.0 == 0 }
            pub const fn contains(self, other: Self) -> bool { self.0 & other.0 == other.0 }
            pub fn set(&mut self, other: Self, value: bool) {
                if value { self.0 |= other.0 } else { self.0 &= !other.0 }
            }
        }

        impl std::ops::BitOr for $name {
            type Output = Self;
            fn bitor(self, other: Self) -> Self { Self(self.0 | other.0) }
        }

        impl std::ops::BitOrAssign for $name {
            fn bitor_assign(&mut self, other: Self) { self.0 |= other.0 }
        }
    )*};
}
