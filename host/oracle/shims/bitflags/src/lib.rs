//! Stand-in for `bitflags` 2. Assumed: a set is its number; `from_bits_retain` keeps unknown bits; `contains` asks for every bit of
//! the other. Only the methods that sound.rs and common.rs use.
#![no_std]

#[macro_export]
macro_rules! bitflags {
    ($(#[$m:meta])* $v:vis struct $N:ident : $T:ty { $( $(#[$fm:meta])* const $F:ident = $x:expr; )* }) => {
        $(#[$m])*
        $v struct $N($T);
        #[allow(dead_code)]
        impl $N {
            $( $(#[$fm])* pub const $F: Self = Self($x); )*
            pub const fn bits(&self) -> $T { self.0 }
            pub const fn from_bits_retain(bits: $T) -> Self { Self(bits) }
            pub const fn empty() -> Self { Self(0) }
            pub const fn all() -> Self { Self(0 $(| $x)*) }
            pub const fn union(self, o: Self) -> Self { Self(self.0 | o.0) }
            pub const fn intersection(self, o: Self) -> Self { Self(self.0 & o.0) }
            pub const fn contains(&self, o: Self) -> bool { self.0 & o.0 == o.0 }
        }
    };
}
