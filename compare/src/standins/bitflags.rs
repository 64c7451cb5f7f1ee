//! bitflags: the struct of one set of flags, with the calls that the printed files make.

macro_rules! bitflags {
    (
        $(#[$mark:meta])*
        $vis:vis struct $name:ident: $bits:ty {
            $(const $flag:ident = $value:expr;)*
        }
    ) => {
        $(#[$mark])*
        $vis struct $name {
            bits: $bits,
        }

        impl $name {
            $(pub const $flag: Self = Self { bits: $value };)*

            pub const fn bits(&self) -> $bits {
                self.bits
            }

            /// Keeps the bits that have no name, too.
            pub const fn from_bits_retain(bits: $bits) -> Self {
                Self { bits }
            }

            pub const fn contains(&self, other: Self) -> bool {
                self.bits & other.bits == other.bits
            }
        }
    };
}
