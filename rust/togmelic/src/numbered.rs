//! Enums whose cases have the numbers of a listing.

/// An enum with a number and a name a case, and the way from the number and back.
macro_rules! numbered {
    (
        $(#[$about:meta])*
        $enum:ident { $($(#[$said:meta])* $case:ident = $number:literal => $name:literal,)+ }
    ) => {
        $(#[$about])*
        #[derive(Clone, Copy, Debug, PartialEq, Eq, PartialOrd, Ord, Hash)]
        #[repr(u8)]
        pub enum $enum {
            $($(#[$said])* $case = $number,)+
        }

        impl $enum {
            /// All, in the order of their numbers.
            pub const ALL: [Self; [$($number),+].len()] = [$(Self::$case),+];

            /// The number that a listing has.
            pub const fn number(self) -> u32 {
                self as u32
            }

            /// What has this number, if anything.
            pub fn from_number(number: u32) -> Option<Self> {
                match number {
                    $($number => Some(Self::$case),)+
                    _ => None,
                }
            }

            /// The name, as it is also displayed.
            pub const fn name(self) -> &'static str {
                match self {
                    $(Self::$case => $name,)+
                }
            }
        }

        impl std::fmt::Display for $enum {
            fn fmt(&self, f: &mut std::fmt::Formatter<'_>) -> std::fmt::Result {
                f.pad(self.name())
            }
        }
    };
}

pub(crate) use numbered;
