//! Enums whose cases the header numbers.

/// An enum, each case with its constant of `sys`; and `of`, which gives the case of a number, if it has one. More cases may come.
macro_rules! numbered {
    (
        $(#[$of_enum:meta])*
        pub enum $name:ident {
            $($(#[$of_case:meta])* $case:ident = $number:ident,)*
        }
    ) => {
        $(#[$of_enum])*
        #[derive(Clone, Copy, Debug, PartialEq, Eq)]
        #[non_exhaustive]
        pub enum $name {
            $($(#[$of_case])* $case,)*
        }

        impl $name {
            pub(crate) fn of(number: u32) -> Option<$name> {
                match number {
                    $($crate::sys::$number => Some($name::$case),)*
                    _ => None,
                }
            }

            #[allow(dead_code)]
            pub(crate) fn number(self) -> u32 {
                match self {
                    $($name::$case => $crate::sys::$number,)*
                }
            }
        }
    };
}

pub(crate) use numbered;
