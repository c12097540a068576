//! Codes and numbers of the library as enums.

use std::ffi::{CStr, c_char};

/// Makes an enum of what the library says by numbers.
macro_rules! numbers {
    ($(#[$doc:meta])* $name:ident: $($variant:ident = $number:literal),*) => {
        $(#[$doc])*
        #[derive(Clone, Copy, Debug, PartialEq, Eq)]
        pub enum $name {
            $(#[doc = concat!("Number ", $number, ".")] $variant = $number),*
        }

        impl $name {
            pub(crate) fn of(number: u32) -> $name {
                match number {
                    $($number => $name::$variant,)*
                    _ => panic!("number {number} of the library is none of {}", stringify!($name)),
                }
            }
        }
    };
}

/// Makes an enum of why calls are refused: its codes, and in words what the library's function for texts says. A variant may
/// have what was written with the code.
macro_rules! errors {
    ($(#[$doc:meta])* $name:ident by $text:ident: $($variant:ident $(($field:ty))? = $code:literal),*) => {
        $(#[$doc])*
        #[derive(Clone, Copy, Debug, PartialEq, Eq)]
        pub enum $name {
            $(#[doc = concat!("Code ", $code, ".")] $variant $(($field))?),*
        }

        impl $name {
            /// The library's code.
            pub fn code(&self) -> u32 {
                match self { $($name::$variant { .. } => $code),* }
            }
        }

        #[doc(hidden)]
        impl From<$crate::raw::Refused> for $name {
            fn from($crate::raw::Refused(code, fault): $crate::raw::Refused) -> $name {
                let _ = fault;
                match code {
                    $($code => $name::$variant $((<$field>::from(fault)))?,)*
                    _ => panic!("code {code} of the library is none of {}", stringify!($name)),
                }
            }
        }

        impl std::fmt::Display for $name {
            fn fmt(&self, f: &mut std::fmt::Formatter) -> std::fmt::Result {
                f.write_str($crate::code::words(unsafe { $crate::raw::$text(self.code()) }))?;
                match self {
                    $($($name::$variant(fault) => { let fault: &$field = fault; write!(f, " ({fault})") })?)*
                    #[allow(unreachable_patterns)]
                    _ => Ok(()),
                }
            }
        }

        impl std::error::Error for $name {}
    };
}

pub(crate) use {errors, numbers};

/// A text of the library, which is never given back.
pub(crate) fn words(text: *const c_char) -> &'static str {
    unsafe { CStr::from_ptr(text) }.to_str().expect("a text of the library is ASCII")
}

/// The version of the library that the program runs with.
pub fn version() -> &'static str {
    words(unsafe { crate::raw::sblog_version() })
}
