//! Stand-in for libtw2_common: casts that check, one macro, and types that only print or hold.

pub mod digest;
pub mod num;
pub mod pretty;

/// The value inside, or return from the function.
#[macro_export]
macro_rules! unwrap_or_return {
    ($value:expr, $answer:expr) => {
        match $value {
            Some(inside) => inside,
            None => return $answer,
        }
    };
}
