//! Stands in for the crate `log`: messages are checked by the compiler and written nowhere.

#[macro_export]
macro_rules! quiet {
    ($($message:tt)*) => { if false { let _ = format_args!($($message)*); } };
}

pub use quiet as debug;
pub use quiet as error;
pub use quiet as info;
pub use quiet as trace;
pub use quiet as warn;
