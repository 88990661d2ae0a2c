//! Stand-in for `log`: messages are checked by the compiler and go nowhere.

#[macro_export]
macro_rules! info {
    ($($message:tt)*) => {{ let _ = format_args!($($message)*); }};
}

#[macro_export]
macro_rules! debug {
    ($($message:tt)*) => {{ let _ = format_args!($($message)*); }};
}
