//! Stands for log: the texts are checked and dropped.
#![no_std]

#[macro_export]
macro_rules! error {
    ($($text:tt)*) => {{ let _ = core::format_args!($($text)*); }};
}
#[macro_export]
macro_rules! debug {
    ($($text:tt)*) => {{ let _ = core::format_args!($($text)*); }};
}
#[macro_export]
macro_rules! trace {
    ($($text:tt)*) => {{ let _ = core::format_args!($($text)*); }};
}
