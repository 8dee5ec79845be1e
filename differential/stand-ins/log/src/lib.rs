//! Stands in for log: the macros check their arguments and say nothing.

#[macro_export]
macro_rules! trace {
    (target: $target:expr, $($arg:tt)+) => {{ let _ = ($target, format_args!($($arg)+)); }};
    ($($arg:tt)+) => {{ let _ = format_args!($($arg)+); }};
}

#[macro_export]
macro_rules! debug {
    ($($arg:tt)+) => {{ let _ = format_args!($($arg)+); }};
}

#[macro_export]
macro_rules! warn {
    ($($arg:tt)+) => {{ let _ = format_args!($($arg)+); }};
}
