//! Stands in for `log`: the arguments are checked, nothing is written.

#[macro_export]
macro_rules! debug {
    ($($arg:tt)*) => {
        if false {
            let _ = format!($($arg)*);
        }
    };
}
