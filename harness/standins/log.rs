//! Stands in for the crate `log`: the planners' messages are checked by the compiler and go nowhere.

#[macro_export]
macro_rules! debug {
    ($($words:tt)*) => {
        if false {
            let _ = format_args!($($words)*);
        }
    };
}
