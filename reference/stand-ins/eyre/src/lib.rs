//! Stand-in: an error is its text.

#[derive(Debug)]
pub struct Report(pub String);

pub type Result<T> = core::result::Result<T, Report>;

#[macro_export]
macro_rules! bail {
    ($($text:tt)*) => {
        return Err($crate::Report(format!($($text)*)))
    };
}

#[macro_export]
macro_rules! ensure {
    ($holds:expr, $($text:tt)*) => {
        if !$holds {
            $crate::bail!($($text)*)
        }
    };
}
