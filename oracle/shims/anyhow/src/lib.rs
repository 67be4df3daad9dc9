//! An error that is a text.

#[derive(Debug)]
pub struct Error(pub String);

pub type Result<T, E = Error> = core::result::Result<T, E>;

impl<E: std::error::Error> From<E> for Error {
    fn from(error: E) -> Error {
        Error(error.to_string())
    }
}

#[macro_export]
macro_rules! anyhow {
    ($($arg:tt)*) => { $crate::Error(format!($($arg)*)) };
}
