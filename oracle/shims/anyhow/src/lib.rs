//! Shim of the parts of `anyhow` that the compiled text names.
use std::fmt::{Debug, Display};

pub struct Error(String);
pub type Result<T, E = Error> = std::result::Result<T, E>;

impl Error {
    pub fn msg<M: Display>(m: M) -> Self {
        Error(m.to_string())
    }
}
impl Debug for Error {
    fn fmt(&self, f: &mut std::fmt::Formatter<'_>) -> std::fmt::Result {
        f.write_str(&self.0)
    }
}
impl Display for Error {
    fn fmt(&self, f: &mut std::fmt::Formatter<'_>) -> std::fmt::Result {
        f.write_str(&self.0)
    }
}
// as in anyhow: Error itself does not implement std::error::Error
impl<E: std::error::Error + Send + Sync + 'static> From<E> for Error {
    fn from(e: E) -> Self {
        Error(e.to_string())
    }
}

pub trait Context<T> {
    fn context<C: Display + Send + Sync + 'static>(self, c: C) -> Result<T>;
    fn with_context<C: Display + Send + Sync + 'static, F: FnOnce() -> C>(self, f: F) -> Result<T>;
}
impl<T> Context<T> for Option<T> {
    fn context<C: Display + Send + Sync + 'static>(self, c: C) -> Result<T> {
        self.ok_or_else(|| Error::msg(c))
    }
    fn with_context<C: Display + Send + Sync + 'static, F: FnOnce() -> C>(self, f: F) -> Result<T> {
        self.ok_or_else(|| Error::msg(f()))
    }
}

#[macro_export]
macro_rules! anyhow {
    ($($t:tt)*) => { $crate::Error::msg(format!($($t)*)) };
}
#[macro_export]
macro_rules! bail {
    ($($t:tt)*) => { return Err($crate::Error::msg(format!($($t)*))) };
}
#[macro_export]
macro_rules! ensure {
    ($c:expr $(,)?) => {
        if !$c { return Err($crate::Error::msg(concat!("Condition failed: ", stringify!($c)))); }
    };
    ($c:expr, $($t:tt)*) => {
        if !$c { return Err($crate::Error::msg(format!($($t)*))); }
    };
}
