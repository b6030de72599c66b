//! Stand-in for `tracing`: spans carry nothing, and logging does nothing.

#[derive(Clone, Copy, Debug, PartialEq, Eq, Default)]
pub struct Span;

#[macro_export]
macro_rules! trace {
    ($($ignored:tt)*) => {{}};
}

#[macro_export]
macro_rules! debug {
    ($($ignored:tt)*) => {{}};
}

#[macro_export]
macro_rules! warn {
    ($($ignored:tt)*) => {{}};
}

#[macro_export]
macro_rules! error {
    ($($ignored:tt)*) => {{}};
}
