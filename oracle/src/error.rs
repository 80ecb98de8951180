//! Refusals. docs/SCOPE.md 10: an error becomes the number of the question whose answer was no.

pub type Result<T> = std::result::Result<T, u8>;
