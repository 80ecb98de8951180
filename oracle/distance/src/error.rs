//! Stands for the crate's `error`, which docs/src has not: the three errors that the published files give.

#[derive(Debug)]
pub enum Error {
    UnknownTerm(String),
    InvalidHarmonic(String),
    Fit(String),
}

pub type Result<T> = std::result::Result<T, Error>;
