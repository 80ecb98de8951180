//! Stands for `celestial_time::julian`, which docs/src has not: the date of a file that is never read here.

#[derive(Debug, Clone)]
pub struct JulianDate;
