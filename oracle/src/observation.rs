//! docs/src observation.rs: `PierSide::sign`, and of an observation what docs/SCOPE.md 3 lends.

use crate::sheet::Sheet;

#[derive(Debug, Clone, Copy, PartialEq)]
pub enum PierSide {
    East,
    West,
    Unknown,
}

impl PierSide {
    /// docs/SCOPE.md 3.2.2: code 0 Unknown, 1 East, 2 West; another code is 5.
    pub fn from_code(code: u8) -> Option<Self> {
        match code {
            0 => Some(Self::Unknown),
            1 => Some(Self::East),
            2 => Some(Self::West),
            _ => None,
        }
    }

    pub fn sign(&self) -> f64 {
        match self {
            Self::East => 1.0,
            Self::West => -1.0,
            Self::Unknown => 1.0,
        }
    }
}

#[derive(Debug, Clone)]
pub struct Observation {
    // docs/SCOPE.md 3.2.1: the raw difference actual_ha - commanded_ha in arcseconds is lent
    pub raw_dh: f64,
    // docs/SCOPE.md 3.2.1: the raw difference observed_dec - catalog_dec in arcseconds is lent
    pub raw_dd: f64,
    pub pier_side: PierSide,
    // docs/SCOPE.md 3.1: the sheet stands for commanded_ha and catalog_dec
    pub sheet: Sheet,
}
