//! Stands for `celestial_core::angle::Angle`, which docs/src has not: an angle in radians. The differences that the published code works out
//! by it are lent to the oracle as they come, so no distance depends on how it turns units.

use std::ops::{Add, Sub};

const ARCSECOND: f64 = std::f64::consts::PI / 648_000.0;

#[derive(Debug, Clone, Copy, PartialEq, Default)]
pub struct Angle(f64);

impl Angle {
    pub fn from_radians(radians: f64) -> Self {
        Self(radians)
    }

    pub fn from_degrees(degrees: f64) -> Self {
        Self(degrees.to_radians())
    }

    pub fn from_arcseconds(arcseconds: f64) -> Self {
        Self(arcseconds * ARCSECOND)
    }

    pub fn radians(self) -> f64 {
        self.0
    }

    pub fn arcseconds(self) -> f64 {
        self.0 / ARCSECOND
    }
}

impl Add for Angle {
    type Output = Self;
    fn add(self, other: Self) -> Self {
        Self(self.0 + other.0)
    }
}

impl Sub for Angle {
    type Output = Self;
    fn sub(self, other: Self) -> Self {
        Self(self.0 - other.0)
    }
}
