//! docs/src terms/equatorial.rs: the Jacobians of the fifteen equatorial kinds.
//! docs/SCOPE.md 3.1, 3.2.3: sines, cosines and the tangent are read from the lent sheet and latitude.

use super::Term;
use crate::libm;
use crate::sheet::{Latitude, Sheet};

pub struct IH;
pub struct ID;
pub struct CH;
pub struct NP;
pub struct MA;
pub struct ME;
pub struct TF;
pub struct TX;
pub struct DAF;
pub struct FO;
pub struct HCES;
pub struct HCEC;
pub struct DCES;
pub struct DCEC;

pub struct TXN {
    pub n: u8,
    name: String,
}

impl TXN {
    pub fn new(n: u8) -> Self {
        Self {
            n,
            name: format!("TX{}", n),
        }
    }
}

impl Term for IH {
    fn name(&self) -> &str {
        "IH"
    }
    fn description(&self) -> &str {
        "Hour angle index error"
    }
    fn jacobian_equatorial(&self, _sheet: &Sheet, _lat: Latitude, _pier: f64) -> (f64, f64) {
        (-1.0, 0.0)
    }
}

impl Term for ID {
    fn name(&self) -> &str {
        "ID"
    }
    fn description(&self) -> &str {
        "Declination index error"
    }
    fn pier_sensitive(&self) -> bool {
        true
    }
    fn jacobian_equatorial(&self, _sheet: &Sheet, _lat: Latitude, pier: f64) -> (f64, f64) {
        (0.0, -pier)
    }
}

impl Term for CH {
    fn name(&self) -> &str {
        "CH"
    }
    fn description(&self) -> &str {
        "East-west collimation error"
    }
    fn pier_sensitive(&self) -> bool {
        true
    }
    fn jacobian_equatorial(&self, sheet: &Sheet, _lat: Latitude, pier: f64) -> (f64, f64) {
        (-pier / sheet.cos_dec(1), 0.0)
    }
}

impl Term for NP {
    fn name(&self) -> &str {
        "NP"
    }
    fn description(&self) -> &str {
        "Non-perpendicularity of axes"
    }
    fn pier_sensitive(&self) -> bool {
        true
    }
    fn jacobian_equatorial(&self, sheet: &Sheet, _lat: Latitude, pier: f64) -> (f64, f64) {
        (-pier * sheet.tan_dec(), 0.0)
    }
}

impl Term for MA {
    fn name(&self) -> &str {
        "MA"
    }
    fn description(&self) -> &str {
        "Polar axis azimuth misalignment"
    }
    fn jacobian_equatorial(&self, sheet: &Sheet, _lat: Latitude, _pier: f64) -> (f64, f64) {
        (sheet.cos_h(1) * sheet.tan_dec(), -sheet.sin_h(1))
    }
}

impl Term for ME {
    fn name(&self) -> &str {
        "ME"
    }
    fn description(&self) -> &str {
        "Polar axis elevation misalignment"
    }
    fn jacobian_equatorial(&self, sheet: &Sheet, _lat: Latitude, _pier: f64) -> (f64, f64) {
        (-sheet.sin_h(1) * sheet.tan_dec(), -sheet.cos_h(1))
    }
}

impl Term for TF {
    fn name(&self) -> &str {
        "TF"
    }
    fn description(&self) -> &str {
        "Tube flexure (sin zeta)"
    }
    fn jacobian_equatorial(&self, sheet: &Sheet, lat: Latitude, _pier: f64) -> (f64, f64) {
        let dh = -lat.cos * sheet.sin_h(1) / sheet.cos_dec(1);
        let dd = -(lat.cos * sheet.cos_h(1) * sheet.sin_dec(1) - lat.sin * sheet.cos_dec(1));
        (dh, dd)
    }
}

impl Term for TX {
    fn name(&self) -> &str {
        "TX"
    }
    fn description(&self) -> &str {
        "Tube flexure (tan zeta)"
    }
    fn jacobian_equatorial(&self, sheet: &Sheet, lat: Latitude, _pier: f64) -> (f64, f64) {
        let sin_alt = lat.sin * sheet.sin_dec(1) + lat.cos * sheet.cos_dec(1) * sheet.cos_h(1);
        // docs/SCOPE.md 4.4.4: sin_alt itself where the Rust takes sin of asin
        let sin_a = sin_alt;
        if sin_a.abs() < 1e-10 {
            return (0.0, 0.0);
        }
        let dh_tf = lat.cos * sheet.sin_h(1) / sheet.cos_dec(1);
        let dd_tf = lat.cos * sheet.cos_h(1) * sheet.sin_dec(1) - lat.sin * sheet.cos_dec(1);
        (dh_tf / sin_a, dd_tf / sin_a)
    }
}

impl Term for TXN {
    fn name(&self) -> &str {
        &self.name
    }
    fn description(&self) -> &str {
        "Tube flexure (tan^n zeta)"
    }
    fn jacobian_equatorial(&self, sheet: &Sheet, lat: Latitude, _pier: f64) -> (f64, f64) {
        let sin_alt = lat.sin * sheet.sin_dec(1) + lat.cos * sheet.cos_dec(1) * sheet.cos_h(1);
        let cos_z = sin_alt;
        if cos_z.abs() < 1e-10 {
            return (0.0, 0.0);
        }
        let sin_z = libm::sqrt((1.0 - cos_z * cos_z).max(0.0));
        let tan_z = sin_z / cos_z;
        // docs/SCOPE.md 4.4.5: the power n-1 is the product of that many tan_z, from the left starting at 1
        let mut scale = 1.0;
        for _ in 1..self.n {
            scale *= tan_z;
        }
        let dh_tf = lat.cos * sheet.sin_h(1) / sheet.cos_dec(1);
        let dd_tf = lat.cos * sheet.cos_h(1) * sheet.sin_dec(1) - lat.sin * sheet.cos_dec(1);
        (scale * dh_tf / cos_z, scale * dd_tf / cos_z)
    }
}

impl Term for DAF {
    fn name(&self) -> &str {
        "DAF"
    }
    fn description(&self) -> &str {
        "Declination axis flexure"
    }
    fn jacobian_equatorial(&self, sheet: &Sheet, lat: Latitude, _pier: f64) -> (f64, f64) {
        (-(lat.sin * sheet.tan_dec() + lat.cos * sheet.cos_h(1)), 0.0)
    }
}

impl Term for FO {
    fn name(&self) -> &str {
        "FO"
    }
    fn description(&self) -> &str {
        "Fork flexure"
    }
    fn jacobian_equatorial(&self, sheet: &Sheet, _lat: Latitude, _pier: f64) -> (f64, f64) {
        (0.0, sheet.cos_h(1))
    }
}

impl Term for HCES {
    fn name(&self) -> &str {
        "HCES"
    }
    fn description(&self) -> &str {
        "HA centering error (sin)"
    }
    fn jacobian_equatorial(&self, sheet: &Sheet, _lat: Latitude, _pier: f64) -> (f64, f64) {
        (sheet.sin_h(1), 0.0)
    }
}

impl Term for HCEC {
    fn name(&self) -> &str {
        "HCEC"
    }
    fn description(&self) -> &str {
        "HA centering error (cos)"
    }
    fn jacobian_equatorial(&self, sheet: &Sheet, _lat: Latitude, _pier: f64) -> (f64, f64) {
        (sheet.cos_h(1), 0.0)
    }
}

impl Term for DCES {
    fn name(&self) -> &str {
        "DCES"
    }
    fn description(&self) -> &str {
        "Dec centering error (sin)"
    }
    fn jacobian_equatorial(&self, sheet: &Sheet, _lat: Latitude, _pier: f64) -> (f64, f64) {
        (0.0, sheet.sin_dec(1))
    }
}

impl Term for DCEC {
    fn name(&self) -> &str {
        "DCEC"
    }
    fn description(&self) -> &str {
        "Dec centering error (cos)"
    }
    fn jacobian_equatorial(&self, sheet: &Sheet, _lat: Latitude, _pier: f64) -> (f64, f64) {
        (0.0, sheet.cos_dec(1))
    }
}
