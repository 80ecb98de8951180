//! docs/src terms/mod.rs: `create_term`, the reference for names.
//! Left out: `altaz.rs`, `jacobian_altaz` and `applicable_mounts`.

pub mod equatorial;
pub mod harmonic;

use crate::error::Result;
use crate::sheet::{Latitude, Sheet};

pub trait Term: Send + Sync {
    fn name(&self) -> &str;
    fn description(&self) -> &str;

    // docs/SCOPE.md 3.1, 3.2.3: a sheet in place of h and dec, a pair in place of lat
    fn jacobian_equatorial(&self, sheet: &Sheet, lat: Latitude, pier: f64) -> (f64, f64);

    fn pier_sensitive(&self) -> bool {
        false
    }
}

pub fn create_term(name: &str) -> Result<Box<dyn Term>> {
    // docs/SCOPE.md 4.1.2: `to_uppercase` takes ASCII letters only
    match name.to_ascii_uppercase().as_str() {
        "IH" => Ok(Box::new(equatorial::IH)),
        "ID" => Ok(Box::new(equatorial::ID)),
        "CH" => Ok(Box::new(equatorial::CH)),
        "NP" => Ok(Box::new(equatorial::NP)),
        "MA" => Ok(Box::new(equatorial::MA)),
        "ME" => Ok(Box::new(equatorial::ME)),
        "TF" => Ok(Box::new(equatorial::TF)),
        "TX" => Ok(Box::new(equatorial::TX)),
        name if name.starts_with("TX") && name.len() > 2 => {
            // docs/SCOPE.md 4.2: an unknown term is 9
            let n: u8 = name[2..].parse().map_err(|_| 9u8)?;
            if n == 0 {
                return Err(9);
            }
            Ok(Box::new(equatorial::TXN::new(n)))
        }
        "DAF" => Ok(Box::new(equatorial::DAF)),
        "FO" => Ok(Box::new(equatorial::FO)),
        "HCES" => Ok(Box::new(equatorial::HCES)),
        "HCEC" => Ok(Box::new(equatorial::HCEC)),
        "DCES" => Ok(Box::new(equatorial::DCES)),
        "DCEC" => Ok(Box::new(equatorial::DCEC)),
        // docs/SCOPE.md 4.2.2: the alt-azimuth terms are refused with 8
        "IA" => Err(8),
        "IE" => Err(8),
        "CA" => Err(8),
        "NPAE" => Err(8),
        "AN" => Err(8),
        "AW" => Err(8),
        name if name.starts_with('H') => {
            let spec = harmonic::parse_harmonic(name)?;
            Ok(Box::new(spec))
        }
        _ => Err(9),
    }
}
