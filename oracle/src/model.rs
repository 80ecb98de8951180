//! docs/src model.rs: `add_term`, `set_coefficients`, `apply_equatorial`, `predict_breakdown`.

use crate::error::Result;
use crate::sheet::{Latitude, Sheet};
use crate::terms::{create_term, Term};

#[derive(Default)]
pub struct PointingModel {
    terms: Vec<Box<dyn Term>>,
    coefficients: Vec<f64>,
}

impl PointingModel {
    pub fn new() -> Self {
        Self::default()
    }

    /// A model of any terms and coefficients, equal names included.
    pub fn of(terms: Vec<Box<dyn Term>>, coefficients: &[f64]) -> Self {
        assert_eq!(terms.len(), coefficients.len());
        Self {
            terms,
            coefficients: coefficients.to_vec(),
        }
    }

    pub fn add_term(&mut self, name: &str) -> Result<()> {
        let term = create_term(name)?;
        if self.terms.iter().any(|t| t.name() == term.name()) {
            return Ok(());
        }
        // docs/SCOPE.md 10.1.14: a new name finds fewer than 32 terms, or 14
        if self.terms.len() >= 32 {
            return Err(14);
        }
        self.terms.push(term);
        self.coefficients.push(0.0);
        Ok(())
    }

    pub fn term_count(&self) -> usize {
        self.terms.len()
    }

    pub fn term_names(&self) -> Vec<&str> {
        self.terms.iter().map(|t| t.name()).collect()
    }

    pub fn terms(&self) -> &[Box<dyn Term>] {
        &self.terms
    }

    pub fn coefficients(&self) -> &[f64] {
        &self.coefficients
    }

    pub fn set_coefficients(&mut self, coeffs: &[f64]) -> Result<()> {
        if coeffs.len() != self.terms.len() {
            // docs/SCOPE.md 10.1.2: another number of coefficients is 2
            return Err(2);
        }
        self.coefficients.copy_from_slice(coeffs);
        Ok(())
    }

    pub fn apply_equatorial(&self, sheet: &Sheet, lat: Latitude, pier: f64) -> (f64, f64) {
        let mut dh = 0.0;
        let mut ddec = 0.0;
        for (term, &coeff) in self.terms.iter().zip(self.coefficients.iter()) {
            let (jh, jd) = term.jacobian_equatorial(sheet, lat, pier);
            dh += coeff * jh;
            ddec += coeff * jd;
        }
        (dh, ddec)
    }

    pub fn predict_breakdown(
        &self,
        sheet: &Sheet,
        lat: Latitude,
        pier: f64,
    ) -> Vec<(String, f64, f64)> {
        self.terms
            .iter()
            .zip(self.coefficients.iter())
            .map(|(term, &coeff)| {
                let (jh, jd) = term.jacobian_equatorial(sheet, lat, pier);
                (term.name().to_string(), coeff * jh, coeff * jd)
            })
            .collect()
    }
}
