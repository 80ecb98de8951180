//! A run in real angles. It fills the published observations and the oracle's sheets by the same libm, and the oracle is lent the very
//! differences that the published code works out of its angles.

use crate::angle::Angle;
use crate::observation::{Observation, PierSide};
use crate::random::Random;
use crate::solver::build_residuals;
use crate::terms::{create_term, Term};
use oracle::questions::{Run, BY_STARS, NAME};
use oracle::sheet::SHEET;

/// Angles in radians, differences in arcseconds.
#[derive(Debug, Clone)]
pub struct Star {
    pub h: f64,
    pub dec: f64,
    pub dh: f64,
    pub dd: f64,
    pub pier: PierSide,
}

#[derive(Debug, Clone)]
pub struct Night {
    pub names: Vec<String>,
    pub fixed: Vec<bool>,
    pub start: Vec<f64>,
    pub latitude: f64,
    pub fit_tol: f64,
    pub stars: Vec<Star>,
}

/// The 37 numbers of a point by the libm that docs/src calls.
pub fn sheet(h: f64, dec: f64) -> [f64; SHEET] {
    let mut sheet = [0.0; SHEET];
    for k in 0..9 {
        let (h, dec) = (h * (k + 1) as f64, dec * (k + 1) as f64);
        (sheet[2 * k], sheet[2 * k + 1]) = (libm::sin(h), libm::cos(h));
        (sheet[18 + 2 * k], sheet[19 + 2 * k]) = (libm::sin(dec), libm::cos(dec));
    }
    sheet[36] = libm::tan(dec);
    sheet
}

fn code(pier: PierSide) -> u8 {
    match pier {
        PierSide::Unknown => 0,
        PierSide::East => 1,
        PierSide::West => 2,
    }
}

impl Star {
    fn observation(&self) -> Observation {
        let (h, dec) = (Angle::from_radians(self.h), Angle::from_radians(self.dec));
        Observation {
            catalog_ra: Angle::default(),
            catalog_dec: dec,
            observed_ra: Angle::default(),
            observed_dec: dec + Angle::from_arcseconds(self.dd),
            lst: Angle::default(),
            commanded_ha: h,
            actual_ha: h + Angle::from_arcseconds(self.dh),
            pier_side: self.pier,
            masked: false,
        }
    }
}

impl Night {
    /// Free terms at 0, and n stars higher than 15 degrees on both sides of the pier, at a latitude of up to 65 degrees, with differences 0.
    pub fn blank(random: &mut Random, names: &[&str], n: usize) -> Self {
        let latitude = random.unit() * 1.13;
        let mut stars = Vec::new();
        while stars.len() < n {
            let (h, dec) = (random.unit() * 3.1, random.unit() * 1.4);
            let (sin, cos) = (latitude.sin(), latitude.cos());
            if sin * dec.sin() + cos * dec.cos() * h.cos() > 0.26 {
                let pier = random.pick(&[PierSide::East, PierSide::West]);
                let (dh, dd) = (0.0, 0.0);
                let star = Star {
                    h,
                    dec,
                    dh,
                    dd,
                    pier,
                };
                stars.push(star);
            }
        }
        Self {
            names: names.iter().map(|name| name.to_string()).collect(),
            fixed: vec![false; names.len()],
            start: vec![0.0; names.len()],
            latitude,
            fit_tol: 1e-12,
            stars,
        }
    }

    /// The differences that coefficients of up to 300 arcseconds give, with noise, twenty times as much for one star in twenty.
    pub fn observe(&mut self, random: &mut Random, noise: f64) -> Vec<f64> {
        let truth: Vec<f64> = self.names.iter().map(|_| random.unit() * 300.0).collect();
        let terms = self.terms();
        for (i, star) in self.stars.iter_mut().enumerate() {
            let noise = if i % 20 == 7 { noise * 20.0 } else { noise };
            (star.dh, star.dd) = (random.unit() * noise, random.unit() * noise);
            for (term, coefficient) in terms.iter().zip(&truth) {
                let pier = star.pier.sign();
                let (jh, jd) = term.jacobian_equatorial(star.h, star.dec, self.latitude, pier);
                star.dh += jh * coefficient;
                star.dd += jd * coefficient;
            }
        }
        truth
    }

    pub fn terms(&self) -> Vec<Box<dyn Term>> {
        self.names
            .iter()
            .map(|name| create_term(name).expect("a name"))
            .collect()
    }

    pub fn observations(&self) -> Vec<Observation> {
        self.stars.iter().map(Star::observation).collect()
    }

    pub fn free(&self) -> usize {
        self.fixed.iter().filter(|&&fixed| !fixed).count()
    }

    /// The same run as the oracle and the library are lent it.
    pub fn lent(&self) -> Run {
        let observations = self.observations();
        let observations: Vec<&Observation> = observations.iter().collect();
        let raw = build_residuals(&observations);
        let mut run = Run {
            names: Vec::new(),
            fixed: self.fixed.iter().map(|&fixed| fixed as u8).collect(),
            coefficients: self.start.clone(),
            dh: raw.iter().step_by(2).copied().collect(),
            dd: raw.iter().skip(1).step_by(2).copied().collect(),
            piers: self.stars.iter().map(|star| code(star.pier)).collect(),
            sheets: Vec::new(),
            sin_lat: libm::sin(self.latitude),
            cos_lat: libm::cos(self.latitude),
            fit_tol: self.fit_tol,
            sigma_by: BY_STARS,
        };
        for name in &self.names {
            let mut slot = [0; NAME];
            slot[..name.len()].copy_from_slice(name.as_bytes());
            run.names.extend(slot);
        }
        for observation in observations {
            let (h, dec) = (
                observation.commanded_ha.radians(),
                observation.catalog_dec.radians(),
            );
            run.sheets.extend(sheet(h, dec));
        }
        run
    }
}
