//! What is left of each star's differences under the fitted coefficients.

use crate::jacobian::{pair, Point};
use crate::run::{Pier, Run};
use crate::terms::Kind;

#[derive(Debug, Clone, Copy, PartialEq)]
pub struct Residual {
    pub pier: Pier,
    /// Hours, -12 to 12.
    pub hour_angle: f64,
    /// Degrees.
    pub declination: f64,
    /// On the sky, in arcseconds: the hour-angle residual times cos dec.
    pub dx: f64,
    /// In declination, in arcseconds.
    pub dd: f64,
    /// The sum of the sizes that were added up, which bounds how well dx and dd are known.
    pub size: f64,
}

impl Residual {
    pub fn length(&self) -> f64 {
        self.dx.hypot(self.dd)
    }
}

/// The residual of every star: its differences less coefficient times Jacobian of every term.
pub fn residuals(run: &Run, kinds: &[Kind], coefficients: &[f64]) -> Vec<Residual> {
    let of = |star| {
        let point = Point::of(run, star);
        let (mut rh, mut rd) = (star.dh, star.dd);
        let (mut size_h, mut size_d) = (rh.abs(), rd.abs());
        for (kind, &c) in kinds.iter().zip(coefficients) {
            let (jh, jd) = pair(kind, &point);
            rh -= c * jh;
            rd -= c * jd;
            size_h += (c * jh).abs();
            size_d += (c * jd).abs();
        }
        let cos_dec = star.sheet.cos_dec(1);
        Residual {
            pier: star.pier,
            hour_angle: star.sheet.hour_angle(),
            declination: star.sheet.declination(),
            dx: rh * cos_dec,
            dd: rd,
            size: (size_h * cos_dec).hypot(size_d),
        }
    };
    run.stars.iter().map(of).collect()
}

/// The root of the mean square length; 0 of no residual.
pub fn rms<'a>(residuals: impl Iterator<Item = &'a Residual>) -> f64 {
    let (mut sum, mut count) = (0.0, 0);
    for r in residuals {
        sum += r.dx * r.dx + r.dd * r.dd;
        count += 1;
    }
    if count == 0 {
        0.0
    } else {
        (sum / f64::from(count)).sqrt()
    }
}
