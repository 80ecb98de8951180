//! The Jacobian pair of a term at a star, in plain f64, for the residuals of the card.

use crate::harmonic::Harmonic;
use crate::run::{Run, Star};
use crate::sheet::Sheet;
use crate::terms::Kind;

/// A point: its sheet, the latitude and the pier's sign.
#[derive(Debug, Clone, Copy)]
pub struct Point<'a> {
    pub sheet: &'a Sheet,
    pub sin_lat: f64,
    pub cos_lat: f64,
    pub pier: f64,
}

impl<'a> Point<'a> {
    pub fn of(run: &Run, star: &'a Star) -> Self {
        Self {
            sheet: &star.sheet,
            sin_lat: run.sin_lat,
            cos_lat: run.cos_lat,
            pier: star.pier.sign(),
        }
    }

    fn sin_alt(&self) -> f64 {
        let s = self.sheet;
        self.sin_lat * s.sin_dec(1) + self.cos_lat * s.cos_dec(1) * s.cos_h(1)
    }

    /// How the zenith distance changes with hour angle and declination, times sin zeta.
    fn flexure(&self) -> (f64, f64) {
        let s = self.sheet;
        let dh = self.cos_lat * s.sin_h(1) / s.cos_dec(1);
        let dd = self.cos_lat * s.cos_h(1) * s.sin_dec(1) - self.sin_lat * s.cos_dec(1);
        (dh, dd)
    }
}

/// Arcseconds of hour angle and declination per arcsecond of the coefficient.
pub fn pair(kind: &Kind, point: &Point) -> (f64, f64) {
    let (s, pier) = (point.sheet, point.pier);
    match kind {
        Kind::Ih => (-1.0, 0.0),
        Kind::Id => (0.0, -pier),
        Kind::Ch => (-pier / s.cos_dec(1), 0.0),
        Kind::Np => (-pier * s.tan_dec(), 0.0),
        Kind::Ma => (s.cos_h(1) * s.tan_dec(), -s.sin_h(1)),
        Kind::Me => (-s.sin_h(1) * s.tan_dec(), -s.cos_h(1)),
        Kind::Tf => {
            let (dh, dd) = point.flexure();
            (-dh, -dd)
        }
        Kind::Tx => tube(point, 1),
        Kind::TxN(n) => tube(point, *n),
        Kind::Daf => {
            let along = point.sin_lat * s.tan_dec() + point.cos_lat * s.cos_h(1);
            (-along, 0.0)
        }
        Kind::Fo => (0.0, s.cos_h(1)),
        Kind::Hces => (s.sin_h(1), 0.0),
        Kind::Hcec => (s.cos_h(1), 0.0),
        Kind::Dces => (0.0, s.sin_dec(1)),
        Kind::Dcec => (0.0, s.cos_dec(1)),
        Kind::Harmonic(harmonic) => periodic(harmonic, point),
    }
}

/// Tube flexure by the n-th power of tan zeta; none at the horizon.
fn tube(point: &Point, n: u8) -> (f64, f64) {
    let cos_z = point.sin_alt();
    if cos_z.abs() < 1e-10 {
        return (0.0, 0.0);
    }
    let tan_z = (1.0 - cos_z * cos_z).max(0.0).sqrt() / cos_z;
    let scale = (1..n).fold(1.0, |product, _| product * tan_z);
    let (dh, dd) = point.flexure();
    (scale * dh / cos_z, scale * dd / cos_z)
}

fn periodic(harmonic: &Harmonic, point: &Point) -> (f64, f64) {
    let value = harmonic.value(point.sheet);
    match harmonic.result {
        'H' => (value, 0.0),
        'D' => (0.0, value),
        'X' => (value / point.sheet.cos_dec(1), 0.0),
        'P' => (-point.pier * point.sheet.tan_dec() * value, 0.0),
        _ => (0.0, 0.0),
    }
}

#[cfg(test)]
mod tests {
    use super::*;
    use crate::terms::read;

    /// Every equatorial term, and harmonics of every result.
    const NAMES: [&str; 25] = [
        "IH", "ID", "CH", "NP", "MA", "ME", "TF", "TX", "TX3", "DAF", "FO", "HCES", "HCEC", "DCES",
        "DCEC", "HHSH", "HDCD2", "HXSHCD2", "HPSH", "HPCD9", "HPCA", "HASH", "HECD", "HZSH",
        "HSCD",
    ];

    fn at(name: &str, h: f64, dec: f64, pier: f64) -> (f64, f64) {
        let sheet = Sheet::of(h, dec);
        let (sin_lat, cos_lat) = 0.6f64.sin_cos();
        let point = Point {
            sheet: &sheet,
            sin_lat,
            cos_lat,
            pier,
        };
        pair(&read(name).unwrap().1, &point)
    }

    #[test]
    fn pairs() {
        let (h, dec) = (0.7f64, 0.4f64);
        assert_eq!(at("IH", h, dec, 1.0), (-1.0, 0.0));
        assert_eq!(at("ID", h, dec, -1.0), (0.0, 1.0));
        assert_eq!(at("CH", h, dec, -1.0), (1.0 / dec.cos(), 0.0));
        assert_eq!(at("MA", h, dec, 1.0), (h.cos() * dec.tan(), -h.sin()));
        assert_eq!(at("ME", h, dec, 1.0), (-h.sin() * dec.tan(), -h.cos()));
        assert_eq!(at("HDCH2", h, dec, 1.0), (0.0, (2.0 * h).cos()));
        assert_eq!(at("HPSH", h, dec, -1.0), (dec.tan() * h.sin(), 0.0));
        assert_eq!(at("HASH", h, dec, -1.0), (0.0, 0.0));
    }

    /// East and West have opposite pairs of a pier sensitive term, and the same pair of any other.
    #[test]
    fn sides() {
        for name in NAMES {
            let (east, west) = (at(name, 0.7, 0.4, 1.0), at(name, 0.7, 0.4, -1.0));
            if read(name).unwrap().1.pier_sensitive() {
                assert_eq!(east, (-west.0, -west.1), "{name}");
                assert_ne!(east, west, "{name}");
            } else {
                assert_eq!(east, west, "{name}");
            }
        }
    }

    /// TF lowers the tube by sin zeta, TX by tan zeta: their ratio is -1 over sin of the altitude.
    #[test]
    fn flexures() {
        let (h, dec) = (0.7f64, 0.4f64);
        let sin_alt = 0.6f64.sin() * dec.sin() + 0.6f64.cos() * dec.cos() * h.cos();
        let (tf, tx, tx3) = (
            at("TF", h, dec, 1.0),
            at("TX", h, dec, 1.0),
            at("TX3", h, dec, 1.0),
        );
        assert!((tx.0 + tf.0 / sin_alt).abs() < 1e-14 && (tx.1 + tf.1 / sin_alt).abs() < 1e-14);
        let tan_z = sin_alt.acos().tan();
        assert!((tx3.0 - tx.0 * tan_z * tan_z).abs() < 1e-13);
        assert_eq!(at("TX1", h, dec, 1.0), tx);
    }
}
