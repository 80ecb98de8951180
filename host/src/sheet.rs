//! Lent trigonometry: the 37 numbers of one star, by the platform's libm.

pub const SHEET: usize = 37;

/// sin and cos of k·h for k = 1 to 9, the same for k·dec, then tan dec.
#[derive(Debug, Clone, Copy, PartialEq)]
pub struct Sheet(pub [f64; SHEET]);

impl Sheet {
    /// The sheet of an hour angle and a declination in radians.
    pub fn of(h: f64, dec: f64) -> Self {
        let mut sheet = [0.0; SHEET];
        for (base, angle) in [(0, h), (18, dec)] {
            for k in 0..9 {
                let multiple = angle * (k + 1) as f64;
                sheet[base + 2 * k] = multiple.sin();
                sheet[base + 2 * k + 1] = multiple.cos();
            }
        }
        sheet[36] = dec.tan();
        Self(sheet)
    }

    pub fn sin_h(&self, k: u8) -> f64 {
        self.0[2 * (usize::from(k) - 1)]
    }

    pub fn cos_h(&self, k: u8) -> f64 {
        self.0[2 * (usize::from(k) - 1) + 1]
    }

    pub fn sin_dec(&self, k: u8) -> f64 {
        self.0[18 + 2 * (usize::from(k) - 1)]
    }

    pub fn cos_dec(&self, k: u8) -> f64 {
        self.0[18 + 2 * (usize::from(k) - 1) + 1]
    }

    pub fn tan_dec(&self) -> f64 {
        self.0[36]
    }

    /// The hour angle in hours, -12 to 12, that the sheet tells.
    pub fn hour_angle(&self) -> f64 {
        self.sin_h(1).atan2(self.cos_h(1)).to_degrees() / 15.0
    }

    /// The declination in degrees that the sheet tells.
    pub fn declination(&self) -> f64 {
        self.sin_dec(1).atan2(self.cos_dec(1)).to_degrees()
    }
}

#[cfg(test)]
mod tests {
    use super::*;

    #[test]
    fn at_rest() {
        let sheet = Sheet::of(0.0, 0.0);
        for k in 1..=9 {
            assert_eq!((sheet.sin_h(k).to_bits(), sheet.cos_h(k)), (0, 1.0));
            assert_eq!((sheet.sin_dec(k).to_bits(), sheet.cos_dec(k)), (0, 1.0));
        }
        assert_eq!(sheet.tan_dec().to_bits(), 0);
    }

    #[test]
    fn places() {
        let (h, dec) = (0.5, -0.75);
        let sheet = Sheet::of(h, dec);
        assert_eq!(sheet.0[2], (2.0 * h).sin());
        assert_eq!(sheet.0[17], (9.0 * h).cos());
        assert_eq!(sheet.0[18], dec.sin());
        assert_eq!(sheet.0[35], (9.0 * dec).cos());
        assert_eq!(sheet.0[36], dec.tan());
        assert!((sheet.hour_angle() - h.to_degrees() / 15.0).abs() < 1e-12);
        assert!((sheet.declination() - dec.to_degrees()).abs() < 1e-12);
    }
}
