//! Lent trigonometry: the 37 numbers of one point, and the sine and cosine of the latitude.

pub const SHEET: usize = 37;

/// docs/SCOPE.md 3.1: sin and cos of k·h for k = 1 to 9, the same for k·dec, then tan dec.
#[derive(Debug, Clone, Copy)]
pub struct Sheet(pub [f64; SHEET]);

impl Sheet {
    /// The sheet in a lent slice of 37 numbers.
    pub fn from_slice(numbers: &[f64]) -> Self {
        let mut sheet = [0.0; SHEET];
        sheet.copy_from_slice(numbers);
        Self(sheet)
    }

    pub fn sin_h(&self, k: u8) -> f64 {
        self.0[2 * (k as usize - 1)]
    }

    pub fn cos_h(&self, k: u8) -> f64 {
        self.0[2 * (k as usize - 1) + 1]
    }

    pub fn sin_dec(&self, k: u8) -> f64 {
        self.0[18 + 2 * (k as usize - 1)]
    }

    pub fn cos_dec(&self, k: u8) -> f64 {
        self.0[18 + 2 * (k as usize - 1) + 1]
    }

    pub fn tan_dec(&self) -> f64 {
        self.0[36]
    }
}

/// docs/SCOPE.md 3.2.3: sin and cos of the latitude are lent once.
#[derive(Debug, Clone, Copy)]
pub struct Latitude {
    pub sin: f64,
    pub cos: f64,
}
