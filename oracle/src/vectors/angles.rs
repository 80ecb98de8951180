//! Sheets of real angles by plain arithmetic, so that every machine makes the same.

use crate::sheet::SHEET;

/// Pi/2 as a number of few bits and what is left.
const HALF_PI: [f64; 2] = [1.570_796_326_734_125_6, 6.077_100_506_506_192e-11];

/// Sine and cosine of a small angle, close to libm's: less its quarter turns, the power series.
pub fn sin_cos(x: f64) -> (f64, f64) {
    let turns = (x / std::f64::consts::FRAC_PI_2).round();
    let r = (x - turns * HALF_PI[0]) - turns * HALF_PI[1];
    let (mut s, mut c) = (1.0, 1.0);
    for k in (1..=10).rev() {
        let n = 2.0 * k as f64;
        s = 1.0 - r * r / (n * (n + 1.0)) * s;
        c = 1.0 - r * r / ((n - 1.0) * n) * c;
    }
    s *= r;
    match (turns as i32).rem_euclid(4) {
        0 => (s, c),
        1 => (c, -s),
        2 => (-s, -c),
        _ => (-c, s),
    }
}

/// The sheet of an hour angle and a declination.
pub fn sheet(h: f64, dec: f64) -> [f64; SHEET] {
    let mut sheet = [0.0; SHEET];
    for k in 0..9 {
        let times = (k + 1) as f64;
        (sheet[2 * k], sheet[2 * k + 1]) = sin_cos(h * times);
        (sheet[18 + 2 * k], sheet[19 + 2 * k]) = sin_cos(dec * times);
    }
    sheet[36] = sheet[18] / sheet[19];
    sheet
}

#[cfg(test)]
mod tests {
    use super::*;

    #[test]
    fn close_to_libm() {
        for i in -30_000..30_000 {
            let x = i as f64 / 1000.0;
            let (s, c) = sin_cos(x);
            assert!((s - x.sin()).abs() < 3e-16 && (c - x.cos()).abs() < 3e-16);
        }
    }
}
