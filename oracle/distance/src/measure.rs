//! How far two answers are: in arcseconds, and in units in the last place.

use crate::both::Answer;

/// How many doubles lie between two: the whole numbers of their bits, in the order of their values.
pub fn ulps(a: f64, b: f64) -> f64 {
    let place = |x: f64| {
        let bits = x.to_bits() as i64;
        if bits < 0 {
            i64::MIN.wrapping_sub(bits)
        } else {
            bits
        }
    };
    (i128::from(place(a)) - i128::from(place(b))).unsigned_abs() as f64
}

/// Distances seen, smallest first once sorted; those with a NaN or an infinity on one side only are counted beside them.
#[derive(Debug, Clone, Default)]
pub struct Spread {
    pub arcseconds: Vec<f64>,
    pub ulps: Vec<f64>,
    pub not_finite: usize,
}

impl Spread {
    pub fn add(&mut self, a: f64, b: f64) {
        if a.to_bits() == b.to_bits() || (a.is_nan() && b.is_nan()) {
            self.arcseconds.push(0.0);
            self.ulps.push(0.0);
        } else if !a.is_finite() || !b.is_finite() {
            self.not_finite += 1;
        } else {
            self.arcseconds.push((a - b).abs());
            self.ulps.push(ulps(a, b));
        }
    }

    pub fn sort(&mut self) {
        self.arcseconds.sort_by(f64::total_cmp);
        self.ulps.sort_by(f64::total_cmp);
    }
}

/// The largest and the median of a sorted list.
pub fn largest_and_median(list: &[f64]) -> String {
    match list {
        [] => "-".into(),
        list => format!(
            "{} / {}",
            short(list[list.len() - 1]),
            short(list[list.len() / 2])
        ),
    }
}

/// A number in few characters.
pub fn short(x: f64) -> String {
    if x == x.trunc() && x.abs() < 1e5 {
        format!("{x:.0}")
    } else {
        format!("{x:.1e}")
    }
}

/// The distances of the free coefficients, their sigmas and the sky RMS over runs.
#[derive(Debug, Clone, Default)]
pub struct Distances {
    pub coefficients: Spread,
    pub sigmas: Spread,
    pub sky: Spread,
}

impl Distances {
    pub fn add(&mut self, fixed: &[bool], published: &Answer, ours: &Answer) {
        for (j, _) in fixed.iter().enumerate().filter(|(_, &fixed)| !fixed) {
            self.coefficients
                .add(published.coefficients[j], ours.coefficients[j]);
            self.sigmas.add(published.sigma[j], ours.sigma[j]);
        }
        self.sky.add(published.sky_rms, ours.sky_rms);
    }

    pub fn sort(&mut self) {
        for spread in [&mut self.coefficients, &mut self.sigmas, &mut self.sky] {
            spread.sort();
        }
    }

    pub fn not_finite(&self) -> usize {
        self.coefficients.not_finite + self.sigmas.not_finite + self.sky.not_finite
    }

    /// Largest and median of each, in arcseconds and in units in the last place, as columns of a table.
    pub fn columns(&self) -> String {
        [&self.coefficients, &self.sigmas, &self.sky]
            .map(|spread| {
                let [arcseconds, ulps] =
                    [&spread.arcseconds, &spread.ulps].map(|list| largest_and_median(list));
                format!("{arcseconds} | {ulps}")
            })
            .join(" | ")
    }
}
