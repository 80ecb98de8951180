//! docs/src solver/design.rs. docs/SCOPE.md 3.1: cos dec and the Jacobians are read from the lent
//! sheets.

use crate::matrix::{DMatrix, DVector};
use crate::observation::Observation;
use crate::sheet::Latitude;
use crate::terms::Term;

pub(crate) fn build_residuals(observations: &[&Observation]) -> DVector {
    let n = observations.len();
    let mut b = DVector::zeros(2 * n);
    for (i, obs) in observations.iter().enumerate() {
        // docs/SCOPE.md 3.2: the raw differences are lent
        b[2 * i] = obs.raw_dh;
        b[2 * i + 1] = obs.raw_dd;
    }
    b
}

pub(super) fn build_design_matrix(
    observations: &[&Observation],
    terms: &[Box<dyn Term>],
    lat: Latitude,
) -> DMatrix {
    let n = observations.len();
    let m = terms.len();
    let mut a = DMatrix::zeros(2 * n, m);
    for (i, obs) in observations.iter().enumerate() {
        let pier = obs.pier_side.sign();
        for (j, term) in terms.iter().enumerate() {
            let (jh, jd) = term.jacobian_equatorial(&obs.sheet, lat, pier);
            a[(2 * i, j)] = jh;
            a[(2 * i + 1, j)] = jd;
        }
    }
    a
}

pub(super) fn cos_dec_per_obs(observations: &[&Observation]) -> Vec<f64> {
    // docs/SCOPE.md 3.1: read from the lent sheet
    observations.iter().map(|o| o.sheet.cos_dec(1)).collect()
}

pub(super) fn scale_ha_rows_by_cos_dec(b: &mut DVector, cos_dec: &[f64]) {
    for (i, &c) in cos_dec.iter().enumerate() {
        b[2 * i] *= c;
    }
}

pub(super) fn scale_a_ha_rows_by_cos_dec(a: &DMatrix, cos_dec: &[f64]) -> DMatrix {
    let mut out = a.clone();
    let cols = out.ncols();
    for (i, &c) in cos_dec.iter().enumerate() {
        for j in 0..cols {
            out[(2 * i, j)] *= c;
        }
    }
    out
}

pub(super) fn extract_columns(a: &DMatrix, cols: &[usize]) -> DMatrix {
    let rows = a.nrows();
    let m = cols.len();
    let mut out = DMatrix::zeros(rows, m);
    for (j, &col) in cols.iter().enumerate() {
        for i in 0..rows {
            out[(i, j)] = a[(i, col)];
        }
    }
    out
}

pub(super) fn subtract_all_contributions(b: &mut DVector, a: &DMatrix, coefficients: &[f64]) {
    for (idx, &coeff) in coefficients.iter().enumerate() {
        if coeff == 0.0 {
            continue;
        }
        for row in 0..a.nrows() {
            b[row] -= a[(row, idx)] * coeff;
        }
    }
}
