//! docs/src solver/stats.rs. docs/SCOPE.md 3.1, 6.1: cos dec is read from the lent sheets; dots are
//! sums from 0.

use super::linalg::SolveOutcome;
use super::{FitInputs, ObsDiagnostic, SigmaBy};
use crate::libm;
use crate::matrix::DVector;
use crate::observation::Observation;

pub(crate) fn compute_sky_rms(residuals: &DVector, observations: &[&Observation]) -> f64 {
    let n = observations.len();
    if n == 0 {
        return 0.0;
    }
    libm::sqrt(sum_sq_sky(residuals, observations) / n as f64)
}

pub(super) fn compute_popn_sd(
    residuals: &DVector,
    observations: &[&Observation],
    n_free_params: usize,
) -> f64 {
    let n = observations.len();
    if n == 0 || n <= n_free_params {
        return 0.0;
    }
    let dof = n - n_free_params;
    libm::sqrt(sum_sq_sky(residuals, observations) / dof as f64)
}

fn sum_sq_sky(residuals: &DVector, observations: &[&Observation]) -> f64 {
    let mut sum_sq = 0.0;
    for i in 0..observations.len() {
        let dh = residuals[2 * i];
        let dd = residuals[2 * i + 1];
        // docs/SCOPE.md 3.1: read from the lent sheet
        let cos_dec = observations[i].sheet.cos_dec(1);
        let dx = dh * cos_dec;
        sum_sq += dx * dx + dd * dd;
    }
    sum_sq
}

pub(super) fn compute_diagnostics(
    free_residuals: &DVector,
    leverage: &[f64],
    rank: usize,
) -> Vec<ObsDiagnostic> {
    let n_rows = free_residuals.len();
    let n_obs = n_rows / 2;
    let rss = free_residuals.dot(free_residuals);
    let dof = n_rows.saturating_sub(rank).max(1);
    let s2 = rss / dof as f64;
    let s = libm::sqrt(s2);

    let mut out = Vec::with_capacity(n_obs);
    for i in 0..n_obs {
        let r_ha = free_residuals[2 * i];
        let r_dec = free_residuals[2 * i + 1];
        let h_ha = leverage[2 * i].clamp(0.0, 1.0);
        let h_dec = leverage[2 * i + 1].clamp(0.0, 1.0);
        let residual_sky = libm::sqrt(r_ha * r_ha + r_dec * r_dec);
        let t_ha = if s > 0.0 && h_ha < 1.0 {
            r_ha / (s * libm::sqrt(1.0 - h_ha))
        } else {
            0.0
        };
        let t_dec = if s > 0.0 && h_dec < 1.0 {
            r_dec / (s * libm::sqrt(1.0 - h_dec))
        } else {
            0.0
        };
        let studentized = libm::sqrt((t_ha * t_ha + t_dec * t_dec) / 2.0);
        out.push(ObsDiagnostic {
            residual_sky,
            leverage: h_ha + h_dec,
            studentized,
        });
    }
    out
}

/// docs/SCOPE.md 9.3.1: what is handed to the source's formula in place of its number of stars.
pub(super) fn counted(inputs: &FitInputs<'_>, residuals: &DVector) -> usize {
    match inputs.sigma_by {
        SigmaBy::Stars => inputs.observations.len(),
        SigmaBy::Rows => residuals.len(),
    }
}

pub(super) fn compute_sigma_from_covariance(
    solved: &SolveOutcome,
    residuals: &DVector,
    free_indices: &[usize],
    total_terms: usize,
    n_observations: usize,
) -> Vec<f64> {
    let dof = n_observations.saturating_sub(solved.rank).max(1);
    let s2 = residuals.dot(residuals) / dof as f64;
    let mut sigma = vec![0.0_f64; total_terms];
    for (fi, &idx) in free_indices.iter().enumerate() {
        sigma[idx] = libm::sqrt((s2 * solved.cov_diag[fi]).abs());
    }
    sigma
}
