//! docs/src solver/single_step.rs: the reference `fit_model`.

use super::design::{
    build_design_matrix, build_residuals, cos_dec_per_obs, extract_columns,
    scale_a_ha_rows_by_cos_dec, scale_ha_rows_by_cos_dec, subtract_all_contributions,
};
use super::linalg::{solve_and_covariance, SolveOutcome};
use super::stats::{
    compute_diagnostics, compute_popn_sd, compute_sigma_from_covariance, compute_sky_rms, counted,
};
use super::validate::{collect_indices, validate_fit_inputs};
use super::{FitInputs, FitResult, IterReport, RankInfo};
use crate::error::Result;
use crate::matrix::DVector;

pub(super) fn fit_model_with_inputs(inputs: &FitInputs<'_>) -> Result<FitResult> {
    validate_fit_inputs(inputs)?;
    let free_indices = collect_indices(inputs.fixed, false);
    let fixed_indices = collect_indices(inputs.fixed, true);
    let cos_dec = cos_dec_per_obs(inputs.observations);

    let outcome = single_step_fit(inputs, &cos_dec, &free_indices, &fixed_indices)?;

    let sigma = compute_sigma_from_covariance(
        &outcome.solved,
        &outcome.free_residuals,
        &free_indices,
        inputs.terms.len(),
        // docs/SCOPE.md 9.3.1: stars or rows
        counted(inputs, &outcome.free_residuals),
    );
    let sky_rms = compute_sky_rms(&outcome.actual_residuals_ha, inputs.observations);
    let popn_sd = compute_popn_sd(
        &outcome.actual_residuals_ha,
        inputs.observations,
        free_indices.len(),
    );
    let diagnostics = compute_diagnostics(
        &outcome.free_residuals,
        &outcome.solved.leverage,
        outcome.solved.rank,
    );
    let term_names = inputs.terms.iter().map(|t| t.name().to_string()).collect();
    let rank_info = RankInfo {
        n_free: free_indices.len(),
        rank: outcome.solved.rank,
        sigma_max: outcome.solved.sigma_max,
        sigma_min: outcome.solved.sigma_min,
        tol: inputs.fit_tol,
    };

    Ok(FitResult {
        coefficients: outcome.coefficients,
        change: outcome.change,
        sigma,
        sky_rms,
        popn_sd,
        term_names,
        rank_info,
        diagnostics,
        iter_report: IterReport {
            iterations: 1,
            converged: true,
            final_lambda: 0.0,
            final_step_norm: 0.0,
        },
        sweeps: outcome.solved.sweeps,
        settled: outcome.solved.settled,
    })
}

struct FitOutcome {
    coefficients: Vec<f64>,
    change: Vec<f64>,
    solved: SolveOutcome,
    free_residuals: DVector,
    actual_residuals_ha: DVector,
}

fn single_step_fit(
    inputs: &FitInputs<'_>,
    cos_dec: &[f64],
    free_indices: &[usize],
    fixed_indices: &[usize],
) -> Result<FitOutcome> {
    let mut b = build_residuals(inputs.observations);
    let a_full = build_design_matrix(inputs.observations, inputs.terms, inputs.latitude);

    scale_ha_rows_by_cos_dec(&mut b, cos_dec);
    let a_full_sky = scale_a_ha_rows_by_cos_dec(&a_full, cos_dec);

    subtract_all_contributions(&mut b, &a_full_sky, inputs.coefficients);

    let a_free = extract_columns(&a_full_sky, free_indices);
    let solved = solve_and_covariance(&a_free, &b, inputs.fit_tol)?;
    let free_residuals = &b - &a_free * &solved.x;

    let mut change = vec![0.0; inputs.terms.len()];
    for (fi, &idx) in free_indices.iter().enumerate() {
        change[idx] = solved.x[fi];
    }
    for &idx in fixed_indices {
        change[idx] = 0.0;
    }

    let new_coeffs: Vec<f64> = inputs
        .coefficients
        .iter()
        .zip(change.iter())
        .map(|(c, d)| c + d)
        .collect();

    let full_residuals_ha = build_residuals(inputs.observations);
    let new_coeffs_dv = DVector::from_vec(new_coeffs.clone());
    let actual_residuals_ha = &full_residuals_ha - &a_full * &new_coeffs_dv;

    Ok(FitOutcome {
        coefficients: new_coeffs,
        change,
        solved,
        free_residuals,
        actual_residuals_ha,
    })
}
