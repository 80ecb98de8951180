//! docs/src solver/iterated.rs: the reference `fit_model_iterated`.

use super::design::{cos_dec_per_obs, extract_columns};
use super::linalg::solve_damped;
use super::stats::{
    compute_diagnostics, compute_popn_sd, compute_sigma_from_covariance, compute_sky_rms, counted,
};
use super::validate::{collect_indices, validate_fit_inputs};
use super::{FitInputs, FitResult, IterOptions, IterReport, RankInfo};
use crate::error::Result;
use crate::matrix::{DMatrix, DVector};
use crate::observation::Observation;
use crate::sheet::Latitude;
use crate::terms::Term;

pub fn fit_model_iterated(inputs: &FitInputs<'_>, options: &IterOptions) -> Result<FitResult> {
    validate_fit_inputs(inputs)?;
    let free_indices = collect_indices(inputs.fixed, false);
    let fixed_indices = collect_indices(inputs.fixed, true);
    let cos_dec = cos_dec_per_obs(inputs.observations);

    let mut state: Vec<f64> = inputs.coefficients.to_vec();
    let initial_chi2 = chi2_at_state(
        inputs.observations,
        inputs.terms,
        &state,
        inputs.latitude,
        &cos_dec,
    );
    let lm = run_lm_loop(
        inputs,
        &cos_dec,
        &free_indices,
        &fixed_indices,
        &mut state,
        initial_chi2,
        options,
    )?;

    let (a_free_final, b_final) = build_lm_system(
        inputs,
        &state,
        &cos_dec,
        &free_indices,
        options,
        lm.prev_chi2,
    );
    let final_solved = solve_damped(&a_free_final, &b_final, 0.0, inputs.fit_tol)?;
    apply_final_step(
        &mut state,
        &free_indices,
        &final_solved.x,
        inputs,
        &cos_dec,
        lm.prev_chi2,
    );
    let free_residuals = &b_final - &a_free_final * &final_solved.x;

    let change = state
        .iter()
        .zip(inputs.coefficients.iter())
        .map(|(c, c0)| c - c0)
        .collect();

    let actual_residuals_ha =
        residuals_under_state(inputs.observations, inputs.terms, &state, inputs.latitude);
    let sky_rms = compute_sky_rms(&actual_residuals_ha, inputs.observations);
    let popn_sd = compute_popn_sd(
        &actual_residuals_ha,
        inputs.observations,
        free_indices.len(),
    );
    let sigma = compute_sigma_from_covariance(
        &final_solved,
        &free_residuals,
        &free_indices,
        inputs.terms.len(),
        // docs/SCOPE.md 9.3.1: stars or rows
        counted(inputs, &free_residuals),
    );
    let diagnostics =
        compute_diagnostics(&free_residuals, &final_solved.leverage, final_solved.rank);
    let term_names = inputs.terms.iter().map(|t| t.name().to_string()).collect();
    let rank_info = RankInfo {
        n_free: free_indices.len(),
        rank: final_solved.rank,
        sigma_max: final_solved.sigma_max,
        sigma_min: final_solved.sigma_min,
        tol: inputs.fit_tol,
    };

    Ok(FitResult {
        coefficients: state,
        change,
        sigma,
        sky_rms,
        popn_sd,
        term_names,
        rank_info,
        diagnostics,
        iter_report: IterReport {
            iterations: lm.iterations,
            converged: lm.converged,
            final_lambda: lm.lambda,
            final_step_norm: lm.last_step_norm,
        },
        sweeps: final_solved.sweeps,
        settled: final_solved.settled,
    })
}

struct LmLoopResult {
    iterations: usize,
    converged: bool,
    lambda: f64,
    last_step_norm: f64,
    prev_chi2: f64,
}

#[allow(clippy::too_many_arguments)]
fn run_lm_loop(
    inputs: &FitInputs<'_>,
    cos_dec: &[f64],
    free_indices: &[usize],
    fixed_indices: &[usize],
    state: &mut Vec<f64>,
    initial_chi2: f64,
    options: &IterOptions,
) -> Result<LmLoopResult> {
    let mut prev_chi2 = initial_chi2;
    let mut lambda = options.initial_lambda;
    let mut iterations = 0usize;
    let mut converged = false;
    let mut last_step_norm = f64::INFINITY;

    while iterations < options.max_iter {
        iterations += 1;
        let (a_free, b) = build_lm_system(inputs, state, cos_dec, free_indices, options, prev_chi2);
        let solved = solve_damped(&a_free, &b, lambda, inputs.fit_tol)?;
        let delta = &solved.x;

        let trial_state = trial_state_from(state, free_indices, fixed_indices, delta);
        let trial_chi2 = chi2_at_state(
            inputs.observations,
            inputs.terms,
            &trial_state,
            inputs.latitude,
            cos_dec,
        );

        if trial_chi2 < prev_chi2 {
            let step_norm = rotational_step_norm(inputs.terms, free_indices, delta);
            *state = trial_state;
            prev_chi2 = trial_chi2;
            lambda /= options.lambda_down;
            last_step_norm = step_norm;
            if step_norm < options.tol_rad {
                converged = true;
                break;
            }
        } else {
            lambda *= options.lambda_up;
            if lambda > 1.0e12 {
                break;
            }
        }
    }
    Ok(LmLoopResult {
        iterations,
        converged,
        lambda,
        last_step_norm,
        prev_chi2,
    })
}

fn trial_state_from(
    state: &[f64],
    free_indices: &[usize],
    fixed_indices: &[usize],
    delta: &DVector,
) -> Vec<f64> {
    let mut trial = state.to_vec();
    for (fi, &idx) in free_indices.iter().enumerate() {
        trial[idx] += delta[fi];
    }
    for &idx in fixed_indices {
        trial[idx] = state[idx];
    }
    trial
}

fn apply_final_step(
    state: &mut Vec<f64>,
    free_indices: &[usize],
    final_delta: &DVector,
    inputs: &FitInputs<'_>,
    cos_dec: &[f64],
    prev_chi2: f64,
) {
    let trial_state_final: Vec<f64> = {
        let mut s = state.clone();
        for (fi, &idx) in free_indices.iter().enumerate() {
            s[idx] += final_delta[fi];
        }
        s
    };
    let trial_chi2_final = chi2_at_state(
        inputs.observations,
        inputs.terms,
        &trial_state_final,
        inputs.latitude,
        cos_dec,
    );
    if trial_chi2_final <= prev_chi2 {
        *state = trial_state_final;
    }
}

fn residuals_under_state(
    observations: &[&Observation],
    terms: &[Box<dyn Term>],
    state: &[f64],
    latitude: Latitude,
) -> DVector {
    let n = observations.len();
    let mut b = DVector::zeros(2 * n);
    for (i, obs) in observations.iter().enumerate() {
        let pier = obs.pier_side.sign();
        let mut dh_pred = 0.0;
        let mut dd_pred = 0.0;
        for (j, term) in terms.iter().enumerate() {
            if state[j] == 0.0 {
                continue;
            }
            let (jh, jd) = term.jacobian_equatorial(&obs.sheet, latitude, pier);
            dh_pred += jh * state[j];
            dd_pred += jd * state[j];
        }
        // docs/SCOPE.md 3.2: the raw differences are lent
        let raw_dh = obs.raw_dh;
        let raw_dd = obs.raw_dd;
        b[2 * i] = raw_dh - dh_pred;
        b[2 * i + 1] = raw_dd - dd_pred;
    }
    b
}

fn chi2_at_state(
    observations: &[&Observation],
    terms: &[Box<dyn Term>],
    state: &[f64],
    latitude: Latitude,
    cos_dec: &[f64],
) -> f64 {
    let mut total = 0.0;
    let resid = residuals_under_state(observations, terms, state, latitude);
    for i in 0..observations.len() {
        let r_h = resid[2 * i] * cos_dec[i];
        let r_d = resid[2 * i + 1];
        total += r_h * r_h + r_d * r_d;
    }
    total
}

pub(super) fn build_lm_system(
    inputs: &FitInputs<'_>,
    state: &[f64],
    cos_dec: &[f64],
    free_indices: &[usize],
    options: &IterOptions,
    chi2_estimate: f64,
) -> (DMatrix, DVector) {
    let observations = inputs.observations;
    let terms = inputs.terms;
    let latitude = inputs.latitude;
    let n = observations.len();
    let m = terms.len();
    let mut a = DMatrix::zeros(2 * n, m);
    let mut b = residuals_under_state(observations, terms, state, latitude);
    for (i, obs) in observations.iter().enumerate() {
        let pier = obs.pier_side.sign();
        let c = cos_dec[i];
        for (j, term) in terms.iter().enumerate() {
            let (jh, jd) = term.jacobian_equatorial(&obs.sheet, latitude, pier);
            a[(2 * i, j)] = jh * c;
            a[(2 * i + 1, j)] = jd;
        }
        b[2 * i] *= c;
    }

    if options.robust && n >= free_indices.len() && chi2_estimate > 0.0 {
        let dof = (2 * n).saturating_sub(free_indices.len()).max(1);
        let sigma_est = (chi2_estimate / dof as f64).sqrt();
        let k_sigma = options.huber_k * sigma_est;
        if k_sigma > 0.0 {
            for row in 0..(2 * n) {
                let r = b[row].abs();
                if r > k_sigma {
                    let w_sqrt = (k_sigma / r).sqrt();
                    b[row] *= w_sqrt;
                    for col in 0..m {
                        a[(row, col)] *= w_sqrt;
                    }
                }
            }
        }
    }

    let a_free = extract_columns(&a, free_indices);
    (a_free, b)
}

pub(super) fn rotational_step_norm(
    terms: &[Box<dyn Term>],
    free_indices: &[usize],
    delta: &DVector,
) -> f64 {
    let rot_names = ["IH", "ID", "NP", "ME"];
    let mut max_step = 0.0_f64;
    for (fi, &term_idx) in free_indices.iter().enumerate() {
        if !rot_names.contains(&terms[term_idx].name()) {
            continue;
        }
        let step_arcsec = delta[fi].abs();
        let step_rad = step_arcsec / 206264.806_247;
        if step_rad > max_step {
            max_step = step_rad;
        }
    }
    if max_step == 0.0 {
        let mut s = 0.0_f64;
        for v in delta.iter() {
            s += v * v;
        }
        s.sqrt() / 206264.806_247
    } else {
        max_step
    }
}
