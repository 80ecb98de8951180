//! docs/SCOPE.md 8.7: the sets that an iterated fit tries and the solves that propose them, worked
//! out from its input alone, and a set's weighted residuals.

use super::design::cos_dec_per_obs;
use super::iterated::{build_lm_system, rotational_step_norm};
use super::linalg::{solve_damped, SolveOutcome};
use super::validate::{collect_indices, validate_fit_inputs};
use super::{FitInputs, IterOptions};
use crate::error::Result;
use crate::matrix::DVector;

/// The r_h and r_d of each observation under a set, r_h times cos dec; a term with coefficient
/// zero is skipped.
pub fn weighted_residuals(inputs: &FitInputs<'_>, set: &[f64]) -> Vec<f64> {
    let mut out = Vec::new();
    for obs in inputs.observations {
        let (mut dh, mut dd) = (0.0, 0.0);
        for (term, &coefficient) in inputs.terms.iter().zip(set) {
            if coefficient != 0.0 {
                let pier = obs.pier_side.sign();
                let (jh, jd) = term.jacobian_equatorial(&obs.sheet, inputs.latitude, pier);
                dh += jh * coefficient;
                dd += jd * coefficient;
            }
        }
        out.push((obs.raw_dh - dh) * obs.sheet.cos_dec(1));
        out.push(obs.raw_dd - dd);
    }
    out
}

fn chi2(inputs: &FitInputs<'_>, set: &[f64]) -> f64 {
    let residuals = weighted_residuals(inputs, set);
    let mut total = 0.0;
    for pair in residuals.chunks(2) {
        total += pair[0] * pair[0] + pair[1] * pair[1];
    }
    total
}

/// The solve that proposes a step from a set.
fn solve(
    inputs: &FitInputs<'_>,
    options: &IterOptions,
    set: &[f64],
    chi2: f64,
    lambda: f64,
) -> Result<SolveOutcome> {
    let free = collect_indices(inputs.fixed, false);
    let cos_dec = cos_dec_per_obs(inputs.observations);
    let (a, b) = build_lm_system(inputs, set, &cos_dec, &free, options, chi2);
    solve_damped(&a, &b, lambda, inputs.fit_tol)
}

/// The set with its free coefficients moved.
fn moved(inputs: &FitInputs<'_>, set: &[f64], step: &DVector) -> Vec<f64> {
    let mut steps = step.iter();
    let mut out = Vec::new();
    for (&coefficient, &fixed) in set.iter().zip(inputs.fixed) {
        out.push(match fixed {
            true => coefficient,
            false => coefficient + steps.next().expect("a step for each free term"),
        });
    }
    out
}

/// First the start, then the set of each trial, kept or rejected, last that of the undamped one.
pub fn tried(inputs: &FitInputs<'_>, options: &IterOptions) -> Result<Vec<Vec<f64>>> {
    Ok(all(inputs, options)?.0)
}

/// The solve of each trial, last the undamped one.
pub fn solves(inputs: &FitInputs<'_>, options: &IterOptions) -> Result<Vec<SolveOutcome>> {
    Ok(all(inputs, options)?.1)
}

/// The sets tried, and the solves.
fn all(
    inputs: &FitInputs<'_>,
    options: &IterOptions,
) -> Result<(Vec<Vec<f64>>, Vec<SolveOutcome>)> {
    validate_fit_inputs(inputs)?;
    let free = collect_indices(inputs.fixed, false);
    let mut current = inputs.coefficients.to_vec();
    let mut current_chi2 = chi2(inputs, &current);
    let mut lambda = options.initial_lambda;
    let mut list = vec![current.clone()];
    let mut solves = Vec::new();
    for _ in 0..options.max_iter {
        let solved = solve(inputs, options, &current, current_chi2, lambda)?;
        let trial = moved(inputs, &current, &solved.x);
        let trial_chi2 = chi2(inputs, &trial);
        let norm = rotational_step_norm(inputs.terms, &free, &solved.x);
        list.push(trial.clone());
        solves.push(solved);
        if trial_chi2 < current_chi2 {
            (current, current_chi2) = (trial, trial_chi2);
            lambda /= options.lambda_down;
            if norm < options.tol_rad {
                break;
            }
        } else {
            lambda *= options.lambda_up;
            if lambda > 1.0e12 {
                break;
            }
        }
    }
    let last = solve(inputs, options, &current, current_chi2, 0.0)?;
    list.push(moved(inputs, &current, &last.x));
    solves.push(last);
    Ok((list, solves))
}
