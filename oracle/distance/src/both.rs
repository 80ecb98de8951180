//! One run fitted by the published code and by the oracle, and the answers in one form.

use crate::error::Result;
use crate::night::Night;
use crate::observation::Observation;
use crate::solver;
use crate::terms::Term;
use oracle::questions::Run;
use oracle::solver::{FitInputs, IterOptions};

/// What is held beside the other's answer.
#[derive(Debug, Clone)]
pub struct Answer {
    pub free: usize,
    pub rank: usize,
    pub iterations: usize,
    pub converged: bool,
    pub lambda: f64,
    pub step: f64,
    pub sigma_max: f64,
    pub sigma_min: f64,
    pub coefficients: Vec<f64>,
    pub sigma: Vec<f64>,
    pub sky_rms: f64,
}

impl Answer {
    /// The first line of a listing without its sweeps, which the published fit doesn't tell.
    pub fn first_line(&self) -> String {
        let converged = if self.converged { "yes" } else { "no" };
        format!(
            "fit {} {} {} {converged}",
            self.free, self.rank, self.iterations
        )
    }
}

/// Both solvers have records of the same fields.
macro_rules! answer {
    ($fit:expr) => {{
        let fit = $fit;
        Answer {
            free: fit.rank_info.n_free,
            rank: fit.rank_info.rank,
            iterations: fit.iter_report.iterations,
            converged: fit.iter_report.converged,
            lambda: fit.iter_report.final_lambda,
            step: fit.iter_report.final_step_norm,
            sigma_max: fit.rank_info.sigma_max,
            sigma_min: fit.rank_info.sigma_min,
            coefficients: fit.coefficients,
            sigma: fit.sigma,
            sky_rms: fit.sky_rms,
        }
    }};
}

/// A run as the published code takes it, made once.
pub struct Published<'a> {
    night: &'a Night,
    observations: Vec<Observation>,
    terms: Vec<Box<dyn Term>>,
    pub parallel: Vec<bool>,
}

impl<'a> Published<'a> {
    pub fn of(night: &'a Night) -> Self {
        Self {
            night,
            observations: night.observations(),
            terms: night.terms(),
            parallel: vec![true; night.names.len()],
        }
    }

    /// The published fit of a run that it accepts: with options the iterated one.
    pub fn fit(&self, options: Option<&IterOptions>) -> Answer {
        self.try_fit(options).expect("an accepted run")
    }

    pub fn try_fit(&self, options: Option<&IterOptions>) -> Result<Answer> {
        let observations: Vec<&Observation> = self.observations.iter().collect();
        let inputs = solver::FitInputs {
            observations: &observations,
            terms: &self.terms,
            fixed: &self.night.fixed,
            parallel: &self.parallel,
            coefficients: &self.night.start,
            latitude: self.night.latitude,
            fit_tol: self.night.fit_tol,
        };
        let fit = match options {
            None => solver::fit_model(
                inputs.observations,
                inputs.terms,
                inputs.fixed,
                inputs.coefficients,
                inputs.latitude,
                inputs.fit_tol,
            ),
            Some(o) => solver::fit_model_iterated(&inputs, &published_options(o)),
        };
        fit.map(|fit| answer!(fit))
    }
}

fn published_options(o: &IterOptions) -> solver::IterOptions {
    solver::IterOptions {
        max_iter: o.max_iter,
        tol_rad: o.tol_rad,
        initial_lambda: o.initial_lambda,
        lambda_up: o.lambda_up,
        lambda_down: o.lambda_down,
        robust: o.robust,
        huber_k: o.huber_k,
    }
}

/// The oracle's fit of terms and observations made before.
pub fn bare(inputs: &FitInputs, options: Option<&IterOptions>) -> Answer {
    let fit = match options {
        None => oracle::solver::fit_model(
            inputs.observations,
            inputs.terms,
            inputs.fixed,
            inputs.coefficients,
            inputs.latitude,
            inputs.fit_tol,
            inputs.sigma_by,
        ),
        Some(options) => oracle::solver::fit_model_iterated(inputs, options),
    };
    answer!(fit.unwrap_or_else(|number| panic!("refused: {number}")))
}

/// The oracle's fit of a lent run.
pub fn oracles(run: &Run, options: Option<&IterOptions>) -> Answer {
    run.with_inputs(|inputs| Ok(bare(inputs, options)))
        .expect("an accepted run")
}
