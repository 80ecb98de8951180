//! docs/src solver/mod.rs: the records, and `fit_model`.

mod design;
mod iterated;
pub mod linalg;
mod single_step;
mod stats;
mod tried;
mod validate;

use crate::error::Result;
use crate::observation::Observation;
use crate::sheet::Latitude;
use crate::terms::Term;

pub use iterated::fit_model_iterated;
pub use tried::{solves, tried, weighted_residuals};

use single_step::fit_model_with_inputs;

#[derive(Clone)]
pub struct FitResult {
    pub coefficients: Vec<f64>,
    pub change: Vec<f64>,
    pub sigma: Vec<f64>,
    pub sky_rms: f64,
    pub popn_sd: f64,
    pub term_names: Vec<String>,
    pub rank_info: RankInfo,
    pub diagnostics: Vec<ObsDiagnostic>,
    pub iter_report: IterReport,
    // beside the Rust's, docs/SCOPE.md 9.5: the sweeps of the last undamped solve, and whether the
    // last of them had no turn
    pub sweeps: usize,
    pub settled: bool,
}

#[derive(Clone, Debug, Default)]
pub struct IterReport {
    pub iterations: usize,
    pub converged: bool,
    pub final_lambda: f64,
    pub final_step_norm: f64,
}

#[derive(Clone, Debug)]
pub struct IterOptions {
    pub max_iter: usize,
    pub tol_rad: f64,
    pub initial_lambda: f64,
    pub lambda_up: f64,
    pub lambda_down: f64,
    pub robust: bool,
    pub huber_k: f64,
}

impl Default for IterOptions {
    fn default() -> Self {
        Self {
            max_iter: 50,
            tol_rad: 1.0e-6,
            initial_lambda: 1.0e-3,
            lambda_up: 10.0,
            lambda_down: 10.0,
            robust: false,
            huber_k: 1.345,
        }
    }
}

#[derive(Clone, Debug, Default)]
pub struct ObsDiagnostic {
    pub residual_sky: f64,
    pub leverage: f64,
    pub studentized: f64,
}

#[derive(Clone, Debug, Default)]
pub struct RankInfo {
    pub n_free: usize,
    pub rank: usize,
    pub sigma_max: f64,
    pub sigma_min: f64,
    pub tol: f64,
}

impl RankInfo {
    pub fn is_deficient(&self) -> bool {
        self.rank < self.n_free
    }

    pub fn condition_number(&self) -> f64 {
        if self.sigma_min > 0.0 {
            self.sigma_max / self.sigma_min
        } else {
            f64::INFINITY
        }
    }
}

/// Beside the Rust's, docs/SCOPE.md 9.3.1: what is counted for sigma's divisor, less the rank.
#[derive(Clone, Copy, Debug, PartialEq, Eq)]
pub enum SigmaBy {
    /// As the source does.
    Stars,
    /// The equations, of which a star gives two.
    Rows,
}

impl SigmaBy {
    /// docs/SCOPE.md 10.1.5: code 0 by stars, 1 by rows; another code is 5.
    pub fn from_code(code: u8) -> Option<Self> {
        match code {
            0 => Some(Self::Stars),
            1 => Some(Self::Rows),
            _ => None,
        }
    }
}

/// All inputs needed to run a fit. Bundles arguments that were previously
/// passed individually so call signatures stay readable.
pub struct FitInputs<'a> {
    pub observations: &'a [&'a Observation],
    pub terms: &'a [Box<dyn Term>],
    pub fixed: &'a [bool],
    // docs/SCOPE.md 2.1.4: parallel flags are dropped
    pub coefficients: &'a [f64],
    // docs/SCOPE.md 3.2.3: sin and cos of the latitude are lent
    pub latitude: Latitude,
    pub fit_tol: f64,
    // beside the Rust's, docs/SCOPE.md 9.3.1
    pub sigma_by: SigmaBy,
}

pub fn fit_model(
    observations: &[&Observation],
    terms: &[Box<dyn Term>],
    fixed: &[bool],
    coefficients: &[f64],
    latitude: Latitude,
    fit_tol: f64,
    sigma_by: SigmaBy,
) -> Result<FitResult> {
    let inputs = FitInputs {
        observations,
        terms,
        fixed,
        coefficients,
        latitude,
        fit_tol,
        sigma_by,
    };
    fit_model_with_inputs(&inputs)
}
