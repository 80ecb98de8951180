//! docs/src solver/linalg.rs. docs/SCOPE.md 6.1: norms and products are sums from 0 in rising index.

use crate::error::Result;
use crate::matrix::{DMatrix, DVector};
use crate::svd::svd;

pub struct SolveOutcome {
    pub x: DVector,
    pub cov_diag: Vec<f64>,
    pub leverage: Vec<f64>,
    pub rank: usize,
    pub sigma_max: f64,
    pub sigma_min: f64,
    // beside the Rust's, docs/SCOPE.md 6.2.6: the sweeps that the factorisation made, and whether the
    // last had no turn
    pub sweeps: usize,
    pub settled: bool,
}

pub fn solve_damped(a: &DMatrix, b: &DVector, lambda: f64, fit_tol: f64) -> Result<SolveOutcome> {
    if lambda <= 0.0 {
        return solve_and_covariance(a, b, fit_tol);
    }
    let m = a.ncols();
    let rows = a.nrows();
    let mut a_aug = DMatrix::zeros(rows + m, m);
    let mut b_aug = DVector::zeros(rows + m);
    for r in 0..rows {
        for c in 0..m {
            a_aug[(r, c)] = a[(r, c)];
        }
        b_aug[r] = b[r];
    }
    let sqrt_lambda = lambda.sqrt();
    for c in 0..m {
        a_aug[(rows + c, c)] = sqrt_lambda;
    }
    solve_and_covariance(&a_aug, &b_aug, fit_tol)
}

pub fn solve_and_covariance(a: &DMatrix, b: &DVector, fit_tol: f64) -> Result<SolveOutcome> {
    let m = a.ncols();
    let mut col_scale = vec![1.0_f64; m];
    let mut a_scaled = a.clone();
    for j in 0..m {
        let norm = a.column(j).norm();
        if norm > 0.0 {
            col_scale[j] = 1.0 / norm;
            for i in 0..a_scaled.nrows() {
                a_scaled[(i, j)] *= col_scale[j];
            }
        }
    }

    // docs/SCOPE.md 6.2: one-sided Jacobi, which always gives U and V
    let svd = svd(a_scaled);
    let u = &svd.u;
    let v_t = &svd.v_t;
    let singular = &svd.singular_values;
    let k = singular.len();
    let sigma_max = if k > 0 { singular[0] } else { 0.0 };
    let sigma_min = if k > 0 { singular[k - 1] } else { 0.0 };

    let threshold = if fit_tol > 0.0 {
        fit_tol * sigma_max
    } else {
        0.0
    };

    let mut inv_s = vec![0.0_f64; k];
    let mut rank = 0;
    for (i, &s) in singular.iter().enumerate() {
        if s > threshold {
            inv_s[i] = 1.0 / s;
            rank += 1;
        }
    }

    let u_t_b = u.transpose() * b;
    let mut z = DVector::zeros(k);
    for i in 0..k {
        z[i] = inv_s[i] * u_t_b[i];
    }
    let v = v_t.transpose();
    let x_scaled = &v * z;
    let mut x = DVector::zeros(m);
    for j in 0..m {
        x[j] = x_scaled[j] * col_scale[j];
    }

    let mut cov_diag = vec![0.0_f64; m];
    for j in 0..m {
        let mut acc = 0.0_f64;
        for i in 0..k {
            let inv = inv_s[i];
            if inv == 0.0 {
                continue;
            }
            let v_ji = v[(j, i)];
            acc += (v_ji * inv) * (v_ji * inv);
        }
        cov_diag[j] = acc * col_scale[j] * col_scale[j];
    }

    let n_rows = a.nrows();
    let mut leverage = vec![0.0_f64; n_rows];
    for r in 0..n_rows {
        let mut acc = 0.0_f64;
        for c in 0..k {
            if inv_s[c] == 0.0 {
                continue;
            }
            let u_rc = u[(r, c)];
            acc += u_rc * u_rc;
        }
        leverage[r] = acc;
    }

    Ok(SolveOutcome {
        x,
        cov_diag,
        leverage,
        rank,
        sigma_max,
        sigma_min,
        sweeps: svd.sweeps,
        settled: svd.settled,
    })
}
