//! docs/SCOPE.md 6.2, 6.3: the singular value decomposition is one-sided Jacobi (Golub and Van Loan).

use crate::matrix::{DMatrix, DVector};

const MAX_SWEEPS: usize = 30;

/// 2^-100
const TURN: f64 = 1.0 / (1u128 << 100) as f64;

pub struct Svd {
    pub u: DMatrix,
    pub v_t: DMatrix,
    pub singular_values: DVector,
    /// The sweeps made, the one without a turn included.
    pub sweeps: usize,
    /// Whether the last sweep had no turn.
    pub settled: bool,
}

/// One value for each column of `a`.
pub fn svd(mut a: DMatrix) -> Svd {
    let rows = a.nrows();
    let m = a.ncols();
    let mut v = DMatrix::identity(m);
    let mut sweeps = 0;
    let mut settled = false;
    while sweeps < MAX_SWEEPS {
        sweeps += 1;
        if !sweep(&mut a, &mut v) {
            settled = true;
            break;
        }
    }

    let mut values = vec![0.0_f64; m];
    for j in 0..m {
        values[j] = a.column(j).norm();
    }
    let order = largest_first(&values);
    let mut u = DMatrix::zeros(rows, m);
    let mut v_t = DMatrix::zeros(m, m);
    let mut singular_values = DVector::zeros(m);
    for (k, &j) in order.iter().enumerate() {
        let s = values[j];
        singular_values[k] = s;
        if s > 0.0 {
            for i in 0..rows {
                u[(i, k)] = a[(i, j)] / s;
            }
        }
        for i in 0..m {
            v_t[(k, i)] = v[(i, j)];
        }
    }
    Svd {
        u,
        v_t,
        singular_values,
        sweeps,
        settled,
    }
}

/// Visits the pairs p < q in rising p, then q, and tells whether one turned.
fn sweep(a: &mut DMatrix, v: &mut DMatrix) -> bool {
    let m = a.ncols();
    let mut turned = false;
    for p in 0..m {
        for q in p + 1..m {
            let (alpha, beta, gamma) = sums(a, p, q);
            if gamma * gamma > TURN * (alpha * beta) {
                let (c, s) = turn(alpha, beta, gamma);
                rotate(a, p, q, c, s);
                rotate(v, p, q, c, s);
                turned = true;
            }
        }
    }
    turned
}

/// The squared norms of columns p and q, and their dot product.
fn sums(a: &DMatrix, p: usize, q: usize) -> (f64, f64, f64) {
    let (mut alpha, mut beta, mut gamma) = (0.0, 0.0, 0.0);
    for i in 0..a.nrows() {
        alpha += a[(i, p)] * a[(i, p)];
        beta += a[(i, q)] * a[(i, q)];
        gamma += a[(i, p)] * a[(i, q)];
    }
    (alpha, beta, gamma)
}

/// The cosine and sine of the turn.
fn turn(alpha: f64, beta: f64, gamma: f64) -> (f64, f64) {
    let zeta = (beta - alpha) / (2.0 * gamma);
    let mut t = 1.0 / (zeta.abs() + (1.0 + zeta * zeta).sqrt());
    if zeta < 0.0 {
        t = -t;
    }
    let c = 1.0 / (1.0 + t * t).sqrt();
    let s = c * t;
    (c, s)
}

fn rotate(a: &mut DMatrix, p: usize, q: usize, c: f64, s: f64) {
    for i in 0..a.nrows() {
        let a_p = a[(i, p)];
        let a_q = a[(i, q)];
        a[(i, p)] = c * a_p - s * a_q;
        a[(i, q)] = s * a_p + c * a_q;
    }
}

/// Largest first: of the columns left the lowest is the candidate, displaced only by a strictly
/// greater value.
fn largest_first(values: &[f64]) -> Vec<usize> {
    let mut left: Vec<usize> = (0..values.len()).collect();
    let mut order = Vec::with_capacity(values.len());
    while !left.is_empty() {
        let mut best = 0;
        for k in 1..left.len() {
            if values[left[k]] > values[left[best]] {
                best = k;
            }
        }
        order.push(left.remove(best));
    }
    order
}
