//! The plain Rust of `solver/linalg.rs` with the substitutions of docs/SCOPE.md 6.1 to 6.3: sums from 0 in rising
//! index, and one-sided Jacobi in place of nalgebra's singular value decomposition.

/// A matrix by its columns.
pub type Columns = Vec<Vec<f64>>;

pub struct SolveOutcome {
    pub x: Vec<f64>,
    pub cov_diag: Vec<f64>,
    pub leverage: Vec<f64>,
    pub rank: usize,
    pub sigma_max: f64,
    pub sigma_min: f64,
    pub sweeps: usize,
    pub settled: bool,
}

fn dot(x: &[f64], y: &[f64]) -> f64 {
    let mut sum = 0.0;
    for (p, q) in x.iter().zip(y) {
        sum += p * q;
    }
    sum
}

pub fn identity(m: usize) -> Columns {
    (0..m)
        .map(|j| (0..m).map(|i| if i == j { 1.0 } else { 0.0 }).collect())
        .collect()
}

fn turn(a: &mut Columns, p: usize, q: usize, c: f64, s: f64) {
    let (left, right) = a.split_at_mut(q);
    for (x, y) in left[p].iter_mut().zip(right[0].iter_mut()) {
        let (new_p, new_q) = (c * *x - s * *y, s * *x + c * *y);
        *x = new_p;
        *y = new_q;
    }
}

/// c and s of a pair.
fn rotation(alpha: f64, beta: f64, gamma: f64) -> (f64, f64) {
    let zeta = (beta - alpha) / (2.0 * gamma);
    let mut t = 1.0 / (zeta.abs() + (1.0 + zeta * zeta).sqrt());
    if zeta < 0.0 {
        t = -t;
    }
    let c = 1.0 / (1.0 + t * t).sqrt();
    (c, c * t)
}

/// How many sweeps were made, and whether the last had no turn.
pub fn factorise(a: &mut Columns, v: &mut Columns) -> (usize, bool) {
    let m = a.len();
    for made in 1..=30 {
        let mut turned = false;
        for p in 0..m {
            for q in p + 1..m {
                let alpha = dot(&a[p], &a[p]);
                let beta = dot(&a[q], &a[q]);
                let gamma = dot(&a[p], &a[q]);
                if gamma * gamma > 2.0_f64.powi(-100) * (alpha * beta) {
                    let (c, s) = rotation(alpha, beta, gamma);
                    turn(a, p, q, c, s);
                    turn(v, p, q, c, s);
                    turned = true;
                }
            }
        }
        if !turned {
            return (made, true);
        }
    }
    (30, false)
}

/// The same with the columns of `a` and `v` in one slice, h numbers a column, and the three sums in one pass.
pub fn factorise_in_one_pass(w: &mut [f64], h: usize, rows: usize, m: usize) -> (usize, bool) {
    for made in 1..=30 {
        let mut turned = false;
        for p in 0..m {
            for q in p + 1..m {
                let (left, right) = w.split_at_mut(q * h);
                let (x, y) = (&mut left[p * h..][..rows + m], &mut right[..rows + m]);
                let (mut gamma, mut alpha, mut beta) = (0.0, 0.0, 0.0);
                for (p, q) in x[..rows].iter().zip(&y[..rows]) {
                    gamma += p * q;
                    alpha += p * p;
                    beta += q * q;
                }
                if gamma * gamma > 2.0_f64.powi(-100) * (alpha * beta) {
                    let (c, s) = rotation(alpha, beta, gamma);
                    for (x, y) in x.iter_mut().zip(y) {
                        (*x, *y) = (c * *x - s * *y, s * *x + c * *y);
                    }
                    turned = true;
                }
            }
        }
        if !turned {
            return (made, true);
        }
    }
    (30, false)
}

/// The columns largest value first, a candidate displaced only by a strictly greater one.
fn order(values: &[f64]) -> Vec<usize> {
    let mut left: Vec<usize> = (0..values.len()).collect();
    let mut taken = vec![];
    while !left.is_empty() {
        let mut best = 0;
        for i in 1..left.len() {
            if values[left[i]] > values[left[best]] {
                best = i;
            }
        }
        taken.push(left.remove(best));
    }
    taken
}

pub fn solve_damped(a: &Columns, b: &[f64], lambda: f64, fit_tol: f64) -> SolveOutcome {
    if lambda <= 0.0 {
        return solve_and_covariance(a, b, fit_tol);
    }
    let m = a.len();
    let mut a_aug = a.clone();
    let mut b_aug = b.to_vec();
    let sqrt_lambda = lambda.sqrt();
    for (c, column) in a_aug.iter_mut().enumerate() {
        column.extend((0..m).map(|r| if r == c { sqrt_lambda } else { 0.0 }));
    }
    b_aug.resize(b.len() + m, 0.0);
    solve_and_covariance(&a_aug, &b_aug, fit_tol)
}

pub fn solve_and_covariance(a: &Columns, b: &[f64], fit_tol: f64) -> SolveOutcome {
    let m = a.len();
    let mut col_scale = vec![1.0_f64; m];
    let mut u = a.clone();
    for j in 0..m {
        let norm = dot(&a[j], &a[j]).sqrt();
        if norm > 0.0 {
            col_scale[j] = 1.0 / norm;
            for x in u[j].iter_mut() {
                *x *= col_scale[j];
            }
        }
    }

    let mut v = identity(m);
    let (sweeps, settled) = factorise(&mut u, &mut v);
    let values: Vec<f64> = u.iter().map(|x| dot(x, x).sqrt()).collect();
    for (column, &s) in u.iter_mut().zip(&values) {
        for x in column.iter_mut() {
            *x = if s > 0.0 { *x / s } else { 0.0 };
        }
    }
    let taken = order(&values);
    let u: Columns = taken.iter().map(|&j| u[j].clone()).collect();
    let v: Columns = taken.iter().map(|&j| v[j].clone()).collect();
    let singular: Vec<f64> = taken.iter().map(|&j| values[j]).collect();
    let (sigma_max, sigma_min) = (singular[0], singular[m - 1]);

    let threshold = if fit_tol > 0.0 {
        fit_tol * sigma_max
    } else {
        0.0
    };
    let mut inv_s = vec![0.0_f64; m];
    let mut rank = 0;
    for (i, &s) in singular.iter().enumerate() {
        if s > threshold {
            inv_s[i] = 1.0 / s;
            rank += 1;
        }
    }

    let z: Vec<f64> = (0..m).map(|i| inv_s[i] * dot(&u[i], b)).collect();
    let mut x = vec![0.0_f64; m];
    let mut cov_diag = vec![0.0_f64; m];
    for j in 0..m {
        let mut x_scaled = 0.0;
        let mut acc = 0.0;
        for i in 0..m {
            x_scaled += v[i][j] * z[i];
            if inv_s[i] != 0.0 {
                acc += (v[i][j] * inv_s[i]) * (v[i][j] * inv_s[i]);
            }
        }
        x[j] = x_scaled * col_scale[j];
        cov_diag[j] = acc * col_scale[j] * col_scale[j];
    }
    let mut leverage = vec![0.0_f64; b.len()];
    for r in 0..b.len() {
        for c in 0..m {
            if inv_s[c] != 0.0 {
                leverage[r] += u[c][r] * u[c][r];
            }
        }
    }
    SolveOutcome {
        x,
        cov_diag,
        leverage,
        rank,
        sigma_max,
        sigma_min,
        sweeps,
        settled,
    }
}
