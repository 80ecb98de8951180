//! Whether a decomposition gives its matrix back: the system that the single step solves, decomposed by nalgebra as the published code calls it
//! and by the oracle's one-sided Jacobi, and multiplied out again.

use crate::night::Night;
use nalgebra::DMatrix;

/// The design matrix with hour-angle rows times cos dec: the columns of the free terms.
fn columns(night: &Night) -> Vec<Vec<f64>> {
    let terms = night.terms();
    let free = terms.iter().zip(&night.fixed).filter(|(_, &fixed)| !fixed);
    free.map(|(term, _)| {
        let mut column = Vec::new();
        for star in &night.stars {
            let pier = star.pier.sign();
            let (jh, jd) = term.jacobian_equatorial(star.h, star.dec, night.latitude, pier);
            column.extend([jh * libm::cos(star.dec), jd]);
        }
        column
    })
    .collect()
}

fn scale(norm: f64) -> f64 {
    if norm > 0.0 {
        1.0 / norm
    } else {
        1.0
    }
}

/// The largest entry by which nalgebra's product is off the matrix, scaled as the published code scales it.
fn nalgebra(columns: &[Vec<f64>]) -> f64 {
    let mut matrix = DMatrix::from_fn(columns[0].len(), columns.len(), |i, j| columns[j][i]);
    for j in 0..columns.len() {
        let scale = scale(matrix.column(j).norm());
        matrix.column_mut(j).apply(|x| *x *= scale);
    }
    let svd = matrix.clone().svd(true, true);
    (svd.recompose().expect("U and V") - matrix).amax()
}

/// The same of the oracle's.
fn jacobi(columns: &[Vec<f64>]) -> f64 {
    let m = columns.len();
    let mut matrix = oracle::matrix::DMatrix::zeros(columns[0].len(), m);
    for (j, column) in columns.iter().enumerate() {
        let scale = scale(oracle::matrix::DVector::from_vec(column.clone()).norm());
        for (i, x) in column.iter().enumerate() {
            matrix[(i, j)] = x * scale;
        }
    }
    let svd = oracle::svd::svd(matrix.clone());
    let mut largest = 0.0_f64;
    for j in 0..m {
        for i in 0..matrix.nrows() {
            let product = |k: usize| svd.u[(i, k)] * svd.singular_values[k] * svd.v_t[(k, j)];
            largest = largest.max(((0..m).map(product).sum::<f64>() - matrix[(i, j)]).abs());
        }
    }
    largest
}

/// nalgebra's error and the oracle's.
pub fn errors(night: &Night) -> [f64; 2] {
    let columns = columns(night);
    [nalgebra(&columns), jacobi(&columns)]
}
