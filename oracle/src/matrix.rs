//! The part of nalgebra that the solver uses.
//! docs/SCOPE.md 6.1: norms, dots and matrix products are sums from 0 in rising index.

use std::ops::{Index, IndexMut, Mul, Sub};

#[derive(Debug, Clone)]
pub struct DVector {
    data: Vec<f64>,
}

impl DVector {
    pub fn zeros(len: usize) -> Self {
        Self {
            data: vec![0.0; len],
        }
    }

    pub fn from_vec(data: Vec<f64>) -> Self {
        Self { data }
    }

    pub fn len(&self) -> usize {
        self.data.len()
    }

    pub fn is_empty(&self) -> bool {
        self.data.is_empty()
    }

    pub fn iter(&self) -> std::slice::Iter<'_, f64> {
        self.data.iter()
    }

    pub fn dot(&self, other: &Self) -> f64 {
        let mut sum = 0.0;
        for i in 0..self.len() {
            sum += self[i] * other[i];
        }
        sum
    }

    pub fn norm(&self) -> f64 {
        self.dot(self).sqrt()
    }
}

impl Index<usize> for DVector {
    type Output = f64;
    fn index(&self, i: usize) -> &f64 {
        &self.data[i]
    }
}

impl IndexMut<usize> for DVector {
    fn index_mut(&mut self, i: usize) -> &mut f64 {
        &mut self.data[i]
    }
}

impl Sub<DVector> for &DVector {
    type Output = DVector;
    fn sub(self, other: DVector) -> DVector {
        assert_eq!(self.len(), other.len());
        let mut out = DVector::zeros(self.len());
        for i in 0..self.len() {
            out[i] = self[i] - other[i];
        }
        out
    }
}

/// Column after column.
#[derive(Debug, Clone)]
pub struct DMatrix {
    rows: usize,
    cols: usize,
    data: Vec<f64>,
}

impl DMatrix {
    pub fn zeros(rows: usize, cols: usize) -> Self {
        Self {
            rows,
            cols,
            data: vec![0.0; rows * cols],
        }
    }

    pub fn identity(n: usize) -> Self {
        let mut out = Self::zeros(n, n);
        for i in 0..n {
            out[(i, i)] = 1.0;
        }
        out
    }

    pub fn nrows(&self) -> usize {
        self.rows
    }

    pub fn ncols(&self) -> usize {
        self.cols
    }

    pub fn column(&self, j: usize) -> DVector {
        DVector::from_vec(self.data[j * self.rows..(j + 1) * self.rows].to_vec())
    }

    pub fn transpose(&self) -> Self {
        let mut out = Self::zeros(self.cols, self.rows);
        for i in 0..self.rows {
            for j in 0..self.cols {
                out[(j, i)] = self[(i, j)];
            }
        }
        out
    }
}

impl Index<(usize, usize)> for DMatrix {
    type Output = f64;
    fn index(&self, (i, j): (usize, usize)) -> &f64 {
        assert!(i < self.rows && j < self.cols);
        &self.data[j * self.rows + i]
    }
}

impl IndexMut<(usize, usize)> for DMatrix {
    fn index_mut(&mut self, (i, j): (usize, usize)) -> &mut f64 {
        assert!(i < self.rows && j < self.cols);
        &mut self.data[j * self.rows + i]
    }
}

impl Mul<&DVector> for &DMatrix {
    type Output = DVector;
    fn mul(self, v: &DVector) -> DVector {
        assert_eq!(self.cols, v.len());
        let mut out = DVector::zeros(self.rows);
        for i in 0..self.rows {
            let mut sum = 0.0;
            for j in 0..self.cols {
                sum += self[(i, j)] * v[j];
            }
            out[i] = sum;
        }
        out
    }
}

impl Mul<&DVector> for DMatrix {
    type Output = DVector;
    fn mul(self, v: &DVector) -> DVector {
        &self * v
    }
}

impl Mul<DVector> for &DMatrix {
    type Output = DVector;
    fn mul(self, v: DVector) -> DVector {
        self * &v
    }
}
