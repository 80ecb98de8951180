//! The stored vectors: for each replay program its standard input and what it prints.

pub mod angles;
pub mod faults;
pub mod files;
pub mod fits;
pub mod iterated;
pub mod jacobians;
pub mod mended;
pub mod model;
pub mod names;
pub mod pier;
pub mod random;
pub mod runs;
pub mod sigma;
pub mod single_step;
pub mod solves;
pub mod sweeps;

/// Stands behind the last record of each file; no record begins with it.
const MARK: u8 = 255;

/// What a replay program reads, and what it prints.
pub struct Vectors {
    pub name: &'static str,
    pub stdin: Vec<u8>,
    pub stdout: String,
}

pub fn all() -> Vec<Vectors> {
    let mut all = vec![
        names::vectors(),
        jacobians::vectors(),
        solves::vectors(),
        single_step::vectors(),
        iterated::vectors(),
        model::vectors(),
        files::vectors(),
    ];
    for vectors in &mut all {
        vectors.stdin.push(MARK);
    }
    all
}

/// Appends doubles; every NaN as 7ff8000000000000.
fn put_doubles(out: &mut Vec<u8>, numbers: &[f64]) {
    for &x in numbers {
        out.extend(crate::pmf::bits(x).to_le_bytes());
    }
}
