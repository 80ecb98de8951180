//! The Rust of docs/src with exactly the substitutions of docs/SCOPE.md, each marked
//! `// docs/SCOPE.md ..` with its paragraph. File by file beside docs/src: `terms`, `observation`,
//! `solver`, `model`. The others stand for what the source takes from its libraries, or hold the
//! calls (docs/SCOPE.md 10) and the file program (11); `vectors` makes the stored answers and random
//! calls.

#![allow(clippy::needless_range_loop, clippy::neg_cmp_op_on_partial_ord)]

pub mod demand3;
pub mod error;
pub mod exact;
pub mod libm;
pub mod matrix;
pub mod model;
pub mod observation;
pub mod pmf;
pub mod questions;
pub mod sheet;
pub mod solver;
pub mod svd;
pub mod terms;
pub mod vectors;
