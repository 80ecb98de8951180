//! The solver, terms, observation and model of docs/src as published, unchanged, with stand-ins for what else they take in; runs in real angles
//! that fill both them and the oracle; and what their answers are held by. Outside the gate.

// the names by which the published files take in what stands here
extern crate self as bitflags;
extern crate self as celestial_core;
extern crate self as celestial_time;

pub mod angle;
pub mod error;
pub mod julian;
mod mounts;

#[allow(dead_code, unused_imports)]
#[rustfmt::skip]
#[path = "../../../docs/src/celestial-pointing/src/observation.rs"]
pub mod observation;

#[allow(dead_code)]
#[rustfmt::skip]
#[path = "../../../docs/src/celestial-pointing/src/terms/mod.rs"]
pub mod terms;

#[allow(dead_code, unused_imports, clippy::all)]
#[rustfmt::skip]
#[path = "../../../docs/src/celestial-pointing/src/solver/mod.rs"]
pub mod solver;

#[allow(dead_code)]
#[rustfmt::skip]
#[path = "../../../docs/src/celestial-pointing/src/model.rs"]
pub mod model;

pub mod both;
pub mod examples;
pub mod measure;
pub mod night;
pub mod random;
pub mod reason;
pub mod recompose;
pub mod regimes;
