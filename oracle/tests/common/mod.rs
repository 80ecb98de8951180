//! What tests on random runs have in common: a maker of them, and runs of its regimes.

use oracle::vectors::random::Random;
use oracle::vectors::runs::{Case, Maker, Pool};

pub fn with_maker<T>(seed: u64, work: impl FnOnce(&mut Maker) -> T) -> T {
    let mut random = Random::new(seed);
    let mut pool = Pool::new(&mut random, 220);
    pool.add_near();
    work(&mut Maker {
        random,
        pool: &pool,
    })
}

/// A run of one of six regimes, numbered from 0.
pub fn of_regime(maker: &mut Maker, mode: u8, regime: usize) -> Case {
    match regime {
        0 => maker.real(mode, 6, 9),
        1 => maker.extreme(mode),
        2 => maker.polar(mode),
        3 => maker.repeated(mode),
        4 => maker.deficient(mode),
        _ => maker.restless(mode),
    }
}
