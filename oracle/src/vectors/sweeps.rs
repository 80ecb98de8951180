//! Runs by the sweeps of their last undamped solve: 30, the last with a turn or without, and 1.

use super::runs::{Case, Maker, FLAT, NAMES, ROBUST, SINGLE};

/// Runs that are looked at for one of 30 sweeps; one in a thousand or so settles in the 30th.
const LOOKED_AT: usize = 20_000;

impl Maker<'_> {
    /// Free terms on stars whose places are ulps apart, one place after the other, first from East
    /// and then from West, so that most columns are nearly combinations of a few. What a turn leaves
    /// of such a column is rounding: on few places it shrinks with each sweep until its squares
    /// vanish, and on many stars the rounding of its dot products makes it turn again.
    pub fn nearly_dependent(&mut self, mode: u8, m: usize, n: usize, places: usize) -> Case {
        let names = self.names(m, &NAMES[..FLAT]);
        self.nearly_dependent_of(mode, &names, n, places)
    }

    /// The same with the names given.
    pub fn nearly_dependent_of(
        &mut self,
        mode: u8,
        names: &[&str],
        n: usize,
        places: usize,
    ) -> Case {
        let mut case = self.blank(mode, names, n);
        for i in 0..n {
            case.sheets[i] = (self.pool.near.start + i * places / n) as u16;
            case.run.piers[i] = 1 + (2 * i >= n) as u8;
        }
        self.observe(&mut case, 3.0);
        self.start(&mut case);
        case.run.fixed.fill(0);
        case.run.fit_tol = self.random.pick(&[0.0, 1e-12]);
        self.places(&mut case);
        case
    }

    /// The first nearly dependent run whose last undamped solve makes 30 sweeps, the last without a
    /// turn if `settled`, else with one. No row is weighted, so that it does so in each mode.
    pub fn thirty(&mut self, mode: u8, m: usize, settled: bool) -> Case {
        for _ in 0..LOOKED_AT {
            let mut case = self.nearly_dependent(SINGLE, m, 100, m / 2);
            let fit = case.call(&case.lent(self.pool)).expect("an accepted fit");
            if (fit.sweeps, fit.settled) == (30, settled) {
                case.mode = mode;
                case.options.robust = mode == ROBUST;
                // no residual is longer than the root of 2n times the estimated sigma
                case.options.huber_k = 100.0;
                return case;
            }
        }
        panic!("no run of 30 sweeps among {LOOKED_AT}");
    }

    /// One free term, alone or beside fixed ones.
    pub fn one_free(&mut self, mode: u8, m: usize) -> Case {
        let names = self.names(m, &NAMES[..FLAT]);
        let mut case = self.real_of(mode, &names, m);
        case.run.fixed.fill(1);
        case.run.fixed[self.random.below(m)] = 0;
        case
    }

    /// The runs of this file, in each mode.
    pub fn by_sweeps(&mut self, modes: &[u8]) -> Vec<Case> {
        let mut out = Vec::new();
        for &mode in modes {
            for m in 1..=6 {
                out.push(self.one_free(mode, m));
                out.push(self.nearly_dependent(mode, 3 + m, 4 + 2 * m, 1 + m / 3));
            }
            for (m, settled) in [(16, false), (6, true), (16, true)] {
                out.push(self.thirty(mode, m, settled));
            }
        }
        out
    }
}
