//! Runs by rows, each beside the same run by stars: both are stored, and agree in all but sigma.

use super::fits::{closing_kept, put_fit};
use super::iterated::{choose_options, far_start, nan_start, outliers, step_norms};
use super::runs::{still, Case, Maker, NAMES, ROBUST, SINGLE};
use crate::pmf::bits;
use crate::questions::{Run, BY_ROWS, BY_STARS, MAX_STARS, MAX_TERMS};
use crate::solver::FitResult;

/// What accepted runs by rows are, beside the same runs by stars.
const SORTS: [&str; 9] = [
    "other sigmas",
    "other sigmas, n the rank",
    "equal sigmas above 0: of one star and one free term the divisor is 1",
    "equal sigmas: rank 0, all sigmas 0",
    "equal sigmas: residuals 0, all sigmas 0",
    "a rank below the free count and above 0",
    "fixed terms",
    "a sigma that is no number",
    "an infinite sigma",
];

fn sorts(run: &Run, rows: &FitResult, stars: &FitResult) -> [bool; SORTS.len()] {
    let (n, m) = (run.n(), run.m());
    let (rank, n_free) = (rows.rank_info.rank, rows.rank_info.n_free);
    let sigmas = |fit: &FitResult| fit.sigma.iter().map(|&x| bits(x)).collect::<Vec<_>>();
    let other = sigmas(rows) != sigmas(stars);
    let any = |is: fn(f64) -> bool| rows.sigma.iter().any(|&x| is(x));
    let zero = !other && !any(|x| x != 0.0);
    let exact = rows.diagnostics.iter().all(|star| star.residual_sky == 0.0);
    [
        other,
        other && n == rank,
        !other && (n, rank) == (1, 1) && any(|x| x > 0.0),
        zero && rank == 0,
        zero && rank > 0 && exact,
        0 < rank && rank < n_free,
        n_free < m,
        any(f64::is_nan),
        any(f64::is_infinite),
    ]
}

/// What iterated ones with other sigmas are besides.
const ITERATED_SORTS: [&str; 5] = [
    "limit 0",
    "limit 1",
    "robust",
    "the closing set rejected",
    "the closing set kept",
];

fn iterated_sorts(case: &Case, run: &Run, rows: &FitResult) -> [bool; ITERATED_SORTS.len()] {
    let kept = closing_kept(run, &case.options, rows);
    [
        case.options.max_iter == 0,
        case.options.max_iter == 1,
        case.mode == ROBUST,
        !kept,
        kept,
    ]
}

/// Calls by rows that were held to the same calls by stars.
#[derive(Default)]
pub struct ByRows {
    /// By refusal, the place 0 for accepted calls.
    answers: [usize; 14],
    met: [usize; SORTS.len()],
    iterated_met: [usize; ITERATED_SORTS.len()],
}

fn count<const N: usize>(met: &mut [usize; N], held: [bool; N]) {
    for (count, held) in met.iter_mut().zip(held) {
        *count += held as usize;
    }
}

/// The bytes of an answer without its sigmas.
fn all_but_sigma(fit: &FitResult) -> Vec<u8> {
    let mut fit = fit.clone();
    fit.sigma.clear();
    let mut out = Vec::new();
    put_fit(&mut out, &fit);
    out
}

impl ByRows {
    /// Holds the answer of a call by rows to that of the same call by stars.
    pub fn add(&mut self, case: &Case, run: &Run, by_rows: &Result<FitResult, u8>) {
        let mut run_by_stars = run.clone();
        run_by_stars.sigma_by = BY_STARS;
        let by_stars = case.call(&run_by_stars);
        let refusals = [by_rows, &by_stars].map(|answer| answer.as_ref().err().copied());
        assert_eq!(refusals[0], refusals[1]);
        self.answers[usize::from(refusals[0].unwrap_or(0))] += 1;
        let (Ok(rows), Ok(stars)) = (by_rows, &by_stars) else {
            return;
        };
        assert_eq!(all_but_sigma(rows), all_but_sigma(stars));
        for j in (0..run.m()).filter(|&j| run.fixed[j] == 1) {
            assert_eq!([rows, stars].map(|fit| fit.sigma[j].to_bits()), [0; 2]);
        }
        let held = sorts(run, rows, stars);
        count(&mut self.met, held);
        if case.mode != SINGLE && held[0] {
            count(&mut self.iterated_met, iterated_sorts(case, run, rows));
        }
    }

    /// How many were accepted. All sorts must have occurred, and a "no" to each question `asked`.
    pub fn accepted(&self, asked: &[usize], iterated: bool) -> usize {
        for &number in asked {
            assert!(self.answers[number] > 0, "by rows: refusal {number}");
        }
        for (count, sort) in self.met.iter().zip(SORTS) {
            assert!(*count > 0, "by rows: {sort}");
        }
        for (count, sort) in self.iterated_met.iter().zip(ITERATED_SORTS) {
            assert!(!iterated || *count > 0, "by rows: {sort}");
        }
        self.answers[0]
    }
}

fn by_rows(case: &Case) -> Case {
    let mut case = case.clone();
    case.run.sigma_by = BY_ROWS;
    case
}

/// By rows, of the runs by stars that are there: the first ones, those of docs/SCOPE.md 12.1 and
/// next to them, and the first at both limits.
pub fn beside(made: &[Case], worked: usize) -> Vec<Case> {
    let at_limits = |case: &&Case| (case.m(), case.n()) == (MAX_TERMS, MAX_STARS);
    let large = made.iter().find(at_limits).expect("a run at both limits");
    made[..worked].iter().chain([large]).map(by_rows).collect()
}

impl Maker<'_> {
    /// The runs of this file, by stars and then by rows.
    pub fn by_both(&mut self, modes: &[u8], asked: &[u8]) -> Vec<Case> {
        let mut made = Vec::new();
        self.of_each_rank(modes, &mut made);
        self.of_each_size(modes, &mut made);
        if modes != [SINGLE] {
            self.of_each_end(modes, &mut made);
        }
        for &number in asked {
            for _ in 0..2 {
                made.push(self.faulty(modes, |maker, case| maker.fault(case, number)));
            }
        }
        for _ in 0..4 {
            made.push(self.faulty(modes, |maker, case| maker.several_faults(case, asked)));
        }
        made.iter()
            .flat_map(|case| [case.clone(), by_rows(case)])
            .collect()
    }

    /// One star and one free term, as many stars as free terms and one fewer, ranks below the free
    /// count down to 0, fixed terms, each fit_tol.
    fn of_each_rank(&mut self, modes: &[u8], out: &mut Vec<Case>) {
        let mode = |maker: &mut Self| maker.random.pick(modes);
        for name in ["IH", "CH", "TX2", "HDCD2"] {
            let mode = mode(self);
            out.push(self.real_of(mode, &[name], 1));
        }
        for _ in 0..4 {
            let mode = mode(self);
            out.push(self.tight(mode, 0));
            out.push(self.deficient(mode));
            out.push(self.repeated(mode));
        }
        for names in [&["HASH"][..], &["HZCD3", "HHSA"]] {
            let mode = mode(self);
            out.push(self.tight(mode, 1));
            out.push(self.real_of(mode, names, 3));
        }
        for m in 2..=4 {
            let mode = mode(self);
            out.push(self.one_free(mode, m));
        }
        for fit_tol in [0.0, -0.0, -1.0, 5e-324, 1e-12, 1e-3, 0.5, 1.0, 2.0, 1e300] {
            let mode = mode(self);
            let mut case = self.real(mode, 4, 5);
            case.run.fit_tol = fit_tol;
            out.push(case);
        }
    }

    /// Real numbers, residuals from 0 over subnormal squares to squares that overflow, and extreme
    /// numbers throughout.
    fn of_each_size(&mut self, modes: &[u8], out: &mut Vec<Case>) {
        for &mode in modes {
            for x in [5e-324, 3e-162, 1e-160, 1e-154, 8.0, 1e154, 1e200, 1e308] {
                out.push(still(mode, &[-x, -1.5 * x, -x, -1.5 * x]));
            }
            out.push(still(mode, &[-8.0; 4]));
            out.push(self.restless(mode));
        }
        for _ in 0..4 {
            let mode = self.random.pick(modes);
            out.push(self.real(mode, 5, 7));
            out.push(self.real(mode, 5, 7));
            out.push(self.polar(mode));
            out.push(self.extreme(mode));
            out.push(self.extreme(mode));
        }
        let mode = self.random.pick(modes);
        out.push(self.real_of(mode, &NAMES[..16], 24));
    }

    /// Iterated runs of no trial, of one and of more, robust ones with outliers, and closing steps
    /// that are kept and rejected.
    fn of_each_end(&mut self, modes: &[u8], out: &mut Vec<Case>) {
        for &mode in modes {
            for max_iter in [0, 1] {
                let mut case = self.real(mode, 4, 6);
                case.options.max_iter = max_iter;
                out.push(case);
            }
            out.push(far_start(self, mode));
            out.push(nan_start(self, mode));
            out.push(step_norms(self, mode));
            for _ in 0..2 {
                let mut case = self.real(mode, 4, 6);
                choose_options(self, &mut case);
                out.push(case);
            }
        }
        for _ in 0..4 {
            out.push(outliers(self, ROBUST));
        }
    }
}
