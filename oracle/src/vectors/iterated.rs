//! `replay_iterated`: calls of the iterated fit, robust and not.

use super::fits::Records;
use super::random::Random;
use super::runs::{still, Case, Maker, Pool, ITERATED, NAMES, OTHER, ROBUST, ROTATIONAL};
use super::sigma::beside;
use super::Vectors;

const MODES: [u8; 2] = [ITERATED, ROBUST];
pub const ASKED: [u8; 13] = [1, 2, 3, 4, 5, 6, 7, 8, 9, 10, 11, 12, 13];

const TOLERANCES: [f64; 10] = [1e-6, 1e-6, 1e-4, 0.0, -0.0, -1.0, 1e-12, 1e-9, 1.0, 1e300];
const DAMPINGS: [f64; 14] = [
    1e-3, 1e-3, 1.0, 100.0, 0.0, -0.0, -1.0, -1e300, 5e-324, 1e-12, 1e6, 1e12, 1.5e12, 1e300,
];
const FACTORS_UP: [f64; 11] = [
    10.0, 10.0, 2.0, 1.0, 0.5, 0.0, -0.0, -10.0, -1.0, 1e6, 1e300,
];
const FACTORS_DOWN: [f64; 12] = [
    10.0, 10.0, 3.0, 1.0, 0.5, 0.0, -0.0, -10.0, 1e-300, 1e300, 1e-9, 5e-324,
];
const HUBER: [f64; 11] = [
    1.345, 1.345, 1.0, 3.0, 0.0, -0.0, -1.345, 1e-3, 1e-300, 5e-324, 1e300,
];

/// One option, or all, from the lists.
pub fn choose_options(maker: &mut Maker, case: &mut Case) {
    let sort = maker.random.below(8);
    let random = &mut maker.random;
    let options = &mut case.options;
    let all = sort > 4;
    if all || sort == 0 {
        options.tol_rad = random.pick(&TOLERANCES);
    }
    if all || sort == 1 {
        options.initial_lambda = random.pick(&DAMPINGS);
    }
    if all || sort == 2 {
        options.lambda_up = random.pick(&FACTORS_UP);
    }
    if all || sort == 3 {
        options.lambda_down = random.pick(&FACTORS_DOWN);
    }
    if all || sort == 4 {
        options.huber_k = random.pick(&HUBER);
    }
    options.max_iter = random.pick(&[0, 1, 2, 3, 7, 20, 50, 50]);
}

fn mode(maker: &mut Maker) -> u8 {
    maker.random.pick(&MODES)
}

/// A few stars far out, or seen from the other pier side than was noted.
pub fn outliers(maker: &mut Maker, mode: u8) -> Case {
    let names = maker
        .random
        .pick(&[["IH", "ID", "CH"], ["ID", "CH", "NP"], ["ID", "MA", "ME"]]);
    let n = maker.random.within(5, 12);
    let mut case = maker.real_of(mode, &names, n);
    for _ in 0..maker.random.within(1, 2) {
        let i = maker.random.below(n);
        match maker.random.below(3) {
            0 => case.run.dd[i] += maker.random.unit() * 3000.0,
            1 => case.run.dh[i] += maker.random.unit() * 3000.0,
            _ => case.run.piers[i] = if case.run.piers[i] == 2 { 1 } else { 2 },
        }
    }
    case.options.huber_k = maker.random.pick(&[1.345, 1.345, 0.5, 3.0, 0.1]);
    case
}

pub fn far_start(maker: &mut Maker, mode: u8) -> Case {
    let mut case = maker.real(mode, 4, 7);
    let size = maker.random.pick(&[1e6, 1e9, 1e15, 1e30, 1e100]);
    for j in 0..case.m() {
        case.run.coefficients[j] = maker.random.unit() * size;
    }
    case
}

/// Chi-square is a NaN at the start: CH at cos dec 0 with a coefficient that isn't 0, or numbers
/// whose products are infinite.
pub fn nan_start(maker: &mut Maker, mode: u8) -> Case {
    let n = maker.random.within(2, 5);
    let mut case = maker.real_of(mode, &["CH", "ID"], n);
    case.run.coefficients[0] = maker.random.pick(&[1.0, -20.0, 1e-300]);
    let star = maker.random.below(n);
    case.sheets[star] = (maker.pool.polar.start + maker.random.below(4)) as u16;
    if maker.random.flip() {
        case.run.coefficients = vec![f64::MAX, f64::MIN];
    }
    case.run.fixed[0] = maker.random.below(2) as u8;
    case
}

/// Only terms that the rotational step norm leaves out, or one that it takes among others.
pub fn step_norms(maker: &mut Maker, mode: u8) -> Case {
    let m = maker.random.within(1, 3);
    let mut names = maker.names(m, &OTHER);
    if maker.random.below(3) == 0 {
        let name = maker.random.pick(&ROTATIONAL);
        names.push(name);
    }
    let n = maker.random.within(names.len(), 6);
    maker.real_of(mode, &names, n)
}

/// A case of some regime with default or chosen options.
fn regime(maker: &mut Maker) -> Case {
    let mode = mode(maker);
    let mut case = match maker.random.below(12) {
        0..=2 => maker.real(mode, 5, 8),
        3 | 4 => outliers(maker, mode),
        5 => far_start(maker, mode),
        6 => nan_start(maker, mode),
        7 => step_norms(maker, mode),
        8 => maker.repeated(mode),
        9 => maker.deficient(mode),
        10 => maker.polar(mode),
        _ => maker.extreme(mode),
    };
    if maker.random.below(3) > 0 {
        choose_options(maker, &mut case);
    }
    case
}

/// The file case of docs/SCOPE.md 12.1 with max_iter 0, and its stars with other limits.
pub fn documented(out: &mut Vec<Case>) {
    for mode in MODES {
        for max_iter in [0, 1, 2, 50, 1000, 1001] {
            for dd in [
                &[-10.0][..],
                &[-10.0, -20.0, -10.0, -20.0],
                &[0.0, -0.0, 0.0],
            ] {
                let mut case = still(mode, dd);
                case.options.max_iter = max_iter;
                out.push(case);
            }
        }
    }
}

/// An undamped first step of exactly 10 arcseconds, with the tolerance at its norm and next to it.
pub fn at_tolerance(out: &mut Vec<Case>) {
    let norm = 10.0_f64 / 206_264.806_247;
    for tol_rad in [norm.next_down(), norm, norm.next_up()] {
        for mode in MODES {
            let mut case = still(mode, &[-10.0]);
            case.options.initial_lambda = 0.0;
            case.options.tol_rad = tol_rad;
            out.push(case);
        }
    }
}

/// Each value of each option alone, on the same kind of run.
fn each_option(maker: &mut Maker, out: &mut Vec<Case>) {
    let lists: [&[f64]; 5] = [&TOLERANCES, &DAMPINGS, &FACTORS_UP, &FACTORS_DOWN, &HUBER];
    for (sort, list) in lists.into_iter().enumerate() {
        for &value in list {
            for mode in MODES {
                let mut case = outliers(maker, mode);
                let options = &mut case.options;
                *[
                    &mut options.tol_rad,
                    &mut options.initial_lambda,
                    &mut options.lambda_up,
                    &mut options.lambda_down,
                    &mut options.huber_k,
                ][sort] = value;
                out.push(case);
            }
        }
    }
}

/// Small runs that go to a limit of 1,000 or near it, and one at the limits of m and n.
fn long(maker: &mut Maker, out: &mut Vec<Case>) {
    for (i, up) in [1.0, 0.5, -1.0, 0.0, 1.01, 1.0].into_iter().enumerate() {
        for mode in MODES {
            let mut case = maker.real_of(mode, &["IH", "ID"][..1 + i % 2], 3);
            case.options.max_iter = 1000;
            case.options.tol_rad = 0.0;
            case.options.lambda_up = up;
            case.options.initial_lambda = [1e-3, 1.0, 100.0][i % 3];
            case.options.lambda_down = [10.0, 1.0, 0.0][i / 2];
            out.push(case);
        }
    }
    let mut case = maker.real_of(ITERATED, &NAMES[..32], 1024);
    case.options.max_iter = 1;
    out.push(case);
    out.push(maker.real_of(ROBUST, &NAMES[..12], 60));
    let mut case = still(ITERATED, &[-10.0]);
    case.resize_stars(1025);
    case.options.max_iter = 1001;
    out.push(case.exact());
}

fn regimes(maker: &mut Maker, out: &mut Vec<Case>) {
    for _ in 0..120 {
        let mode = mode(maker);
        out.push(maker.real(mode, 5, 8));
        out.push(outliers(maker, mode));
        out.push(maker.extreme(mode));
    }
    for _ in 0..40 {
        let mode = mode(maker);
        out.push(far_start(maker, mode));
        out.push(nan_start(maker, mode));
        out.push(step_norms(maker, mode));
        out.push(maker.tight(mode, 0));
    }
    for _ in 0..900 {
        out.push(regime(maker));
    }
    for _ in 0..8 {
        let mode = mode(maker);
        out.push(maker.tight(mode, 1));
        out.push(maker.restless(mode));
        out.push(maker.real(mode, 20, 24));
    }
}

fn cases(maker: &mut Maker) -> Vec<Case> {
    let mut out = Vec::new();
    documented(&mut out);
    at_tolerance(&mut out);
    let worked = out.len();
    each_option(maker, &mut out);
    long(maker, &mut out);
    regimes(maker, &mut out);
    out.extend(maker.shape_refusals(&MODES));
    out.extend(maker.refusals(&MODES, &ASKED));
    maker.in_each_scratch(&MODES, &mut out);
    out.extend(maker.by_sweeps(&MODES));
    out.extend(beside(&out, worked));
    out.extend(maker.by_both(&MODES, &ASKED));
    out
}

pub fn vectors() -> Vectors {
    let mut random = Random::new(0x6974_6572);
    let mut pool = Pool::new(&mut random, 220);
    pool.add_near();
    let cases = cases(&mut Maker {
        random,
        pool: &pool,
    });
    let mut records = Records::new(&pool);
    for case in &cases {
        records.add(case);
    }
    assert!(records.compared > 10_000);
    records.vectors("replay_iterated", &ASKED.map(usize::from), true)
}

#[cfg(test)]
mod tests {
    use super::*;
    use crate::demand3::demand3;

    /// Demand 3 on runs that no file holds; most of their sets must be ones that (b) compares.
    #[test]
    fn best_of_the_sets_tried() {
        let mut random = Random::new(0x6265_7374);
        let pool = Pool::new(&mut random, 220);
        let mut maker = Maker {
            random,
            pool: &pool,
        };
        let (mut accepted, mut sets, mut compared) = (0, 0, 0);
        for _ in 0..6000 {
            let case = regime(&mut maker);
            let run = case.lent(&pool);
            let Ok(fit) = case.call(&run) else {
                continue;
            };
            accepted += 1;
            sets += fit.iter_report.iterations + 2;
            compared += demand3(&run, &case.options, &fit).expect("demand 3");
        }
        println!("{accepted} fits, {sets} sets, {compared} compared");
        assert!(accepted > 5000 && 2 * compared > sets);
    }

    /// The check finds what it should: the start in place of the best, iterations not made, a
    /// fixed coefficient moved, a set that was not tried.
    #[test]
    fn wrong_answers_are_found() {
        let mut random = Random::new(0x7772_6f6e);
        let pool = Pool::new(&mut random, 220);
        let mut maker = Maker {
            random,
            pool: &pool,
        };
        let mut case = maker.real_of(ITERATED, &["IH", "ID", "CH"], 6);
        case.run.fixed = vec![0, 0, 1];
        case.run.coefficients = vec![1000.0, -1000.0, -0.0];
        let run = case.lent(&pool);
        let fit = case.call(&run).expect("an accepted fit");
        let verdict = |change: &dyn Fn(&mut crate::solver::FitResult)| {
            let mut fit = fit.clone();
            change(&mut fit);
            demand3(&run, &case.options, &fit).map_err(|part| part[..3].to_string())
        };
        assert!(verdict(&|_| ()).expect("demand 3") > 2);
        let found = |part: &str| Err(part.to_string());
        assert_eq!(verdict(&|f| f.coefficients[0] += 1.0), found("(a)"));
        assert_eq!(verdict(&|f| f.coefficients[2] = 0.0), found("(a)"));
        let start = run.coefficients.clone();
        assert_eq!(verdict(&|f| f.coefficients = start.clone()), found("(b)"));
        assert_eq!(verdict(&|f| f.iter_report.iterations += 1), found("(d)"));
    }
}
