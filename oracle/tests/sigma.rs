//! Sigma by rows, worked out here another way: by hand, from equations that are listed one by one,
//! and from sigma by stars.

mod common;

use common::{of_regime, with_maker};
use oracle::pmf::{bits, file, listing};
use oracle::questions::{jacobian, Point, Run, BY_ROWS, BY_STARS, NAME};
use oracle::sheet::SHEET;
use oracle::solver::FitResult;
use oracle::vectors::iterated::{choose_options, far_start, outliers};
use oracle::vectors::runs::{still, Case, Maker, ITERATED, ROBUST, SINGLE};
use oracle::vectors::{iterated, single_step};

const MODES: [u8; 3] = [SINGLE, ITERATED, ROBUST];

fn fit(case: &Case, run: &Run, sigma_by: u8) -> Result<FitResult, u8> {
    let mut run = run.clone();
    run.sigma_by = sigma_by;
    case.call(&run)
}

/// By stars, and by rows.
fn both(case: &Case, run: &Run) -> Option<[FitResult; 2]> {
    let [stars, rows] = [BY_STARS, BY_ROWS].map(|choice| fit(case, run, choice));
    assert_eq!(stars.as_ref().err(), rows.as_ref().err());
    Some([stars.ok()?, rows.ok()?])
}

fn some(maker: &mut Maker, mode: u8, sort: usize) -> Case {
    let mut case = match sort % 10 {
        6 => maker.tight(mode, 0),
        7 => maker.real(mode, 16, 30),
        8 => outliers(maker, mode),
        9 => far_start(maker, mode),
        regime => of_regime(maker, mode, regime),
    };
    if maker.random.flip() {
        choose_options(maker, &mut case);
    }
    case
}

/// Residuals of 5 and -5 in declination, none in hour angle, and a column of length 2.
#[test]
fn four_stars_by_hand() {
    let squares = 5.0 * 5.0 + 5.0 * 5.0 + 5.0 * 5.0 + 5.0 * 5.0;
    let covariance = 1.0 / (1.0 + 1.0 + 1.0 + 1.0);
    let by_stars = f64::sqrt(squares / 3.0 * covariance);
    let by_rows = f64::sqrt(squares / 7.0 * covariance);
    for mode in [SINGLE, ITERATED] {
        let mut case = still(mode, &[-10.0, -20.0, -10.0, -20.0]);
        case.options.max_iter = 0;
        with_maker(1, |maker| {
            let run = case.lent(maker.pool);
            let [stars, rows] = both(&case, &run).expect("an accepted run");
            assert_eq!(stars.sigma[0].to_bits(), by_stars.to_bits());
            assert_eq!(rows.sigma[0].to_bits(), by_rows.to_bits());
            // a file means by stars
            let listing = listing(&file(&run, &case.options, mode));
            let line = listing.lines().nth(1).expect("a line for ID");
            assert!(line.ends_with(&format!(" {:016x} pier", by_stars.to_bits())));
        });
    }
}

/// An equation of the single step: the free terms' entries, and the residual under the start.
struct Equation {
    entries: Vec<f64>,
    b: f64,
}

/// One hour-angle and one declination equation for each star, hour angles times cos dec.
fn equations(run: &Run) -> Vec<Equation> {
    let mut out = Vec::new();
    for (i, sheet) in run.sheets.chunks(SHEET).enumerate() {
        let point = Point {
            sheet,
            sin_lat: run.sin_lat,
            cos_lat: run.cos_lat,
            pier: run.piers[i],
        };
        let mut pair = [run.dh[i] * sheet[19], run.dd[i]].map(|b| Equation {
            entries: Vec::new(),
            b,
        });
        for (j, slot) in run.names.chunks(NAME).enumerate() {
            let (jh, jd) = jacobian(slot, &point).expect("an accepted name");
            for (equation, entry) in pair.iter_mut().zip([jh * sheet[19], jd]) {
                if run.coefficients[j] != 0.0 {
                    equation.b -= entry * run.coefficients[j];
                }
                if run.fixed[j] == 0 {
                    equation.entries.push(entry);
                }
            }
        }
        out.extend(pair);
    }
    out
}

/// The covariance diagonal of the free terms and the rank, of the oracle's solve of the equations.
fn solve(equations: &[Equation], fit_tol: f64) -> (Vec<f64>, usize) {
    use oracle::matrix::{DMatrix, DVector};
    let mut a = DMatrix::zeros(equations.len(), equations[0].entries.len());
    for (i, equation) in equations.iter().enumerate() {
        for (j, &entry) in equation.entries.iter().enumerate() {
            a[(i, j)] = entry;
        }
    }
    let b = DVector::from_vec(equations.iter().map(|equation| equation.b).collect());
    let solved = oracle::solver::linalg::solve_and_covariance(&a, &b, fit_tol);
    let solved = solved.expect("a solve");
    (solved.cov_diag, solved.rank)
}

/// The sigmas of a single step by rows, and their divisor: the residual of each equation is squared
/// and added, and each equation counted but for as many as the rank.
fn from_equations(run: &Run, change: &[f64]) -> (Vec<f64>, usize) {
    let equations = equations(run);
    let (covariance, rank) = solve(&equations, run.fit_tol);
    let free: Vec<usize> = (0..run.m()).filter(|&j| run.fixed[j] == 0).collect();
    let mut squares = 0.0;
    for equation in &equations {
        let terms = equation.entries.iter().zip(&free);
        let product = terms.fold(0.0, |sum, (entry, &j)| sum + entry * change[j]);
        let residual = equation.b - product;
        squares += residual * residual;
    }
    let divisor = equations[rank..].len();
    let mut sigma = vec![0.0; run.m()];
    for (x, j) in covariance.iter().zip(free) {
        sigma[j] = (squares / divisor as f64 * x).abs().sqrt();
    }
    (sigma, divisor)
}

#[test]
fn single_steps_from_their_equations() {
    with_maker(0x6571_7561, |maker| {
        let (mut held, mut one, mut zero, mut nan) = (0, 0, 0, 0);
        for i in 0..3000 {
            let case = some(maker, SINGLE, i);
            let run = case.lent(maker.pool);
            let Ok(rows) = fit(&case, &run, BY_ROWS) else {
                continue;
            };
            let (sigma, divisor) = from_equations(&run, &rows.change);
            let of = |list: &[f64]| list.iter().map(|&x| bits(x)).collect::<Vec<_>>();
            assert_eq!(of(&rows.sigma), of(&sigma));
            held += 1;
            one += (divisor == 1) as usize;
            zero += (divisor == 2 * run.n()) as usize;
            nan += sigma.iter().any(|x| x.is_nan()) as usize;
        }
        println!("{held} runs, {one} with divisor 1, {zero} of rank 0, {nan} with a NaN");
        assert!(held > 2000 && [one, zero, nan].iter().all(|&count| count > 10));
    });
}

/// Every bit of an answer but for sigma.
fn all_but_sigma(fit: &FitResult) -> Vec<u64> {
    let (rank, report) = (&fit.rank_info, &fit.iter_report);
    let mut out = vec![
        rank.n_free as u64,
        rank.rank as u64,
        report.iterations as u64,
        report.converged as u64,
        fit.sweeps as u64,
        fit.settled as u64,
    ];
    let mut floats = [&fit.coefficients[..], &fit.change].concat();
    for star in &fit.diagnostics {
        floats.extend([star.residual_sky, star.leverage, star.studentized]);
    }
    floats.extend([fit.sky_rms, fit.popn_sd]);
    floats.extend([rank.sigma_max, rank.sigma_min, rank.tol]);
    floats.extend([report.final_lambda, report.final_step_norm]);
    out.extend(floats.into_iter().map(bits));
    out
}

/// How many sigmas by stars and by rows have, but for rounding, the same square times the divisor:
/// all of sizes at which rounding is relative.
fn related(run: &Run, stars: &FitResult, rows: &FitResult) -> usize {
    let plain = |square: f64| (1e-300..1e300).contains(&square);
    let residuals = stars.diagnostics.iter().map(|star| star.residual_sky);
    let plain_residuals = plain(residuals.map(|r| r * r).sum());
    let (n, rank) = (run.n(), stars.rank_info.rank);
    let [by_stars, by_rows] = [n, 2 * n].map(|count| (count - rank).max(1) as f64);
    let mut held = 0;
    for (j, (&s, &r)) in stars.sigma.iter().zip(&rows.sigma).enumerate() {
        if run.fixed[j] == 1 {
            assert_eq!([s, r].map(f64::to_bits), [0; 2]);
        }
        if plain_residuals && plain(s * s) && plain(r * r) {
            let (left, right) = (s * s * by_stars, r * r * by_rows);
            assert!((left - right).abs() <= 1e-14 * left, "{left:e} {right:e}");
            held += 1;
        }
        if s.is_nan() || s == 0.0 {
            assert_eq!(bits(s), bits(r));
        }
    }
    held
}

/// In each mode. All but sigma is the same in its bits.
#[test]
fn beside_sigma_by_stars() {
    with_maker(0x6265_7369, |maker| {
        let (mut fits, mut held, mut full, mut deficient) = ([0; 3], 0, 0, 0);
        for i in 0..6000 {
            let case = some(maker, MODES[i % 3], i / 3);
            let run = case.lent(maker.pool);
            let Some([stars, rows]) = both(&case, &run) else {
                continue;
            };
            assert_eq!(all_but_sigma(&stars), all_but_sigma(&rows));
            let sigmas = related(&run, &stars, &rows);
            fits[i % 3] += 1;
            held += sigmas;
            full += sigmas * (run.n() == stars.rank_info.rank) as usize;
            deficient += sigmas * stars.rank_info.is_deficient() as usize;
        }
        println!("{fits:?} fits, {held} sigmas, {full} with n the rank, {deficient} deficient");
        assert!(fits.iter().all(|&count| count > 1000) && held > 5000);
        assert!(full > 100 && deficient > 100);
    });
}

/// A choice that is neither is refused with 5 behind questions 1 to 4 and before all others.
#[test]
fn unknown_choices() {
    with_maker(0x756e_6b6e, |maker| {
        let mut seen = [[0; 14]; 2];
        for i in 0..3000 {
            let mode = MODES[i % 3];
            let asked = match mode {
                SINGLE => &single_step::ASKED[..],
                _ => &iterated::ASKED,
            };
            let mut case = maker.real(mode, 4, 5);
            match i / 3 % 4 {
                0 => {}
                3 => maker.several_faults(&mut case, asked),
                _ => {
                    let number = maker.random.pick(asked);
                    maker.fault(&mut case, number);
                }
            }
            let run = case.lent(maker.pool);
            let unknown = 2 + (i % 254) as u8;
            let number = |choice| fit(&case, &run, choice).err().unwrap_or(0);
            let known = number(BY_STARS);
            assert_eq!(number(BY_ROWS), known);
            let expected = if (1..=4).contains(&known) { known } else { 5 };
            assert_eq!(number(unknown), expected);
            seen[(mode != SINGLE) as usize][usize::from(known)] += 1;
        }
        println!("{seen:?}");
        assert!(seen[1].iter().all(|&count| count > 0));
        assert!((0..14).all(|k| (k == 6) == (seen[0][k] == 0)));
    });
}
