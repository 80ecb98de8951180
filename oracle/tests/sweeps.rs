//! The sweeps of a fit: those of its last undamped solve, counted here another way, and their first lines.

mod common;

use common::{of_regime, with_maker};
use oracle::pmf::{file, listing};
use oracle::questions::{jacobian, Point, Run, NAME};
use oracle::sheet::SHEET;
use oracle::solver::{solves, tried};
use oracle::vectors::iterated::{far_start, outliers};
use oracle::vectors::runs::{Case, Maker, ITERATED, ROBUST, SINGLE};

const MODES: [u8; 3] = [SINGLE, ITERATED, ROBUST];

/// 2^-100
const TURN: f64 = f64::from_bits((1023 - 100) << 52);

fn dot(p: &[f64], q: &[f64]) -> f64 {
    p.iter().zip(q).fold(0.0, |sum, (x, y)| sum + x * y)
}

/// The free terms' columns, hour-angle rows times cos dec, of length 1 where they have a length.
fn scaled_columns(run: &Run) -> Vec<Vec<f64>> {
    let mut columns = Vec::new();
    let slots = run.names.chunks(NAME).zip(&run.fixed);
    for (slot, _) in slots.filter(|(_, &fixed)| fixed == 0) {
        let mut column = Vec::new();
        for (sheet, &pier) in run.sheets.chunks(SHEET).zip(&run.piers) {
            let point = Point {
                sheet,
                sin_lat: run.sin_lat,
                cos_lat: run.cos_lat,
                pier,
            };
            let (jh, jd) = jacobian(slot, &point).expect("an accepted name");
            column.extend([jh * sheet[19], jd]);
        }
        let norm = dot(&column, &column).sqrt();
        if norm > 0.0 {
            let scale = 1.0 / norm;
            column.iter_mut().for_each(|x| *x *= scale);
        }
        columns.push(column);
    }
    columns
}

/// Whether a pair turns; if so it is turned.
fn turned(p: &mut [f64], q: &mut [f64]) -> bool {
    let (alpha, beta, gamma) = (dot(p, p), dot(q, q), dot(p, q));
    let turns = gamma * gamma > TURN * (alpha * beta);
    if turns {
        let zeta = (beta - alpha) / (2.0 * gamma);
        let size = 1.0 / (zeta.abs() + (1.0 + zeta * zeta).sqrt());
        let t = if zeta < 0.0 { -size } else { size };
        let c = 1.0 / (1.0 + t * t).sqrt();
        let s = c * t;
        for (x, y) in p.iter_mut().zip(q) {
            (*x, *y) = (c * *x - s * *y, s * *x + c * *y);
        }
    }
    turns
}

/// The sweeps of an unweighted system. Thirty are made in any case: one without a turn changes
/// nothing, so that none turns behind it.
fn recounted(run: &Run) -> (usize, bool) {
    let mut columns = scaled_columns(run);
    let m = columns.len();
    let mut turns = [0; 30];
    for count in &mut turns {
        for p in 0..m {
            for q in p + 1..m {
                let (left, right) = columns.split_at_mut(q);
                *count += turned(&mut left[p], &mut right[0]) as usize;
            }
        }
    }
    let turning = turns.iter().filter(|&&count| count > 0).count();
    (30.min(turning + 1), turns[29] == 0)
}

fn some(maker: &mut Maker, mode: u8, sort: usize) -> Case {
    match sort % 9 {
        6 => maker.nearly_dependent(mode, 6, 10, 2),
        7 => maker.nearly_dependent(mode, 6, 60, 3),
        8 => maker.real(mode, 16, 30),
        regime => of_regime(maker, mode, regime),
    }
}

#[test]
fn counted_another_way() {
    with_maker(0x7377_6565, |maker| {
        let (mut below, mut thirty, mut not_settled) = (0, 0, 0);
        for i in 0..2702 {
            let mode = [SINGLE, ITERATED][i % 2];
            let case = match i {
                2700.. => maker.thirty(mode, 6, true),
                _ => some(maker, mode, i),
            };
            let run = case.lent(maker.pool);
            let Ok(fit) = case.call(&run) else { continue };
            assert_eq!((fit.sweeps, fit.settled), recounted(&run));
            assert!((1..=30).contains(&fit.sweeps) && (fit.settled || fit.sweeps == 30));
            below += (fit.sweeps < 30) as usize;
            thirty += (fit.sweeps == 30) as usize;
            not_settled += !fit.settled as usize;
        }
        println!("{below} below 30, {thirty} with 30, {not_settled} not settled");
        assert!(below > 1000 && not_settled > 100 && thirty >= not_settled + 2);
    });
}

/// Sweeps of damped trials don't count, and the closing solve's count whether its set is kept or not.
#[test]
fn of_the_closing_solve() {
    with_maker(0x636c_6f73, |maker| {
        let mut apart = [0; 2];
        for i in 0..1200 {
            let mode = MODES[1 + i % 2];
            let case = match i % 11 {
                9 => outliers(maker, mode),
                10 => far_start(maker, mode),
                sort => some(maker, mode, sort),
            };
            let run = case.lent(maker.pool);
            let Ok(fit) = case.call(&run) else { continue };
            let made = run.with_inputs(|inputs| solves(inputs, &case.options));
            let made = made.expect("an accepted run");
            let (closing, trials) = made.split_last().expect("the closing solve");
            assert_eq!((fit.sweeps, fit.settled), (closing.sweeps, closing.settled));
            assert_eq!(trials.len(), fit.iter_report.iterations);
            if trials.iter().any(|trial| trial.sweeps != fit.sweeps) {
                let sets = run.with_inputs(|inputs| tried(inputs, &case.options));
                let kept = sets.expect("an accepted run").pop() == Some(fit.coefficients);
                apart[kept as usize] += 1;
            }
        }
        println!(
            "trials with other counts: closing set rejected {}, kept {}",
            apart[0], apart[1]
        );
        assert!(apart.iter().all(|&count| count > 10));
    });
}

#[test]
fn one_free_term() {
    with_maker(0x6f6e_6520, |maker| {
        let mut beside = 0;
        for i in 0..1500 {
            let mut case = some(maker, MODES[i % 3], i);
            case.run.fixed.fill(1);
            let free = maker.random.below(case.m());
            case.run.fixed[free] = 0;
            let Ok(fit) = case.call(&case.lent(maker.pool)) else {
                continue;
            };
            assert_eq!((fit.sweeps, fit.settled), (1, true));
            beside += (case.m() > 1) as usize;
        }
        assert!(beside > 500);
    });
}

#[test]
fn first_lines() {
    with_maker(0x6c69_6e65, |maker| {
        for mode in MODES {
            for (case, end) in [
                (maker.restless(mode), " 30 no"),
                (maker.thirty(mode, 6, false), " 30 no"),
                (maker.thirty(mode, 6, true), " 30 yes"),
            ] {
                let listing = listing(&file(&case.lent(maker.pool), &case.options, mode));
                let line = listing.lines().next().expect("a first line");
                assert_eq!(line.split(' ').count(), 7);
                assert!(line.starts_with("fit ") && line.ends_with(end), "{line}");
            }
        }
    });
}
