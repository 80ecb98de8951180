//! `replay_fit`: calls of the single-step fit.

use super::fits::Records;
use super::random::Random;
use super::runs::{still, Case, Maker, Pool, NAMES, SINGLE};
use super::sigma::beside;
use super::Vectors;

pub const ASKED: [u8; 12] = [1, 2, 3, 4, 5, 7, 8, 9, 10, 11, 12, 13];

/// The file case and the four stars of docs/SCOPE.md 12.1, with each fit_tol.
pub fn documented(out: &mut Vec<Case>) {
    for fit_tol in [0.0, -0.0, -1.0, 5e-324, 1e-12, 0.5, 1.0, 2.0] {
        for dd in [&[-10.0][..], &[-10.0, -20.0, -10.0, -20.0]] {
            let mut case = still(SINGLE, dd);
            case.run.fit_tol = fit_tol;
            out.push(case);
        }
    }
}

/// Each name alone, and beside IH and ID, on one pier side and on both.
fn each_name(maker: &mut Maker, out: &mut Vec<Case>) {
    for name in NAMES {
        for piers in [[1, 1, 1], [2, 2, 2], [1, 2, 0]] {
            let mut case = maker.real_of(SINGLE, &[name], 3);
            case.run.piers = piers.to_vec();
            out.push(case);
        }
        out.push(maker.real_of(SINGLE, &["IH", name, "ID"], 5));
    }
}

fn regimes(maker: &mut Maker, out: &mut Vec<Case>) {
    for _ in 0..450 {
        out.push(maker.real(SINGLE, 6, 9));
        out.push(maker.extreme(SINGLE));
    }
    for _ in 0..80 {
        out.push(maker.polar(SINGLE));
        out.push(maker.repeated(SINGLE));
        out.push(maker.deficient(SINGLE));
        let mut case = maker.real(SINGLE, 5, 7);
        case.run.fit_tol =
            (maker.random).pick(&[0.0, -0.0, -1.0, 1e-12, 0.5, 1.0, 2.0, 1e300, 5e-324]);
        out.push(case);
    }
    for _ in 0..40 {
        out.push(maker.tight(SINGLE, 0));
    }
    for _ in 0..12 {
        out.push(maker.tight(SINGLE, 1));
        out.push(maker.restless(SINGLE));
    }
    for _ in 0..30 {
        out.push(maker.real(SINGLE, 20, 30));
    }
}

/// Both limits reached, and each passed by one.
pub fn limits(maker: &mut Maker, out: &mut Vec<Case>) {
    let names = &NAMES[..32];
    let mut large = maker.real_of(SINGLE, names, 1024);
    large.run.fixed.fill(0);
    out.push(large);
    let mut flat = still(SINGLE, &[-10.0; 32]);
    flat.resize_terms(32);
    out.push(flat.clone().exact());
    out.push(maker.real_of(SINGLE, names, 40));
    out.push(maker.real_of(SINGLE, &["ID", "MA"], 1024));
    flat.resize_terms(33);
    out.push(flat.clone().exact());
    flat.resize_stars(1025);
    out.push(flat.clone().exact());
    flat.resize_terms(1);
    out.push(flat.clone().exact());
    // 1 before 2, 3, 4, 5
    flat.run.dd.clear();
    flat.run.piers = vec![3];
    flat.resize_sheets(0);
    flat.run.fit_tol = f64::NAN;
    flat.places = [0; 5];
    out.push(flat);
}

fn cases(maker: &mut Maker) -> Vec<Case> {
    let mut out = Vec::new();
    documented(&mut out);
    let worked = out.len();
    each_name(maker, &mut out);
    regimes(maker, &mut out);
    limits(maker, &mut out);
    out.extend(maker.shape_refusals(&[SINGLE]));
    out.extend(maker.refusals(&[SINGLE], &ASKED));
    for sheet in maker.pool.refused.clone() {
        let mut case = maker.real(SINGLE, 3, 5);
        let star = maker.random.below(case.n());
        case.sheets[star] = sheet as u16;
        out.push(case);
    }
    // the single step takes no options
    for max_iter in [0, 1000, 1001, 65535] {
        let mut case = maker.real(SINGLE, 3, 5);
        case.options.max_iter = max_iter;
        case.options.lambda_down = f64::NAN;
        out.push(case);
    }
    maker.in_each_scratch(&[SINGLE], &mut out);
    out.extend(maker.by_sweeps(&[SINGLE]));
    out.extend(beside(&out, worked));
    out.extend(maker.by_both(&[SINGLE], &ASKED));
    out
}

pub fn vectors() -> Vectors {
    let mut random = Random::new(0x7369_6e67);
    let mut pool = Pool::new(&mut random, 220);
    pool.add_near();
    let cases = cases(&mut Maker {
        random,
        pool: &pool,
    });
    let mut records = Records::new(&pool);
    for case in &cases {
        records.add(case);
    }
    records.vectors("replay_fit", &ASKED.map(usize::from), false)
}
