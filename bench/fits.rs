//! Whole fits of the static library beside those of the oracle, both built for release: equal in every bit, and timed in the same run by turns.
//! The oracle's whole call does what the library's does (questions, names, buffers); its bare fit begins with terms and observations that are
//! made once, outside the timing. Prints tables: three sizes, and how the cost grows with stars and terms.
mod night;
#[path = "../ffi/pointing.rs"]
mod pointing;

use night::{bare, by_turns, lasting, made, night, ours, whole, Random};
use oracle::questions::{Buffers, Run};
use oracle::solver::{FitResult, IterOptions};
use pointing::FitAnswer;
use std::hint::black_box;
use std::time::Duration;

fn bits(list: &[f64]) -> Vec<u64> {
    list.iter().map(|x| x.to_bits()).collect()
}

fn assert_same(r: &FitAnswer, b: &Buffers, theirs: &FitResult, oracle: &Buffers) {
    assert_eq!(r.refusal, 0);
    for (ours, theirs) in [
        (&b.coefficients, &oracle.coefficients),
        (&b.change, &oracle.change),
        (&b.sigma, &oracle.sigma),
        (&b.diagnostics, &oracle.diagnostics),
        (&b.scratch, &oracle.scratch),
    ] {
        assert_eq!(bits(ours), bits(theirs));
    }
    let (rank, report) = (&theirs.rank_info, &theirs.iter_report);
    assert_eq!((r.n_free, r.rank), (rank.n_free, rank.rank));
    assert_eq!(
        (r.iterations, r.converged),
        (report.iterations, report.converged)
    );
    assert_eq!((r.sweeps, r.settled), (theirs.sweeps, theirs.settled));
    assert_eq!(
        bits(&[
            r.sky_rms,
            r.popn_sd,
            r.sigma_max,
            r.sigma_min,
            r.tol,
            r.final_lambda,
            r.final_step_norm,
        ]),
        bits(&[
            theirs.sky_rms,
            theirs.popn_sd,
            rank.sigma_max,
            rank.sigma_min,
            rank.tol,
            report.final_lambda,
            report.final_step_norm,
        ])
    );
}

struct Timed {
    iterations: usize,
    rank: usize,
    /// Microseconds: the library, the oracle's whole call, its bare fit.
    us: [f64; 3],
}

fn time(run: &Run, options: Option<&IterOptions>, lasting: Duration) -> Timed {
    let (m, n) = (run.m(), run.n());
    let [mut lent, mut oracles] = [(); 2].map(|()| Buffers::exact(m, n, 7.0));
    let answer = ours(run, options, &mut lent);
    let theirs = whole(run, options, &mut oracles);
    assert_same(&answer, &lent, &theirs, &oracles);
    let least = run.with_inputs(|inputs| {
        Ok(by_turns(
            lasting,
            1,
            [
                &mut || made(ours(black_box(run), options, &mut lent)),
                &mut || made(whole(black_box(run), options, &mut oracles)),
                &mut || made(bare(black_box(inputs), options)),
            ],
        ))
    });
    assert_same(&answer, &lent, &theirs, &oracles);
    Timed {
        iterations: theirs.iter_report.iterations,
        rank: theirs.rank_info.rank,
        us: least.expect("an accepted run").map(|s| s * 1e6),
    }
}

fn sizes(random: &mut Random, lasting: Duration) {
    let default = IterOptions::default();
    let robust = IterOptions {
        robust: true,
        ..IterOptions::default()
    };
    println!("### Fits\n");
    println!("Least time of a call in microseconds, and how many times as fast as Rust the library is.\n");
    println!("| fit | stars x terms | iterations | rank | library | Rust, whole call | times | Rust, bare fit | times |");
    println!("|---|---|---|---|---|---|---|---|---|");
    for (n, m) in [(20, 6), (100, 16), (1024, 32)] {
        let run = night(random, n, m);
        for (what, options) in [
            ("single step", None),
            ("iterated", Some(&default)),
            ("robust", Some(&robust)),
        ] {
            let t = time(&run, options, lasting);
            let [library, whole, bare] = t.us;
            println!(
                "| {what} | {n} x {m} | {} | {} | {library:.1} | {whole:.1} | {:.2} | {bare:.1} | {:.2} |",
                t.iterations,
                t.rank,
                whole / library,
                bare / library
            );
        }
    }
}

fn growth(random: &mut Random, what: &str, list: &[(usize, usize)], lasting: Duration) {
    println!("\n### {what}\n");
    println!("| stars x terms | single step, library | Rust, whole call | times | iterated, library | iterations | Rust, whole call | times |");
    println!("|---|---|---|---|---|---|---|---|");
    let default = IterOptions::default();
    for &(n, m) in list {
        let run = night(random, n, m);
        let single = time(&run, None, lasting);
        let iterated = time(&run, Some(&default), lasting);
        println!(
            "| {n} x {m} | {:.1} | {:.1} | {:.2} | {:.1} | {} | {:.1} | {:.2} |",
            single.us[0],
            single.us[1],
            single.us[1] / single.us[0],
            iterated.us[0],
            iterated.iterations,
            iterated.us[1],
            iterated.us[1] / iterated.us[0]
        );
    }
}

fn main() {
    let lasting = lasting(4.0);
    let mut random = Random(88172645463325252);
    sizes(&mut random, lasting);
    let stars = [20, 50, 100, 200, 500, 1024].map(|n| (n, 6));
    growth(&mut random, "Stars, at 6 terms", &stars, lasting / 4);
    let terms = [2, 4, 8, 16, 24, 32].map(|m| (200, m));
    growth(&mut random, "Terms, at 200 stars", &terms, lasting / 4);
}
