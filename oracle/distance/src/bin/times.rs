//! Times the fits of docs/src as published (nalgebra) beside the oracle's and, where it is linked, the static library's: the same runs by
//! turns, in one run of the program. Prints Markdown: medians of the calls, in microseconds.
//!   times [SECONDS A LINE]

use distance::both::{bare, Published};
use distance::night::{sheet, Night};
use distance::random::Random;
use distance::regimes::NAMES;
use oracle::questions::Run;
use oracle::solver::IterOptions;
use std::hint::black_box;
use std::time::{Duration, Instant};

#[cfg(feature = "library")]
#[path = "../../../../ffi/pointing.rs"]
mod pointing;

/// The library's fits, over buffers of the sizes that it asks.
#[cfg(feature = "library")]
mod library {
    use crate::pointing::{self, FitAnswer, FitOptions, Lent};
    use oracle::questions::{Buffers, Run};
    use oracle::solver::IterOptions;

    pub fn fit(run: &Run, options: Option<&IterOptions>, b: &mut Buffers) -> FitAnswer {
        let lent = Lent {
            names: &run.names,
            fixed: &run.fixed,
            coefficients: &run.coefficients,
            dh: &run.dh,
            dd: &run.dd,
            pier: &run.piers,
            sheets: &run.sheets,
            sin_lat: run.sin_lat,
            cos_lat: run.cos_lat,
            fit_tol: run.fit_tol,
            sigma_by: run.sigma_by,
        };
        let mut buffers = pointing::Buffers {
            coefficients: &mut b.coefficients,
            change: &mut b.change,
            sigma: &mut b.sigma,
            diagnostics: &mut b.diagnostics,
            scratch: &mut b.scratch,
        };
        match options {
            None => pointing::fit_model(&lent, &mut buffers),
            Some(o) => pointing::fit_model_iterated(&lent, fit_options(o), &mut buffers),
        }
    }

    fn fit_options(o: &IterOptions) -> FitOptions {
        FitOptions {
            max_iter: o.max_iter,
            tol_rad: o.tol_rad,
            initial_lambda: o.initial_lambda,
            lambda_up: o.lambda_up,
            lambda_down: o.lambda_down,
            robust: o.robust,
            huber_k: o.huber_k,
        }
    }

    /// The library's answer is the oracle's, in its bits.
    pub fn check(run: &Run, options: Option<&IterOptions>, b: &mut Buffers) {
        let answer = fit(run, options, b);
        let theirs = distance::both::oracles(run, options);
        assert_eq!(answer.refusal, 0);
        let bits = |list: &[f64]| list.iter().map(|x| x.to_bits()).collect::<Vec<_>>();
        assert_eq!(bits(&b.coefficients), bits(&theirs.coefficients));
        assert_eq!(bits(&b.sigma), bits(&theirs.sigma));
        assert_eq!(answer.sky_rms.to_bits(), theirs.sky_rms.to_bits());
        assert_eq!(answer.iterations, theirs.iterations);
    }
}

/// A value that is made and not looked at.
fn made<T>(value: T) {
    let _ = black_box(value);
}

/// What a work took, in microseconds.
#[derive(Debug, Clone, Copy)]
struct Took {
    median: f64,
    least: f64,
}

/// The works by turns for a time.
fn by_turns<const N: usize>(lasting: Duration, mut works: [&mut dyn FnMut(); N]) -> [Took; N] {
    let mut times = [(); N].map(|()| Vec::new());
    let begun = Instant::now();
    while times[0].len() < 5 || begun.elapsed() < lasting {
        for (work, times) in works.iter_mut().zip(&mut times) {
            let start = Instant::now();
            work();
            times.push(start.elapsed().as_secs_f64() * 1e6);
        }
    }
    times.map(|mut list| {
        list.sort_by(f64::total_cmp);
        Took {
            median: list[list.len() / 2],
            least: list[0],
        }
    })
}

fn fill(night: &Night, run: &mut Run) {
    run.sheets.clear();
    for star in &night.stars {
        run.sheets.extend(sheet(star.h, star.dec));
    }
}

/// The published fit, the oracle's, the filling of the sheets and, where it is linked, the library's call.
fn time(night: &Night, options: Option<&IterOptions>, lasting: Duration) -> [Took; 4] {
    let published = Published::of(night);
    let mut run = night.lent();
    let filled = run.clone();
    #[cfg(feature = "library")]
    let mut buffers = oracle::questions::Buffers::exact(run.m(), run.n(), 7.0);
    #[cfg(feature = "library")]
    library::check(&run, options, &mut buffers);
    let mut call = || {
        #[cfg(feature = "library")]
        made(library::fit(black_box(&filled), options, &mut buffers));
        #[cfg(not(feature = "library"))]
        made(&filled);
    };
    let oracles = run.clone();
    let timed = oracles.with_inputs(|inputs| {
        Ok(by_turns(
            lasting,
            [
                &mut || made(black_box(&published).fit(options)),
                &mut || made(bare(black_box(inputs), options)),
                &mut || fill(black_box(night), &mut run),
                &mut call,
            ],
        ))
    });
    timed.expect("an accepted run")
}

fn print(what: &str, night: &Night, options: Option<&IterOptions>, lasting: Duration) {
    let [published, oracle, sheets, library] = time(night, options, lasting);
    let (n, m) = (night.stars.len(), night.names.len());
    let iterations = Published::of(night).fit(options).iterations;
    let beside = |other: Took| format!("{:.2}", published.median / other.median);
    let ours = if cfg!(feature = "library") {
        let least = published.least / library.least;
        let filled = published.median / (library.median + sheets.median);
        let times = beside(library);
        format!("{:.1} | {times} | {least:.2} | {filled:.2}", library.median)
    } else {
        "- | - | - | -".into()
    };
    println!(
        "| {what} | {n} x {m} | {iterations} | {:.1} | {:.1} | {} | {:.1} | {ours} |",
        published.median,
        oracle.median,
        beside(oracle),
        sheets.median
    );
}

fn main() {
    let seconds = std::env::args()
        .nth(1)
        .map_or(4.0, |word| word.parse().expect("seconds"));
    let lasting = Duration::from_secs_f64(seconds);
    let mut random = Random(0x7469_6d65);
    let default = IterOptions::default();
    let robust = IterOptions {
        robust: true,
        ..IterOptions::default()
    };
    println!("| fit | stars x terms | iterations | published | oracle | times | sheets | library | times | by least | with sheets |");
    println!("|---|---|---|---|---|---|---|---|---|---|---|");
    for (n, m) in [(20, 6), (30, 6), (100, 16), (1024, 32)] {
        let mut night = Night::blank(&mut random, &NAMES[..m], n);
        night.observe(&mut random, 3.0);
        for (what, options) in [
            ("single step", None),
            ("iterated", Some(&default)),
            ("robust", Some(&robust)),
        ] {
            print(what, &night, options, lasting);
        }
    }
}
