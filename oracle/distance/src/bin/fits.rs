//! Runs the fits of docs/src as published beside the oracle's, on the examples and on random runs of every regime, and prints as Markdown
//! how many first lines are equal, how far the numbers are, and why first lines differ.
//!   fits EXAMPLES-FOLDER

use distance::both::{oracles, Answer, Published};
use distance::examples;
use distance::measure::{short, Distances};
use distance::night::Night;
use distance::random::Random;
use distance::reason::{apart, far, reason, Far, Kind};
use distance::recompose::errors;
use distance::regimes::{Regime, REGIMES};
use oracle::solver::IterOptions;
use std::collections::BTreeMap;
use std::path::Path;

const COLUMNS: &str = "coefficients, arcsec | ulp | sigmas, arcsec | ulp | sky RMS, arcsec | ulp";

/// Coefficients farther apart than this are looked into, in arcseconds.
const FAR: f64 = 1e-9;

/// Runs of a regime whose first lines differ for one reason.
#[derive(Default)]
struct Differing {
    runs: usize,
    rank: usize,
    iterations: usize,
    converged: usize,
    gap: f64,
    distances: Distances,
    sample: String,
}

/// What was seen of one regime under one fit.
#[derive(Default)]
struct Seen {
    runs: usize,
    equal: usize,
    distances: Distances,
    differing: BTreeMap<Kind, Differing>,
    /// Runs with equal first lines and a coefficient farther than FAR: why.
    far: Vec<Far>,
    /// Runs with equal first lines whose sky RMS is smaller by more than 1e-6: the published one, the oracle's.
    smaller: [usize; 2],
}

/// A regime and what was seen of it under each fit.
type Regimes = (&'static Regime, [(&'static str, Seen); 3]);

impl Seen {
    fn add(&mut self, night: &Night, options: Option<&IterOptions>) {
        let run = night.lent();
        let (published, ours) = (Published::of(night).fit(options), oracles(&run, options));
        self.runs += 1;
        if published.first_line() == ours.first_line() {
            self.equal += 1;
            self.distances.add(&night.fixed, &published, &ours);
            let gain = published.sky_rms - ours.sky_rms;
            self.smaller[0] += (gain < -1e-6) as usize;
            self.smaller[1] += (gain > 1e-6) as usize;
            if apart(&published.coefficients, &ours.coefficients) > FAR {
                self.far.push(far(night, &run, options, &published, &ours));
            }
            return;
        }
        let reason = reason(night, &run, options, &published, &ours);
        let differing = self.differing.entry(reason.kind).or_default();
        differing.add(&night.fixed, &published, &ours);
        differing.gap = differing.gap.max(reason.gap);
        if differing.runs == 1 {
            differing.sample = reason.sample;
        }
    }
}

impl Differing {
    fn add(&mut self, fixed: &[bool], published: &Answer, ours: &Answer) {
        self.runs += 1;
        self.rank += (published.rank != ours.rank) as usize;
        self.iterations += (published.iterations != ours.iterations) as usize;
        self.converged += (published.converged != ours.converged) as usize;
        self.distances.add(fixed, published, ours);
    }
}

/// The options of a fit by its name; None for a single step.
fn under(fit: &str, options: IterOptions) -> Option<IterOptions> {
    match fit {
        "single" => None,
        _ => Some(IterOptions {
            robust: fit == "robust",
            ..options
        }),
    }
}

fn see(regime: &Regime, fit: &str) -> Seen {
    let mut random = Random(0x6669_7473);
    let mut seen = Seen::default();
    for _ in 0..regime.runs {
        let (night, options) = (regime.make)(&mut random);
        seen.add(&night, under(fit, options).as_ref());
    }
    seen.distances.sort();
    for differing in seen.differing.values_mut() {
        differing.distances.sort();
    }
    seen
}

fn print_examples(folder: &Path) {
    println!("Examples; first lines of the published fit, of the oracle from the same angles and of the listing where they differ;");
    println!("distances largest / median.\n");
    println!("| example | first line | {COLUMNS} |");
    println!("|---|---|---|---|---|---|---|---|");
    for example in examples::read(folder) {
        let run = example.night.lent();
        let options = example.options.as_ref();
        let (published, ours) = (
            Published::of(&example.night).fit(options),
            oracles(&run, options),
        );
        let mut distances = Distances::default();
        distances.add(&example.night.fixed, &published, &ours);
        distances.sort();
        let mut lines = vec![published.first_line(), ours.first_line(), example.listed];
        lines.dedup();
        println!(
            "| {} | {} | {} |",
            example.name,
            lines.join(", "),
            distances.columns()
        );
    }
}

fn print_regimes(all: &[Regimes]) {
    println!("\nRandom runs; distances over the runs with equal first lines, largest / median:\n");
    println!("| regime | fit | equal first lines | {COLUMNS} |");
    println!("|---|---|---|---|---|---|---|---|---|");
    for (regime, seen) in all {
        for (fit, seen) in seen {
            println!(
                "| {} | {fit} | {} of {} | {} |",
                regime.name,
                seen.equal,
                seen.runs,
                seen.distances.columns()
            );
        }
    }
    println!();
    for (regime, seen) in all {
        for (fit, seen) in seen {
            let count = seen.distances.not_finite();
            if count > 0 {
                println!(
                    "{}, {fit}: {count} numbers beside these are infinite or NaN on one side only.",
                    regime.name
                );
            }
        }
    }
}

fn print_differing(all: &[Regimes]) {
    println!("\nRuns whose first lines differ:\n");
    println!("| regime | fit | reason | runs | rank | iterations | converged | relative gap | coefficients, arcsec | sky RMS |");
    println!("|---|---|---|---|---|---|---|---|---|---|");
    let mut samples = BTreeMap::new();
    for (regime, seen) in all {
        for (fit, seen) in seen {
            for (kind, d) in &seen.differing {
                let [coefficient, sky] = [&d.distances.coefficients, &d.distances.sky]
                    .map(|s| s.arcseconds.last().map_or("-".into(), |x| short(*x)));
                let (name, word, gap) = (regime.name, kind.word(), short(d.gap));
                println!(
                    "| {name} | {fit} | {word} | {} | {} | {} | {} | {gap} | {coefficient} | {sky} |",
                    d.runs, d.rank, d.iterations, d.converged
                );
                let sample = format!("{word} ({name}, {fit}): {}", d.sample);
                samples.entry(*kind).or_insert(sample);
            }
        }
    }
    println!("\nThe first of each:\n");
    for sample in samples.values() {
        println!("- {sample}");
    }
}

fn print_far(regime: &Regime, seen: &[(&str, Seen)]) {
    for (fit, seen) in seen.iter().filter(|(_, seen)| !seen.far.is_empty()) {
        let count = |why| seen.far.iter().filter(|&&far| far == why).count();
        let [last, decomposition, other] =
            [Far::LastTrial, Far::Decomposition, Far::Other].map(count);
        println!(
            "| {} | {fit} | {} | {last} | {decomposition} | {other} | {} | {} |",
            regime.name,
            seen.far.len(),
            seen.smaller[0],
            seen.smaller[1]
        );
    }
}

/// How many of a regime's matrices a decomposition doesn't give back, and the largest error.
fn print_errors() {
    println!("\nDecompositions whose product is off its matrix by more than 1e-9 (columns of norm 1), and the largest error:\n");
    println!("| regime | matrices | nalgebra | largest | one-sided Jacobi | largest |");
    println!("|---|---|---|---|---|---|");
    for regime in &REGIMES {
        let mut random = Random(0x6669_7473);
        let (mut off, mut largest) = ([0; 2], [0.0_f64; 2]);
        for _ in 0..regime.runs {
            let errors = errors(&(regime.make)(&mut random).0);
            for side in 0..2 {
                off[side] += (errors[side] > 1e-9) as usize;
                largest[side] = largest[side].max(errors[side]);
            }
        }
        let ([a, b], [x, y]) = (off, largest.map(short));
        println!(
            "| {} | {} | {a} | {x} | {b} | {y} |",
            regime.name, regime.runs
        );
    }
}

fn main() {
    let folder = std::env::args().nth(1).expect("the folder of the examples");
    print_examples(Path::new(&folder));
    let fits = ["single", "iterated", "robust"];
    let all: Vec<Regimes> = REGIMES
        .iter()
        .map(|regime| (regime, fits.map(|fit| (fit, see(regime, fit)))))
        .collect();
    print_regimes(&all);
    let each = all.iter().flat_map(|(_, seen)| seen);
    let (runs, equal) = each.fold((0, 0), |(runs, equal), (_, seen)| {
        (runs + seen.runs, equal + seen.equal)
    });
    println!("\n{equal} of {runs} first lines are equal.");
    print_differing(&all);
    println!(
        "\nRuns with equal first lines and a coefficient farther apart than {FAR:e} arcseconds:\n"
    );
    println!("| regime | fit | runs | last trial | nalgebra | other | sky RMS smaller: published | oracle |");
    println!("|---|---|---|---|---|---|---|---|");
    for (regime, seen) in &all {
        print_far(regime, seen);
    }
    print_errors();
}
