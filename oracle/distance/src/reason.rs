//! Why two first lines differ: the first decision that the sides take differently, and the numbers that it was taken by. The published loop
//! shows nothing of its trials, so both fits are made again with limits 1, 2, 3 and so on until their dampings or flags part.

use crate::both::{oracles, Answer, Published};
use crate::night::Night;
use crate::recompose::errors;
use oracle::questions::Run;
use oracle::solver::{tried, weighted_residuals, IterOptions};

/// The sorts of decisions.
#[derive(Debug, Clone, Copy, PartialEq, Eq, PartialOrd, Ord)]
pub enum Kind {
    /// One side keeps a trial: its chi-square and the current one agree to 1e-12.
    Tie,
    /// One side keeps a trial, and the chi-squares are farther apart.
    Apart,
    /// A step's length is below tol_rad on one side only.
    Step,
    /// A singular value that is rounding alone is above the threshold on one side only.
    Rank,
}

impl Kind {
    pub fn word(self) -> &'static str {
        match self {
            Self::Tie => "tie",
            Self::Apart => "apart",
            Self::Step => "step",
            Self::Rank => "rank",
        }
    }
}

pub struct Reason {
    pub kind: Kind,
    /// How far the chi-squares of a tie are apart, relatively.
    pub gap: f64,
    /// The deciding numbers.
    pub sample: String,
}

/// The reason why the answers' first lines differ.
pub fn reason(
    night: &Night,
    run: &Run,
    options: Option<&IterOptions>,
    published: &Answer,
    ours: &Answer,
) -> Reason {
    if let Some(reason) = options.and_then(|options| trial(night, run, options, published, ours)) {
        return reason;
    }
    let threshold = if night.fit_tol > 0.0 {
        night.fit_tol * ours.sigma_max
    } else {
        0.0
    };
    Reason {
        kind: Kind::Rank,
        gap: 0.0,
        sample: format!(
            "rank {} and {}, smallest value {:e} and {:e}, threshold {threshold:e}",
            published.rank, ours.rank, published.sigma_min, ours.sigma_min
        ),
    }
}

/// The first trial after which the loops part. A trial was kept where it left another step length.
fn trial(
    night: &Night,
    run: &Run,
    options: &IterOptions,
    published: &Answer,
    ours: &Answer,
) -> Option<Reason> {
    let made = Published::of(night);
    let mut before = [f64::INFINITY; 2];
    for limit in 1..=published.iterations.max(ours.iterations) {
        let limited = IterOptions {
            max_iter: limit,
            ..options.clone()
        };
        let (theirs, our) = (made.fit(Some(&limited)), oracles(run, Some(&limited)));
        let steps = [theirs.step, our.step];
        let kept = [0, 1].map(|side| steps[side].to_bits() != before[side].to_bits());
        if kept[0] != kept[1] {
            return Some(tie(run, &limited, kept[1]));
        }
        if theirs.converged != our.converged || theirs.iterations != our.iterations {
            return Some(Reason {
                kind: Kind::Step,
                gap: 0.0,
                sample: format!(
                    "trial {limit}: lengths {:e} and {:e}, tol_rad {:e}",
                    steps[0], steps[1], options.tol_rad
                ),
            });
        }
        before = steps;
    }
    None
}

/// One side keeps the last trial and the other doesn't.
fn tie(run: &Run, limited: &IterOptions, kept: bool) -> Reason {
    let (current, trial) = chi_squares(run, limited);
    assert_eq!(trial < current, kept);
    let gap = (trial - current) / current;
    let near = gap.abs() <= 1e-12 || current == trial;
    let who = if kept {
        "the oracle"
    } else {
        "the published fit"
    };
    Reason {
        kind: if near { Kind::Tie } else { Kind::Apart },
        gap: gap.abs(),
        sample: format!(
            "trial {} has {trial:e} beside {current:e}, and {who} keeps it",
            limited.max_iter
        ),
    }
}

/// The oracle's current chi-square before the last trial, and that trial's.
fn chi_squares(run: &Run, limited: &IterOptions) -> (f64, f64) {
    let list = run.with_inputs(|inputs| {
        let sets = tried(inputs, limited)?;
        Ok(sets
            .iter()
            .map(|set| chi_square(&weighted_residuals(inputs, set)))
            .collect::<Vec<f64>>())
    });
    let list = list.expect("an accepted run");
    let last = limited.max_iter.min(list.len() - 2);
    let mut current = list[0];
    for &trial in &list[1..last] {
        if trial < current {
            current = trial;
        }
    }
    (current, list[last])
}

fn chi_square(residuals: &[f64]) -> f64 {
    let mut total = 0.0;
    for pair in residuals.chunks(2) {
        total += pair[0] * pair[0] + pair[1] * pair[1];
    }
    total
}

/// Why coefficients are far apart though the first lines are equal.
#[derive(Debug, Clone, Copy, PartialEq, Eq)]
pub enum Far {
    /// One side keeps the last, undamped trial and the other doesn't.
    LastTrial,
    /// nalgebra's decomposition of the single step's matrix does not give it back.
    Decomposition,
    Other,
}

/// The largest distance of two lists.
pub fn apart(a: &[f64], b: &[f64]) -> f64 {
    a.iter()
        .zip(b)
        .map(|(a, b)| (a - b).abs())
        .fold(0.0, f64::max)
}

pub fn far(
    night: &Night,
    run: &Run,
    options: Option<&IterOptions>,
    published: &Answer,
    ours: &Answer,
) -> Far {
    if errors(night)[0] > 1e-9 {
        return Far::Decomposition;
    }
    let Some(options) = options else {
        return Far::Other;
    };
    let sets = run
        .with_inputs(|inputs| tried(inputs, options))
        .expect("an accepted run");
    let last = &sets[sets.len() - 1];
    let before = sets[..sets.len() - 1]
        .iter()
        .min_by(|a, b| chi(run, a).total_cmp(&chi(run, b)))
        .expect("the start");
    let kept = [published, ours]
        .map(|answer| apart(&answer.coefficients, last) < apart(&answer.coefficients, before));
    if kept[0] != kept[1] {
        Far::LastTrial
    } else {
        Far::Other
    }
}

fn chi(run: &Run, set: &[f64]) -> f64 {
    let residuals = run.with_inputs(|inputs| Ok(weighted_residuals(inputs, set)));
    chi_square(&residuals.expect("an accepted run"))
}
