//! What a comparison of some size must have met, call by call: regimes, refusals and traits of answers.

use crate::counts::Counts;
use crate::{fits, names, numbers, points};
use oracle::vectors::runs::{ITERATED, ROBUST, SINGLE};
use std::collections::BTreeMap;

struct Expected {
    call: &'static str,
    /// The refusals that the call gives, and no others.
    refusals: &'static [u8],
    regimes: Vec<&'static str>,
    traits: Vec<&'static str>,
}

const OF_FITS: [&str; 12] = [
    "accepted with tails",
    "refused with buffers to keep",
    "deficient",
    "by stars",
    "by rows",
    "unknown choice alone",
    "unknown choice, refused earlier",
    "unknown choice before a later refusal",
    "not numbers",
    "with fixed terms",
    "30 sweeps, not settled",
    "30 sweeps, settled",
];
const OF_BREAKDOWNS: [&str; 4] = [
    "not numbers",
    "32 terms",
    "pier-sensitive terms",
    "pier-sensitive and other terms",
];
const OF_ITERATED: [&str; 3] = ["converged", "not converged", "100 iterations or more"];

fn single() -> Expected {
    let regimes = fits::REGIMES.iter().filter(|regime| regime.single);
    let regimes = regimes.map(|regime| regime.name);
    Expected {
        call: "fit_model",
        refusals: fits::asked(SINGLE),
        regimes: regimes.chain(fits::LISTED_SINGLE).collect(),
        traits: OF_FITS.to_vec(),
    }
}

fn iterated(call: &'static str, mode: u8) -> Expected {
    let regimes = fits::REGIMES.iter().map(|regime| regime.name);
    Expected {
        call,
        refusals: fits::asked(mode),
        regimes: regimes.chain(fits::LISTED).collect(),
        traits: [&OF_FITS[..], &OF_ITERATED].concat(),
    }
}

fn of_model(call: &'static str, traits: &[&'static str]) -> Expected {
    Expected {
        call,
        refusals: &[1, 2, 4, 5, 7, 8, 9, 10],
        regimes: points::MODELS.map(|(name, _)| name).to_vec(),
        traits: traits.to_vec(),
    }
}

fn expected() -> [Expected; 9] {
    [
        single(),
        iterated("fit_model_iterated", ITERATED),
        iterated("fit_model_iterated, robust", ROBUST),
        Expected {
            call: "read_term",
            refusals: &[2, 7, 8, 9, 10],
            regimes: names::REGIMES.map(|(name, _)| name).to_vec(),
            traits: vec![
                "fixed names",
                "TXN",
                "harmonics",
                "fixed names, pier sensitive",
                "harmonics, pier sensitive",
            ],
        },
        Expected {
            call: "jacobian",
            refusals: &[2, 4, 5, 7, 8, 9, 10],
            regimes: points::POINTS.map(|(name, _)| name).to_vec(),
            traits: vec!["not numbers"],
        },
        of_model("apply_equatorial", &["not numbers"]),
        of_model("predict_breakdown", &OF_BREAKDOWNS),
        Expected {
            call: "scratch_length",
            refusals: &[1],
            regimes: vec!["every size", "any size"],
            traits: Vec::new(),
        },
        Expected {
            call: "sqrt",
            refusals: &[],
            regimes: numbers::ROOTS.map(|(name, _)| name).to_vec(),
            traits: Vec::new(),
        },
    ]
}

impl Expected {
    fn gaps(&self, counts: &Counts) -> Vec<String> {
        let mut out = Vec::new();
        if counts.refusals[0] == 0 {
            out.push("no call was accepted".into());
        }
        for (number, &count) in (0..).zip(&counts.refusals).skip(1) {
            match (self.refusals.contains(&number), count) {
                (true, 0) => out.push(format!("refusal {number} never occurred")),
                (false, 1..) => out.push(format!("refusal {number} is none of its own")),
                _ => {}
            }
        }
        let regimes = self.regimes.iter();
        out.extend(
            regimes
                .filter(|name| !counts.regimes.contains_key(*name))
                .map(|name| format!("regime '{name}' never occurred")),
        );
        let traits = self.traits.iter();
        out.extend(
            traits
                .filter(|name| !counts.traits.contains_key(*name))
                .map(|name| format!("'{name}' never occurred")),
        );
        out
    }
}

/// What is not as expected.
pub fn gaps(calls: &BTreeMap<&'static str, Counts>) -> Vec<String> {
    let none = Counts::default();
    let mut out = Vec::new();
    for expected in expected() {
        let counts = calls.get(expected.call).unwrap_or(&none);
        for what in expected.gaps(counts) {
            out.push(format!("{}: {what}", expected.call));
        }
    }
    out
}
