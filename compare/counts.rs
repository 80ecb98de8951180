//! What was compared: counts by call and regime, refusal and trait.

use crate::call::Seen;
use std::collections::BTreeMap;

/// Counts of one call.
#[derive(Default)]
pub struct Counts {
    /// By regime: accepted and refused.
    pub regimes: BTreeMap<&'static str, [usize; 2]>,
    /// By refusal, the place 0 for accepted calls.
    pub refusals: [usize; 16],
    pub traits: BTreeMap<&'static str, usize>,
}

impl Counts {
    pub fn add(&mut self, regime: &'static str, seen: &Seen) {
        let refused = usize::from(seen.refusal != 0);
        self.regimes.entry(regime).or_default()[refused] += 1;
        self.refusals[usize::from(seen.refusal)] += 1;
        for name in &seen.traits {
            *self.traits.entry(name).or_default() += 1;
        }
    }

    pub fn print(&self, call: &str) {
        let all: usize = self.refusals.iter().sum();
        println!("{call}: {all} calls, {} accepted", self.refusals[0]);
        for (regime, [accepted, refused]) in &self.regimes {
            println!("    {regime}: {accepted} accepted, {refused} refused");
        }
        for (number, &count) in self.refusals.iter().enumerate().skip(1) {
            if count > 0 {
                println!("    refusal {number}: {count}");
            }
        }
        for (name, count) in &self.traits {
            println!("    {name}: {count}");
        }
    }
}
