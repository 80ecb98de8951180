//! docs/src solver/validate.rs. docs/SCOPE.md 10.1: its refusals are questions 11 to 13.

use super::FitInputs;
use crate::error::Result;

pub(super) fn validate_fit_inputs(inputs: &FitInputs<'_>) -> Result<()> {
    // docs/SCOPE.md 10.1: the errors are numbers 12, 11 and 13
    let free_count = inputs.fixed.iter().filter(|&&f| !f).count();
    if free_count == 0 && !inputs.terms.is_empty() {
        return Err(12);
    }
    if inputs.terms.is_empty() {
        return Err(11);
    }
    if inputs.observations.len() < free_count {
        return Err(13);
    }
    // docs/SCOPE.md 2.1.4: parallel flags are dropped
    Ok(())
}

pub(super) fn collect_indices(fixed: &[bool], match_fixed: bool) -> Vec<usize> {
    fixed
        .iter()
        .enumerate()
        .filter(|(_, &f)| f == match_fixed)
        .map(|(i, _)| i)
        .collect()
}
