//! Demand 3: an iterated fit returns the best set it tried. Checked of one accepted fit with exact
//! integers.

use crate::exact::{close_below, sum_of_squares};
use crate::pmf::bits;
use crate::questions::Run;
use crate::solver::{tried, weighted_residuals, FitResult, IterOptions};

/// Bit for bit, any NaN equal to any.
fn same(a: &[f64], b: &[f64]) -> bool {
    a.len() == b.len() && a.iter().zip(b).all(|(&x, &y)| bits(x) == bits(y))
}

/// Whether each number is zero or of size 2^-400 to 2^400.
fn moderate(residuals: &[f64]) -> bool {
    let (small, large) = (f64::from_bits(623 << 52), f64::from_bits(1423 << 52));
    residuals
        .iter()
        .all(|r| *r == 0.0 || (small..=large).contains(&r.abs()))
}

/// The number of sets that the returned one was compared with in (b), or the part that fails.
pub fn demand3(run: &Run, options: &IterOptions, fit: &FitResult) -> Result<usize, &'static str> {
    let returned = &fit.coefficients;
    let iterations = fit.iter_report.iterations;
    let list = run.with_inputs(|inputs| tried(inputs, options));
    let list = list.map_err(|_| "the list of an accepted fit")?;
    let residuals = |set: &[f64]| {
        run.with_inputs(|inputs| Ok(weighted_residuals(inputs, set)))
            .expect("an accepted run")
    };
    if !list.iter().any(|set| same(set, returned)) {
        return Err("(a) the returned set is on the list");
    }
    let mut compared = 0;
    let of_returned = residuals(returned);
    if moderate(&of_returned) {
        let exact = sum_of_squares(&of_returned);
        for set in &list {
            let of_other = residuals(set);
            if moderate(&of_other) {
                compared += 1;
                if !close_below(&exact, &sum_of_squares(&of_other)) {
                    return Err("(b) the returned set is the best of the list");
                }
            }
        }
    }
    for (j, &flag) in run.fixed.iter().enumerate() {
        if flag == 1 && returned[j].to_bits() != run.coefficients[j].to_bits() {
            return Err("(c) fixed coefficients keep their bits");
        }
    }
    if iterations + 2 != list.len() || iterations > options.max_iter {
        return Err("(d) iterations + 2 is the length of the list, within the limit");
    }
    Ok(compared)
}
