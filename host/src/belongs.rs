//! Whether a listing is that of a file: the same terms with their words, counts and, worked out again, sky RMS.

use crate::fault::Fault;
use crate::listing::{pier_or_both, Fit};
use crate::refusal;
use crate::residuals::{residuals, rms, Residual};
use crate::run::{Mode, Run};
use crate::terms::{read, Kind};

/// The sky RMS is worked out here by other sums than the fit's; this much of the sizes added up
/// is left to rounding.
const ROUNDING: f64 = 1e-9;

/// A run and the fit of it, found to belong together.
#[derive(Debug, Clone)]
pub struct Fitted {
    pub run: Run,
    pub fit: Fit,
    pub kinds: Vec<Kind>,
    pub residuals: Vec<Residual>,
}

/// Pairs a listing with its file.
pub fn pair(run: Run, fit: Fit) -> Result<Fitted, Fault> {
    if let Some(place) = refusal::not_finite(&run) {
        return Err(Fault::whole(format!(
            "the file holds a number that is not finite ({place}), which no fit accepts: \
             expected the listing of this file"
        )));
    }
    let kinds = kinds(&run, &fit)?;
    sides(&kinds, &fit)?;
    counts(&run, &fit)?;
    fixed(&run, &fit)?;
    let coefficients: Vec<f64> = fit.terms.iter().map(|t| t.coefficient).collect();
    let residuals = residuals(&run, &kinds, &coefficients);
    sky(&fit, &residuals)?;
    Ok(Fitted {
        run,
        fit,
        kinds,
        residuals,
    })
}

fn kinds(run: &Run, fit: &Fit) -> Result<Vec<Kind>, Fault> {
    let (m, lines) = (run.terms.len(), fit.terms.len());
    if m != lines {
        return Err(Fault::whole(format!(
            "the listing has {lines} terms and the file {m}: expected the listing of this file"
        )));
    }
    let mut kinds = Vec::new();
    for (j, (term, line)) in run.terms.iter().zip(&fit.terms).enumerate() {
        match read(&term.name) {
            Some((stored, kind)) if stored == line.name => kinds.push(kind),
            _ => {
                let (listed, name) = (&line.name, &term.name);
                return Err(Fault::at(
                    j + 2,
                    format!("the listing has {listed} where the file has {name}: expected the listing of this file"),
                ));
            }
        }
    }
    Ok(kinds)
}

fn sides(kinds: &[Kind], fit: &Fit) -> Result<(), Fault> {
    for (j, (kind, line)) in kinds.iter().zip(&fit.terms).enumerate() {
        if kind.pier_sensitive() != line.pier_sensitive {
            let [listed, expected] = [line.pier_sensitive, kind.pier_sensitive()].map(pier_or_both);
            return Err(Fault::at(
                j + 2,
                format!(
                    "the listing says '{listed}' of {}: expected '{expected}'",
                    line.name
                ),
            ));
        }
    }
    Ok(())
}

fn counts(run: &Run, fit: &Fit) -> Result<(), Fault> {
    let free = run.free();
    if fit.free != free {
        return Err(Fault::at(
            1,
            format!("the listing has {} free terms and the file {free}: expected the listing of this file", fit.free),
        ));
    }
    if fit.rank > free {
        return Err(Fault::at(
            1,
            format!(
                "rank {} of {free} free terms: expected at most {free}",
                fit.rank
            ),
        ));
    }
    if run.mode != Mode::Single && fit.iterations > usize::from(run.options.max_iter) {
        let limit = run.options.max_iter;
        return Err(Fault::at(
            1,
            format!("{} iterations: the file allows {limit}", fit.iterations),
        ));
    }
    Ok(())
}

fn fixed(run: &Run, fit: &Fit) -> Result<(), Fault> {
    for (j, (term, line)) in run.terms.iter().zip(&fit.terms).enumerate() {
        if term.fixed && line.coefficient != term.start {
            return Err(Fault::at(
                j + 2,
                format!(
                    "{} was fixed at {} and the listing has {}",
                    term.name, term.start, line.coefficient
                ),
            ));
        }
    }
    Ok(())
}

fn sky(fit: &Fit, residuals: &[Residual]) -> Result<(), Fault> {
    let here = rms(residuals.iter());
    let size = residuals.iter().fold(0.0, |most: f64, r| most.max(r.size));
    let known = here.is_finite() && size.is_finite() && fit.sky_rms.is_finite();
    if known && (here - fit.sky_rms).abs() > ROUNDING * size {
        return Err(Fault::whole(format!(
            "the listing's sky RMS is {} and its coefficients give {here} on this file's stars: \
             expected the listing of this file",
            fit.sky_rms
        )));
    }
    Ok(())
}
