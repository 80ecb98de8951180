//! The run of a CSV text, with the latitude and the stars from it or from an INDAT file.

use crate::angle::radians;
use crate::csv::Draft;
use crate::fault::Fault;
use crate::indat::Indat;
use crate::run::{Run, Star};

/// The run of a CSV text alone.
pub fn from_csv(draft: Draft) -> Result<Run, Fault> {
    let (latitude, _) = draft.latitude.ok_or(Fault::whole(
        "no latitude: expected a line as latitude,+34 30 00",
    ))?;
    let stars = draft.stars.clone();
    Ok(run(draft, latitude, stars))
}

/// The run of a CSV text of terms and options, and an INDAT file.
pub fn with_indat(draft: Draft, indat: Indat) -> Result<Run, Fault> {
    if let Some((_, line)) = draft.latitude {
        return Err(Fault::at(
            line,
            "the latitude comes from the INDAT file: expected none here",
        ));
    }
    if let Some(line) = draft.first_star {
        return Err(Fault::at(
            line,
            "the stars come from the INDAT file: expected none here",
        ));
    }
    Ok(run(draft, indat.latitude, indat.stars))
}

fn run(draft: Draft, latitude: f64, stars: Vec<Star>) -> Run {
    Run {
        mode: draft.mode,
        sin_lat: radians(latitude).sin(),
        cos_lat: radians(latitude).cos(),
        options: draft.options,
        terms: draft.terms,
        stars,
    }
}
