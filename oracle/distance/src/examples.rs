//! The runs of examples/*.pmf in angles: those that their sheets tell, by atan2 of the first sine and cosine.

use crate::night::{Night, Star};
use crate::observation::PierSide;
use host::run::{Mode, Pier};
use oracle::solver::IterOptions;
use std::path::Path;

pub struct Example {
    pub name: String,
    pub night: Night,
    /// None for a single step.
    pub options: Option<IterOptions>,
    /// The first line of the listing beside it, without its sweeps.
    pub listed: String,
}

/// The examples of a folder that are no refusals, by name.
pub fn read(folder: &Path) -> Vec<Example> {
    let mut files: Vec<_> = std::fs::read_dir(folder)
        .expect("the examples")
        .map(|file| file.expect("a file").path())
        .collect();
    files.sort();
    files.retain(|file| file.extension().is_some_and(|end| end == "pmf"));
    files.iter().filter_map(|file| example(file)).collect()
}

fn example(file: &Path) -> Option<Example> {
    let listing = std::fs::read_to_string(file.with_extension("listing")).expect("a listing");
    let first_line = listing.lines().next().unwrap_or("");
    let listed = first_line.split(' ').take(5).collect::<Vec<_>>().join(" ");
    let run = host::pmf::decode(&std::fs::read(file).expect("a file")).expect("a PMF file");
    let options = IterOptions {
        max_iter: usize::from(run.options.max_iter),
        tol_rad: run.options.tol_rad,
        initial_lambda: run.options.initial_lambda,
        lambda_up: run.options.lambda_up,
        lambda_down: run.options.lambda_down,
        robust: run.mode == Mode::Robust,
        huber_k: run.options.huber_k,
    };
    let night = Night {
        names: run.terms.iter().map(|term| term.name.clone()).collect(),
        fixed: run.terms.iter().map(|term| term.fixed).collect(),
        start: run.terms.iter().map(|term| term.start).collect(),
        latitude: run.sin_lat.atan2(run.cos_lat),
        fit_tol: run.options.fit_tol,
        stars: run.stars.iter().map(star).collect(),
    };
    listed.starts_with("fit").then(|| Example {
        name: file.file_stem().expect("a name").to_string_lossy().into(),
        night,
        options: (run.mode != Mode::Single).then_some(options),
        listed,
    })
}

fn star(star: &host::run::Star) -> Star {
    let sheet = &star.sheet.0;
    Star {
        h: sheet[0].atan2(sheet[1]),
        dec: sheet[18].atan2(sheet[19]),
        dh: star.dh,
        dd: star.dd,
        pier: match star.pier {
            Pier::East => PierSide::East,
            Pier::West => PierSide::West,
            Pier::Unknown => PierSide::Unknown,
        },
    }
}
