//! The card of a fit: plain text that a student can read.

use crate::belongs::Fitted;
use crate::listing::pier_or_both;
use crate::number::shown;
use crate::residuals::rms;
use crate::run::{Mode, Pier};

/// A star farther off than this many times the sky RMS is pointed out (the published `BADNESS_K`).
const FAR: f64 = 2.5;

/// What the column of the sides means.
const SIDES: &str = "\
Sides: a term marked 'pier' flips with the mount: what it adds changes its sign when the tube changes
sides of the pier (unknown counts as East). A term marked 'both' adds the same on both sides.
Stars on one side alone can't show which errors flip: observe on both.
";

/// The whole card; `file` is the name of the PMF file.
pub fn card(file: &str, fitted: &Fitted) -> String {
    let mut out = format!("POINTING CARD  {file}\n\n");
    head(&mut out, fitted);
    warnings(&mut out, fitted);
    terms(&mut out, fitted);
    sky(&mut out, fitted);
    sides(&mut out, fitted);
    far(&mut out, fitted);
    out
}

fn line(out: &mut String, label: &str, text: &str) {
    *out += &format!("{label:<16}{text}\n");
}

fn plural(count: usize, word: &str) -> String {
    format!("{count} {word}{}", if count == 1 { "" } else { "s" })
}

fn head(out: &mut String, fitted: &Fitted) {
    let (run, fit) = (&fitted.run, &fitted.fit);
    line(
        out,
        "Latitude",
        &format!("{:+.4} degrees", run.latitude_degrees()),
    );
    let mode = match run.mode {
        Mode::Single => "single step",
        Mode::Iterated => "iterated",
        Mode::Robust => "iterated and robust (stars far off count less)",
    };
    line(out, "Fit", mode);
    line(out, "Converged", &converged(fitted));
    line(out, "Solution", &solution(fitted));
    line(out, "Stars", &run.stars.len().to_string());
    let fixed = run.terms.len() - run.free();
    line(
        out,
        "Terms",
        &format!("{} free, {fixed} fixed; rank {}", fit.free, fit.rank),
    );
}

fn converged(fitted: &Fitted) -> String {
    let fit = &fitted.fit;
    let iterations = plural(fit.iterations, "iteration");
    match (fitted.run.mode, fit.converged) {
        (Mode::Single, true) => "yes (a single step has nothing to repeat)".into(),
        (_, true) => format!("yes, after {iterations}"),
        (_, false) => format!("NO, after {iterations}"),
    }
}

fn solution(fitted: &Fitted) -> String {
    let sweeps = plural(fitted.fit.sweeps, "sweep");
    match fitted.fit.settled {
        true => format!("settled after {sweeps}"),
        false => format!("NOT settled: {sweeps} made, the most"),
    }
}

fn warnings(out: &mut String, fitted: &Fitted) {
    let fit = &fitted.fit;
    if fit.rank < fit.free {
        let lost = plural(fit.free - fit.rank, "combination");
        *out += &format!(
            "\nWARNING: rank {} is below the {} free terms: {lost} of the terms can't be told\n\
             from these stars. Fix or drop a term, or observe in other parts of the sky.\n",
            fit.rank, fit.free
        );
    }
    if !fit.converged {
        *out += "\nWARNING: the fit did not converge: its last steps were not small enough or not better.\n\
                 The coefficients are the best of those it tried.\n";
    }
    if !fit.settled {
        *out += &format!(
            "\nWARNING: the solution did not settle: the terms were still being told apart when {} sweeps,\n\
             the most, were made. Coefficients and sigmas may be off, in their last digits or in more.\n\
             Fix or drop a term that is like another on these stars, or observe in other parts of the sky.\n",
            fit.sweeps
        );
    }
}

fn terms(out: &mut String, fitted: &Fitted) {
    let names = fitted.fit.terms.iter().map(|t| t.name.len());
    let width = names.max().unwrap_or(0).max(4);
    *out += &format!(
        "\n{:<width$}  {:>13}  {:>11}  {:>13}  {:<5}  {:<5}  Description\n",
        "Term", "Coefficient", "Sigma", "Start", "State", "Sides"
    );
    for ((line, term), kind) in fitted
        .fit
        .terms
        .iter()
        .zip(&fitted.run.terms)
        .zip(&fitted.kinds)
    {
        let (sigma, state) = match term.fixed {
            true => ("-".into(), "fixed"),
            false => (arcseconds(line.sigma), "free"),
        };
        *out += &format!(
            "{:<width$}  {:>13}  {sigma:>11}  {:>13}  {state:<5}  {:<5}  {}\n",
            line.name,
            arcseconds(line.coefficient),
            arcseconds(term.start),
            pier_or_both(line.pier_sensitive),
            kind.description()
        );
    }
    notes(out, fitted);
}

/// What the columns hold.
fn notes(out: &mut String, fitted: &Fitted) {
    *out += "Coefficients, sigmas and starts are in arcseconds (\").\n";
    *out += &format!(
        "Sigmas are by stars: the squared residuals' sum is divided by stars less rank, at least 1 (here {}).\n",
        fitted.run.stars.len().saturating_sub(fitted.fit.rank).max(1)
    );
    *out += SIDES;
}

fn arcseconds(x: f64) -> String {
    format!("{}\"", shown(x))
}

fn sky(out: &mut String, fitted: &Fitted) {
    let (n, free) = (fitted.run.stars.len(), fitted.fit.free);
    *out += "\n";
    line(
        out,
        "Sky RMS",
        &format!(
            "{:>10}  how far stars and model are apart on the sky",
            arcseconds(fitted.fit.sky_rms)
        ),
    );
    let spread = if n > free {
        format!(
            "{:>10}  the same, divided by stars less free terms ({})",
            arcseconds(fitted.fit.popn_sd),
            n - free
        )
    } else {
        format!("{:>10}  not known: no more stars than free terms", "-")
    };
    line(out, "Population SD", &spread);
}

fn sides(out: &mut String, fitted: &Fitted) {
    *out += "\nBy pier side\n";
    for pier in Pier::ALL {
        let count = fitted.residuals.iter().filter(|r| r.pier == pier).count();
        if count > 0 {
            let rms = rms(fitted.residuals.iter().filter(|r| r.pier == pier));
            *out += &format!(
                "  {:<12}{:>9}  sky RMS {:>10}\n",
                pier.word(),
                plural(count, "star"),
                arcseconds(rms)
            );
        }
    }
}

fn far(out: &mut String, fitted: &Fitted) {
    let limit = FAR * fitted.fit.sky_rms;
    let far: Vec<String> = fitted
        .residuals
        .iter()
        .enumerate()
        .filter(|(_, r)| limit > 0.0 && r.length() > limit)
        .map(|(i, r)| {
            format!(
                "  star {:>3}  hour angle {:>+7.2} h  declination {:>+7.2}  pier {:<7}  {:>10}\n",
                i + 1,
                r.hour_angle,
                r.declination,
                r.pier.word(),
                arcseconds(r.length())
            )
        })
        .collect();
    if !far.is_empty() {
        *out += &format!("\nFarther off than {FAR} times the sky RMS: look at these stars again\n");
        *out += &far.concat();
    }
}
