//! The refusals of docs/SCOPE.md 10.1 in words, with what to do about each.

use crate::pmf;
use crate::run::{Run, Star};
use crate::terms::read;

/// What a refusal says, and what helps.
pub fn words(number: u8) -> (&'static str, &'static str) {
    match number {
        1 => ("There are too many terms or stars.", "A file holds at most 16 terms and 100 stars."),
        2 => ("A lent list has the wrong length.", "Only the library's calls refuse so, never a file."),
        3 => ("A buffer for the answer is too short.", "Only the library's calls refuse so, never a file."),
        4 => ("A number in the file is not finite.", "Look for an infinity or not-a-number among latitude, options, starts, differences and sheets."),
        5 => ("A pier code is not 0 to 2, or a fixed flag not 0 or 1.", "Pier codes are 0 unknown, 1 East, 2 West."),
        6 => ("max_iter is above 1,000.", "Choose a limit of at most 1,000."),
        7 => ("A name's slot holds no name.", "A name has 1 to 16 ASCII characters, then zeros."),
        8 => ("A term is one of an alt-azimuth mount.", "IA, IE, CA, NPAE, AN and AW are not fitted here: take IH, ID, CH, NP, MA, ME."),
        9 => ("A term's name is not known.", "Look for a slip of the pen; TX takes a number from 1 to 255."),
        10 => ("A harmonic's name is not well formed.", "H, a result (H D X P A E Z S), then parts as SH or CD2: S or C, one of H D A E Z, a digit from 1 to 9 or none."),
        11 => ("There is no term to fit.", "Name at least one term."),
        12 => ("Every term is fixed.", "Leave at least one term free."),
        13 => ("There are fewer stars than free terms.", "Add stars, or fix some terms."),
        14 => ("The model is full.", "Only the library's model refuses so, never a file."),
        15 => ("The file is not a well-formed PMF file.", "Mark PMF, version 1, mode 0, 1 or 3, and exactly the length that the counts give."),
        _ => ("This number is no refusal.", "Refusals have the numbers 1 to 15."),
    }
}

/// The card of a refused file.
pub fn card(file: &str, number: u8, found: Option<&str>) -> String {
    let (what, help) = words(number);
    let mut out = format!("POINTING CARD  {file}\n\n");
    out += &format!("REFUSED with number {number}: nothing was fitted.\n");
    out += &format!("  {what}\n  {help}\n");
    match found {
        Some(found) => out += &format!("  In this file: {found}.\n"),
        None => {
            out += "  Nothing of the kind was found in this file: is it the file of this listing?\n"
        }
    }
    out
}

/// What in the file the refusal may be about, as far as it can be told from here.
pub fn found(number: u8, bytes: &[u8]) -> Option<String> {
    let run = match pmf::decode(bytes) {
        Ok(run) => run,
        Err(fault) => return Some(fault),
    };
    let (m, free, n) = (run.terms.len(), run.free(), run.stars.len());
    let counts = format!("{m} terms, {free} of them free, and {n} stars");
    match number {
        4 => not_finite(&run),
        6 => {
            (run.options.max_iter > 1_000).then(|| format!("max_iter is {}", run.options.max_iter))
        }
        8..=10 => {
            let bad = run.terms.iter().position(|t| read(&t.name).is_none())?;
            Some(format!("term {} is '{}'", bad + 1, run.terms[bad].name))
        }
        11 => (m == 0).then_some(counts),
        12 => (m > 0 && free == 0).then_some(counts),
        13 => (n < free).then_some(counts),
        _ => None,
    }
}

/// The first number of a run that is not finite.
pub fn not_finite(run: &Run) -> Option<String> {
    if run.doubles().iter().any(|x| !x.is_finite()) {
        return Some("the latitude or an option".into());
    }
    if let Some(j) = run.terms.iter().position(|t| !t.start.is_finite()) {
        return Some(format!("the start of term {}", j + 1));
    }
    let bad = |star: &Star| {
        ![star.dh, star.dd]
            .iter()
            .chain(&star.sheet.0)
            .all(|x| x.is_finite())
    };
    let i = run.stars.iter().position(bad)?;
    Some(format!("a number of star {}", i + 1))
}

#[cfg(test)]
mod tests {
    use super::*;

    #[test]
    fn every_number_has_words() {
        for number in 1..=15 {
            assert!(!words(number).0.contains("no refusal"), "{number}");
            assert!(card("a.pmf", number, None).contains(&format!("number {number}:")));
        }
    }
}
