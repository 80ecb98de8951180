//! The listing that the fit prints, read back.

use crate::fault::Fault;

#[derive(Debug, Clone, PartialEq)]
pub struct TermLine {
    pub name: String,
    pub coefficient: f64,
    pub sigma: f64,
    /// `pier` at the line's end, not `both`.
    pub pier_sensitive: bool,
}

#[derive(Debug, Clone, PartialEq)]
pub struct Fit {
    pub free: usize,
    pub rank: usize,
    pub iterations: usize,
    pub converged: bool,
    /// Sweeps of the last undamped solve, and whether the last of them had no turn.
    pub sweeps: usize,
    pub settled: bool,
    pub terms: Vec<TermLine>,
    pub sky_rms: f64,
    pub popn_sd: f64,
}

#[derive(Debug, Clone, PartialEq)]
pub enum Listing {
    Refused(u8),
    Fit(Fit),
}

const FIRST: &str =
    "expected 'fit FREE RANK ITERATIONS yes SWEEPS yes' (or no for yes), or 'no' and a number from 1 to 15";
const OLDER: &str =
    "the listing is of an older fit program, which did not count sweeps: fit the file again";
/// The most sweeps of a solve.
const MAX_SWEEPS: usize = 30;
const TERM: &str = "expected a name, two numbers of 16 hexadecimal digits, and 'pier' or 'both'";
const OLDER_TERM: &str =
    "the listing is of an older fit program, which did not tell which terms flip with the mount: fit the file again";
const SKY: &str = "expected 'sky' and two numbers of 16 hexadecimal digits";

/// Reads a whole listing.
pub fn read(text: &str) -> Result<Listing, Fault> {
    let lines: Vec<Vec<&str>> = text.lines().map(|line| line.split(' ').collect()).collect();
    let (first, rest) = lines
        .split_first()
        .ok_or(Fault::at(1, format!("empty: {FIRST}")))?;
    if first[0] == "no" {
        return refused(first, rest);
    }
    let mut fit = first_line(first)?;
    let (last, terms) = rest
        .split_last()
        .filter(|(last, _)| last[0] == "sky")
        .ok_or(Fault::at(
            lines.len(),
            "the last line is not 'sky' and two numbers: is the listing whole?",
        ))?;
    for (i, words) in terms.iter().enumerate() {
        let term = term_line(words).map_err(|message| Fault::at(i + 2, message))?;
        fit.terms.push(term);
    }
    let (_, sky_rms, popn_sd) = name_and_two(last).ok_or(Fault::at(lines.len(), SKY))?;
    Ok(Listing::Fit(Fit {
        sky_rms,
        popn_sd,
        ..fit
    }))
}

fn refused(first: &[&str], rest: &[Vec<&str>]) -> Result<Listing, Fault> {
    if !rest.is_empty() {
        return Err(Fault::at(
            2,
            "a refusal has one line: expected nothing here",
        ));
    }
    let number = match first {
        [_, number] => number.parse().ok().filter(|n| (1..=15).contains(n)),
        _ => None,
    };
    number.map(Listing::Refused).ok_or(Fault::at(1, FIRST))
}

/// A fit without its terms and sky.
fn first_line(words: &[&str]) -> Result<Fit, Fault> {
    let fit = match counts(words) {
        Some(fit) => fit,
        // with sweeps behind it, the line of an older program is a whole one
        None if counts(&[words, &["1", "yes"]].concat()).is_some() => {
            return Err(Fault::at(1, OLDER));
        }
        None => return Err(Fault::at(1, FIRST)),
    };
    sweeps(&fit).map_err(|message| Fault::at(1, message))?;
    Ok(fit)
}

fn counts(words: &[&str]) -> Option<Fit> {
    let ["fit", free, rank, iterations, converged, sweeps, settled] = words else {
        return None;
    };
    Some(Fit {
        free: free.parse().ok()?,
        rank: rank.parse().ok()?,
        iterations: iterations.parse().ok()?,
        converged: yes_or_no(converged)?,
        sweeps: sweeps.parse().ok()?,
        settled: yes_or_no(settled)?,
        terms: Vec::new(),
        sky_rms: 0.0,
        popn_sd: 0.0,
    })
}

fn yes_or_no(word: &str) -> Option<bool> {
    match word {
        "yes" => Some(true),
        "no" => Some(false),
        _ => None,
    }
}

/// Whether a solve can make these sweeps: it ends with the first that has no turn, and a single column is never turned.
fn sweeps(fit: &Fit) -> Result<(), String> {
    let sweeps = fit.sweeps;
    if !(1..=MAX_SWEEPS).contains(&sweeps) {
        return Err(format!("{sweeps} sweeps: expected 1 to {MAX_SWEEPS}"));
    }
    if !fit.settled && sweeps < MAX_SWEEPS {
        return Err(format!(
            "not settled after {sweeps} sweeps: expected yes, or {MAX_SWEEPS} sweeps"
        ));
    }
    if fit.free == 1 && sweeps > 1 {
        return Err(format!("{sweeps} sweeps of one free term: expected 1"));
    }
    Ok(())
}

/// A term's line, or what is wrong with it.
fn term_line(words: &[&str]) -> Result<TermLine, &'static str> {
    if name_and_two(words).is_some() {
        return Err(OLDER_TERM);
    }
    let (last, numbers) = words.split_last().ok_or(TERM)?;
    let (name, coefficient, sigma) = name_and_two(numbers).ok_or(TERM)?;
    let pier_sensitive = match *last {
        "pier" => true,
        "both" => false,
        _ => return Err(TERM),
    };
    Ok(TermLine {
        name,
        coefficient,
        sigma,
        pier_sensitive,
    })
}

/// The word at a term line's end.
pub fn pier_or_both(pier_sensitive: bool) -> &'static str {
    match pier_sensitive {
        true => "pier",
        false => "both",
    }
}

fn name_and_two(words: &[&str]) -> Option<(String, f64, f64)> {
    let [name, first, second] = words else {
        return None;
    };
    Some((name.to_string(), double(first)?, double(second)?))
}

/// The double whose bits 16 lower-case hexadecimal digits give.
fn double(digits: &str) -> Option<f64> {
    let lower = digits
        .bytes()
        .all(|b| matches!(b, b'0'..=b'9' | b'a'..=b'f'));
    if digits.len() != 16 || !lower {
        return None;
    }
    u64::from_str_radix(digits, 16).ok().map(f64::from_bits)
}

#[cfg(test)]
mod tests {
    use super::*;

    const GOOD: &str = "fit 1 1 1 yes 1 yes\nID 4024000000000000 0000000000000000 pier\nsky 0000000000000000 0000000000000000\n";

    #[test]
    fn document_01() {
        let Ok(Listing::Fit(fit)) = read(GOOD) else {
            panic!("no fit");
        };
        assert_eq!(
            (fit.free, fit.rank, fit.iterations, fit.converged),
            (1, 1, 1, true)
        );
        assert_eq!((fit.sweeps, fit.settled), (1, true));
        assert_eq!(
            fit.terms,
            [TermLine {
                name: "ID".into(),
                coefficient: 10.0,
                sigma: 0.0,
                pier_sensitive: true
            }]
        );
        assert_eq!(read("no 13\n"), Ok(Listing::Refused(13)));
    }

    #[test]
    fn faults() {
        let fault = |text: &str| read(text).expect_err(text).to_string();
        assert!(fault("").starts_with("line 1: empty"));
        for bad in [
            "no 0",
            "no 16",
            "no",
            "no 1 2",
            "yes",
            "fit 1 1 yes",
            "fit 1 1 1 maybe",
            "fit a 1 1 yes",
            "fit 1 1 1 maybe 1 yes",
            "fit a 1 1 yes 1 yes",
            "fit 1 1 1 yes 1",
            "fit 1 1 1 yes 1 maybe",
            "fit 1 1 1 yes -1 yes",
            "fit 1 1 1 yes 1 yes 1",
            "fit 1 1 1 yes 1 yes ",
        ] {
            assert!(fault(bad).starts_with("line 1: expected 'fit"), "{bad}");
        }
        assert!(fault("no 3\nno 3\n").starts_with("line 2: a refusal has one line"));
        assert!(fault("fit 1 1 1 yes 1 yes\n").contains("is the listing whole?"));
        assert!(fault(&GOOD.replace("sky 0", "sky ")).starts_with("line 3: expected 'sky'"));
        for word in [" pier", " both", " "] {
            let text = format!("{}{word}\n", GOOD.trim_end());
            assert!(fault(&text).starts_with("line 3: expected 'sky'"), "{word}");
        }
        assert!(fault(&GOOD[..GOOD.len() - 55]).contains("line 2: the last line"));
    }

    /// The document's case with another line for its term.
    fn with_term(line: &str) -> String {
        GOOD.replace("ID 4024000000000000 0000000000000000 pier", line)
    }

    #[test]
    fn pier_and_both() {
        for (word, sensitive) in [("pier", true), ("both", false)] {
            let text = with_term(&format!("IH 4024000000000000 0000000000000000 {word}"));
            let Ok(Listing::Fit(fit)) = read(&text) else {
                panic!("no fit: {word}");
            };
            assert_eq!(fit.terms[0].pier_sensitive, sensitive);
            assert_eq!(pier_or_both(sensitive), word);
        }
    }

    #[test]
    fn faults_of_terms() {
        for bad in [
            "ID",
            "ID pier",
            "ID 4024000000000000 pier",
            "ID 024000000000000 0000000000000000 pier",
            "ID 402400000000000A 0000000000000000 pier",
            "4024000000000000 0000000000000000 pier",
            "ID 4024000000000000 0000000000000000 ",
            "ID 4024000000000000 0000000000000000 east",
            "ID 4024000000000000 0000000000000000 Pier",
            "ID 4024000000000000 0000000000000000  pier",
            "ID 4024000000000000 0000000000000000 pier ",
            "ID 4024000000000000 0000000000000000 pier both",
            "ID 4024000000000000 0000000000000000 0000000000000000 pier",
            "ID pier 4024000000000000 0000000000000000",
        ] {
            let said = read(&with_term(bad)).expect_err(bad).to_string();
            assert_eq!(said, format!("line 2: {TERM}"), "{bad}");
        }
    }

    #[test]
    fn sweeps_and_settled() {
        for (words, sweeps, settled) in [
            ("1 yes", 1, true),
            ("29 yes", 29, true),
            ("30 yes", 30, true),
            ("30 no", 30, false),
        ] {
            let text = GOOD.replace("fit 1 1 1 yes 1 yes", &format!("fit 2 2 9 no {words}"));
            let Ok(Listing::Fit(fit)) = read(&text) else {
                panic!("no fit: {words}");
            };
            assert_eq!((fit.sweeps, fit.settled), (sweeps, settled));
        }
        for (first, words) in [
            ("fit 2 2 1 yes 0 yes", "0 sweeps: expected 1 to 30"),
            ("fit 2 2 1 yes 31 no", "31 sweeps: expected 1 to 30"),
            ("fit 2 2 1 yes 29 no", "not settled after 29 sweeps"),
            ("fit 1 1 1 yes 2 yes", "2 sweeps of one free term"),
        ] {
            let text = GOOD.replace("fit 1 1 1 yes 1 yes", first);
            let said = read(&text).expect_err(first).to_string();
            assert!(said.starts_with(&format!("line 1: {words}")), "{said}");
        }
    }

    #[test]
    fn an_older_listing() {
        for first in ["fit 1 1 1 yes", "fit 1 1 0 no"] {
            let text = GOOD.replace("fit 1 1 1 yes 1 yes", first);
            let said = read(&text).expect_err(first).to_string();
            assert_eq!(said, format!("line 1: {OLDER}"));
        }
        let text = with_term("ID 4024000000000000 0000000000000000");
        let said = read(&text).expect_err("no word").to_string();
        assert_eq!(said, format!("line 2: {OLDER_TERM}"));
    }
}
