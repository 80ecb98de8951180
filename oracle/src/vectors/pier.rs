//! Names and files of terms that are pier sensitive and of others that look alike, and what the
//! writer sees to of them.

use super::names::{HARMONIC, KINDS};
use super::runs::{Case, Maker, ITERATED};
use std::collections::BTreeSet;

/// The results of harmonics in the order of their codes.
const RESULTS: &[u8; 8] = b"HDXPAEZS";

/// How many bytes a harmonic has.
const LENGTHS: std::ops::RangeInclusive<usize> = 4..=16;

/// Names with letters of pier-sensitive ones: first read as other terms, then refused.
const ALIKE: [&str; 26] = [
    "hhsd", "hdsh", "hxsh", "hhch", "hdCH", "hsch", "hzsd", "dceC", "hceC", "dCES", "hCES", "Tx7",
    "IDD", "iD1", "CHH", "ch0", "NPP", "npe", "hps", "HPP", "HPSP", "hpsp", "HPSH0", "HPSH12",
    "HPSHP", "HPCHNP",
];

/// A harmonic: components of two bytes, but for a first one of three where the length is odd.
fn harmonic(result: u8, len: usize) -> String {
    let result = result as char;
    let first = if len % 2 == 0 { "CH" } else { "SD3" };
    let mut name = format!("H{result}{first}SHCDCACECZSD");
    name.truncate(len);
    name
}

/// Harmonics of each result and length, in small letters, with that of the result alone small, and
/// in capitals; names that look alike.
pub fn names() -> Vec<Vec<u8>> {
    let mut out = Vec::new();
    for &result in RESULTS {
        for len in LENGTHS {
            let name = harmonic(result, len).into_bytes();
            let mut mixed = name.clone();
            mixed[1].make_ascii_lowercase();
            out.extend([name.to_ascii_lowercase(), mixed, name]);
        }
    }
    out.extend(ALIKE.map(|name| name.as_bytes().to_vec()));
    out
}

/// How a name's letters are written.
#[derive(Clone, Copy, PartialEq, Eq, PartialOrd, Ord, Debug)]
enum Letters {
    Capital,
    Small,
    Mixed,
}

/// Of a name that was read its kind, result, length and letters, and whether it is pier sensitive.
#[derive(PartialEq, Eq, PartialOrd, Ord, Debug)]
pub struct Spelled {
    kind: u8,
    result: u8,
    len: usize,
    letters: Letters,
    pier_sensitive: bool,
}

impl Spelled {
    pub fn of(given: &[u8], description: &[u8]) -> Self {
        let any = |sort: fn(&u8) -> bool| given.iter().any(sort);
        Self {
            kind: description[0],
            result: description[2],
            len: given.iter().filter(|&&b| b != 0).count(),
            letters: match [any(u8::is_ascii_uppercase), any(u8::is_ascii_lowercase)] {
                [true, false] => Letters::Capital,
                [false, _] => Letters::Small,
                _ => Letters::Mixed,
            },
            pier_sensitive: description[4] == 1,
        }
    }
}

/// Whether a kind's terms are pier sensitive.
fn of_kind(kind: &str) -> bool {
    ["ID", "CH", "NP"].contains(&kind)
}

/// Each kind, and harmonics of each result and length, must have been read in capitals, in small
/// letters and mixed, with their flags.
pub fn assert_spelled(read: &BTreeSet<Spelled>) {
    let mut due = Vec::new();
    for letters in [Letters::Capital, Letters::Small, Letters::Mixed] {
        due.extend((0..).zip(KINDS).map(|(kind, name)| Spelled {
            kind,
            result: 0,
            len: name.len(),
            letters,
            pier_sensitive: of_kind(name),
        }));
        for (result, letter) in (0..).zip(RESULTS) {
            due.extend(LENGTHS.map(|len| Spelled {
                kind: HARMONIC,
                result,
                len,
                letters,
                pier_sensitive: *letter == b'P',
            }));
        }
    }
    for spelled in due {
        assert!(read.contains(&spelled), "never read: {spelled:?}");
    }
}

/// Names of 16 bytes, in an order in which the sweeps of `longest` settle in the 30th.
const LONG: [&str; 16] = [
    "HDSH5SD6CACECZCA",
    "HXSH9CH2CACECZCA",
    "HPSH5SD6CACECZCA",
    "HHSD3CD5CACECZCA",
    "HDSH1CD2CACECZCA",
    "HXCH3SD4CACECZCA",
    "HHSH9CH2CACECZCA",
    "HPSD3CD5CACECZCA",
    "HPSH9CH2CACECZCA",
    "HXSH5SD6CACECZCA",
    "HXCH7CD8CACECZCA",
    "HHSH5SD6CACECZCA",
    "HHCH3SD4CACECZCA",
    "HHCH7CD8CACECZCA",
    "HDSD3CD5CACECZCA",
    "HPCH3SD4CACECZCA",
];

impl Maker<'_> {
    /// Runs of one term, of each kind and each result, and of harmonics of each length that are pier
    /// sensitive or not.
    pub fn by_terms(&mut self, modes: &[u8]) -> Vec<Case> {
        let kinds = KINDS.iter().map(|kind| kind.replace("TXN", "TX4"));
        let results = RESULTS.iter().map(|&result| harmonic(result, 6));
        let mut out = Vec::new();
        for (i, name) in kinds.chain(results).enumerate() {
            let mode = modes[i % modes.len()];
            out.push(self.real_of(mode, &[&name], 2));
            out.push(self.real_of(mode, &[&name.to_ascii_lowercase()], 1));
        }
        for result in [b'P', b'H'] {
            let names: Vec<String> = LENGTHS.map(|len| harmonic(result, len)).collect();
            let names: Vec<&str> = names.iter().map(String::as_str).collect();
            out.push(self.real_of(modes[0], &names, 16));
        }
        out
    }

    /// 16 free terms whose names have 16 bytes, with 30 sweeps, the last without a turn if `settled`,
    /// and 1,000 trials at one damping, each kept, of which the last alone has a step that is short
    /// enough.
    pub fn longest(&mut self, settled: bool) -> Case {
        let mut names = LONG;
        if !settled {
            names.reverse();
        }
        let mut case = self.nearly_dependent_of(ITERATED, &names, 100, 8);
        case.run.fit_tol = 0.0;
        case.options.max_iter = 1000;
        case.options.initial_lambda = 1e6;
        case.options.lambda_down = 1.0;
        case.options.tol_rad = 0.0;
        let fit = case.call(&case.lent(self.pool)).expect("an accepted fit");
        assert_eq!((fit.sweeps, fit.settled), (30, settled));
        case.options.tol_rad = fit.iter_report.final_step_norm.next_up();
        case
    }
}

/// Each kind and result, and harmonics of each length of two results, must have had a term line, with
/// its word.
pub fn assert_lines(lines: &BTreeSet<(String, String)>) {
    let listed = |start: &str, len: usize, pier_sensitive: bool| {
        let word = if pier_sensitive { "pier" } else { "both" };
        let of = |(name, end): &(String, String)| {
            name.starts_with(start) && name.len() == len && end == word
        };
        assert!(lines.iter().any(of), "no line: {start} of {len}, {word}");
    };
    for kind in KINDS {
        // TXN is TX and a digit
        listed(kind.trim_end_matches('N'), kind.len(), of_kind(kind));
    }
    for &result in RESULTS {
        let start = format!("H{}", result as char);
        listed(&start, 6, result == b'P');
    }
    for len in LENGTHS {
        listed("HP", len, true);
        listed("HH", len, false);
    }
}
