//! The CSV text of a run: a line tells one thing, and its first column says which.

use crate::angle::{degrees_within, hours_within_a_day, radians, wrapped};
use crate::fault::Fault;
use crate::number::{finite, whole};
use crate::run::{Mode, Options, Pier, Star, Term, MAX_STARS, MAX_TERMS, NAME};
use crate::sheet::Sheet;
use std::collections::BTreeMap;

const KEYS: &str =
    "term, star, diff, latitude, mode, fit_tol, tol_rad, initial_lambda, lambda_up, lambda_down, huber_k or max_iter";
const TERM: [&str; 3] = ["name", "free or fixed", "start"];
const STAR: [&str; 5] = [
    "hour angle",
    "declination",
    "observed hour angle",
    "observed declination",
    "pier side",
];
const DIFF: [&str; 5] = [
    "hour angle",
    "declination",
    "hour angle difference",
    "declination difference",
    "pier side",
];

/// What the lines told.
#[derive(Debug, Clone)]
pub struct Draft {
    /// Arcseconds, and the line.
    pub latitude: Option<(f64, usize)>,
    pub mode: Mode,
    pub options: Options,
    pub terms: Vec<Term>,
    pub stars: Vec<Star>,
    /// The line of the first star.
    pub first_star: Option<usize>,
    seen: BTreeMap<String, usize>,
}

/// Reads the whole text; the first fault ends it.
pub fn read(text: &str) -> Result<Draft, Fault> {
    let mut draft = Draft {
        latitude: None,
        mode: Mode::Iterated,
        options: Options::default(),
        terms: Vec::new(),
        stars: Vec::new(),
        first_star: None,
        seen: BTreeMap::new(),
    };
    for (i, line) in text.lines().enumerate() {
        let line = line.trim();
        if !line.is_empty() && !line.starts_with('#') {
            draft.line(i + 1, line)?;
        }
    }
    Ok(draft)
}

/// The columns without the empty ones at the end, which spreadsheets add.
fn columns(line: &str) -> Vec<&str> {
    let mut columns: Vec<&str> = line.split(',').map(str::trim).collect();
    while columns.last() == Some(&"") {
        columns.pop();
    }
    columns
}

/// Exactly the named columns after the key.
fn exactly<'a, const N: usize>(
    columns: &[&'a str],
    names: &[&str; N],
) -> Result<[&'a str; N], String> {
    let key = columns[0];
    let form = format!("expected {key},{}", names.join(","));
    for (i, name) in names.iter().enumerate() {
        match columns.get(i + 1) {
            None => return Err(format!("column {} ({name}) is missing: {form}", i + 2)),
            Some(&"") => return Err(format!("column {} ({name}) is empty: {form}", i + 2)),
            Some(_) => {}
        }
    }
    <[&str; N]>::try_from(&columns[1..]).map_err(|_| format!("{} columns: {form}", columns.len()))
}

/// Says of which column a fault is.
fn of<T>(name: &str, value: Result<T, String>) -> Result<T, String> {
    value.map_err(|fault| format!("{name}: {fault}"))
}

impl Draft {
    fn line(&mut self, number: usize, line: &str) -> Result<(), Fault> {
        let columns = columns(line);
        let key = columns
            .first()
            .map_or(String::new(), |key| key.to_ascii_lowercase());
        let done = match key.as_str() {
            "term" => self.term(&columns),
            "star" | "diff" => {
                self.first_star.get_or_insert(number);
                self.star(&columns, key == "star")
            }
            _ => self.setting(number, &key, &columns),
        };
        done.map_err(|message| Fault::at(number, message))
    }

    fn term(&mut self, columns: &[&str]) -> Result<(), String> {
        let [name, fixed, start] = exactly(columns, &TERM)?;
        if name.len() > NAME || !name.is_ascii() || name.contains('\0') {
            return Err(format!(
                "name: '{name}' can't be stored: expected 1 to {NAME} ASCII characters"
            ));
        }
        let fixed = match fixed.to_ascii_lowercase().as_str() {
            "free" => false,
            "fixed" => true,
            _ => return Err(format!("free or fixed: '{fixed}': expected free or fixed")),
        };
        let start = of("start", finite(start))?;
        if self.terms.len() == MAX_TERMS {
            return Err(format!(
                "one term too many: a file holds at most {MAX_TERMS}"
            ));
        }
        self.terms.push(Term {
            name: name.into(),
            fixed,
            start,
        });
        Ok(())
    }

    fn star(&mut self, columns: &[&str], observed: bool) -> Result<(), String> {
        let names = if observed { &STAR } else { &DIFF };
        let [h, dec, h_value, dec_value, pier] = exactly(columns, names)?;
        let h = of(names[0], hours_within_a_day(h))?;
        let dec = of(names[1], degrees_within(dec, 90.0))?;
        let (dh, dd) = if observed {
            let h_value = of(names[2], hours_within_a_day(h_value))?;
            let dec_value = of(names[3], degrees_within(dec_value, 90.0))?;
            (wrapped(h_value - h), dec_value - dec)
        } else {
            (
                of(names[2], finite(h_value))?,
                of(names[3], finite(dec_value))?,
            )
        };
        let pier = pier_side(pier)?;
        if self.stars.len() == MAX_STARS {
            return Err(format!(
                "one star too many: a file holds at most {MAX_STARS}"
            ));
        }
        let sheet = Sheet::of(radians(h), radians(dec));
        self.stars.push(Star {
            pier,
            dh,
            dd,
            sheet,
        });
        Ok(())
    }

    fn setting(&mut self, number: usize, key: &str, columns: &[&str]) -> Result<(), String> {
        let known = ["latitude", "mode", "max_iter"].contains(&key) || self.double(key).is_some();
        if !known {
            return Err(format!("unknown key '{key}': expected {KEYS}"));
        }
        if let Some(line) = self.seen.insert(key.into(), number) {
            return Err(format!("{key} was given on line {line} already"));
        }
        let [value] = exactly(columns, &["value"])?;
        match key {
            "latitude" => self.latitude = Some((of(key, degrees_within(value, 90.0))?, number)),
            "mode" => self.mode = mode(value)?,
            "max_iter" => self.options.max_iter = of(key, whole(value))?,
            _ => {
                let value = of(key, finite(value))?;
                if let Some(double) = self.double(key) {
                    *double = value;
                }
            }
        }
        Ok(())
    }

    /// The option of a name that is a double.
    fn double(&mut self, key: &str) -> Option<&mut f64> {
        let options = &mut self.options;
        match key {
            "fit_tol" => Some(&mut options.fit_tol),
            "tol_rad" => Some(&mut options.tol_rad),
            "initial_lambda" => Some(&mut options.initial_lambda),
            "lambda_up" => Some(&mut options.lambda_up),
            "lambda_down" => Some(&mut options.lambda_down),
            "huber_k" => Some(&mut options.huber_k),
            _ => None,
        }
    }
}

fn mode(text: &str) -> Result<Mode, String> {
    match text.to_ascii_lowercase().as_str() {
        "single" | "0" => Ok(Mode::Single),
        "iterated" | "1" => Ok(Mode::Iterated),
        "robust" | "3" => Ok(Mode::Robust),
        _ => Err(format!(
            "mode: '{text}': expected single (0), iterated (1) or robust (3)"
        )),
    }
}

fn pier_side(text: &str) -> Result<Pier, String> {
    match text.to_ascii_lowercase().as_str() {
        "e" | "east" => Ok(Pier::East),
        "w" | "west" => Ok(Pier::West),
        "u" | "unknown" => Ok(Pier::Unknown),
        _ => Err(format!(
            "pier side: '{text}': expected east, west or unknown (or E, W, U)"
        )),
    }
}

#[cfg(test)]
mod tests {
    use super::*;

    fn fault(text: &str) -> String {
        read(text).expect_err(text).to_string()
    }

    #[test]
    fn a_run() {
        let draft = read(
            "\n# a comment\r\nlatitude,+34 30 00,,,\r\nmode,Robust\nmax_iter, 7\nhuber_k,2\n\
             term,ih,free,-1.5\nTERM,TX5,Fixed,2\n\
             star,23:59:59,10,0:00:01,10.5,W\ndiff,-1.5,-20 0 0,3,-4,unknown\n",
        )
        .unwrap();
        assert_eq!(draft.latitude, Some((124_200.0, 3)));
        assert_eq!(draft.mode, Mode::Robust);
        assert_eq!(
            draft.options,
            Options {
                max_iter: 7,
                huber_k: 2.0,
                ..Options::default()
            }
        );
        assert_eq!(
            draft.terms[0],
            Term {
                name: "ih".into(),
                fixed: false,
                start: -1.5
            }
        );
        assert_eq!(
            draft.terms[1],
            Term {
                name: "TX5".into(),
                fixed: true,
                start: 2.0
            }
        );
        assert_eq!((draft.stars[0].dh, draft.stars[0].dd), (30.0, 1800.0));
        assert_eq!((draft.stars[1].dh, draft.stars[1].dd), (3.0, -4.0));
        assert_eq!(draft.stars[1].pier, Pier::Unknown);
        assert_eq!(draft.first_star, Some(9));
    }

    #[test]
    fn faults_of_keys_and_columns() {
        assert!(
            fault("\n\nstarr,1,2").starts_with("line 3: unknown key 'starr': expected term, star,")
        );
        assert!(fault(",1").starts_with("line 1: unknown key ''"));
        assert!(fault("term,IH,free")
            .starts_with("line 1: column 4 (start) is missing: expected term,name"));
        assert!(fault("term,,free,0").contains("column 2 (name) is empty"));
        assert!(fault("term,IH,free,0,1").contains("5 columns"));
        assert!(fault("star,1,2,1,2").contains("column 6 (pier side) is missing"));
        assert!(fault("latitude").contains("column 2 (value) is missing"));
        assert!(fault("mode,1\nmode,0").contains("line 2: mode was given on line 1 already"));
    }

    #[test]
    fn faults_of_values() {
        assert!(fault("term,IH,maybe,0").contains("expected free or fixed"));
        assert!(fault("term,IH,free,ten").contains("start: 'ten' is not a number"));
        assert!(fault("term,IH,free,inf").contains("start: 'inf' is not finite"));
        assert!(fault("term,ABCDEFGHIJKLMNOPQ,free,0").contains("1 to 16 ASCII"));
        assert!(fault("term,ÎH,free,0").contains("1 to 16 ASCII"));
        assert!(fault("latitude,91").contains("latitude: '91' is out of range"));
        assert!(fault("mode,2").contains("expected single (0), iterated (1) or robust (3)"));
        assert!(fault("max_iter,-1").contains("max_iter: '-1'"));
        assert!(fault("fit_tol,x").contains("fit_tol: 'x'"));
        assert!(fault("star,25,2,1,2,E").contains("hour angle: '25' is out of range"));
        assert!(fault("star,1,91,1,2,E").contains("declination: '91'"));
        assert!(fault("star,1,2,1,2,N").contains("pier side: 'N': expected east"));
        assert!(fault("diff,1,2,nan,2,E").contains("hour angle difference: 'nan' is not finite"));
    }

    #[test]
    fn too_many() {
        let terms = "term,IH,free,0\n".repeat(17);
        assert!(fault(&terms).starts_with("line 17: one term too many: a file holds at most 16"));
        assert_eq!(read(&terms[15..]).unwrap().terms.len(), 16);
        let stars = "diff,1,2,3,4,E\n".repeat(101);
        assert!(fault(&stars).starts_with("line 101: one star too many: a file holds at most 100"));
        assert_eq!(read(&stars[15..]).unwrap().stars.len(), 100);
    }
}
