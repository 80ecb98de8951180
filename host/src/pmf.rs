//! The bytes of a PMF file: written from a run, and read back into one.

use crate::run::{Mode, Options, Pier, Run, Star, Term, MAX_STARS, MAX_TERMS, NAME};
use crate::sheet::{Sheet, SHEET};

pub const HEADER: usize = 9;

/// The bytes of a file of m terms and n stars.
pub fn file_size(m: usize, n: usize) -> usize {
    HEADER + 8 * 8 + 2 + (NAME + 1 + 8) * m + (1 + 2 * 8 + 8 * SHEET) * n
}

/// The file of a run of at most 16 terms and 100 stars, names of 1 to 16 bytes.
pub fn encode(run: &Run) -> Vec<u8> {
    let mut out = b"PMF\x01\x00".to_vec();
    out.push(run.terms.len() as u8);
    out.push(run.mode.code());
    out.extend((run.stars.len() as u16).to_le_bytes());
    doubles(&mut out, &run.doubles());
    out.extend(run.options.max_iter.to_le_bytes());
    for term in &run.terms {
        let mut slot = [0; NAME];
        slot[..term.name.len()].copy_from_slice(term.name.as_bytes());
        out.extend(slot);
    }
    out.extend(run.terms.iter().map(|t| u8::from(t.fixed)));
    for term in &run.terms {
        doubles(&mut out, &[term.start]);
    }
    for star in &run.stars {
        out.push(star.pier.code());
        doubles(&mut out, &[star.dh, star.dd]);
        doubles(&mut out, &star.sheet.0);
    }
    out
}

fn doubles(out: &mut Vec<u8>, numbers: &[f64]) {
    for x in numbers {
        out.extend(x.to_le_bytes());
    }
}

/// What the nine header bytes say.
#[derive(Debug, Clone, Copy, PartialEq, Eq)]
pub struct Header {
    pub terms: usize,
    pub mode: Mode,
    pub stars: usize,
}

/// The header, where mark, version and mode byte are right.
pub fn header(bytes: &[u8]) -> Result<Header, String> {
    let Some(&[p, m, f, v0, v1, terms, mode, n0, n1]) = bytes.first_chunk::<HEADER>() else {
        return Err(format!(
            "{} bytes: shorter than the nine header bytes",
            bytes.len()
        ));
    };
    if [p, m, f] != *b"PMF" {
        return Err("no mark PMF in the first three bytes".into());
    }
    let version = u16::from_le_bytes([v0, v1]);
    if version != 1 {
        return Err(format!("version {version}: expected 1"));
    }
    let mode = Mode::from_code(mode).ok_or(format!("mode byte {mode}: expected 0, 1 or 3"))?;
    Ok(Header {
        terms: usize::from(terms),
        mode,
        stars: usize::from(u16::from_le_bytes([n0, n1])),
    })
}

/// The run in a file that the fit's checks would pass, names and values aside.
pub fn decode(bytes: &[u8]) -> Result<Run, String> {
    let header = header(bytes)?;
    let (m, n) = (header.terms, header.stars);
    if m > MAX_TERMS || n > MAX_STARS {
        return Err(format!(
            "{m} terms and {n} stars: at most {MAX_TERMS} and {MAX_STARS}"
        ));
    }
    let size = file_size(m, n);
    if bytes.len() != size {
        return Err(format!(
            "{} bytes: {m} terms and {n} stars make {size}",
            bytes.len()
        ));
    }
    let mut reader = Reader {
        left: &bytes[HEADER..],
    };
    let [sin_lat, cos_lat] = [reader.double(), reader.double()];
    let options = reader.options();
    let terms = reader.terms(m)?;
    let stars = (0..n).map(|i| reader.star(i)).collect::<Result<_, _>>()?;
    Ok(Run {
        mode: header.mode,
        sin_lat,
        cos_lat,
        options,
        terms,
        stars,
    })
}

/// Reads bytes whose number was checked beforehand.
struct Reader<'a> {
    left: &'a [u8],
}

impl<'a> Reader<'a> {
    fn bytes(&mut self, count: usize) -> &'a [u8] {
        let (taken, left) = self.left.split_at(count);
        self.left = left;
        taken
    }

    fn array<const N: usize>(&mut self) -> [u8; N] {
        let mut out = [0; N];
        out.copy_from_slice(self.bytes(N));
        out
    }

    fn double(&mut self) -> f64 {
        f64::from_le_bytes(self.array())
    }

    fn options(&mut self) -> Options {
        Options {
            fit_tol: self.double(),
            tol_rad: self.double(),
            initial_lambda: self.double(),
            lambda_up: self.double(),
            lambda_down: self.double(),
            huber_k: self.double(),
            max_iter: u16::from_le_bytes(self.array()),
        }
    }

    fn terms(&mut self, m: usize) -> Result<Vec<Term>, String> {
        let names: Vec<String> = (0..m)
            .map(|j| name(self.bytes(NAME), j))
            .collect::<Result<_, _>>()?;
        let flags = self.bytes(m);
        let mut terms = Vec::new();
        for (j, (name, &flag)) in names.into_iter().zip(flags).enumerate() {
            if flag > 1 {
                return Err(format!(
                    "term {}: fixed flag {flag}: expected 0 or 1",
                    j + 1
                ));
            }
            let start = self.double();
            terms.push(Term {
                name,
                fixed: flag == 1,
                start,
            });
        }
        Ok(terms)
    }

    fn star(&mut self, i: usize) -> Result<Star, String> {
        let [code] = self.array();
        let pier = Pier::from_code(code).ok_or(format!(
            "star {}: pier code {code}: expected 0, 1 or 2",
            i + 1
        ))?;
        let [dh, dd] = [self.double(), self.double()];
        let mut sheet = [0.0; SHEET];
        for x in &mut sheet {
            *x = self.double();
        }
        Ok(Star {
            pier,
            dh,
            dd,
            sheet: Sheet(sheet),
        })
    }
}

/// The name in a slot: 1 to 16 bytes below 128, none zero, then zeros.
fn name(slot: &[u8], j: usize) -> Result<String, String> {
    let length = slot.iter().position(|&b| b == 0).unwrap_or(slot.len());
    let (name, rest) = slot.split_at(length);
    let good = !name.is_empty() && name.is_ascii() && rest.iter().all(|&b| b == 0);
    match std::str::from_utf8(name) {
        Ok(name) if good => Ok(name.to_string()),
        _ => Err(format!("term {}: its slot holds no name", j + 1)),
    }
}

#[cfg(test)]
mod tests {
    use super::*;

    fn run() -> Run {
        Run {
            mode: Mode::Robust,
            sin_lat: 0.5,
            cos_lat: 0.75,
            options: Options::default(),
            terms: vec![Term {
                name: "HXSHCD2".into(),
                fixed: true,
                start: -3.5,
            }],
            stars: vec![Star {
                pier: Pier::West,
                dh: 1.5,
                dd: -2.5,
                sheet: Sheet::of(0.25, 0.5),
            }],
        }
    }

    #[test]
    fn there_and_back() {
        let bytes = encode(&run());
        assert_eq!(bytes.len(), file_size(1, 1));
        assert_eq!(decode(&bytes), Ok(run()));
    }

    #[test]
    fn every_cut_is_refused() {
        let bytes = encode(&run());
        for length in 0..bytes.len() {
            assert!(decode(&bytes[..length]).is_err(), "{length}");
        }
    }

    #[test]
    fn bad_bytes() {
        for (place, value, words) in [
            (0, b'X', "mark"),
            (3, 2, "version 2"),
            (4, 1, "version 257"),
            (5, 17, "17 terms"),
            (6, 2, "mode byte 2"),
            (7, 101, "101 stars"),
            (75, 0, "no name"),
            (75, 200, "no name"),
            (90, b'X', "no name"),
            (91, 2, "fixed flag 2"),
            (100, 3, "pier code 3"),
        ] {
            let mut bytes = encode(&run());
            bytes[place] = value;
            let fault = decode(&bytes).expect_err(words);
            assert!(fault.contains(words), "{fault}");
        }
    }
}
