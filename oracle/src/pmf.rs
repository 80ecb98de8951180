//! docs/SCOPE.md 11: a PMF file in, its listing out.

use crate::error::Result;
use crate::questions::{fit_file, Run, BY_STARS};
use crate::sheet::SHEET;
use crate::solver::{FitResult, IterOptions};
use crate::terms::create_term;

const HEADER: usize = 9;
const MAX_TERMS: usize = 16;
const MAX_STARS: usize = 100;

/// The bits of a float; every NaN as 7ff8000000000000.
pub fn bits(x: f64) -> u64 {
    if x.is_nan() {
        0x7ff8_0000_0000_0000
    } else {
        x.to_bits()
    }
}

struct Reader<'a> {
    left: &'a [u8],
}

impl<'a> Reader<'a> {
    fn bytes(&mut self, count: usize) -> &'a [u8] {
        let (taken, left) = self.left.split_at(count);
        self.left = left;
        taken
    }

    fn byte(&mut self) -> u8 {
        self.bytes(1)[0]
    }

    fn u16(&mut self) -> usize {
        let b = self.bytes(2);
        usize::from(u16::from_le_bytes([b[0], b[1]]))
    }

    fn double(&mut self) -> f64 {
        f64::from_le_bytes(self.bytes(8).try_into().expect("eight bytes"))
    }

    fn doubles(&mut self, count: usize) -> Vec<f64> {
        (0..count).map(|_| self.double()).collect()
    }
}

/// The bytes of a file of m terms and n observations.
pub fn file_size(m: usize, n: usize) -> usize {
    HEADER + 8 * 8 + 2 + (16 + 1 + 8) * m + (1 + 2 * 8 + 8 * SHEET) * n
}

/// The fit of a file, or a refusal.
pub fn fit(input: &[u8]) -> Result<FitResult> {
    if input.len() < HEADER {
        return Err(15);
    }
    let mut reader = Reader { left: input };
    let mark = reader.bytes(3);
    let version = reader.u16();
    let m = usize::from(reader.byte());
    let mode = reader.byte();
    let n = reader.u16();
    if mark != b"PMF" || version != 1 || !matches!(mode, 0 | 1 | 3) {
        return Err(15);
    }
    if m > MAX_TERMS || n > MAX_STARS {
        return Err(1);
    }
    if input.len() != file_size(m, n) {
        return Err(15);
    }
    let (run, options) = fields(&mut reader, m, n, mode == 3);
    fit_file(&run, &options, mode != 0)
}

fn fields(reader: &mut Reader, m: usize, n: usize, robust: bool) -> (Run, IterOptions) {
    let (sin_lat, cos_lat) = (reader.double(), reader.double());
    let fit_tol = reader.double();
    let options = IterOptions {
        tol_rad: reader.double(),
        initial_lambda: reader.double(),
        lambda_up: reader.double(),
        lambda_down: reader.double(),
        huber_k: reader.double(),
        max_iter: reader.u16(),
        robust,
    };
    let mut run = Run {
        names: reader.bytes(16 * m).to_vec(),
        fixed: reader.bytes(m).to_vec(),
        coefficients: reader.doubles(m),
        dh: Vec::new(),
        dd: Vec::new(),
        piers: Vec::new(),
        sheets: Vec::new(),
        sin_lat,
        cos_lat,
        fit_tol,
        sigma_by: BY_STARS,
    };
    for _ in 0..n {
        run.piers.push(reader.byte());
        run.dh.push(reader.double());
        run.dd.push(reader.double());
        run.sheets.extend(reader.doubles(SHEET));
    }
    (run, options)
}

/// What the program prints.
pub fn listing(input: &[u8]) -> String {
    let fit = match fit(input) {
        Ok(fit) => fit,
        Err(number) => return format!("no {number}\n"),
    };
    let word = |yes: bool| if yes { "yes" } else { "no" };
    let side = |sensitive: bool| if sensitive { "pier" } else { "both" };
    let mut out = format!(
        "fit {} {} {} {} {} {}\n",
        fit.rank_info.n_free,
        fit.rank_info.rank,
        fit.iter_report.iterations,
        word(fit.iter_report.converged),
        fit.sweeps,
        word(fit.settled),
    );
    for (j, name) in fit.term_names.iter().enumerate() {
        let term = create_term(name).expect("a stored name");
        out += &format!(
            "{name} {:016x} {:016x} {}\n",
            bits(fit.coefficients[j]),
            bits(fit.sigma[j]),
            side(term.pier_sensitive()),
        );
    }
    out += &format!(
        "sky {:016x} {:016x}\n",
        bits(fit.sky_rms),
        bits(fit.popn_sd)
    );
    out
}

/// The file of a run, for tests and vectors.
pub fn file(run: &Run, options: &IterOptions, mode: u8) -> Vec<u8> {
    let mut out = b"PMF\x01\x00".to_vec();
    out.push(run.m() as u8);
    out.push(mode);
    out.extend((run.n() as u16).to_le_bytes());
    for x in [
        run.sin_lat,
        run.cos_lat,
        run.fit_tol,
        options.tol_rad,
        options.initial_lambda,
        options.lambda_up,
        options.lambda_down,
        options.huber_k,
    ] {
        out.extend(x.to_le_bytes());
    }
    out.extend((options.max_iter as u16).to_le_bytes());
    out.extend(&run.names);
    out.extend(&run.fixed);
    for x in &run.coefficients {
        out.extend(x.to_le_bytes());
    }
    for i in 0..run.n() {
        out.push(run.piers[i]);
        out.extend(run.dh[i].to_le_bytes());
        out.extend(run.dd[i].to_le_bytes());
        for x in &run.sheets[SHEET * i..SHEET * (i + 1)] {
            out.extend(x.to_le_bytes());
        }
    }
    out
}
