//! The runs that the benchmarks fit, and calls of the library and the oracle on them.

#![allow(dead_code)]

use crate::pointing::{self, FitAnswer, FitOptions};
use oracle::questions::{jacobian, Buffers, Point, Run, BY_STARS, NAME};
use oracle::sheet::SHEET;
use oracle::solver::{self, FitInputs, FitResult, IterOptions};
use std::hint::black_box;
use std::time::{Duration, Instant};

/// Xorshift: the same numbers in every run.
pub struct Random(pub u64);

impl Random {
    pub fn bits(&mut self) -> u64 {
        self.0 ^= self.0 << 13;
        self.0 ^= self.0 >> 7;
        self.0 ^= self.0 << 17;
        self.0
    }

    /// From -1 to 1.
    pub fn unit(&mut self) -> f64 {
        (self.bits() >> 11) as f64 / (1u64 << 52) as f64 - 1.0
    }
}

pub const NAMES: [&str; 32] = [
    "IH", "ID", "CH", "NP", "MA", "ME", "TF", "TX", "DAF", "FO", "HCES", "HCEC", "DCES", "DCEC",
    "HHSH2", "HDCD2", "TX2", "TX3", "HHSH3", "HHCH2", "HDSH2", "HDCH3", "HXSH3", "HXCD2",
    "HXSHCD2", "HPSH3", "HPCDSH2", "HDSDCH", "HHCH9SD4", "HDSD8CH6", "HXSD3", "HHSH7",
];

pub fn slot(name: &str) -> [u8; NAME] {
    let mut slot = [0; NAME];
    slot[..name.len()].copy_from_slice(name.as_bytes());
    slot
}

pub fn sheet(h: f64, dec: f64) -> [f64; SHEET] {
    let mut sheet = [0.0; SHEET];
    for k in 0..9 {
        let times = (k + 1) as f64;
        (sheet[2 * k], sheet[2 * k + 1]) = (h * times).sin_cos();
        (sheet[18 + 2 * k], sheet[19 + 2 * k]) = (dec * times).sin_cos();
    }
    sheet[36] = dec.tan();
    sheet
}

/// m free terms at 0, and n stars higher than 15 degrees, on both sides of the pier: the differences that coefficients of up to 300
/// arcseconds give, with noise of 3 arcseconds, and of 60 for one star in 20.
pub fn night(random: &mut Random, n: usize, m: usize) -> Run {
    let (sin_lat, cos_lat) = 0.72_f64.sin_cos();
    let mut run = Run {
        names: NAMES[..m].iter().flat_map(|name| slot(name)).collect(),
        fixed: vec![0; m],
        coefficients: vec![0.0; m],
        dh: vec![0.0; n],
        dd: vec![0.0; n],
        piers: Vec::new(),
        sheets: Vec::new(),
        sin_lat,
        cos_lat,
        fit_tol: 1e-12,
        sigma_by: BY_STARS,
    };
    while run.piers.len() < n {
        let (h, dec) = (random.unit() * 3.1, random.unit() * 1.4);
        if sin_lat * dec.sin() + cos_lat * dec.cos() * h.cos() > 0.26 {
            run.sheets.extend(sheet(h, dec));
            run.piers.push(1 + (random.bits() % 2) as u8);
        }
    }
    for slot in run.names.chunks(NAME) {
        let truth = random.unit() * 300.0;
        for i in 0..n {
            let point = Point {
                sheet: &run.sheets[SHEET * i..SHEET * (i + 1)],
                sin_lat,
                cos_lat,
                pier: run.piers[i],
            };
            let (jh, jd) = jacobian(slot, &point).expect("a name");
            run.dh[i] += jh * truth;
            run.dd[i] += jd * truth;
        }
    }
    for i in 0..n {
        let noise = if i % 20 == 7 { 60.0 } else { 3.0 };
        run.dh[i] += random.unit() * noise;
        run.dd[i] += random.unit() * noise;
    }
    run
}

/// The library's fit: with options the iterated one.
pub fn ours(run: &Run, options: Option<&IterOptions>, b: &mut Buffers) -> FitAnswer {
    let lent = pointing::Lent {
        names: &run.names,
        fixed: &run.fixed,
        coefficients: &run.coefficients,
        dh: &run.dh,
        dd: &run.dd,
        pier: &run.piers,
        sheets: &run.sheets,
        sin_lat: run.sin_lat,
        cos_lat: run.cos_lat,
        fit_tol: run.fit_tol,
        sigma_by: run.sigma_by,
    };
    let mut buffers = pointing::Buffers {
        coefficients: &mut b.coefficients,
        change: &mut b.change,
        sigma: &mut b.sigma,
        diagnostics: &mut b.diagnostics,
        scratch: &mut b.scratch,
    };
    match options {
        None => pointing::fit_model(&lent, &mut buffers),
        Some(o) => pointing::fit_model_iterated(
            &lent,
            FitOptions {
                max_iter: o.max_iter,
                tol_rad: o.tol_rad,
                initial_lambda: o.initial_lambda,
                lambda_up: o.lambda_up,
                lambda_down: o.lambda_down,
                robust: o.robust,
                huber_k: o.huber_k,
            },
            &mut buffers,
        ),
    }
}

/// The oracle's whole call: the same questions, names and buffers.
pub fn whole(run: &Run, options: Option<&IterOptions>, b: &mut Buffers) -> FitResult {
    let fit = match options {
        None => oracle::questions::fit_model(run, b),
        Some(options) => oracle::questions::fit_model_iterated(run, options, b),
    };
    fit.unwrap_or_else(|number| panic!("refused: {number}"))
}

/// The oracle's fit alone, of terms and observations made before.
pub fn bare(inputs: &FitInputs, options: Option<&IterOptions>) -> FitResult {
    let fit = match options {
        None => solver::fit_model(
            inputs.observations,
            inputs.terms,
            inputs.fixed,
            inputs.coefficients,
            inputs.latitude,
            inputs.fit_tol,
            inputs.sigma_by,
        ),
        Some(options) => solver::fit_model_iterated(inputs, options),
    };
    fit.unwrap_or_else(|number| panic!("refused: {number}"))
}

/// A value that is made and not looked at.
pub fn made<T>(value: T) {
    let _ = black_box(value);
}

/// The works by turns for a time, each `batch` times a turn: the least time of each, in seconds.
pub fn by_turns<const N: usize>(
    lasting: Duration,
    batch: usize,
    mut works: [&mut dyn FnMut(); N],
) -> [f64; N] {
    let mut least = [f64::MAX; N];
    let (begun, mut turns) = (Instant::now(), 0);
    while turns < 5 || begun.elapsed() < lasting {
        for (work, least) in works.iter_mut().zip(&mut least) {
            let start = Instant::now();
            for _ in 0..batch {
                work();
            }
            *least = least.min(start.elapsed().as_secs_f64() / batch as f64);
        }
        turns += 1;
    }
    least
}

/// The seconds that a benchmark is given for each of its lines.
pub fn lasting(default: f64) -> Duration {
    let given = std::env::args().nth(1);
    Duration::from_secs_f64(given.map_or(default, |word| word.parse().expect("seconds")))
}
