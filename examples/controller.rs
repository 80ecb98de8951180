//! A mount controller in Rust: does what `controller.c` does, over the calls of `ffi/pointing.rs`.
//!
//!     controller FILE.pmf [HOURS DEGREES east|west|unknown]

#[path = "../ffi/pointing.rs"]
mod pointing;

use pointing::{Buffers, FitAnswer, FitOptions, Lent, Point, BY_STARS, NAME, SHEET};
use std::process::ExitCode;

const TERMS: usize = 16;
const STARS: usize = 100;
const HEADER: usize = 75;
const OF_TERM: usize = 25;
const OF_STAR: usize = 313;

const REFUSALS: [&str; 14] = [
    "accepted",
    "too many terms or stars",
    "a list has the wrong length",
    "a buffer is too short",
    "a number is not finite",
    "a pier code, a fixed flag or sigma_by is unknown",
    "max_iter is above 1,000",
    "a slot holds no name",
    "a term of an alt-azimuth mount",
    "an unknown name",
    "a harmonic that is not well formed",
    "no term",
    "no free term",
    "fewer stars than free terms",
];

struct Run {
    mode: u8,
    names: Vec<u8>,
    fixed: Vec<u8>,
    start: Vec<f64>,
    dh: Vec<f64>,
    dd: Vec<f64>,
    pier: Vec<u8>,
    sheets: Vec<f64>,
    sin_lat: f64,
    cos_lat: f64,
    fit_tol: f64,
    options: FitOptions,
}

struct Fit {
    answer: FitAnswer,
    coefficients: Vec<f64>,
    sigma: Vec<f64>,
}

fn double(bytes: &[u8], at: usize) -> f64 {
    f64::from_le_bytes(bytes[at..at + 8].try_into().expect("eight bytes"))
}

fn u16_at(bytes: &[u8], at: usize) -> usize {
    usize::from(u16::from_le_bytes([bytes[at], bytes[at + 1]]))
}

fn doubles(bytes: &[u8]) -> Vec<f64> {
    (0..bytes.len())
        .step_by(8)
        .map(|at| double(bytes, at))
        .collect()
}

/// Reads a PMF file; nothing where it is none.
fn read_run(path: &str) -> Option<Run> {
    let file = std::fs::read(path).ok()?;
    if file.len() < HEADER || !file.starts_with(b"PMF\x01\x00") {
        return None;
    }
    let (m, mode, n) = (usize::from(file[5]), file[6], u16_at(&file, 7));
    let size = HEADER + OF_TERM * m + OF_STAR * n;
    if !matches!(mode, 0 | 1 | 3) || m > TERMS || n > STARS || file.len() != size {
        return None;
    }
    let (terms, stars) = file[HEADER..].split_at(OF_TERM * m);
    let stars: Vec<&[u8]> = stars.chunks(OF_STAR).collect();
    Some(Run {
        mode,
        names: terms[..16 * m].to_vec(),
        fixed: terms[16 * m..17 * m].to_vec(),
        start: doubles(&terms[17 * m..]),
        dh: stars.iter().map(|star| double(star, 1)).collect(),
        dd: stars.iter().map(|star| double(star, 9)).collect(),
        pier: stars.iter().map(|star| star[0]).collect(),
        sheets: stars.iter().flat_map(|star| doubles(&star[17..])).collect(),
        sin_lat: double(&file, 9),
        cos_lat: double(&file, 17),
        fit_tol: double(&file, 25),
        options: FitOptions {
            max_iter: u16_at(&file, 73),
            tol_rad: double(&file, 33),
            initial_lambda: double(&file, 41),
            lambda_up: double(&file, 49),
            lambda_down: double(&file, 57),
            robust: mode == 3,
            huber_k: double(&file, 65),
        },
    })
}

/// Sigma is by stars, as version 1 of the file means it.
fn fit(run: &Run) -> Fit {
    let (m, n) = (run.start.len(), run.dh.len());
    let [mut coefficients, mut change, mut sigma] = [(); 3].map(|()| vec![0.0; m]);
    let mut buffers = Buffers {
        coefficients: &mut coefficients,
        change: &mut change,
        sigma: &mut sigma,
        diagnostics: &mut vec![0.0; 3 * n],
        scratch: &mut vec![0.0; pointing::scratch_length(m, n).length],
    };
    let lent = Lent {
        names: &run.names,
        fixed: &run.fixed,
        coefficients: &run.start,
        dh: &run.dh,
        dd: &run.dd,
        pier: &run.pier,
        sheets: &run.sheets,
        sin_lat: run.sin_lat,
        cos_lat: run.cos_lat,
        fit_tol: run.fit_tol,
        sigma_by: BY_STARS,
    };
    let answer = match run.mode {
        0 => pointing::fit_model(&lent, &mut buffers),
        _ => pointing::fit_model_iterated(&lent, run.options, &mut buffers),
    };
    Fit {
        answer,
        coefficients,
        sigma,
    }
}

/// The name in a slot as it is stored.
fn stored(slot: &[u8]) -> String {
    let name = pointing::read_term(slot).name;
    String::from_utf8_lossy(&name).trim_end_matches('\0').into()
}

/// The listing's word for a term: `pier` where it turns with the pier side, `both` where both sides have the same.
fn word(pier_sensitive: bool) -> &'static str {
    match pier_sensitive {
        true => "pier",
        false => "both",
    }
}

fn print_fit(run: &Run, fit: &Fit) {
    let answer = &fit.answer;
    println!(
        "{} free, rank {}, {} iterations, {}, {} sweeps, {}",
        answer.n_free,
        answer.rank,
        answer.iterations,
        match answer.converged {
            true => "converged",
            false => "not converged",
        },
        answer.sweeps,
        match answer.settled {
            true => "settled",
            false => "not settled",
        }
    );
    if !answer.settled {
        let sweeps = answer.sweeps;
        println!("look at this fit with care: after {sweeps} sweeps, the most, its terms were still being told apart");
    }
    println!(
        "{:<16} {:>14} {:>14}   {:<33} sides",
        "term", "coefficient", "sigma", "their bits"
    );
    let line = |name: &str, a: f64, b: f64| {
        let (x, y) = (a.to_bits(), b.to_bits());
        format!("{name:<16} {a:>14.6} {b:>14.6}   {x:016x} {y:016x}")
    };
    for (j, slot) in run.names.chunks(NAME).enumerate() {
        let numbers = line(&stored(slot), fit.coefficients[j], fit.sigma[j]);
        let sides = word(pointing::read_term(slot).pier_sensitive);
        println!("{numbers} {sides}");
    }
    println!("{}", line("sky", answer.sky_rms, answer.popn_sd));
}

/// The sheet of an hour angle and a declination, in radians.
fn sheet(h: f64, dec: f64) -> [f64; SHEET] {
    let mut sheet = [0.0; SHEET];
    for k in 0..9 {
        let times = (k + 1) as f64;
        (sheet[2 * k], sheet[2 * k + 1]) = ((times * h).sin(), (times * h).cos());
        (sheet[18 + 2 * k], sheet[19 + 2 * k]) = ((times * dec).sin(), (times * dec).cos());
    }
    sheet[36] = dec.tan();
    sheet
}

/// Where the mount is to be sent for a field: the correction, and what each term adds to it.
fn point_at(run: &Run, coefficients: &[f64], hours: f64, degrees: f64, side: &str) -> ExitCode {
    let degree = std::f64::consts::PI / 180.0;
    let point = Point {
        sheet: &sheet(hours * 15.0 * degree, degrees * degree),
        sin_lat: run.sin_lat,
        cos_lat: run.cos_lat,
        pier: match side {
            "east" => 1,
            "west" => 2,
            _ => 0,
        },
    };
    let sum = pointing::apply_equatorial(&run.names, coefficients, &point);
    let parts = pointing::predict_breakdown(&run.names, coefficients, &point);
    if sum.refusal != 0 || parts.refusal != 0 {
        let number = sum.refusal;
        println!("not pointed: {number}, {}", REFUSALS[usize::from(number)]);
        return ExitCode::FAILURE;
    }
    println!("at hour angle {hours:.4} h, declination {degrees:.4} deg, pier {side}: arcseconds in hour angle and declination");
    println!("(pier: the other sign from the other side; both: the same from both sides)");
    for (j, slot) in run.names.chunks(NAME).enumerate() {
        println!(
            "{:<16} {:>14.6} {:>14.6} {}",
            stored(slot),
            parts.dh[j],
            parts.dd[j],
            word(parts.pier_sensitive[j])
        );
    }
    println!("{:<16} {:>14.6} {:>14.6}", "together", sum.dh, sum.dd);
    println!(
        "send the mount to hour angle {:.6} h, declination {:.6} deg",
        hours + sum.dh / 54_000.0,
        degrees + sum.dd / 3_600.0
    );
    ExitCode::SUCCESS
}

fn main() -> ExitCode {
    let args: Vec<String> = std::env::args().skip(1).collect();
    let (path, hours, degrees, side) = match &args[..] {
        [path] => (path, -2.5, 41.3, "east"),
        [path, hours, degrees, side] => {
            let number = |word: &str| word.parse().unwrap_or(0.0);
            (path, number(hours), number(degrees), side.as_str())
        }
        _ => {
            eprintln!("controller FILE.pmf [HOURS DEGREES east|west|unknown]");
            return ExitCode::from(2);
        }
    };
    if !pointing::default_environment() {
        println!("not fitted: the floating-point environment is not the default one: rounding, flushed subnormals or traps");
        return ExitCode::FAILURE;
    }
    let Some(run) = read_run(path) else {
        println!("{path} is no PMF file");
        return ExitCode::FAILURE;
    };
    let (m, n) = (run.start.len(), run.dh.len());
    let asked = pointing::scratch_length(m, n).length;
    println!("{path}: {m} terms, {n} stars, {asked} doubles of scratch");
    let fit = fit(&run);
    if fit.answer.refusal != 0 {
        let number = fit.answer.refusal;
        println!("refused: {number}, {}", REFUSALS[usize::from(number)]);
        return ExitCode::FAILURE;
    }
    print_fit(&run, &fit);
    point_at(&run, &fit.coefficients, hours, degrees, side)
}
