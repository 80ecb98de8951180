//! `pmf-make`: a text run to a PMF file.

use host::arguments::{called, ended, read_file, write_file, Arguments, Failure};
use host::{csv, fault, indat, make, pmf};
use std::process::ExitCode;

const HELP: &str = "\
pmf-make [--indat STARS.dat] [-o FILE.pmf] [RUN.csv]

Turns a text run into a PMF file for the fit. RUN.csv, or standard input, has one thing a line:

  latitude,+34 30 00               degrees, decimal or sexagesimal
  mode,iterated                    single, iterated (if not given) or robust
  max_iter,50                      also fit_tol, tol_rad, initial_lambda, lambda_up, lambda_down,
                                   huber_k; those not given have the Rust's defaults (fit_tol 1e-12)
  term,IH,free,0                   name, free or fixed, start in arcseconds; at most 16
  star,-2:15:00,+41 16 09,-2:14:57,+41 15 31,east
                                   hour angle and declination of the star, then as observed, and the
                                   pier side (east, west, unknown); hours and degrees; at most 100
  diff,-2:15:00,+41 16 09,45,-38,east
                                   the same with the differences observed - star in arcseconds
  # a comment

With --indat the latitude and the stars come from a TPOINT-style INDAT file and RUN.csv has the rest.
host/README.md describes both formats.

Exit code: 0 a file was written, 1 bad input, 2 bad usage.
";

fn run() -> Result<(), Failure> {
    let arguments = Arguments::read(std::env::args().skip(1), &["-o", "--indat"], 1)?;
    if arguments.help {
        return write_file(None, HELP.as_bytes());
    }
    let file = arguments.file(0);
    let of_csv = |fault| Failure::of(called(file), fault);
    let bytes = read_file(file)?;
    let draft = fault::text(&bytes).and_then(csv::read).map_err(of_csv)?;
    let run = match arguments.value("--indat") {
        None => make::from_csv(draft).map_err(of_csv)?,
        Some("-") if file == "-" => {
            return Err(Failure::Usage("both inputs can't be standard input".into()))
        }
        Some(stars) => {
            let bytes = read_file(stars)?;
            let indat = fault::text(&bytes)
                .and_then(indat::read)
                .map_err(|fault| Failure::of(called(stars), fault))?;
            make::with_indat(draft, indat).map_err(of_csv)?
        }
    };
    write_file(arguments.value("-o"), &pmf::encode(&run))
}

fn main() -> ExitCode {
    match run() {
        Ok(()) => ExitCode::SUCCESS,
        Err(failure) => ended("pmf-make", failure),
    }
}
