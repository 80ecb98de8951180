//! `pmf-card`: a listing and its PMF file to a card, and a plot of the residuals.

use host::arguments::{called, ended, read_file, write_file, Arguments, Failure};
use host::fault::{self, Fault};
use host::listing::{self, Fit, Listing};
use host::{belongs, card, pmf, refusal, svg};
use std::path::Path;
use std::process::ExitCode;

const HELP: &str = "\
pmf-card [--svg PLOT.svg] [-o CARD.txt] FILE.pmf [LISTING]

Makes a card of the listing (a file, or standard input) that the fit printed of FILE.pmf: the
coefficients in arcseconds beside what each term means and whether it flips with the mount, how far
stars and model are apart, and whether the fit converged and its solution settled. It warns where
something is to be looked at. With --svg it also plots each star's residual on the sky.

  fit <FILE.pmf | pmf-card --svg PLOT.svg FILE.pmf

Exit code: 0 a card was made, 1 the listing is a refusal (the card says of what; no plot is made),
or bad input, 2 bad usage.
";

/// The name of a file without its folders.
fn base(file: &str) -> &str {
    Path::new(file)
        .file_name()
        .and_then(|name| name.to_str())
        .unwrap_or(file)
}

fn fitted(arguments: &Arguments, bytes: &[u8], fit: Fit) -> Result<(), Failure> {
    let (file, listing) = (arguments.file(0), arguments.file(1));
    let run = pmf::decode(bytes).map_err(|fault| Failure::of(file, Fault::whole(fault)))?;
    let fitted = belongs::pair(run, fit).map_err(|fault| Failure::of(called(listing), fault))?;
    write_file(
        arguments.value("-o"),
        card::card(base(file), &fitted).as_bytes(),
    )?;
    match arguments.value("--svg") {
        Some(plot) => write_file(Some(plot), svg::svg(base(file), &fitted).as_bytes()),
        None => Ok(()),
    }
}

fn refused(arguments: &Arguments, bytes: &[u8], number: u8) -> Result<(), Failure> {
    let file = arguments.file(0);
    let found = refusal::found(number, bytes);
    let card = refusal::card(base(file), number, found.as_deref());
    write_file(arguments.value("-o"), card.as_bytes())?;
    Err(Failure::Input(format!(
        "{file}: the fit refused it with number {number}"
    )))
}

fn run() -> Result<(), Failure> {
    let arguments = Arguments::read(std::env::args().skip(1), &["-o", "--svg"], 2)?;
    if arguments.help {
        return write_file(None, HELP.as_bytes());
    }
    if arguments.files.is_empty() || arguments.file(0) == "-" {
        return Err(Failure::Usage("expected the name of a PMF file".into()));
    }
    let bytes = read_file(arguments.file(0))?;
    let text = read_file(arguments.file(1))?;
    let listing = fault::text(&text)
        .and_then(listing::read)
        .map_err(|fault| Failure::of(called(arguments.file(1)), fault))?;
    match listing {
        Listing::Fit(fit) => fitted(&arguments, &bytes, fit),
        Listing::Refused(number) => refused(&arguments, &bytes, number),
    }
}

fn main() -> ExitCode {
    match run() {
        Ok(()) => ExitCode::SUCCESS,
        Err(failure) => ended("pmf-card", failure),
    }
}
