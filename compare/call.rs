//! A call of the library, and whether the oracle's answer and buffers are the same.

use crate::pointing::{self, FitAnswer, FitOptions, Pair};
use oracle::libm;
use oracle::questions::{self, LentModel, Run, BY_ROWS, BY_STARS, MAX_TERMS};
use oracle::solver::{FitResult, IterOptions};
use oracle::terms::Term;
use oracle::vectors::jacobians::Block;
use oracle::vectors::names::describe;
use oracle::vectors::random::Random;
use oracle::vectors::runs::{ROBUST, SINGLE};
use std::fmt::{Debug, Display};

/// A call of a fit. The buffers have `places` places, and hold what `fill` gives.
#[derive(Clone)]
pub struct Fit {
    pub mode: u8,
    pub run: Run,
    pub options: IterOptions,
    pub places: [usize; 5],
    pub fill: u64,
}

/// A model as names and coefficients.
#[derive(Clone)]
pub struct Model {
    pub names: Vec<u8>,
    pub coefficients: Vec<f64>,
}

#[derive(Clone)]
pub enum Call {
    Fit(Box<Fit>),
    Name(Vec<u8>),
    Jacobian(Vec<u8>, Block),
    Correction(Model, Block),
    Breakdown(Model, Block),
    Scratch(usize, usize),
    Root(f64),
}

/// What both sides answered: the refusal, 0 where there is none, and traits of the answer that are counted.
pub struct Seen {
    pub refusal: u8,
    pub traits: Vec<&'static str>,
}

type Checked<T> = Result<T, String>;

/// Equal bits, or both a NaN.
fn same(a: f64, b: f64) -> bool {
    a.to_bits() == b.to_bits() || (a.is_nan() && b.is_nan())
}

fn check<T: PartialEq + Debug>(what: impl Display, ours: T, theirs: T) -> Checked<()> {
    if ours == theirs {
        return Ok(());
    }
    Err(format!("{what}: library {ours:?}, oracle {theirs:?}"))
}

fn check_float(what: impl Display, ours: f64, theirs: f64) -> Checked<()> {
    if same(ours, theirs) {
        return Ok(());
    }
    let (a, b) = (ours.to_bits(), theirs.to_bits());
    Err(format!(
        "{what}: library {a:016x} ({ours:e}), oracle {b:016x} ({theirs:e})"
    ))
}

fn check_kept(what: impl Display, ours: f64, before: f64) -> Checked<()> {
    if ours.to_bits() == before.to_bits() {
        return Ok(());
    }
    let (a, b) = (ours.to_bits(), before.to_bits());
    Err(format!(
        "{what}: library {a:016x}, before the call {b:016x}"
    ))
}

impl Call {
    pub fn name(&self) -> &'static str {
        match self {
            Call::Fit(fit) => match fit.mode {
                SINGLE => "fit_model",
                ROBUST => "fit_model_iterated, robust",
                _ => "fit_model_iterated",
            },
            Call::Name(_) => "read_term",
            Call::Jacobian(..) => "jacobian",
            Call::Correction(..) => "apply_equatorial",
            Call::Breakdown(..) => "predict_breakdown",
            Call::Scratch(..) => "scratch_length",
            Call::Root(_) => "sqrt",
        }
    }

    /// Makes the call on both sides. An error says what differs.
    pub fn compare(&self) -> Checked<Seen> {
        match self {
            Call::Fit(fit) => fit.compare(),
            Call::Name(slot) => compare_name(slot),
            Call::Jacobian(slot, block) => {
                let pair = pointing::jacobian(slot, &point(block));
                compare_pair(pair, questions::jacobian(slot, &oracle_point(block)))
            }
            Call::Correction(model, block) => {
                let (names, coefficients) = (&model.names, &model.coefficients);
                let pair = pointing::apply_equatorial(names, coefficients, &point(block));
                let theirs = questions::apply_equatorial_lent(&lent(model), &oracle_point(block));
                compare_pair(pair, theirs)
            }
            Call::Breakdown(model, block) => compare_breakdown(model, block),
            Call::Scratch(m, n) => {
                let ours = pointing::scratch_length(*m, *n);
                let theirs = questions::scratch_length(*m, *n);
                let refusal = theirs.err().unwrap_or(0);
                check("refusal", ours.refusal, refusal)?;
                check("length", ours.length, theirs.unwrap_or(0))?;
                seen(refusal)
            }
            Call::Root(x) => {
                check_float("root", pointing::sqrt(*x), libm::sqrt(*x))?;
                seen(0)
            }
        }
    }
}

fn seen(refusal: u8) -> Checked<Seen> {
    Ok(Seen {
        refusal,
        traits: Vec::new(),
    })
}

fn point(block: &Block) -> pointing::Point<'_> {
    pointing::Point {
        sheet: &block.sheet,
        sin_lat: block.lat[0],
        cos_lat: block.lat[1],
        pier: block.pier,
    }
}

fn oracle_point(block: &Block) -> questions::Point<'_> {
    questions::Point {
        sheet: &block.sheet,
        sin_lat: block.lat[0],
        cos_lat: block.lat[1],
        pier: block.pier,
    }
}

fn lent(model: &Model) -> LentModel<'_> {
    LentModel {
        names: &model.names,
        coefficients: &model.coefficients,
    }
}

/// What the library should read a slot as.
fn expected_term(theirs: Result<Box<dyn Term>, u8>) -> pointing::Term {
    let mut expected = pointing::Term {
        refusal: theirs.as_ref().err().copied().unwrap_or(0),
        kind: 0,
        number: 0,
        result: 0,
        count: 0,
        name: [0; 16],
        functions: [0; 7],
        coordinates: [0; 7],
        frequencies: [0; 7],
        pier_sensitive: false,
    };
    if let Ok(term) = theirs {
        let description = describe(term.as_ref());
        expected.name = questions::stored_name(term.as_ref());
        [expected.kind, expected.number, expected.result] =
            [description[0], description[1], description[2]];
        expected.count = description[3];
        expected.pier_sensitive = description[4] == 1;
        for (i, component) in description[5..].chunks(3).enumerate() {
            expected.functions[i] = component[0];
            expected.coordinates[i] = component[1];
            expected.frequencies[i] = component[2];
        }
    }
    expected
}

fn compare_name(slot: &[u8]) -> Checked<Seen> {
    let ours = pointing::read_term(slot);
    let expected = expected_term(questions::read_term(slot));
    check("term", ours, expected)?;
    let traits: &[&'static str] = match (expected.refusal, expected.kind, expected.pier_sensitive) {
        (1.., ..) => &[],
        (0, 8, _) => &["TXN"],
        (0, 15, false) => &["harmonics"],
        (0, 15, true) => &["harmonics", "harmonics, pier sensitive"],
        (0, _, false) => &["fixed names"],
        (0, _, true) => &["fixed names", "fixed names, pier sensitive"],
    };
    Ok(Seen {
        refusal: expected.refusal,
        traits: traits.to_vec(),
    })
}

fn compare_pair(ours: Pair, theirs: Result<(f64, f64), u8>) -> Checked<Seen> {
    let refusal = theirs.err().unwrap_or(0);
    let (dh, dd) = theirs.unwrap_or((0.0, 0.0));
    check("refusal", ours.refusal, refusal)?;
    check_float("dh", ours.dh, dh)?;
    check_float("dd", ours.dd, dd)?;
    let nan = dh.is_nan() || dd.is_nan();
    Ok(Seen {
        refusal,
        traits: nan.then_some("not numbers").into_iter().collect(),
    })
}

fn compare_breakdown(model: &Model, block: &Block) -> Checked<Seen> {
    let ours = pointing::predict_breakdown(&model.names, &model.coefficients, &point(block));
    let theirs = questions::predict_breakdown_lent(&lent(model), &oracle_point(block));
    let refusal = theirs.as_ref().err().copied().unwrap_or(0);
    let parts = theirs.unwrap_or_default();
    check("refusal", ours.refusal, refusal)?;
    for j in 0..MAX_TERMS {
        let (dh, dd, flag) = parts.get(j).copied().unwrap_or((0.0, 0.0, false));
        check_float(format_args!("dh {j}"), ours.dh[j], dh)?;
        check_float(format_args!("dd {j}"), ours.dd[j], dd)?;
        let what = format_args!("pier_sensitive {j}");
        check(what, ours.pier_sensitive[j], flag)?;
    }
    let nan = parts.iter().any(|(h, d, _)| h.is_nan() || d.is_nan());
    let any = |sensitive: bool| parts.iter().any(|&(.., flag)| flag == sensitive);
    Ok(Seen {
        refusal,
        traits: chosen(&[
            (nan, "not numbers"),
            (parts.len() == MAX_TERMS, "32 terms"),
            (any(true), "pier-sensitive terms"),
            (any(true) && any(false), "pier-sensitive and other terms"),
        ]),
    })
}

fn chosen(traits: &[(bool, &'static str)]) -> Vec<&'static str> {
    let held = traits.iter().filter(|(held, _)| *held);
    held.map(|(_, name)| *name).collect()
}

const BUFFERS: [&str; 5] = ["coefficients", "change", "sigma", "diagnostics", "scratch"];

/// Places before and behind each buffer that the library must leave alone.
const MARGIN: usize = 4;

/// What a buffer with its margins holds before the call: any bits, one in five a NaN of some kind.
fn filled(fill: u64, buffer: usize, places: usize) -> Vec<f64> {
    let mut random = Random::new(fill.wrapping_add((buffer as u64) << 56));
    (0..places + 2 * MARGIN)
        .map(|i| match (random.bits(), i % 5) {
            (bits, 2) => f64::from_bits(bits | 0x7ff0_0000_0000_0001),
            (bits, _) => f64::from_bits(bits),
        })
        .collect()
}

fn inner(cells: &mut [f64]) -> &mut [f64] {
    let end = cells.len() - MARGIN;
    &mut cells[MARGIN..end]
}

impl Fit {
    fn required(&self) -> [usize; 5] {
        let (m, n) = (self.run.m(), self.run.n());
        [m, m, m, 3 * n, questions::scratch_size(m, n)]
    }

    fn lent(&self) -> pointing::Lent<'_> {
        let run = &self.run;
        pointing::Lent {
            names: &run.names,
            fixed: &run.fixed,
            coefficients: &run.coefficients,
            dh: &run.dh,
            dd: &run.dd,
            pier: &run.piers,
            sheets: &run.sheets,
            sin_lat: run.sin_lat,
            cos_lat: run.cos_lat,
            fit_tol: run.fit_tol,
            sigma_by: run.sigma_by,
        }
    }

    /// The library's answer, what it left in the buffers with their margins, and a fault if it changed what it was lent to read.
    fn ours(&self, before: &[Vec<f64>; 5]) -> Checked<(FitAnswer, [Vec<f64>; 5])> {
        let mut cells = before.clone();
        let [coefficients, change, sigma, diagnostics, scratch] = &mut cells;
        let mut buffers = pointing::Buffers {
            coefficients: inner(coefficients),
            change: inner(change),
            sigma: inner(sigma),
            diagnostics: inner(diagnostics),
            scratch: inner(scratch),
        };
        let copy = self.run.clone();
        let options = &self.options;
        let answer = match self.mode {
            SINGLE => pointing::fit_model(&self.lent(), &mut buffers),
            _ => pointing::fit_model_iterated(
                &self.lent(),
                FitOptions {
                    max_iter: options.max_iter,
                    tol_rad: options.tol_rad,
                    initial_lambda: options.initial_lambda,
                    lambda_up: options.lambda_up,
                    lambda_down: options.lambda_down,
                    robust: options.robust,
                    huber_k: options.huber_k,
                },
                &mut buffers,
            ),
        };
        let run = &self.run;
        let bits = |list: &[f64]| -> Vec<u64> { list.iter().map(|x| x.to_bits()).collect() };
        let kept = copy.names == run.names
            && copy.fixed == run.fixed
            && copy.piers == run.piers
            && bits(&copy.coefficients) == bits(&run.coefficients)
            && bits(&copy.dh) == bits(&run.dh)
            && bits(&copy.dd) == bits(&run.dd)
            && bits(&copy.sheets) == bits(&run.sheets);
        match kept {
            true => Ok((answer, cells)),
            false => Err("the library changed what it was lent to read".into()),
        }
    }

    fn theirs(&self, before: &[Vec<f64>; 5]) -> (Result<FitResult, u8>, [Vec<f64>; 5]) {
        let [coefficients, change, sigma, diagnostics, scratch] = before
            .each_ref()
            .map(|cells| cells[MARGIN..cells.len() - MARGIN].to_vec());
        let mut buffers = questions::Buffers {
            coefficients,
            change,
            sigma,
            diagnostics,
            scratch,
        };
        let answer = match self.mode {
            SINGLE => questions::fit_model(&self.run, &mut buffers),
            _ => questions::fit_model_iterated(&self.run, &self.options, &mut buffers),
        };
        let after = [
            buffers.coefficients,
            buffers.change,
            buffers.sigma,
            buffers.diagnostics,
            buffers.scratch,
        ];
        (answer, after)
    }

    fn compare(&self) -> Checked<Seen> {
        let before: [Vec<f64>; 5] = std::array::from_fn(|b| filled(self.fill, b, self.places[b]));
        let (ours, after) = self.ours(&before)?;
        let (theirs, oracle_after) = self.theirs(&before);
        check_answer(&ours, &theirs)?;
        let written = match theirs {
            Ok(_) => self.required(),
            Err(_) => [0; 5],
        };
        for b in 0..5 {
            for (at, &ours) in after[b].iter().enumerate() {
                let place = at.wrapping_sub(MARGIN);
                if place < written[b] {
                    let what = format_args!("{} {place}", BUFFERS[b]);
                    check_float(what, ours, oracle_after[b][place])?;
                } else {
                    let (tail, places) = (written[b], self.places[b]);
                    let what = format_args!(
                        "{} {} ({tail} to write, {places} lent)",
                        BUFFERS[b], place as isize
                    );
                    check_kept(what, ours, before[b][at])?;
                }
            }
            for place in written[b]..self.places[b] {
                let kept = oracle_after[b][place].to_bits();
                assert_eq!(kept, before[b][place + MARGIN].to_bits());
            }
        }
        let refusal = theirs.as_ref().err().copied().unwrap_or(0);
        let mut traits = self.traits(&theirs, &oracle_after, written);
        traits.extend(self.unknown_choice(&before));
        Ok(Seen { refusal, traits })
    }

    /// What an unknown choice stands beside: the oracle's answer to the same call by stars.
    fn unknown_choice(&self, before: &[Vec<f64>; 5]) -> Option<&'static str> {
        if self.run.sigma_by <= BY_ROWS {
            return None;
        }
        let mut by_stars = self.clone();
        by_stars.run.sigma_by = BY_STARS;
        Some(match by_stars.theirs(before).0 {
            Ok(_) => "unknown choice alone",
            Err(1..=4) => "unknown choice, refused earlier",
            Err(5) => "unknown choice beside a wrong code",
            Err(_) => "unknown choice before a later refusal",
        })
    }

    fn traits(
        &self,
        answer: &Result<FitResult, u8>,
        after: &[Vec<f64>; 5],
        written: [usize; 5],
    ) -> Vec<&'static str> {
        let tails = (0..5).any(|b| self.places[b] > written[b]);
        let Ok(fit) = answer else {
            return chosen(&[(tails, "refused with buffers to keep")]);
        };
        let report = &fit.iter_report;
        let answers = (0..4).flat_map(|b| &after[b][..written[b]]);
        let nan = answers.into_iter().any(|x| x.is_nan()) || fit.sky_rms.is_nan();
        chosen(&[
            (tails, "accepted with tails"),
            (fit.rank_info.is_deficient(), "deficient"),
            (self.run.sigma_by == BY_STARS, "by stars"),
            (self.run.sigma_by == BY_ROWS, "by rows"),
            (nan, "not numbers"),
            (self.mode != SINGLE && report.converged, "converged"),
            (self.mode != SINGLE && !report.converged, "not converged"),
            (report.iterations >= 100, "100 iterations or more"),
            (fit.rank_info.n_free < self.run.m(), "with fixed terms"),
            (!fit.settled, "30 sweeps, not settled"),
            (fit.sweeps == 30 && fit.settled, "30 sweeps, settled"),
        ])
    }
}

fn check_answer(ours: &FitAnswer, theirs: &Result<FitResult, u8>) -> Checked<()> {
    let refusal = theirs.as_ref().err().copied().unwrap_or(0);
    check("refusal", ours.refusal, refusal)?;
    let (floats, counts, words) = match theirs {
        Err(_) => ([0.0; 7], [0; 4], [false; 2]),
        Ok(fit) => {
            let (rank, report) = (&fit.rank_info, &fit.iter_report);
            let floats = [
                fit.sky_rms,
                fit.popn_sd,
                rank.sigma_max,
                rank.sigma_min,
                rank.tol,
                report.final_lambda,
                report.final_step_norm,
            ];
            let counts = [rank.n_free, rank.rank, report.iterations, fit.sweeps];
            (floats, counts, [report.converged, fit.settled])
        }
    };
    check("n_free", ours.n_free, counts[0])?;
    check("rank", ours.rank, counts[1])?;
    check("iterations", ours.iterations, counts[2])?;
    check("sweeps", ours.sweeps, counts[3])?;
    check("converged", ours.converged, words[0])?;
    check("settled", ours.settled, words[1])?;
    let named = [
        ("sky_rms", ours.sky_rms),
        ("popn_sd", ours.popn_sd),
        ("sigma_max", ours.sigma_max),
        ("sigma_min", ours.sigma_min),
        ("tol", ours.tol),
        ("final_lambda", ours.final_lambda),
        ("final_step_norm", ours.final_step_norm),
    ];
    for ((what, ours), theirs) in named.into_iter().zip(floats) {
        check_float(what, ours, theirs)?;
    }
    Ok(())
}
