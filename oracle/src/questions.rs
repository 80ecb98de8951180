//! docs/SCOPE.md 10: the public calls. A "no" gives the number and nothing else, and no lent byte
//! changes.

use crate::error::Result;
use crate::model::PointingModel;
use crate::observation::{Observation, PierSide};
use crate::sheet::{Latitude, Sheet, SHEET};
use crate::solver::{self, FitInputs, FitResult, IterOptions, SigmaBy};
use crate::terms::{create_term, Term};

pub const NAME: usize = 16;
pub const MAX_TERMS: usize = 32;
pub const MAX_STARS: usize = 1024;
pub const MAX_ITER: usize = 1000;

/// The codes of what sigma's divisor counts.
pub const BY_STARS: u8 = 0;
pub const BY_ROWS: u8 = 1;

fn ask(yes: bool, number: u8) -> Result<()> {
    if yes {
        Ok(())
    } else {
        Err(number)
    }
}

fn finite(numbers: &[f64]) -> bool {
    numbers.iter().all(|x| x.is_finite())
}

/// Question 7: the name in a slot of 1 to 16 bytes below 128, none zero, then zeros.
fn slot_name(slot: &[u8]) -> Result<&str> {
    let len = slot.iter().position(|&b| b == 0).unwrap_or(slot.len());
    let (name, rest) = slot.split_at(len);
    ask(
        !name.is_empty() && name.iter().all(|&b| b < 128) && rest.iter().all(|&b| b == 0),
        7,
    )?;
    Ok(std::str::from_utf8(name).expect("bytes below 128"))
}

/// Questions 7 to 10, put to one slot of 16 bytes.
fn slot_term(slot: &[u8]) -> Result<Box<dyn Term>> {
    create_term(slot_name(slot)?)
}

/// Questions 7 to 10, put to one name before the next, lowest slot first.
fn slot_terms(names: &[u8]) -> Result<Vec<Box<dyn Term>>> {
    names.chunks(NAME).map(slot_term).collect()
}

/// The stored name of a term, in its slot.
pub fn stored_name(term: &dyn Term) -> [u8; NAME] {
    let mut slot = [0; NAME];
    slot[..term.name().len()].copy_from_slice(term.name().as_bytes());
    slot
}

/// Reads a name: questions 2 and 7 to 10.
pub fn read_term(slot: &[u8]) -> Result<Box<dyn Term>> {
    ask(slot.len() == NAME, 2)?;
    slot_term(slot)
}

/// One point: its sheet, the latitude and the pier code.
#[derive(Debug, Clone, Copy)]
pub struct Point<'a> {
    pub sheet: &'a [f64],
    pub sin_lat: f64,
    pub cos_lat: f64,
    pub pier: u8,
}

impl Point<'_> {
    /// Questions 4 and 5.
    fn ask_values(&self) -> Result<()> {
        ask(
            finite(self.sheet) && self.sin_lat.is_finite() && self.cos_lat.is_finite(),
            4,
        )?;
        ask(PierSide::from_code(self.pier).is_some(), 5)
    }

    fn lent(&self) -> (Sheet, Latitude, f64) {
        let pier = PierSide::from_code(self.pier).expect("a pier code");
        let lat = Latitude {
            sin: self.sin_lat,
            cos: self.cos_lat,
        };
        (Sheet::from_slice(self.sheet), lat, pier.sign())
    }
}

/// The Jacobian pair of a name at one point: questions 2, 4, 5 and 7 to 10.
pub fn jacobian(slot: &[u8], point: &Point) -> Result<(f64, f64)> {
    ask(slot.len() == NAME && point.sheet.len() == SHEET, 2)?;
    point.ask_values()?;
    let term = slot_term(slot)?;
    let (sheet, lat, pier) = point.lent();
    Ok(term.jacobian_equatorial(&sheet, lat, pier))
}

/// What a fit is lent to read.
#[derive(Debug, Clone)]
pub struct Run {
    pub names: Vec<u8>,
    pub fixed: Vec<u8>,
    pub coefficients: Vec<f64>,
    pub dh: Vec<f64>,
    pub dd: Vec<f64>,
    pub piers: Vec<u8>,
    pub sheets: Vec<f64>,
    pub sin_lat: f64,
    pub cos_lat: f64,
    pub fit_tol: f64,
    pub sigma_by: u8,
}

/// What a fit is lent to write.
#[derive(Debug, Clone)]
pub struct Buffers {
    pub coefficients: Vec<f64>,
    pub change: Vec<f64>,
    pub sigma: Vec<f64>,
    pub diagnostics: Vec<f64>,
    pub scratch: Vec<f64>,
}

impl Buffers {
    /// Buffers of exactly the sizes that question 3 asks, filled with `x`.
    pub fn exact(m: usize, n: usize, x: f64) -> Self {
        Self {
            coefficients: vec![x; m],
            change: vec![x; m],
            sigma: vec![x; m],
            diagnostics: vec![x; 3 * n],
            scratch: vec![x; scratch_size(m, n)],
        }
    }
}

/// What question 3 asks of scratch: for each term a column of two rows for each star and three for
/// each term, and eight numbers for each star and each term.
pub fn scratch_size(m: usize, n: usize) -> usize {
    let column = 2 * n + 3 * m;
    m * column + 8 * (n + m)
}

/// What document 01 asked of it: the unscaled design besides, two numbers for each term and star.
pub fn scratch_size_with_design(m: usize, n: usize) -> usize {
    scratch_size(m, n) + 2 * m * n
}

impl Run {
    pub fn m(&self) -> usize {
        self.coefficients.len()
    }

    pub fn n(&self) -> usize {
        self.dh.len()
    }

    /// Questions 1 to 3.
    fn ask_shape(&self, buffers: &Buffers) -> Result<()> {
        let (m, n) = (self.m(), self.n());
        ask(m <= MAX_TERMS && n <= MAX_STARS, 1)?;
        ask(
            self.names.len() == NAME * m
                && self.fixed.len() == m
                && self.dd.len() == n
                && self.piers.len() == n
                && self.sheets.len() == SHEET * n,
            2,
        )?;
        ask(
            buffers.coefficients.len() >= m
                && buffers.change.len() >= m
                && buffers.sigma.len() >= m
                && buffers.diagnostics.len() >= 3 * n
                && buffers.scratch.len() >= scratch_size(m, n),
            3,
        )
    }

    /// Question 4, but for the options.
    fn ask_finite(&self) -> Result<()> {
        ask(
            finite(&self.coefficients)
                && finite(&self.dh)
                && finite(&self.dd)
                && finite(&self.sheets)
                && finite(&[self.sin_lat, self.cos_lat, self.fit_tol]),
            4,
        )
    }

    /// Question 5.
    fn ask_codes(&self) -> Result<()> {
        ask(
            self.piers.iter().all(|&p| p <= 2)
                && self.fixed.iter().all(|&f| f <= 1)
                && SigmaBy::from_code(self.sigma_by).is_some(),
            5,
        )
    }

    fn observations(&self) -> Vec<Observation> {
        (0..self.n())
            .map(|i| Observation {
                raw_dh: self.dh[i],
                raw_dd: self.dd[i],
                pier_side: PierSide::from_code(self.piers[i]).expect("a pier code"),
                sheet: Sheet::from_slice(&self.sheets[SHEET * i..SHEET * (i + 1)]),
            })
            .collect()
    }

    /// After questions 1 to 6: 7 to 10, then what is worked out from the inputs of a fit.
    pub fn with_inputs<T>(&self, work: impl FnOnce(&FitInputs) -> Result<T>) -> Result<T> {
        let terms = slot_terms(&self.names)?;
        let observations = self.observations();
        let observations: Vec<&Observation> = observations.iter().collect();
        let fixed: Vec<bool> = self.fixed.iter().map(|&f| f == 1).collect();
        let latitude = Latitude {
            sin: self.sin_lat,
            cos: self.cos_lat,
        };
        work(&FitInputs {
            observations: &observations,
            terms: &terms,
            fixed: &fixed,
            coefficients: &self.coefficients,
            latitude,
            fit_tol: self.fit_tol,
            sigma_by: SigmaBy::from_code(self.sigma_by).expect("a choice"),
        })
    }

    /// Questions 7 to 10, then the fit, which puts 11 to 13.
    fn fit(&self, options: Option<&IterOptions>) -> Result<FitResult> {
        self.with_inputs(|inputs| match options {
            Some(options) => solver::fit_model_iterated(inputs, options),
            None => solver::fit_model(
                inputs.observations,
                inputs.terms,
                inputs.fixed,
                inputs.coefficients,
                inputs.latitude,
                inputs.fit_tol,
                inputs.sigma_by,
            ),
        })
    }
}

/// Question 4 put to the options.
fn finite_options(options: &IterOptions) -> bool {
    finite(&[
        options.tol_rad,
        options.initial_lambda,
        options.lambda_up,
        options.lambda_down,
        options.huber_k,
    ])
}

/// Writes an accepted fit: the answer's places, and zeros in scratch's required part.
fn write(fit: &FitResult, buffers: &mut Buffers) {
    let (m, n) = (fit.coefficients.len(), fit.diagnostics.len());
    buffers.coefficients[..m].copy_from_slice(&fit.coefficients);
    buffers.change[..m].copy_from_slice(&fit.change);
    buffers.sigma[..m].copy_from_slice(&fit.sigma);
    for (i, d) in fit.diagnostics.iter().enumerate() {
        buffers.diagnostics[3 * i] = d.residual_sky;
        buffers.diagnostics[3 * i + 1] = d.leverage;
        buffers.diagnostics[3 * i + 2] = d.studentized;
    }
    buffers.scratch[..scratch_size(m, n)].fill(0.0);
}

/// The single-step fit: questions 1 to 5 and 7 to 13.
pub fn fit_model(run: &Run, buffers: &mut Buffers) -> Result<FitResult> {
    run.ask_shape(buffers)?;
    run.ask_finite()?;
    run.ask_codes()?;
    let fit = run.fit(None)?;
    write(&fit, buffers);
    Ok(fit)
}

/// The iterated fit, robust or not: questions 1 to 13.
pub fn fit_model_iterated(
    run: &Run,
    options: &IterOptions,
    buffers: &mut Buffers,
) -> Result<FitResult> {
    run.ask_shape(buffers)?;
    run.ask_finite()?;
    ask(finite_options(options), 4)?;
    run.ask_codes()?;
    ask(options.max_iter <= MAX_ITER, 6)?;
    let fit = run.fit(Some(options))?;
    write(&fit, buffers);
    Ok(fit)
}

/// The fit of the file program: the questions are put to every field in every mode.
pub fn fit_file(run: &Run, options: &IterOptions, iterated: bool) -> Result<FitResult> {
    run.ask_finite()?;
    ask(finite_options(options), 4)?;
    run.ask_codes()?;
    ask(options.max_iter <= MAX_ITER, 6)?;
    run.fit(iterated.then_some(options))
}

/// A model as a value that anyone can make: in 32 places stored names, coefficients, and whether
/// terms are pier sensitive.
#[derive(Debug, Clone)]
pub struct Model {
    pub count: usize,
    pub names: [[u8; NAME]; MAX_TERMS],
    pub coefficients: [f64; MAX_TERMS],
    pub pier_sensitive: [bool; MAX_TERMS],
}

impl Default for Model {
    fn default() -> Self {
        Self {
            count: 0,
            names: [[0; NAME]; MAX_TERMS],
            coefficients: [0.0; MAX_TERMS],
            pier_sensitive: [false; MAX_TERMS],
        }
    }
}

impl Model {
    /// Question 1; the names and coefficients of its terms.
    fn terms(&self) -> Result<LentModel<'_>> {
        ask(self.count <= MAX_TERMS, 1)?;
        Ok(LentModel {
            names: self.names[..self.count].as_flattened(),
            coefficients: &self.coefficients[..self.count],
        })
    }

    /// Keeps of each term whether it is pier sensitive, as the source has it.
    fn flag(&mut self, source: &PointingModel) {
        for (flag, term) in self.pier_sensitive.iter_mut().zip(source.terms()) {
            *flag = term.pier_sensitive();
        }
    }
}

/// The model with a term: 1, 2 of the name, 4 of the coefficients, 7 to 10 of the model's names and
/// then of the new one, 14. The source's own `add_term` says whether the term is there already.
pub fn add_term(model: &Model, slot: &[u8]) -> Result<Model> {
    let terms = model.terms()?;
    ask(slot.len() == NAME, 2)?;
    ask(finite(terms.coefficients), 4)?;
    let mut source = terms.source()?;
    source.add_term(slot_name(slot)?)?;
    let mut out = model.clone();
    if source.term_count() > model.count {
        out.names[model.count] = stored_name(source.terms()[model.count].as_ref());
        out.coefficients[model.count] = source.coefficients()[model.count];
        out.count = source.term_count();
    }
    out.flag(&source);
    Ok(out)
}

/// The model with new coefficients: 1, 2 of the new ones, which the source's `set_coefficients` asks
/// too, 4 of the model's and of them, 7 to 10.
pub fn set_coefficients(model: &Model, coeffs: &[f64]) -> Result<Model> {
    let terms = model.terms()?;
    ask(coeffs.len() == model.count, 2)?;
    ask(finite(terms.coefficients) && finite(coeffs), 4)?;
    let mut source = terms.source()?;
    source.set_coefficients(coeffs)?;
    let mut out = model.clone();
    out.coefficients[..model.count].copy_from_slice(source.coefficients());
    out.flag(&source);
    Ok(out)
}

/// The correction at one point.
pub fn apply_equatorial(model: &Model, point: &Point) -> Result<(f64, f64)> {
    apply_equatorial_lent(&model.terms()?, point)
}

/// Two contributions per term at one point, and whether the term is pier sensitive.
pub fn predict_breakdown(model: &Model, point: &Point) -> Result<Vec<(f64, f64, bool)>> {
    predict_breakdown_lent(&model.terms()?, point)
}

/// A model as a caller lends it: a slot for each name, and a coefficient.
#[derive(Debug, Clone, Copy)]
pub struct LentModel<'a> {
    pub names: &'a [u8],
    pub coefficients: &'a [f64],
}

impl LentModel<'_> {
    /// Questions 1, 2, 4, 5 and 7 to 10, put to the model and a point together.
    fn read(&self, point: &Point) -> Result<PointingModel> {
        let m = self.coefficients.len();
        ask(m <= MAX_TERMS, 1)?;
        ask(
            self.names.len() == NAME * m && point.sheet.len() == SHEET,
            2,
        )?;
        ask(finite(self.coefficients), 4)?;
        point.ask_values()?;
        self.source()
    }

    /// Questions 7 to 10 of the names; the source's model.
    fn source(&self) -> Result<PointingModel> {
        let terms = slot_terms(self.names)?;
        Ok(PointingModel::of(terms, self.coefficients))
    }
}

/// The correction of a lent model at one point.
pub fn apply_equatorial_lent(model: &LentModel, point: &Point) -> Result<(f64, f64)> {
    let read = model.read(point)?;
    let (sheet, lat, pier) = point.lent();
    Ok(read.apply_equatorial(&sheet, lat, pier))
}

/// The same of a lent model.
pub fn predict_breakdown_lent(model: &LentModel, point: &Point) -> Result<Vec<(f64, f64, bool)>> {
    let read = model.read(point)?;
    let (sheet, lat, pier) = point.lent();
    let breakdown = read.predict_breakdown(&sheet, lat, pier);
    let terms = read.terms().iter().zip(breakdown);
    Ok(terms
        .map(|(term, (_, h, d))| (h, d, term.pier_sensitive()))
        .collect())
}

/// The numbers of scratch that a fit of m terms and n stars asks: question 1.
pub fn scratch_length(m: usize, n: usize) -> Result<usize> {
    ask(m <= MAX_TERMS && n <= MAX_STARS, 1)?;
    Ok(scratch_size(m, n))
}
