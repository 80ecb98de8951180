//! The static library for Rust: the C declarations of `include/pointing.h`, and the same calls over slices. A program takes this file in with
//! `#[path]` and links `target/staticlib/libexports.a`.
//!
//! The library counts on the floating-point environment that a program starts with: rounding to nearest, subnormals kept, no exception trapped. In another
//! one the bits of the answers differ, and a trap ends the program. Rust itself takes the default for granted, but C code in the same program, or the
//! linker's `-ffast-math`, may change it: `default_environment` tells, and is to be called before a fit or a correction where that can be.

#![allow(dead_code)]

/// Bytes of a name slot.
pub const NAME: usize = 16;
/// Numbers of a sheet: sin and cos of k·h for k = 1 to 9, the same for k·dec, then tan dec.
pub const SHEET: usize = 37;
/// The most terms and stars of a fit.
pub const MAX_TERMS: usize = 32;
pub const MAX_STARS: usize = 1024;
/// How a fit's sigma divides, `sigma_by`: by stars less rank, or by rows less rank, a star having two; by at least 1.
pub const BY_STARS: u8 = 0;
pub const BY_ROWS: u8 = 1;

/// How much scratch a fit asks. `refusal` is 1 and `length` 0 where there are too many terms or stars.
#[repr(C)]
#[derive(Debug, Clone, Copy, PartialEq, Eq)]
pub struct Scratch {
    pub refusal: u8,
    pub length: usize,
}

/// What a name is read as; all 0 and false but `refusal` where it is refused.
#[repr(C)]
#[derive(Debug, Clone, Copy, PartialEq, Eq)]
pub struct Term {
    pub refusal: u8,
    /// IH ID CH NP MA ME TF TX TXN DAF FO HCES HCEC DCES DCEC are 0 to 14, a harmonic 15.
    pub kind: u8,
    /// TXN's number.
    pub number: u8,
    /// A harmonic's result: H D X P A E Z S are 0 to 7.
    pub result: u8,
    /// How many components a harmonic has.
    pub count: u8,
    /// The name as stored.
    pub name: [u8; NAME],
    /// sin 0, cos 1.
    pub functions: [u8; 7],
    /// H D A E Z are 0 to 4.
    pub coordinates: [u8; 7],
    pub frequencies: [u8; 7],
    /// The Jacobian turns with the pier side: ID, CH, NP and the harmonics of result P.
    pub pier_sensitive: bool,
}

/// An hour-angle and a declination number.
#[repr(C)]
#[derive(Debug, Clone, Copy)]
pub struct Pair {
    pub refusal: u8,
    pub dh: f64,
    pub dd: f64,
}

/// Each term's contributions and whether they turn with the pier side, as `read_term` has it of the name; then zeros and false.
#[repr(C)]
#[derive(Debug, Clone, Copy)]
pub struct Breakdown {
    pub refusal: u8,
    pub dh: [f64; MAX_TERMS],
    pub dd: [f64; MAX_TERMS],
    pub pier_sensitive: [bool; MAX_TERMS],
}

/// The options of the iterated fit.
#[repr(C)]
#[derive(Debug, Clone, Copy)]
pub struct FitOptions {
    /// The most trials; usual is 50.
    pub max_iter: usize,
    /// Converged where a kept step is shorter, in radians; 1e-6.
    pub tol_rad: f64,
    /// The first damping; 1e-3.
    pub initial_lambda: f64,
    /// The factor after a rejected step; 10.
    pub lambda_up: f64,
    /// The divisor after a kept step; 10.
    pub lambda_down: f64,
    /// Weigh rows by Huber's rule: a star's hour angle and its declination each for itself.
    pub robust: bool,
    /// Its constant; 1.345.
    pub huber_k: f64,
}

/// A fit's numbers; what it says of single terms and stars is in the buffers. The single step says `iterations` 1, `converged` true, `final_lambda` 0
/// and `final_step_norm` 0.
#[repr(C)]
#[derive(Debug, Clone, Copy)]
pub struct FitAnswer {
    pub refusal: u8,
    pub sky_rms: f64,
    pub popn_sd: f64,
    /// Free terms.
    pub n_free: usize,
    /// How many of them the stars tell apart.
    pub rank: usize,
    /// The largest singular value of the last solve, its columns scaled to length 1.
    pub sigma_max: f64,
    /// The smallest.
    pub sigma_min: f64,
    /// `fit_tol` as lent.
    pub tol: f64,
    /// Trials, without the last undamped one.
    pub iterations: usize,
    /// A kept step was shorter than `tol_rad`.
    pub converged: bool,
    /// The damping that the next trial would have had.
    pub final_lambda: f64,
    /// The length of the last step that was kept before the undamped trial, in radians; +infinity where none was.
    pub final_step_norm: f64,
    /// Sweeps that the last undamped solve's factorisation made, the one without a turn included; 1 to 30.
    pub sweeps: usize,
    /// The last sweep had no turn; false only after 30, the columns still being turned: look at the fit with care.
    pub settled: bool,
}

// The calls ask nothing of their caller but the default environment, and that each pointer leads to as many values as it says; one of length 0 is
// neither read nor written.
extern "C" {
    fn pointing_sqrt(x: f64) -> f64;
    fn pointing_scratch_length(m: usize, n: usize) -> Scratch;
    fn pointing_read_term(slot: *const u8, slot_len: usize) -> Term;
    fn pointing_jacobian(
        name: *const u8,
        name_len: usize,
        sheet: *const f64,
        sheet_len: usize,
        sin_lat: f64,
        cos_lat: f64,
        pier: u8,
    ) -> Pair;
    fn pointing_apply_equatorial(
        names: *const u8,
        names_len: usize,
        coefficients: *const f64,
        coefficients_len: usize,
        sheet: *const f64,
        sheet_len: usize,
        sin_lat: f64,
        cos_lat: f64,
        pier: u8,
    ) -> Pair;
    fn pointing_predict_breakdown(
        names: *const u8,
        names_len: usize,
        coefficients: *const f64,
        coefficients_len: usize,
        sheet: *const f64,
        sheet_len: usize,
        sin_lat: f64,
        cos_lat: f64,
        pier: u8,
    ) -> Breakdown;
    fn pointing_fit_model(
        names: *const u8,
        names_len: usize,
        fixed: *const u8,
        fixed_len: usize,
        coefficients: *const f64,
        coefficients_len: usize,
        dh: *const f64,
        dh_len: usize,
        dd: *const f64,
        dd_len: usize,
        pier: *const u8,
        pier_len: usize,
        sheets: *const f64,
        sheets_len: usize,
        sin_lat: f64,
        cos_lat: f64,
        fit_tol: f64,
        sigma_by: u8,
        out: *mut f64,
        out_len: usize,
        change: *mut f64,
        change_len: usize,
        sigma: *mut f64,
        sigma_len: usize,
        diagnostics: *mut f64,
        diagnostics_len: usize,
        scratch: *mut f64,
        scratch_len: usize,
    ) -> FitAnswer;
    fn pointing_fit_model_iterated(
        names: *const u8,
        names_len: usize,
        fixed: *const u8,
        fixed_len: usize,
        coefficients: *const f64,
        coefficients_len: usize,
        dh: *const f64,
        dh_len: usize,
        dd: *const f64,
        dd_len: usize,
        pier: *const u8,
        pier_len: usize,
        sheets: *const f64,
        sheets_len: usize,
        sin_lat: f64,
        cos_lat: f64,
        fit_tol: f64,
        sigma_by: u8,
        options: FitOptions,
        out: *mut f64,
        out_len: usize,
        change: *mut f64,
        change_len: usize,
        sigma: *mut f64,
        sigma_len: usize,
        diagnostics: *mut f64,
        diagnostics_len: usize,
        scratch: *mut f64,
        scratch_len: usize,
    ) -> FitAnswer;
}

/// What a fit is lent to read.
#[derive(Debug, Clone, Copy)]
pub struct Lent<'a> {
    pub names: &'a [u8],
    /// 0 free, 1 fixed. A fixed term's coefficient stays what it is: the iterated fit keeps its bits, the single step adds 0 to it, so that -0
    /// becomes +0.
    pub fixed: &'a [u8],
    pub coefficients: &'a [f64],
    pub dh: &'a [f64],
    pub dd: &'a [f64],
    pub pier: &'a [u8],
    pub sheets: &'a [f64],
    pub sin_lat: f64,
    pub cos_lat: f64,
    /// A singular value counts where it is above `fit_tol` times the largest, or above 0 where `fit_tol` is not above 0.
    pub fit_tol: f64,
    /// `BY_STARS` or `BY_ROWS`; nothing but sigma changes with it.
    pub sigma_by: u8,
}

/// What a fit is lent to write.
#[derive(Debug)]
pub struct Buffers<'a> {
    pub coefficients: &'a mut [f64],
    pub change: &'a mut [f64],
    pub sigma: &'a mut [f64],
    pub diagnostics: &'a mut [f64],
    pub scratch: &'a mut [f64],
}

/// One point: its sheet, the latitude and the pier code.
#[derive(Debug, Clone, Copy)]
pub struct Point<'a> {
    pub sheet: &'a [f64],
    pub sin_lat: f64,
    pub cos_lat: f64,
    pub pier: u8,
}

/// Whether this thread has the floating-point environment that the library counts on, from MXCSR as `pointing_default_environment` of the header.
pub fn default_environment() -> bool {
    let mut mxcsr = 0u32;
    unsafe {
        std::arch::asm!("stmxcsr [{}]", in(reg) &mut mxcsr, options(nostack, preserves_flags));
    }
    mxcsr & 0xffc0 == 0x1f80
}

pub fn sqrt(x: f64) -> f64 {
    unsafe { pointing_sqrt(x) }
}

pub fn scratch_length(m: usize, n: usize) -> Scratch {
    unsafe { pointing_scratch_length(m, n) }
}

pub fn read_term(slot: &[u8]) -> Term {
    unsafe { pointing_read_term(slot.as_ptr(), slot.len()) }
}

pub fn jacobian(name: &[u8], point: &Point) -> Pair {
    unsafe {
        pointing_jacobian(
            name.as_ptr(),
            name.len(),
            point.sheet.as_ptr(),
            point.sheet.len(),
            point.sin_lat,
            point.cos_lat,
            point.pier,
        )
    }
}

pub fn apply_equatorial(names: &[u8], coefficients: &[f64], point: &Point) -> Pair {
    unsafe {
        pointing_apply_equatorial(
            names.as_ptr(),
            names.len(),
            coefficients.as_ptr(),
            coefficients.len(),
            point.sheet.as_ptr(),
            point.sheet.len(),
            point.sin_lat,
            point.cos_lat,
            point.pier,
        )
    }
}

pub fn predict_breakdown(names: &[u8], coefficients: &[f64], point: &Point) -> Breakdown {
    unsafe {
        pointing_predict_breakdown(
            names.as_ptr(),
            names.len(),
            coefficients.as_ptr(),
            coefficients.len(),
            point.sheet.as_ptr(),
            point.sheet.len(),
            point.sin_lat,
            point.cos_lat,
            point.pier,
        )
    }
}

pub fn fit_model(lent: &Lent, buffers: &mut Buffers) -> FitAnswer {
    unsafe {
        pointing_fit_model(
            lent.names.as_ptr(),
            lent.names.len(),
            lent.fixed.as_ptr(),
            lent.fixed.len(),
            lent.coefficients.as_ptr(),
            lent.coefficients.len(),
            lent.dh.as_ptr(),
            lent.dh.len(),
            lent.dd.as_ptr(),
            lent.dd.len(),
            lent.pier.as_ptr(),
            lent.pier.len(),
            lent.sheets.as_ptr(),
            lent.sheets.len(),
            lent.sin_lat,
            lent.cos_lat,
            lent.fit_tol,
            lent.sigma_by,
            buffers.coefficients.as_mut_ptr(),
            buffers.coefficients.len(),
            buffers.change.as_mut_ptr(),
            buffers.change.len(),
            buffers.sigma.as_mut_ptr(),
            buffers.sigma.len(),
            buffers.diagnostics.as_mut_ptr(),
            buffers.diagnostics.len(),
            buffers.scratch.as_mut_ptr(),
            buffers.scratch.len(),
        )
    }
}

pub fn fit_model_iterated(lent: &Lent, options: FitOptions, buffers: &mut Buffers) -> FitAnswer {
    unsafe {
        pointing_fit_model_iterated(
            lent.names.as_ptr(),
            lent.names.len(),
            lent.fixed.as_ptr(),
            lent.fixed.len(),
            lent.coefficients.as_ptr(),
            lent.coefficients.len(),
            lent.dh.as_ptr(),
            lent.dh.len(),
            lent.dd.as_ptr(),
            lent.dd.len(),
            lent.pier.as_ptr(),
            lent.pier.len(),
            lent.sheets.as_ptr(),
            lent.sheets.len(),
            lent.sin_lat,
            lent.cos_lat,
            lent.fit_tol,
            lent.sigma_by,
            options,
            buffers.coefficients.as_mut_ptr(),
            buffers.coefficients.len(),
            buffers.change.as_mut_ptr(),
            buffers.change.len(),
            buffers.sigma.as_mut_ptr(),
            buffers.sigma.len(),
            buffers.diagnostics.as_mut_ptr(),
            buffers.diagnostics.len(),
            buffers.scratch.as_mut_ptr(),
            buffers.scratch.len(),
        )
    }
}
