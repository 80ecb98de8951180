//! The records of `replay_fit` and `replay_iterated`.

use super::runs::{Case, Pool, ROBUST, SINGLE};
use super::sigma::ByRows;
use super::{put_doubles, Vectors};
use crate::demand3::demand3;
use crate::pmf::bits;
use crate::questions::{Run, BY_ROWS};
use crate::solver::{solves, tried, FitResult, IterOptions};

pub struct Records<'a> {
    pool: &'a Pool,
    stdin: Vec<u8>,
    fits: usize,
    refused: [usize; 14],
    deficient: usize,
    rows: ByRows,
    not_numbers: usize,
    thirty: usize,
    not_settled: usize,
    converged: usize,
    robust: usize,
    /// Iterated fits whose closing solve made another number of sweeps than each trial's, by whether
    /// its set was kept.
    apart: [usize; 2],
    /// The sets that demand 3 compared returned ones with.
    pub compared: usize,
}

fn put_u16(out: &mut Vec<u8>, numbers: &[usize]) {
    for &number in numbers {
        let number = u16::try_from(number).expect("16 bits");
        out.extend(number.to_le_bytes());
    }
}

fn put_u32(out: &mut Vec<u8>, number: usize) {
    out.extend((number as u32).to_le_bytes());
}

/// What the replaying program counts on.
fn assert_limits(case: &Case) {
    let (m, n) = (case.m(), case.n());
    assert!(m <= 40 && n <= 1100 && case.run.names.len() <= 700);
    assert!(case.run.names.len() <= 16 * m + 16 && case.run.fixed.len() <= m + 16);
    assert!(case.run.dd.len() <= n + 16 && case.run.piers.len() <= n + 16);
    assert!(case.sheet_numbers <= 41_000 && case.sheet_numbers <= 37 * n + 16);
    for (places, required) in case.places[..4].iter().zip(case.required()) {
        assert!(*places <= required + 16);
    }
    assert!(case.places[4] <= 150_000);
    assert!(case.run.sigma_by <= BY_ROWS);
}

/// What is lent: the counts, then the content.
fn put_case(out: &mut Vec<u8>, case: &Case) {
    assert_limits(case);
    let run = &case.run;
    out.push(case.mode);
    put_u16(out, &[case.m(), case.n(), run.names.len(), run.fixed.len()]);
    put_u16(out, &[run.dd.len(), run.piers.len()]);
    put_u32(out, case.sheet_numbers);
    put_u16(out, &case.places[..4]);
    put_u32(out, case.places[4]);
    out.extend(&run.names);
    out.extend(&run.fixed);
    put_doubles(out, &run.coefficients);
    put_doubles(out, &run.dh);
    put_doubles(out, &run.dd);
    out.extend(&run.piers);
    for sheet in &case.sheets {
        out.extend(sheet.to_le_bytes());
    }
    put_doubles(out, &[run.sin_lat, run.cos_lat, run.fit_tol]);
    out.push(run.sigma_by);
    let options = &case.options;
    put_doubles(out, &[options.tol_rad, options.initial_lambda]);
    put_doubles(out, &[options.lambda_up, options.lambda_down]);
    put_doubles(out, &[options.huber_k]);
    put_u16(out, &[options.max_iter]);
}

/// Every float of an answer.
fn floats(fit: &FitResult) -> Vec<f64> {
    let mut out = [&fit.coefficients[..], &fit.change, &fit.sigma].concat();
    for star in &fit.diagnostics {
        out.extend([star.residual_sky, star.leverage, star.studentized]);
    }
    let (rank, iter) = (&fit.rank_info, &fit.iter_report);
    out.extend([fit.sky_rms, fit.popn_sd]);
    out.extend([rank.sigma_max, rank.sigma_min, rank.tol]);
    out.extend([iter.final_lambda, iter.final_step_norm]);
    out
}

pub(super) fn put_fit(out: &mut Vec<u8>, fit: &FitResult) {
    let floats = floats(fit);
    let (lists, rest) = floats.split_at(floats.len() - 5);
    put_doubles(out, lists);
    out.extend([fit.rank_info.n_free as u8, fit.rank_info.rank as u8]);
    put_doubles(out, &rest[..3]);
    put_u16(out, &[fit.iter_report.iterations]);
    out.push(fit.iter_report.converged as u8);
    put_doubles(out, &rest[3..]);
    out.extend([fit.sweeps as u8, fit.settled as u8]);
}

/// Whether an iterated fit returned the set of its closing solve.
pub(super) fn closing_kept(run: &Run, options: &IterOptions, fit: &FitResult) -> bool {
    let sets = run.with_inputs(|inputs| tried(inputs, options));
    let sets = sets.expect("an accepted run");
    let of = |set: &[f64]| set.iter().map(|&x| bits(x)).collect::<Vec<_>>();
    of(&sets[sets.len() - 1]) == of(&fit.coefficients)
}

impl<'a> Records<'a> {
    pub fn new(pool: &'a Pool) -> Self {
        Self {
            pool,
            stdin: pool.head(),
            fits: 0,
            refused: [0; 14],
            deficient: 0,
            rows: ByRows::default(),
            not_numbers: 0,
            thirty: 0,
            not_settled: 0,
            converged: 0,
            robust: 0,
            apart: [0; 2],
            compared: 0,
        }
    }

    /// Holds the sweeps of an iterated fit to the solves worked out from its input alone.
    fn check_sweeps(&mut self, run: &Run, case: &Case, fit: &FitResult) {
        let made = run.with_inputs(|inputs| solves(inputs, &case.options));
        let made = made.expect("an accepted run");
        let (closing, trials) = made.split_last().expect("the closing solve");
        assert_eq!((fit.sweeps, fit.settled), (closing.sweeps, closing.settled));
        if !trials.is_empty() && trials.iter().all(|t| t.sweeps != closing.sweeps) {
            let kept = closing_kept(run, &case.options, fit);
            self.apart[kept as usize] += 1;
        }
    }

    /// Appends a call and its answer. One by rows is held to the same by stars; demand 3 is checked
    /// of an accepted iterated fit.
    pub fn add(&mut self, case: &Case) {
        put_case(&mut self.stdin, case);
        self.fits += 1;
        let run = case.lent(self.pool);
        let answer = case.call(&run);
        if run.sigma_by == BY_ROWS {
            self.rows.add(case, &run, &answer);
        }
        match answer {
            Err(number) => {
                self.stdin.push(number);
                self.refused[number as usize] += 1;
            }
            Ok(fit) => {
                self.stdin.push(0);
                put_fit(&mut self.stdin, &fit);
                put_u32(&mut self.stdin, case.required()[4]);
                self.refused[0] += 1;
                self.deficient += fit.rank_info.is_deficient() as usize;
                self.not_numbers += floats(&fit).iter().any(|x| x.is_nan()) as usize;
                self.thirty += (fit.sweeps == 30) as usize;
                self.not_settled += !fit.settled as usize;
                if case.mode != SINGLE {
                    self.converged += fit.iter_report.converged as usize;
                    self.robust += (case.mode == ROBUST) as usize;
                    self.compared += demand3(&run, &case.options, &fit).expect("demand 3");
                    self.check_sweeps(&run, case, &fit);
                }
            }
        }
    }

    /// What is read, and what is printed for calls that put the questions `asked`.
    pub fn vectors(self, name: &'static str, asked: &[usize], iterated: bool) -> Vectors {
        let mut stdout = format!("fits {}\ndone {}\n", self.fits, self.refused[0]);
        for &number in asked {
            assert!(self.refused[number] > 0, "refusal {number}");
            stdout += &format!("refused {number} {}\n", self.refused[number]);
        }
        let listed: usize = asked.iter().map(|&number| self.refused[number]).sum();
        assert_eq!(self.refused[0] + listed, self.fits);
        stdout += &format!("deficient {}\n", self.deficient);
        stdout += &format!("by rows {}\n", self.rows.accepted(asked, iterated));
        stdout += &format!("not numbers {}\n", self.not_numbers);
        // a 30th sweep with a turn, and one without
        assert!(0 < self.not_settled && self.not_settled < self.thirty);
        stdout += &format!("thirty sweeps {}\n", self.thirty);
        stdout += &format!("not settled {}\n", self.not_settled);
        if iterated {
            assert!(self.apart.iter().all(|&count| count > 0));
            stdout += &format!("converged {}\nrobust {}\n", self.converged, self.robust);
        }
        stdout += "different 0\n";
        Vectors {
            name,
            stdin: self.stdin,
            stdout,
        }
    }
}
