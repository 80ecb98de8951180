//! The solver of the static library beside plain Rust, both built for release: equal in every bit,
//! and timed in the same run.
mod plain;

use plain::{Columns, SolveOutcome};
use std::time::Instant;

#[repr(C)]
struct Sweeps {
    made: usize,
    settled: bool,
}

/// `linalg::SolveOutcome`, whose arrays have zeros past the columns.
#[repr(C)]
struct Outcome {
    x: [f64; 32],
    cov_diag: [f64; 32],
    rank: usize,
    sigma_max: f64,
    sigma_min: f64,
    inv_s: [f64; 32],
    order: [usize; 32],
    sweeps: usize,
    settled: bool,
}

// The Rattle calls are proved under conditions on the lengths, which `Lent` sees to.
extern "C" {
    fn bench_factorise(w: *mut f64, len: usize, h: usize, rows: usize, m: usize) -> Sweeps;
    fn bench_solve_damped(
        w: *mut f64,
        w_len: usize,
        c: usize,
        h: usize,
        rows: usize,
        m: usize,
        b: usize,
        lambda: f64,
        fit_tol: f64,
    ) -> Outcome;
    fn bench_leverage(
        w: *const f64,
        w_len: usize,
        h: usize,
        order: *const usize,
        order_len: usize,
        r: usize,
        inv_s: *const [f64; 32],
    ) -> f64;
}

/// A scratch as the library takes it: b, then the columns one after the other, h numbers each.
struct Lent {
    w: Vec<f64>,
    h: usize,
    rows: usize,
    m: usize,
}

impl Lent {
    fn new(a: &Columns, b: &[f64]) -> Lent {
        let (rows, m) = (a[0].len(), a.len());
        let h = rows + 2 * m;
        let mut w = vec![7.0; rows + h * m + 3];
        w[..rows].copy_from_slice(b);
        for (j, column) in a.iter().enumerate() {
            w[rows + j * h..][..rows].copy_from_slice(column);
        }
        Lent { w, h, rows, m }
    }

    /// The columns with those of the identity below them.
    fn with_identity(a: &Columns, b: &[f64]) -> Lent {
        let mut lent = Lent::new(a, b);
        for (j, column) in plain::identity(lent.m).iter().enumerate() {
            let from = lent.rows + j * lent.h + lent.rows;
            lent.w[from..from + lent.m].copy_from_slice(column);
        }
        lent
    }

    fn columns(&self) -> &[f64] {
        &self.w[self.rows..]
    }

    fn factorise_in_one_pass(&mut self) -> (usize, bool) {
        plain::factorise_in_one_pass(&mut self.w[self.rows..], self.h, self.rows, self.m)
    }

    fn factorise(&mut self) -> Sweeps {
        let w = &mut self.w[self.rows..];
        unsafe { bench_factorise(w.as_mut_ptr(), w.len(), self.h, self.rows, self.m) }
    }

    /// The outcome, and the leverage of each row.
    fn solve_damped(&mut self, lambda: f64, fit_tol: f64, leverage: &mut [f64]) -> Outcome {
        assert!(leverage.len() <= self.rows);
        let (w, len) = (self.w.as_mut_ptr(), self.w.len());
        let (rows, h, m) = (self.rows, self.h, self.m);
        let r = unsafe { bench_solve_damped(w, len, rows, h, rows, m, 0, lambda, fit_tol) };
        let u = self.columns();
        for (i, l) in leverage.iter_mut().enumerate() {
            *l =
                unsafe { bench_leverage(u.as_ptr(), u.len(), h, r.order.as_ptr(), m, i, &r.inv_s) };
        }
        r
    }
}

/// Xorshift: the same numbers in every run.
struct Random(u64);

impl Random {
    fn bits(&mut self) -> u64 {
        self.0 ^= self.0 << 13;
        self.0 ^= self.0 >> 7;
        self.0 ^= self.0 << 17;
        self.0
    }

    fn half(&mut self) -> f64 {
        (self.bits() >> 11) as f64 / (1u64 << 53) as f64 - 0.5
    }

    /// Zeros, and more seldom values that overflow, underflow or are no numbers.
    fn odd(&mut self, k: u64) -> f64 {
        let edge = [
            f64::INFINITY,
            f64::NAN,
            1e308,
            -1e308,
            5e-324,
            -f64::INFINITY,
        ];
        let b = self.bits();
        match (k + b) % 9 {
            0 => 0.0,
            1 => -0.0,
            2 if k % 5 == 0 => f64::from_bits(b),
            3 if k % 7 == 0 => 1e200 * (b % 7) as f64,
            4 if k % 13 == 0 => edge[(b % 6) as usize],
            _ => (b >> 40) as f64 / 1e6 - 8.0,
        }
    }
}

fn same(x: f64, y: f64) -> bool {
    x.to_bits() == y.to_bits() || (x.is_nan() && y.is_nan())
}

fn all_same(x: &[f64], y: &[f64]) -> bool {
    x.len() == y.len() && x.iter().zip(y).all(|(&p, &q)| same(p, q))
}

fn assert_same(ours: &Outcome, leverage: &[f64], plain: &SolveOutcome, case: &str) {
    let m = plain.x.len();
    let numbers = all_same(&ours.x[..m], &plain.x)
        && all_same(&ours.cov_diag[..m], &plain.cov_diag)
        && all_same(leverage, &plain.leverage[..leverage.len()])
        && same(ours.sigma_max, plain.sigma_max)
        && same(ours.sigma_min, plain.sigma_min);
    let rest = ours.x[m..].iter().chain(&ours.cov_diag[m..]);
    let counts =
        (ours.rank, ours.sweeps, ours.settled) == (plain.rank, plain.sweeps, plain.settled);
    assert!(
        numbers && counts && rest.into_iter().all(|x| x.to_bits() == 0),
        "{case}"
    );
}

fn seconds(work: impl FnOnce()) -> f64 {
    let start = Instant::now();
    work();
    start.elapsed().as_secs_f64()
}

fn report(what: &str, rows: usize, m: usize, sweeps: usize, plain: f64, ours: f64) {
    println!(
        "| {what} | {rows} x {m} | {sweeps} | {:.1} | {:.1} | {:.2} |",
        ours * 1e6,
        plain * 1e6,
        plain / ours
    );
}

/// The least times of a number of runs, of the factorisation and of the damped solve.
fn time(random: &mut Random, rows: usize, m: usize, runs: usize) {
    let a: Columns = (0..m)
        .map(|_| (0..rows).map(|_| random.half()).collect())
        .collect();
    let b: Vec<f64> = (0..rows).map(|_| random.half()).collect();
    let (mut factorise, mut solve) = ((f64::MAX, f64::MAX), (f64::MAX, f64::MAX));
    let mut one_pass = f64::MAX;
    let (mut sweeps, mut damped_sweeps) = (0, 0);
    for _ in 0..runs {
        let (mut u, mut v) = (a.clone(), plain::identity(m));
        let mut lent = Lent::with_identity(&a, &b);
        let mut made = (0, false);
        factorise.0 = factorise
            .0
            .min(seconds(|| made = plain::factorise(&mut u, &mut v)));
        let mut ours = Sweeps {
            made: 0,
            settled: false,
        };
        factorise.1 = factorise.1.min(seconds(|| ours = lent.factorise()));
        assert_eq!(made, (ours.made, ours.settled));
        let mut rust = Lent::with_identity(&a, &b);
        one_pass = one_pass.min(seconds(|| made = rust.factorise_in_one_pass()));
        assert_eq!(made, (ours.made, ours.settled));
        assert!(all_same(&rust.w, &lent.w));
        for j in 0..m {
            let column = &lent.columns()[j * lent.h..];
            assert!(all_same(&column[..rows], &u[j]) && all_same(&column[rows..rows + m], &v[j]));
        }
        sweeps = made.0;

        let mut lent = Lent::new(&a, &b);
        let mut leverage = vec![9.0; rows];
        let (mut plain, mut ours) = (None, None);
        solve.0 = solve.0.min(seconds(|| {
            plain = Some(plain::solve_damped(&a, &b, 1e-3, 1e-12))
        }));
        solve.1 = solve.1.min(seconds(|| {
            ours = Some(lent.solve_damped(1e-3, 1e-12, &mut leverage))
        }));
        let (plain, ours) = (plain.unwrap(), ours.unwrap());
        assert_same(&ours, &leverage, &plain, "timed");
        damped_sweeps = ours.sweeps;
    }
    report("factorise", rows, m, sweeps, factorise.0, factorise.1);
    report(
        "Rust's, in one pass",
        rows,
        m,
        sweeps,
        factorise.0,
        one_pass,
    );
    report("solve_damped", rows, m, damped_sweeps, solve.0, solve.1);
}

/// Many small systems with zero and equal columns and values at the edges of the format.
fn compare(random: &mut Random, cases: u64) {
    let (mut nans, mut deficient) = (0, 0);
    for k in 0..cases {
        let m = 1 + (random.bits() % 7) as usize;
        let rows = m + (random.bits() % 12) as usize;
        let mut a: Columns = (0..m)
            .map(|_| (0..rows).map(|_| random.odd(k)).collect())
            .collect();
        if m > 1 && k % 3 == 0 {
            a[m - 1] = a[0].clone();
        }
        if k % 11 == 0 {
            a[0] = vec![0.0; rows];
        }
        let b: Vec<f64> = (0..rows).map(|_| random.odd(k)).collect();
        let lambda = [0.0, -1.0, 1e-4, 3.0, f64::NAN, 1e9][(k % 6) as usize];
        let fit_tol = [0.0, 1e-10, 1e-3, -1.0][(k % 4) as usize];
        let plain = plain::solve_damped(&a, &b, lambda, fit_tol);
        let mut leverage = vec![9.0; rows];
        let ours = Lent::new(&a, &b).solve_damped(lambda, fit_tol, &mut leverage);
        assert_same(&ours, &leverage, &plain, &format!("case {k}"));
        nans += plain.x.iter().any(|x| x.is_nan()) as u32;
        deficient += (plain.rank < m) as u32;
    }
    println!(
        "\n`solve_damped` equal in {cases} systems, {nans} with a NaN in x, {deficient} rank deficient."
    );
}

fn main() {
    println!("### Solver\n\nMicroseconds a call:\n");
    println!("| call | rows x columns | sweeps | library | plain Rust | times as fast |");
    println!("|---|---|---|---|---|---|");
    let mut random = Random(88172645463325252);
    for (rows, m, runs) in [(2048, 32, 20), (200, 16, 1000), (40, 6, 20000)] {
        time(&mut random, rows, m, runs);
    }
    compare(&mut random, 20000);
}
