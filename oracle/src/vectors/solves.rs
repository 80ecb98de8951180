//! `replay_solves`: outcomes of the damped solve.

use super::random::Random;
use super::{angles, put_doubles, Vectors};
use crate::matrix::{DMatrix, DVector};
use crate::observation::PierSide;
use crate::sheet::{Latitude, Sheet};
use crate::solver::linalg::solve_damped;
use crate::terms::create_term;

struct System {
    a: DMatrix,
    b: DVector,
    lambda: f64,
    fit_tol: f64,
}

const DAMPINGS: [f64; 14] = [
    0.0,
    -0.0,
    -1.0,
    -5e-324,
    5e-324,
    1e-300,
    1e-3,
    1.0,
    1e12,
    1e300,
    f64::MAX,
    f64::NAN,
    f64::INFINITY,
    f64::NEG_INFINITY,
];

const TOLERANCES: [f64; 10] = [
    0.0,
    -0.0,
    -1.0,
    5e-324,
    1e-12,
    1e-3,
    0.5,
    1.0,
    2.0,
    f64::NAN,
];

/// A system filled column by column, undamped, with fit_tol 0.
fn filled(
    rows: usize,
    m: usize,
    random: &mut Random,
    mut number: impl FnMut(&mut Random) -> f64,
) -> System {
    let mut a = DMatrix::zeros(rows, m);
    for j in 0..m {
        for i in 0..rows {
            a[(i, j)] = number(random);
        }
    }
    let b = DVector::from_vec((0..rows).map(|_| number(random)).collect());
    System {
        a,
        b,
        lambda: 0.0,
        fit_tol: 0.0,
    }
}

/// At most 12 rows, at most 5 columns, at least as many rows as columns.
fn tall(random: &mut Random) -> (usize, usize) {
    let m = random.within(1, 5);
    (random.within(m, 12), m)
}

fn unit(random: &mut Random) -> System {
    let (rows, m) = tall(random);
    filled(rows, m, random, Random::unit)
}

fn whole(random: &mut Random) -> System {
    let (rows, m) = tall(random);
    filled(rows, m, random, |r| r.below(7) as f64 - 3.0)
}

/// The damping of a trial loop.
fn damped(random: &mut Random) -> System {
    let mut system = if random.flip() {
        unit(random)
    } else {
        whole(random)
    };
    system.lambda = random.pick(&[
        1e-12, 1e-9, 1e-6, 1e-4, 1e-3, 1e-2, 0.1, 1.0, 10.0, 1e3, 1e6,
    ]);
    system.fit_tol = random.pick(&[0.0, 1e-12, 1e-3]);
    system
}

/// The last column a combination of the others.
fn dependent(random: &mut Random) -> System {
    let m = random.within(2, 5);
    let rows = random.within(m, 12);
    let mut system = filled(rows, m, random, Random::unit);
    for i in 0..rows {
        let mut sum = 0.0;
        for j in 0..m - 1 {
            sum += system.a[(i, j)] * (j as f64 - 1.5);
        }
        system.a[(i, m - 1)] = sum;
    }
    system.fit_tol = random.pick(&TOLERANCES);
    system
}

/// Columns that are zero, -0 or equal to the first.
fn repeated(random: &mut Random) -> System {
    let mut system = if random.flip() {
        unit(random)
    } else {
        whole(random)
    };
    for j in 0..system.a.ncols() {
        let sort = random.below(5);
        for i in 0..system.a.nrows() {
            let first = system.a[(i, 0)];
            match sort {
                0 => system.a[(i, j)] = 0.0,
                1 => system.a[(i, j)] = -0.0,
                2 => system.a[(i, j)] = first,
                3 => system.a[(i, j)] = -2.0 * first,
                _ => {}
            }
        }
    }
    system.fit_tol = random.pick(&[0.0, 1e-12]);
    system.lambda = random.pick(&[0.0, 0.0, 1e-3]);
    system
}

/// Equal singular values: columns of a permutation, of signs that are orthogonal, or turned by
/// one angle.
fn orthogonal(random: &mut Random) -> System {
    let m = random.within(1, 4);
    let mut system = filled(8, m, random, |r| r.below(5) as f64 - 2.0);
    let sort = random.below(3);
    let shift = random.below(4);
    let scale = random.pick(&[1.0, 1.0, 2.0, 0.1, 3.0]);
    for j in 0..m {
        for i in 0..8usize {
            let entry = match sort {
                0 => (i == j + shift) as u8 as f64,
                1 => 1.0 - 2.0 * (((i & (j + shift)).count_ones() & 1) as f64),
                _ => match (i, j) {
                    _ if i / 2 != j / 2 => 0.0,
                    _ if i == j => 0.8,
                    _ if i > j => 0.6,
                    _ => -0.6,
                },
            };
            system.a[(i, j)] = entry * scale;
        }
    }
    system.lambda = random.pick(&[0.0, 0.0, 1e-3, 1.0]);
    system
}

/// Columns, or entries, of very different sizes.
fn scaled(random: &mut Random, sizes: &[f64]) -> System {
    let mut system = unit(random);
    let by_column = random.below(3) > 0;
    for j in 0..system.a.ncols() {
        let mut size = random.pick(sizes);
        for i in 0..system.a.nrows() {
            if !by_column {
                size = random.pick(sizes);
            }
            system.a[(i, j)] *= size;
        }
    }
    let size = random.pick(sizes);
    if random.flip() {
        for i in 0..system.b.len() {
            system.b[i] *= size;
        }
    }
    system.lambda = random.pick(&[0.0, 0.0, 1e-3, 1e-300]);
    system.fit_tol = random.pick(&[0.0, 1e-12]);
    system
}

fn subnormal(random: &mut Random) -> System {
    let (rows, m) = tall(random);
    let mut system = filled(rows, m, random, |r| {
        let x = f64::from_bits(r.bits() % (1 << r.within(1, 52)));
        if r.flip() {
            x
        } else {
            -x
        }
    });
    system.lambda = random.pick(&[0.0, 0.0, 5e-324, 1e-3]);
    system
}

/// NaN and infinities inside.
fn strange(random: &mut Random) -> System {
    let mut system = unit(random);
    for _ in 0..random.within(1, 2) {
        let x = random.pick(&[f64::NAN, f64::INFINITY, f64::NEG_INFINITY]);
        let row = random.below(system.b.len());
        if random.below(3) == 0 {
            system.b[row] = x;
        } else {
            let column = random.below(system.a.ncols());
            system.a[(row, column)] = x;
        }
    }
    system.lambda = random.pick(&[0.0, 0.0, 1e-3]);
    system.fit_tol = random.pick(&[0.0, 1e-12]);
    system
}

/// Fewer rows than columns.
fn wide(random: &mut Random) -> System {
    let m = random.within(2, 6);
    let rows = random.within(1, m - 1);
    let mut system = filled(rows, m, random, Random::unit);
    system.lambda = random.pick(&[0.0, 1e-3, 1.0]);
    system.fit_tol = random.pick(&[0.0, 1e-12]);
    system
}

fn dampings(random: &mut Random) -> System {
    let mut system = match random.below(3) {
        0 => unit(random),
        1 => whole(random),
        _ => repeated(random),
    };
    system.lambda = random.pick(&DAMPINGS);
    system.fit_tol = random.pick(&TOLERANCES);
    system
}

/// A column whose squares vanish beside one of size 1: each visit turns it by nothing.
fn restless(random: &mut Random) -> System {
    let rows = random.within(6, 16);
    let m = random.within(2, 4);
    let mut system = filled(rows, m, random, |r| 1.0 + r.unit() / 4.0);
    let small = random.below(m);
    for i in 0..rows {
        system.a[(i, small)] = 1.5e-162 * (1.0 + random.unit() / 32.0);
    }
    system
}

/// The design columns of six terms on real angles, with differences in arcseconds.
fn design(random: &mut Random) -> System {
    let names = [
        "IH", "ID", "CH", "NP", "MA", "ME", "TF", "TX", "HXSH2", "FO",
    ];
    let m = random.within(2, 6);
    let stars = random.within(m.div_ceil(2), 8);
    let mut system = filled(2 * stars, m, random, |r| r.unit() * 200.0);
    let first = random.below(names.len() - m + 1);
    let (sin, cos) = angles::sin_cos(random.unit() * 1.2);
    for i in 0..stars {
        let sheet = Sheet(angles::sheet(random.unit() * 1.2, random.unit() * 1.2));
        let pier = random.pick(&[PierSide::East, PierSide::West]).sign();
        for j in 0..m {
            let term = create_term(names[first + j]).expect("a name");
            let (jh, jd) = term.jacobian_equatorial(&sheet, Latitude { sin, cos }, pier);
            system.a[(2 * i, j)] = jh * sheet.cos_dec(1);
            system.a[(2 * i + 1, j)] = jd;
        }
    }
    system.lambda = random.pick(&[0.0, 1e-3, 1e-9]);
    system.fit_tol = random.pick(&[0.0, 1e-12, 1e-3]);
    system
}

fn any_pattern(random: &mut Random) -> System {
    let (rows, m) = tall(random);
    let mut system = filled(rows, m, random, Random::finite);
    system.lambda = random.pick(&[0.0, 1.0]);
    system
}

fn large(random: &mut Random, rows: usize, m: usize) -> System {
    let mut system = filled(rows, m, random, Random::unit);
    system.lambda = random.pick(&[0.0, 1e-3]);
    system
}

fn systems(random: &mut Random) -> Vec<System> {
    let mut out = Vec::new();
    for _ in 0..250 {
        out.push(unit(random));
        out.push(whole(random));
        out.push(damped(random));
        out.push(dependent(random));
        out.push(repeated(random));
        out.push(scaled(random, &[1e150, 1e-150, 1.0]));
        out.push(scaled(random, &[1e300, 1e-300, 1.0, 1e160, 1e-162, 1e-155]));
        out.push(strange(random));
        out.push(dampings(random));
        out.push(design(random));
    }
    for _ in 0..150 {
        out.push(orthogonal(random));
        out.push(subnormal(random));
        out.push(wide(random));
        out.push(any_pattern(random));
    }
    for _ in 0..40 {
        out.push(restless(random));
    }
    for (rows, m) in [
        (256, 2),
        (200, 3),
        (128, 6),
        (100, 8),
        (64, 16),
        (40, 10),
        (96, 32),
        (256, 32),
    ] {
        out.push(large(random, rows, m));
    }
    out
}

pub fn vectors() -> Vectors {
    let random = &mut Random::new(0x736f_6c76);
    let systems = systems(random);
    let mut stdin = Vec::new();
    let (mut damped, mut deficient, mut not_numbers, mut thirty) = (0, 0, 0, 0);
    for system in &systems {
        let (rows, m) = (system.a.nrows(), system.a.ncols());
        stdin.push(m as u8);
        stdin.extend((rows as u16).to_le_bytes());
        put_doubles(&mut stdin, &[system.lambda, system.fit_tol]);
        for j in 0..m {
            for i in 0..rows {
                put_doubles(&mut stdin, &[system.a[(i, j)]]);
            }
        }
        for &x in system.b.iter() {
            put_doubles(&mut stdin, &[x]);
        }
        let solved = solve_damped(&system.a, &system.b, system.lambda, system.fit_tol)
            .expect("the solve refuses nothing");
        let x: Vec<f64> = solved.x.iter().copied().collect();
        let leverage = &solved.leverage[..rows];
        let sigmas = [solved.sigma_max, solved.sigma_min];
        put_doubles(&mut stdin, &x);
        put_doubles(&mut stdin, &solved.cov_diag);
        put_doubles(&mut stdin, leverage);
        stdin.push(solved.rank as u8);
        put_doubles(&mut stdin, &sigmas);
        stdin.extend([solved.sweeps as u8, solved.settled as u8]);
        // a NaN damping is not <= 0
        damped += !(system.lambda <= 0.0) as usize;
        deficient += (solved.rank < m) as usize;
        let answers = [&x[..], &solved.cov_diag, leverage, &sigmas];
        not_numbers += answers.concat().iter().any(|x| x.is_nan()) as usize;
        thirty += (solved.sweeps == 30) as usize;
    }
    let stdout = format!(
        "solves {}\ndamped {damped}\ndeficient {deficient}\nnot numbers {not_numbers}\nthirty sweeps {thirty}\ndifferent 0\n",
        systems.len()
    );
    Vectors {
        name: "replay_solves",
        stdin,
        stdout,
    }
}
