//! The regimes: sorts of runs in real angles, each with its options.

use crate::night::Night;
use crate::observation::PierSide;
use crate::random::Random;
use oracle::solver::IterOptions;

pub type Made = (Night, IterOptions);

pub struct Regime {
    pub name: &'static str,
    pub runs: usize,
    pub make: fn(&mut Random) -> Made,
}

const SIX: [&str; 6] = ["IH", "ID", "CH", "NP", "MA", "ME"];

/// The terms of the benchmarks (bench/night.rs).
pub const NAMES: [&str; 32] = [
    "IH", "ID", "CH", "NP", "MA", "ME", "TF", "TX", "DAF", "FO", "HCES", "HCEC", "DCES", "DCEC",
    "HHSH2", "HDCD2", "TX2", "TX3", "HHSH3", "HHCH2", "HDSH2", "HDCH3", "HXSH3", "HXCD2",
    "HXSHCD2", "HPSH3", "HPCDSH2", "HDSDCH", "HHCH9SD4", "HDSD8CH6", "HXSD3", "HHSH7",
];

pub const REGIMES: [Regime; 20] = [
    Regime {
        name: "6 terms, 20 to 100 stars",
        runs: 300,
        make: six,
    },
    Regime {
        name: "16 terms, 30 to 100 stars",
        runs: 300,
        make: sixteen,
    },
    Regime {
        name: "32 terms, 1,024 stars",
        runs: 100,
        make: largest,
    },
    Regime {
        name: "some terms fixed, started elsewhere",
        runs: 300,
        make: fixed,
    },
    Regime {
        name: "as many stars as free terms",
        runs: 300,
        make: tight,
    },
    Regime {
        name: "1 to 5 wrong pier sides",
        runs: 300,
        make: wrong_piers,
    },
    Regime {
        name: "no noise",
        runs: 300,
        make: exact,
    },
    Regime {
        name: "options of many sorts",
        runs: 300,
        make: options,
    },
    Regime {
        name: "max_iter 0",
        runs: 300,
        make: |random| limited(random, 0),
    },
    Regime {
        name: "max_iter 1",
        runs: 300,
        make: |random| limited(random, 1),
    },
    Regime {
        name: "starts of 1e6 to 1e9",
        runs: 300,
        make: |random| far(random, &[1e6, 1e7, 1e9]),
    },
    Regime {
        name: "starts of 1e80 to 1e300",
        runs: 300,
        make: |random| far(random, &[1e80, 1e150, 1e160, 1e300]),
    },
    Regime {
        name: "TX4 to TX10 among 4 terms",
        runs: 300,
        make: |random| flexure(random, &["TX4", "TX5", "TX7", "TX10"]),
    },
    Regime {
        name: "TX20 to TX255 among 4 terms",
        runs: 300,
        make: |random| flexure(random, &["TX20", "TX50", "TX255"]),
    },
    Regime {
        name: "one pier side, 8 terms",
        runs: 300,
        make: one_side,
    },
    Regime {
        name: "equal names, fit_tol 1e-12",
        runs: 300,
        make: |random| equal_names(random, 1e-12),
    },
    Regime {
        name: "equal names, fit_tol 0",
        runs: 300,
        make: |random| equal_names(random, 0.0),
    },
    Regime {
        name: "one star only, fit_tol 1e-12",
        runs: 300,
        make: |random| one_star(random, 1e-12),
    },
    Regime {
        name: "one star only, fit_tol 0",
        runs: 300,
        make: |random| one_star(random, 0.0),
    },
    Regime {
        name: "a column of zeros",
        runs: 300,
        make: zeros,
    },
];

/// The names given and a night of them with noise of 3 arcseconds.
fn night(random: &mut Random, names: &[&str], n: usize) -> Made {
    let mut night = Night::blank(random, names, n);
    night.observe(random, 3.0);
    (night, IterOptions::default())
}

/// `m` different names of the first `of`.
fn names(random: &mut Random, m: usize, of: usize) -> Vec<&'static str> {
    let mut left = NAMES[..of].to_vec();
    (0..m)
        .map(|_| left.remove(random.below(left.len())))
        .collect()
}

fn six(random: &mut Random) -> Made {
    let n = random.within(20, 100);
    night(random, &SIX, n)
}

fn sixteen(random: &mut Random) -> Made {
    let n = random.within(30, 100);
    let names = names(random, 16, 32);
    night(random, &names, n)
}

fn largest(random: &mut Random) -> Made {
    night(random, &NAMES, 1024)
}

fn fixed(random: &mut Random) -> Made {
    let (m, n) = (random.within(3, 12), random.within(20, 100));
    let names = names(random, m, 32);
    let (mut night, options) = night(random, &names, n);
    for j in 1..m {
        night.fixed[j] = random.below(3) == 0;
    }
    for start in &mut night.start {
        *start = random.pick(&[0.0, 1.0, 1.0, 1.0]) * random.unit() * 300.0;
    }
    (night, options)
}

fn tight(random: &mut Random) -> Made {
    let m = random.within(2, 12);
    let names = names(random, m, 16);
    night(random, &names, m)
}

fn wrong_piers(random: &mut Random) -> Made {
    let (mut night, options) = night(random, &SIX, 30);
    for _ in 0..random.within(1, 5) {
        let star = random.below(30);
        night.stars[star].pier = match night.stars[star].pier {
            PierSide::East => PierSide::West,
            _ => PierSide::East,
        };
    }
    (night, options)
}

fn exact(random: &mut Random) -> Made {
    let n = random.within(20, 100);
    let mut night = Night::blank(random, &SIX, n);
    night.observe(random, 0.0);
    (night, IterOptions::default())
}

fn options(random: &mut Random) -> Made {
    let (mut night, default) = six(random);
    night.fit_tol = random.pick(&[0.0, 1e-12, 1e-6, 1e-3, 0.1]);
    let options = IterOptions {
        max_iter: random.pick(&[2, 5, 50, 200]),
        tol_rad: random.pick(&[1e-3, 1e-6, 1e-9, 1e-12]),
        initial_lambda: random.pick(&[0.0, 1e-6, 1e-3, 1.0, 100.0]),
        lambda_up: random.pick(&[2.0, 10.0]),
        lambda_down: random.pick(&[1.0, 3.0, 10.0]),
        huber_k: random.pick(&[0.5, 1.345, 3.0]),
        ..default
    };
    (night, options)
}

fn limited(random: &mut Random, max_iter: usize) -> Made {
    let (night, default) = six(random);
    (
        night,
        IterOptions {
            max_iter,
            ..default
        },
    )
}

fn far(random: &mut Random, sizes: &[f64]) -> Made {
    let (mut night, options) = six(random);
    for start in &mut night.start {
        *start = random.unit() * random.pick(sizes);
    }
    (night, options)
}

/// The differences are those of the first three terms: the stars show nothing of the high power.
fn flexure(random: &mut Random, powers: &[&str]) -> Made {
    let n = random.within(20, 100);
    let (mut night, options) = night(random, &["IH", "ID", "TX"], n);
    night.names.push(random.pick(powers).into());
    night.fixed.push(false);
    night.start.push(0.0);
    (night, options)
}

fn one_side(random: &mut Random) -> Made {
    let n = random.within(20, 100);
    let side = random.pick(&[PierSide::East, PierSide::West, PierSide::Unknown]);
    let mut night = Night::blank(random, &["IH", "ID", "CH", "NP", "MA", "ME", "TF", "FO"], n);
    for star in &mut night.stars {
        star.pier = side;
    }
    night.observe(random, 3.0);
    (night, IterOptions::default())
}

fn equal_names(random: &mut Random, fit_tol: f64) -> Made {
    let pair = random.pick(&[
        ["IH", "IH"],
        ["ID", "ID"],
        ["TX5", "tx+05"],
        ["CH", "Ch"],
        ["HHSH", "HHSH1"],
    ]);
    let n = random.within(20, 100);
    let (mut night, options) = night(random, &[pair[0], "MA", "ME", pair[1]], n);
    night.fit_tol = fit_tol;
    (night, options)
}

fn one_star(random: &mut Random, fit_tol: f64) -> Made {
    let n = random.within(6, 30);
    let mut night = Night::blank(random, &SIX, n);
    for i in 1..n {
        night.stars[i] = night.stars[0].clone();
    }
    night.observe(random, 3.0);
    night.fit_tol = fit_tol;
    (night, IterOptions::default())
}

fn zeros(random: &mut Random) -> Made {
    let n = random.within(20, 100);
    let (mut night, options) = night(random, &["IH", "HASH", "ID", "MA", "ME"], n);
    night.fit_tol = random.pick(&[0.0, 1e-12]);
    (night, options)
}
