//! Calls of the fits: the regimes of the stored vectors, and more of each.

use crate::call::{Call, Fit};
use oracle::questions::{BY_ROWS, BY_STARS};
use oracle::vectors::angles;
use oracle::vectors::iterated::{self, choose_options, far_start, nan_start, outliers, step_norms};
use oracle::vectors::random::Random;
use oracle::vectors::runs::{still, Case, Maker, Pool, ITERATED, NAMES, ROBUST, SINGLE};
use oracle::vectors::single_step;

type Make = fn(&mut Maker, u8) -> Case;

/// A regime: its weight in a thousand runs or so, whether the single step has it, and a case of it.
pub struct Regime {
    pub name: &'static str,
    weight: usize,
    pub single: bool,
    make: Make,
}

const fn both(name: &'static str, weight: usize, make: Make) -> Regime {
    Regime {
        name,
        weight,
        single: true,
        make,
    }
}

const fn iterated_only(name: &'static str, weight: usize, make: Make) -> Regime {
    Regime {
        name,
        weight,
        single: false,
        make,
    }
}

pub const REGIMES: [Regime; 43] = [
    both("real", 200, |maker, mode| maker.real(mode, 6, 12)),
    both("each name", 40, each_name),
    both("extreme numbers", 120, |maker, mode| maker.extreme(mode)),
    both("at the pole", 40, |maker, mode| maker.polar(mode)),
    both("equal names", 40, |maker, mode| maker.repeated(mode)),
    both("deficient", 50, |maker, mode| maker.deficient(mode)),
    both("30 sweeps", 8, |maker, mode| maker.restless(mode)),
    both("nearly dependent columns", 8, |maker, mode| {
        let m = maker.random.within(4, 9);
        maker.nearly_dependent(mode, m, 2 * m, m / 3)
    }),
    both("nearly dependent columns, 100 stars", 4, |maker, mode| {
        let m = maker.random.within(5, 16);
        maker.nearly_dependent(mode, m, 100, m / 2)
    }),
    both("as many stars as free terms", 30, |maker, mode| {
        maker.tight(mode, 0)
    }),
    both("one star fewer", 10, |maker, mode| maker.tight(mode, 1)),
    both("fit_tol", 40, odd_tolerance),
    both("stars close together", 60, close_together),
    both("20 terms, 30 stars", 40, |maker, mode| {
        maker.real(mode, 20, 30)
    }),
    both("32 terms, 120 stars", 4, |maker, mode| {
        maker.real_of(mode, &NAMES[..32], 120)
    }),
    both("to 32 terms, to 1,024 stars", 1, large),
    iterated_only("outliers", 80, outliers),
    iterated_only("far start", 30, far_start),
    iterated_only("chi-square a NaN at the start", 30, nan_start),
    iterated_only("step norms", 30, step_norms),
    iterated_only("options", 80, options),
    iterated_only("options, extreme numbers", 40, |maker, mode| {
        let mut case = maker.extreme(mode);
        choose_options(maker, &mut case);
        case
    }),
    iterated_only("limit 1,000", 12, long),
    both("a length off", 20, |maker, mode| {
        let sort = maker.random.below(5);
        let by = maker.random.pick(&[-1, 1, -1, 1, -16, 16, -37]);
        maker.faulty(&[mode], |maker, case| maker.fault_length(case, sort, by))
    }),
    both("a buffer short", 20, |maker, mode| {
        let buffer = maker.random.below(5);
        let fewer = maker.random.pick(&[1, 1, 2, 1000]);
        maker.faulty(&[mode], |_, case| {
            case.places[buffer] = case.required()[buffer].saturating_sub(fewer);
        })
    }),
    both("lengths of scratch", 20, |maker, mode| {
        let mut case = maker.real(mode, 6, 12);
        let lengths = case.scratch_lengths();
        let between = maker.random.within(lengths[0], lengths[3]);
        case.places[4] = maker.random.pick(&[&lengths[..], &[between]].concat());
        case
    }),
    both("a number not finite", 20, |maker, mode| {
        maker.faulty(&[mode], |maker, case| maker.fault(case, 4))
    }),
    both("fault 1", 10, |maker, mode| one_fault(maker, mode, 1)),
    both("fault 5", 10, |maker, mode| one_fault(maker, mode, 5)),
    iterated_only("fault 6", 10, |maker, mode| {
        let mut case = one_fault(maker, mode, 6);
        if maker.random.flip() {
            case.options.max_iter = maker.random.pick(&[1 << 16, 1 << 32, usize::MAX]);
        }
        case
    }),
    both("fault 7", 10, |maker, mode| one_fault(maker, mode, 7)),
    both("fault 8", 10, |maker, mode| one_fault(maker, mode, 8)),
    both("fault 9", 10, |maker, mode| one_fault(maker, mode, 9)),
    both("fault 10", 10, |maker, mode| one_fault(maker, mode, 10)),
    both("fault 11", 5, |maker, mode| one_fault(maker, mode, 11)),
    both("fault 12", 5, |maker, mode| one_fault(maker, mode, 12)),
    both("two faults", 40, |maker, mode| {
        let asked = asked(mode);
        let pair = [maker.random.pick(asked), maker.random.pick(asked)];
        maker.faulty(&[mode], |maker, case| maker.put_faults(case, &pair))
    }),
    both("several faults", 40, |maker, mode| {
        let asked = asked(mode);
        maker.faulty(&[mode], |maker, case| maker.several_faults(case, asked))
    }),
    both("an unknown choice", 10, |maker, mode| {
        let mut case = maker.real(mode, 6, 12);
        unknown_choice(maker, &mut case);
        case
    }),
    both("an unknown choice and a fault", 30, |maker, mode| {
        let number = maker.random.pick(asked(mode));
        let mut case = one_fault(maker, mode, number);
        unknown_choice(maker, &mut case);
        case
    }),
    both("an unknown choice and several faults", 20, |maker, mode| {
        maker.faulty(&[mode], |maker, case| {
            maker.several_faults(case, asked(mode));
            unknown_choice(maker, case);
        })
    }),
    both("names refused for different reasons", 20, |maker, mode| {
        maker.faulty(&[mode], Maker::refused_names)
    }),
    both("too many stars", 2, |maker, mode| {
        let mut case = maker.real(mode, 3, 5);
        case.resize_stars(maker.random.within(1025, 1100));
        maker.places(&mut case);
        case
    }),
];

/// Each regime of `listed`, which each run makes once.
pub const LISTED: [&str; 4] = [
    "worked cases",
    "tolerance at the step",
    "limits",
    "30 sweeps, settled and not",
];
pub const LISTED_SINGLE: [&str; 3] = [LISTED[0], LISTED[2], LISTED[3]];

pub fn asked(mode: u8) -> &'static [u8] {
    match mode {
        SINGLE => &single_step::ASKED,
        _ => &iterated::ASKED,
    }
}

fn one_fault(maker: &mut Maker, mode: u8, number: u8) -> Case {
    maker.faulty(&[mode], |maker, case| maker.fault(case, number))
}

fn unknown_choice(maker: &mut Maker, case: &mut Case) {
    case.run.sigma_by = maker.random.within(2, 255) as u8;
}

/// A name alone on few stars, or beside IH and ID.
fn each_name(maker: &mut Maker, mode: u8) -> Case {
    let name = maker.random.pick(&NAMES);
    let n = maker.random.within(1, 4);
    let mut case = match maker.random.below(4) {
        0 => maker.real_of(mode, &["IH", name, "ID"], 2 + n),
        _ => maker.real_of(mode, &[name], n),
    };
    if maker.random.flip() {
        let pier = maker.random.within(0, 2) as u8;
        case.run.piers.fill(pier);
    }
    case
}

/// Sheets of stars around one place, from degrees to nothing apart, which stand behind the pool's own.
pub fn add_close_stars(pool: &mut Pool, random: &mut Random) {
    let (h, dec) = (random.unit() * 3.0, random.unit() * 1.4);
    let apart = random.pick(&[0.1, 1e-2, 1e-3, 1e-5, 1e-8, 1e-12]);
    for _ in 0..24 {
        let sheet = angles::sheet(h + random.unit() * apart, dec + random.unit() * apart);
        pool.sheets.push(sheet);
    }
}

fn close_together(maker: &mut Maker, mode: u8) -> Case {
    let mut case = maker.real(mode, 6, 12);
    for i in 0..case.n() {
        case.sheets[i] = maker.place(maker.pool.near.end..maker.pool.sheets.len());
    }
    maker.observe(&mut case, 1.0);
    case
}

fn large(maker: &mut Maker, mode: u8) -> Case {
    let m = maker.random.within(1, 32);
    let n = maker.random.within(m, 1024);
    let mut case = maker.real_of(mode, &NAMES[..m], n);
    case.options.max_iter = maker.random.within(0, 3);
    case
}

fn odd_tolerance(maker: &mut Maker, mode: u8) -> Case {
    let mut case = maker.real(mode, 5, 8);
    case.run.fit_tol = maker.random.pick(&[
        0.0, -0.0, -1.0, 5e-324, 1e-12, 1e-6, 1e-3, 0.5, 1.0, 2.0, 1e300,
    ]);
    case
}

fn options(maker: &mut Maker, mode: u8) -> Case {
    let mut case = match maker.random.flip() {
        true => outliers(maker, mode),
        false => maker.real(mode, 5, 8),
    };
    choose_options(maker, &mut case);
    case
}

/// Small runs that make many trials.
fn long(maker: &mut Maker, mode: u8) -> Case {
    let terms = maker.random.within(1, 2);
    let mut case = maker.real_of(mode, &["IH", "ID"][..terms], 3);
    case.options.max_iter = maker.random.pick(&[999, 1000]);
    case.options.tol_rad = maker.random.pick(&[0.0, -1.0]);
    case.options.lambda_up = maker.random.pick(&[1.0, 0.5, -1.0, 0.0, 1.01]);
    case.options.initial_lambda = maker.random.pick(&[1e-3, 1.0, 100.0]);
    case.options.lambda_down = maker.random.pick(&[10.0, 1.0, 0.0]);
    case
}

/// The cases that a run makes once: those of docs/SCOPE.md 12.1, tolerances at a step's norm, the limits of m and n, and 30 sweeps, settled and not.
pub fn listed(maker: &mut Maker) -> Vec<(&'static str, Case)> {
    let (mut documented, mut at_tolerance, mut limits) = (Vec::new(), Vec::new(), Vec::new());
    iterated::documented(&mut documented);
    single_step::documented(&mut documented);
    iterated::at_tolerance(&mut at_tolerance);
    single_step::limits(maker, &mut limits);
    for mode in [ITERATED, ROBUST] {
        let mut case = maker.real_of(mode, &NAMES[..32], 1024);
        case.options.max_iter = 2;
        limits.push(case);
        let mut case = still(mode, &[-10.0]);
        case.resize_stars(1025);
        limits.push(case.exact());
    }
    let mut thirty = Vec::new();
    for mode in [SINGLE, ITERATED, ROBUST] {
        thirty.extend([false, true].map(|settled| maker.thirty(mode, 6, settled)));
    }
    let lists = [documented, at_tolerance, limits, thirty];
    let named = LISTED.into_iter().zip(lists);
    named
        .flat_map(|(name, cases)| cases.into_iter().map(move |case| (name, case)))
        .collect()
}

/// A case of each regime in each mode.
pub fn one_of_each(maker: &mut Maker) -> Vec<(&'static str, Case)> {
    let mut out = Vec::new();
    for regime in &REGIMES {
        for mode in [SINGLE, ITERATED, ROBUST] {
            if mode != SINGLE || regime.single {
                out.push((regime.name, (regime.make)(maker, mode)));
            }
        }
    }
    out
}

/// A case of some regime, by the weights.
pub fn some(maker: &mut Maker) -> (&'static str, Case) {
    let mode = maker.random.pick(&[SINGLE, ITERATED, ROBUST]);
    let had = |regime: &&Regime| mode != SINGLE || regime.single;
    let weights = REGIMES.iter().filter(had).map(|regime| regime.weight);
    let mut at = maker.random.below(weights.sum());
    for regime in REGIMES.iter().filter(had) {
        if at < regime.weight {
            return (regime.name, (regime.make)(maker, mode));
        }
        at -= regime.weight;
    }
    unreachable!("below the sum of the weights")
}

/// The call of a case whose sheets are in the pool, by rows or by stars where its choice is known.
pub fn call(case: Case, pool: &Pool, random: &mut Random) -> Call {
    let mut run = case.lent(pool);
    if run.sigma_by <= BY_ROWS {
        run.sigma_by = random.pick(&[BY_STARS, BY_ROWS]);
    }
    Call::Fit(Box::new(Fit {
        mode: case.mode,
        run,
        options: case.options,
        places: case.places,
        fill: random.bits(),
    }))
}
