//! Holds the static library to the oracle: `compare [RUNS] [NAMES] [SEED]` makes as many random fits and as many name slots, Jacobian pairs,
//! corrections, breakdowns, scratch lengths and square roots beside them. It stops at the first difference and saves its call in
//! target/compare/; `compare --again FILE` makes a saved call again.

mod call;
mod counts;
mod coverage;
mod fits;
mod names;
mod numbers;
#[path = "../ffi/pointing.rs"]
mod pointing;
mod points;
mod text;
mod watch;

use call::Call;
use counts::Counts;
use oracle::vectors::random::Random;
use oracle::vectors::runs::{Maker, Pool};
use std::collections::BTreeMap;
use std::path::Path;
use std::process::ExitCode;
use std::time::Instant;

/// Fits whose sheets come from one pool.
const FITS_OF_A_POOL: usize = 2000;

/// With fewer fits or names not every regime need occur.
const FEWEST_RUNS: usize = 2000;
const FEWEST_NAMES: usize = 20_000;

struct Comparison {
    seed: u64,
    calls: BTreeMap<&'static str, Counts>,
    /// Fits by their sizes: stars up to, terms up to.
    sizes: BTreeMap<(usize, usize), usize>,
}

impl Comparison {
    fn make(&mut self, regime: &'static str, call: &Call) -> Result<(), String> {
        let seed = self.seed;
        let tell = |what: &str| save(call, regime, seed, what);
        match watch::watched(&tell, || call.compare()) {
            Ok(seen) => {
                self.calls
                    .entry(call.name())
                    .or_default()
                    .add(regime, &seen);
                Ok(())
            }
            Err(difference) => Err(tell(&difference)),
        }
    }

    fn fits(&mut self, runs: usize) -> Result<(), String> {
        let mut random = Random::new(self.seed ^ 0x6669_7473);
        let mut made = 0;
        while made < runs {
            let mut seeded = Random::new(random.bits());
            let mut pool = Pool::new(&mut seeded, 220);
            pool.add_near();
            fits::add_close_stars(&mut pool, &mut seeded);
            let mut maker = Maker {
                random: seeded,
                pool: &pool,
            };
            let mut cases = Vec::new();
            if made == 0 {
                cases.extend(fits::listed(&mut maker));
                cases.extend(fits::one_of_each(&mut maker));
                cases.truncate(runs);
            }
            let more = (runs - made)
                .min(FITS_OF_A_POOL)
                .saturating_sub(cases.len());
            for _ in 0..more {
                cases.push(fits::some(&mut maker));
            }
            made += cases.len();
            for (regime, case) in cases {
                let size = |x: usize, to: &[usize]| to.iter().copied().find(|&t| x <= t);
                let stars = size(case.n(), &[12, 30, 120, 1024]).unwrap_or(usize::MAX);
                let terms = size(case.m(), &[6, 20, 32]).unwrap_or(usize::MAX);
                *self.sizes.entry((stars, terms)).or_default() += 1;
                let call = fits::call(case, &pool, &mut random);
                self.make(regime, &call)?;
            }
        }
        Ok(())
    }

    fn names(&mut self, count: usize) -> Result<(), String> {
        let mut random = Random::new(self.seed ^ 0x6e61_6d65);
        for _ in 0..count {
            let (regime, slot) = names::some(&mut random);
            self.make(regime, &Call::Name(slot))?;
        }
        Ok(())
    }

    fn points(&mut self, count: usize) -> Result<(), String> {
        let mut random = Random::new(self.seed ^ 0x706f_696e);
        for _ in 0..count {
            let (regime, call) = points::some_jacobian(&mut random);
            self.make(regime, &call)?;
            for _ in 0..2 {
                let (regime, call) = points::some_model(&mut random);
                self.make(regime, &call)?;
            }
        }
        Ok(())
    }

    fn numbers(&mut self, count: usize) -> Result<(), String> {
        let mut random = Random::new(self.seed ^ 0x6e75_6d62);
        for m in 0..=33 {
            for n in 0..=1025 {
                self.make("every size", &Call::Scratch(m, n))?;
            }
        }
        for _ in 0..count {
            let (m, n) = numbers::some_sizes(&mut random);
            self.make("any size", &Call::Scratch(m, n))?;
            let (regime, make) = random.pick(&numbers::ROOTS);
            self.make(regime, &Call::Root(make(&mut random)))?;
        }
        Ok(())
    }

    fn print(&self) {
        for (call, counts) in &self.calls {
            counts.print(call);
        }
        println!("fits by size:");
        let word = |to: usize| match to {
            usize::MAX => "more".into(),
            _ => format!("to {to}"),
        };
        for ((stars, terms), count) in &self.sizes {
            println!(
                "    {} stars, {} terms: {count}",
                word(*stars),
                word(*terms)
            );
        }
    }
}

/// Saves a call that differs, and says where.
fn save(call: &Call, regime: &str, seed: u64, difference: &str) -> String {
    let dir = Path::new("target/compare");
    let path = dir.join("difference.txt");
    let name = call.name();
    let text = format!(
        "# {name}, regime '{regime}', seed {seed}\n# {difference}\n{}",
        text::write(call)
    );
    let written = std::fs::create_dir_all(dir).and_then(|()| std::fs::write(&path, text));
    let saved = match written {
        Ok(()) => format!("saved in {}", path.display()),
        Err(fault) => format!("not saved: {fault}"),
    };
    format!("{name}, regime '{regime}': {difference}\n{saved}")
}

fn again(path: &str) -> Result<(), String> {
    let text = std::fs::read_to_string(path).map_err(|fault| format!("{path}: {fault}"))?;
    let call = text::read(&text).map_err(|fault| format!("{path}: {fault}"))?;
    let seen = call
        .compare()
        .map_err(|what| format!("{}: {what}", call.name()))?;
    println!("{}: the same, refusal {}", call.name(), seen.refusal);
    Ok(())
}

fn compare(runs: usize, names: usize, seed: u64) -> Result<(), String> {
    let mut all = Comparison {
        seed,
        calls: BTreeMap::new(),
        sizes: BTreeMap::new(),
    };
    println!("{runs} fits, {names} names, seed {seed}");
    watch::begin();
    let began = Instant::now();
    all.fits(runs)?;
    let fits = began.elapsed();
    all.names(names)?;
    all.points(runs)?;
    all.numbers(names)?;
    all.print();
    println!(
        "{:.0} s, {:.0} of them for the fits",
        began.elapsed().as_secs_f64(),
        fits.as_secs_f64()
    );
    if runs >= FEWEST_RUNS && names >= FEWEST_NAMES {
        let gaps = coverage::gaps(&all.calls);
        if !gaps.is_empty() {
            return Err(format!("not all was met:\n    {}", gaps.join("\n    ")));
        }
    }
    println!("no difference");
    Ok(())
}

fn main() -> ExitCode {
    let args: Vec<String> = std::env::args().skip(1).collect();
    let number = |at: usize, default: usize| match args.get(at) {
        None => Some(default),
        Some(word) => word.replace(',', "").parse().ok(),
    };
    let done = match args.first().map(String::as_str) {
        Some("--again") if args.len() == 2 => again(&args[1]),
        _ => match (number(0, 200_000), number(1, 2_000_000), number(2, 1)) {
            (Some(runs), Some(names), Some(seed)) if args.len() <= 3 => {
                compare(runs, names, seed as u64)
            }
            _ => Err("compare [RUNS] [NAMES] [SEED] | compare --again FILE".into()),
        },
    };
    match done {
        Ok(()) => ExitCode::SUCCESS,
        Err(text) => {
            eprintln!("compare: {text}");
            ExitCode::FAILURE
        }
    }
}
