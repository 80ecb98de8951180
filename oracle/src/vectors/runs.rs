//! Runs for the fits and the file program: a pool of sheets, and runs that take their sheets from it.

use super::angles;
use super::random::{Random, EXTREME};
use crate::questions::{
    fit_model, fit_model_iterated, jacobian, scratch_size, scratch_size_with_design, Buffers,
    Point, Run, BY_STARS, NAME,
};
use crate::sheet::SHEET;
use crate::solver::{FitResult, IterOptions};
use std::ops::Range;

pub const SINGLE: u8 = 0;
pub const ITERATED: u8 = 1;
pub const ROBUST: u8 = 3;

/// The first sheet of a pool: sines and the tangent 0, cosines 1.
const STILL: u16 = 0;

/// Numbers that question 4 refuses.
pub const NOT_FINITE: [f64; 3] = [f64::NAN, f64::INFINITY, f64::NEG_INFINITY];

/// The sheets of a file.
pub struct Pool {
    pub sheets: Vec<[f64; SHEET]>,
    pub real: Range<usize>,
    /// Real but for cos dec: 0, -0 or next to it.
    pub polar: Range<usize>,
    pub extreme: Range<usize>,
    /// Real but for cos h near 1 and a sin dec whose square vanishes.
    pub restless: Range<usize>,
    /// A NaN or an infinity at each place.
    pub refused: Range<usize>,
    /// Of one place but for some ulps in each number; none before `add_near`.
    pub near: Range<usize>,
}

fn real_sheet(random: &mut Random) -> [f64; SHEET] {
    let h = random.unit() * std::f64::consts::PI;
    angles::sheet(h, random.unit() * 1.5)
}

fn filled(random: &mut Random, mut number: impl FnMut(&mut Random) -> f64) -> [f64; SHEET] {
    [(); SHEET].map(|_| number(random))
}

fn extreme_sheets(random: &mut Random) -> Vec<[f64; SHEET]> {
    let mut out = Vec::new();
    for x in EXTREME {
        out.push([x; SHEET]);
    }
    for _ in 0..24 {
        out.push(filled(random, |r| r.pick(&EXTREME)));
    }
    for scale in [1e300, 1e-300, 1e155, 1e-155] {
        for _ in 0..4 {
            out.push(filled(random, |r| r.unit() * scale));
        }
    }
    for _ in 0..6 {
        out.push(filled(random, Random::subnormal));
        out.push(filled(random, Random::finite));
    }
    // real but for one number
    for _ in 0..16 {
        let mut sheet = real_sheet(random);
        sheet[random.pick(&[0, 1, 18, 19, 36])] = random.pick(&EXTREME);
        out.push(sheet);
    }
    out
}

impl Pool {
    pub fn new(random: &mut Random, real: usize) -> Self {
        let mut still = [0.0; SHEET];
        for k in 0..18 {
            still[2 * k + 1] = 1.0;
        }
        let mut sheets = vec![still];
        for _ in 0..real {
            sheets.push(real_sheet(random));
        }
        for x in [0.0, -0.0, 5e-324, 6e-17] {
            for _ in 0..2 {
                let mut sheet = real_sheet(random);
                sheet[19] = x;
                sheets.push(sheet);
            }
        }
        sheets.extend(extreme_sheets(random));
        let extreme = real + 9..sheets.len();
        for _ in 0..8 {
            let mut sheet = real_sheet(random);
            sheet[1] = 1.0 + random.unit() / 4.0;
            sheet[18] = 1.5e-162 * (1.0 + random.unit() / 32.0);
            sheets.push(sheet);
        }
        let restless = extreme.end..sheets.len();
        for place in 0..SHEET {
            let mut sheet = real_sheet(random);
            sheet[place] = NOT_FINITE[place % 3];
            sheets.push(sheet);
        }
        Self {
            real: 1..real + 1,
            polar: real + 1..real + 9,
            refused: restless.end..sheets.len(),
            near: sheets.len()..sheets.len(),
            extreme,
            restless,
            sheets,
        }
    }

    /// Adds eight sheets that are ulps apart, the same to every pool.
    pub fn add_near(&mut self) {
        let mut random = Random::new(0x6e65_6172);
        let place = real_sheet(&mut random);
        let start = self.sheets.len();
        for _ in 0..8 {
            let ulps = |x: f64| f64::from_bits(x.to_bits() + random.below(4) as u64);
            self.sheets.push(place.map(ulps));
        }
        self.near = start..self.sheets.len();
    }

    /// The number of sheets, then the sheets.
    pub fn head(&self) -> Vec<u8> {
        assert!(self.sheets.len() <= 400);
        let mut out = (self.sheets.len() as u16).to_le_bytes().to_vec();
        super::put_doubles(&mut out, self.sheets.as_flattened());
        out
    }
}

/// A call of a fit, right or wrong.
#[derive(Clone)]
pub struct Case {
    pub mode: u8,
    /// What is lent, but for the sheets.
    pub run: Run,
    /// The lent sheets by their places in the pool, and how many of their numbers are lent.
    pub sheets: Vec<u16>,
    pub sheet_numbers: usize,
    pub options: IterOptions,
    /// Places of the answer's coefficients, change, sigma and diagnostics, and of scratch.
    pub places: [usize; 5],
}

impl Case {
    pub fn m(&self) -> usize {
        self.run.m()
    }

    pub fn n(&self) -> usize {
        self.run.n()
    }

    /// The places that question 3 asks.
    pub fn required(&self) -> [usize; 5] {
        let (m, n) = (self.m(), self.n());
        [m, m, m, 3 * n, scratch_size(m, n)]
    }

    /// Lengths of scratch: the required one, one less, one more, and what document 01 asked.
    pub fn scratch_lengths(&self) -> [usize; 4] {
        let required = self.required()[4];
        let before = scratch_size_with_design(self.m(), self.n());
        [required, required - 1, required + 1, before]
    }

    /// The run with its sheets.
    pub fn lent(&self, pool: &Pool) -> Run {
        let mut run = self.run.clone();
        for &sheet in &self.sheets {
            run.sheets.extend(pool.sheets[sheet as usize]);
        }
        run.sheets.truncate(self.sheet_numbers);
        run
    }

    /// The call. What it leaves in the buffers is looked at: a refusal changes nothing, an accepted
    /// fit fills scratch's required part with zeros and keeps the tails.
    pub fn call(&self, run: &Run) -> Result<FitResult, u8> {
        let [coefficients, change, sigma, diagnostics, scratch] =
            self.places.map(|count| vec![7.0; count]);
        let mut buffers = Buffers {
            coefficients,
            change,
            sigma,
            diagnostics,
            scratch,
        };
        let answer = match self.mode {
            SINGLE => fit_model(run, &mut buffers),
            _ => fit_model_iterated(run, &self.options, &mut buffers),
        };
        let kept = match answer {
            Ok(_) => self.required(),
            Err(_) => [0; 5],
        };
        let after = [
            &buffers.coefficients,
            &buffers.change,
            &buffers.sigma,
            &buffers.diagnostics,
            &buffers.scratch,
        ];
        for (buffer, from) in after.into_iter().zip(kept) {
            assert!(buffer[from..].iter().all(|&x| x == 7.0));
        }
        assert!(buffers.scratch[..kept[4]].iter().all(|x| x.to_bits() == 0));
        answer
    }

    /// Another number of lent sheet numbers; sheets that are then missing are the still one.
    pub fn resize_sheets(&mut self, numbers: usize) {
        self.sheet_numbers = numbers;
        self.sheets.resize(numbers.div_ceil(SHEET), STILL);
    }

    /// Another number of stars; those that are then missing are still, East, with differences 0.
    pub fn resize_stars(&mut self, n: usize) {
        self.run.dh.resize(n, 0.0);
        self.run.dd.resize(n, 0.0);
        self.run.piers.resize(n, 1);
        self.resize_sheets(SHEET * n);
    }

    /// Another number of terms; those that are then missing are free MA at 0.
    pub fn resize_terms(&mut self, m: usize) {
        self.run.names.truncate(NAME * m);
        while self.run.names.len() < NAME * m {
            self.run.names.extend(slot(b"MA"));
        }
        self.run.fixed.resize(m, 0);
        self.run.coefficients.resize(m, 0.0);
    }

    /// Buffers of exactly the required places.
    pub fn exact(mut self) -> Self {
        self.places = self.required();
        self
    }

    pub fn set_name(&mut self, j: usize, name: &[u8]) {
        self.run.names[NAME * j..NAME * (j + 1)].copy_from_slice(&slot(name));
    }
}

pub fn slot(name: &[u8]) -> [u8; NAME] {
    let mut out = [0; NAME];
    out[..name.len()].copy_from_slice(name);
    out
}

/// Stars on the still sheet, East, hour-angle difference 0, with ID free at 0: docs/SCOPE.md 12.1.
pub fn still(mode: u8, dd: &[f64]) -> Case {
    let mut case = Case {
        mode,
        run: Run {
            names: slot(b"ID").to_vec(),
            fixed: vec![0],
            coefficients: vec![0.0],
            dh: Vec::new(),
            dd: Vec::new(),
            piers: Vec::new(),
            sheets: Vec::new(),
            sin_lat: 0.0,
            cos_lat: 1.0,
            fit_tol: 0.0,
            sigma_by: BY_STARS,
        },
        sheets: Vec::new(),
        sheet_numbers: 0,
        options: IterOptions {
            robust: mode == ROBUST,
            ..IterOptions::default()
        },
        places: [0; 5],
    };
    case.resize_stars(dd.len());
    case.run.dd = dd.to_vec();
    case.exact()
}

/// Names of every kind, in stored form or not. From `FLAT` on, columns of zeros or of numbers that
/// vanish or overflow.
pub const NAMES: [&str; 40] = [
    "IH",
    "ID",
    "CH",
    "NP",
    "MA",
    "ME",
    "TF",
    "TX",
    "DAF",
    "FO",
    "HCES",
    "HCEC",
    "DCES",
    "DCEC",
    "TX1",
    "TX2",
    "TX3",
    "TX7",
    "tx+05",
    "ih",
    "Me",
    "daf",
    "HHSH",
    "HDCD2",
    "HXSHCD2",
    "HPSH3",
    "HHCH9SD4",
    "HDSDCH",
    "HXCH",
    "HPCDSH2",
    "hdch5",
    "HHSH7",
    "HDSD8CH6",
    "HXSD3",
    "HHSHCDSHCDSHCDSH",
    "HDCACECZ",
    "TX255",
    "HHSA",
    "HASH",
    "HZCD3",
];
pub const FLAT: usize = 36;

/// Terms that enter the rotational step norm, and terms that don't.
pub const ROTATIONAL: [&str; 6] = ["IH", "ID", "NP", "ME", "ih", "np"];
pub const OTHER: [&str; 9] = [
    "CH", "MA", "TF", "FO", "DCES", "HCEC", "HDCD2", "HHSH", "HXSH3",
];

pub struct Maker<'a> {
    pub random: Random,
    pub pool: &'a Pool,
}

impl Maker<'_> {
    pub fn place(&mut self, from: Range<usize>) -> u16 {
        self.random.within(from.start, from.end - 1) as u16
    }

    /// `m` names, mostly different.
    pub fn names(&mut self, m: usize, from: &[&'static str]) -> Vec<&'static str> {
        let mut out: Vec<&'static str> = Vec::new();
        for _ in 0..m {
            let mut name = self.random.pick(from);
            for _ in 0..4 {
                if out.contains(&name) {
                    name = self.random.pick(from);
                }
            }
            out.push(name);
        }
        out
    }

    /// Free terms at 0, real stars with differences 0, default options.
    pub fn blank(&mut self, mode: u8, names: &[&str], n: usize) -> Case {
        let mut case = still(mode, &vec![0.0; n]);
        case.resize_terms(names.len());
        for (j, name) in names.iter().enumerate() {
            case.set_name(j, name.as_bytes());
        }
        let (sin, cos) = angles::sin_cos(self.random.unit() * 1.2);
        (case.run.sin_lat, case.run.cos_lat) = (sin, cos);
        for i in 0..n {
            case.run.piers[i] = self.random.pick(&[0, 1, 1, 1, 2, 2, 2]);
            case.sheets[i] = self.place(self.pool.real.clone());
        }
        case.exact()
    }

    /// Differences that the terms would give with coefficients around 100, and noise.
    pub fn observe(&mut self, case: &mut Case, noise: f64) {
        let run = case.lent(self.pool);
        for j in 0..case.m() {
            let truth = self.random.unit() * 100.0;
            for i in 0..case.n() {
                let point = Point {
                    sheet: &run.sheets[SHEET * i..SHEET * (i + 1)],
                    sin_lat: run.sin_lat,
                    cos_lat: run.cos_lat,
                    pier: run.piers[i],
                };
                let pair = jacobian(&run.names[NAME * j..NAME * (j + 1)], &point);
                let (jh, jd) = pair.expect("an accepted name");
                case.run.dh[i] += jh * truth;
                case.run.dd[i] += jd * truth;
            }
        }
        for i in 0..case.n() {
            case.run.dh[i] += self.random.unit() * noise;
            case.run.dd[i] += self.random.unit() * noise;
        }
    }

    /// Start coefficients of several sorts; about one term in four fixed, but not all.
    pub fn start(&mut self, case: &mut Case) {
        let free = self.random.below(case.m());
        let sort = self.random.below(5);
        for j in 0..case.m() {
            case.run.fixed[j] = (j != free && self.random.below(4) == 0) as u8;
            case.run.coefficients[j] = match sort {
                0 => 0.0,
                1 => -0.0,
                2 => self.random.unit() * 100.0,
                _ => self.random.pick(&[0.0, -0.0, 1.0, -50.0, 1e-3, 250.5]),
            };
        }
    }

    /// Buffers exact or up to 16 places longer, and scratch also as long as document 01 asked.
    pub fn places(&mut self, case: &mut Case) {
        case.places = case.required();
        for count in &mut case.places {
            *count += self.random.pick(&[0, 0, 0, 1, 2, 16]);
        }
        if case.places[4] == case.required()[4] + 16 {
            case.places[4] = scratch_size_with_design(case.m(), case.n());
        }
    }

    /// Runs of several sizes up to the limits with each length of scratch, and a small one with
    /// every length around and between.
    pub fn in_each_scratch(&mut self, modes: &[u8], out: &mut Vec<Case>) {
        for &mode in modes {
            for (m, n) in [(1, 1), (3, 5), (6, 20), (16, 100), (32, 1024)] {
                let mut case = self.real_of(mode, &NAMES[..m], n);
                case.options.max_iter = 1;
                for length in case.scratch_lengths() {
                    case.places[4] = length;
                    out.push(case.clone());
                }
            }
            let mut case = self.real_of(mode, &NAMES[..2], 3);
            let [required, .., before] = case.scratch_lengths();
            for length in required - 2..before + 2 {
                case.places[4] = length;
                out.push(case.clone());
            }
        }
    }

    /// A run of real use with the names given.
    pub fn real_of(&mut self, mode: u8, names: &[&str], n: usize) -> Case {
        let mut case = self.blank(mode, names, n);
        let noise = self.random.pick(&[0.0, 0.1, 3.0, 3.0, 30.0]);
        self.observe(&mut case, noise);
        self.start(&mut case);
        case.run.fit_tol = self.random.pick(&[0.0, 0.0, 1e-12, 1e-12, 1e-3]);
        self.places(&mut case);
        case
    }

    pub fn real(&mut self, mode: u8, terms: usize, stars: usize) -> Case {
        let m = self.random.within(1, terms);
        let n = self.random.within(m, stars.max(m));
        let names = match self.random.below(4) {
            0 => self.names(m, &NAMES),
            _ => self.names(m, &NAMES[..FLAT]),
        };
        self.real_of(mode, &names, n)
    }

    /// Extreme sheets, differences, coefficients or latitudes.
    pub fn extreme(&mut self, mode: u8) -> Case {
        let mut case = self.real(mode, 4, 6);
        let sort = self.random.below(6);
        for i in 0..case.n() {
            if sort == 0 || self.random.below(3) == 0 {
                case.sheets[i] = self.place(self.pool.extreme.clone());
            }
            if sort == 1 || (sort == 2 && self.random.below(3) == 0) {
                case.run.dh[i] = self.number();
                case.run.dd[i] = self.number();
            }
        }
        for j in 0..case.m() {
            if sort == 3 || self.random.below(5) == 0 {
                case.run.coefficients[j] = self.number();
            }
        }
        if sort == 4 {
            case.run.sin_lat = self.number();
            case.run.cos_lat = self.number();
        }
        case
    }

    /// A number at the edges, of any size, or any pattern.
    fn number(&mut self) -> f64 {
        match self.random.below(4) {
            0 => self.random.pick(&EXTREME),
            1 => self.random.unit() * self.random.pick(&[1e300, 1e-300, 1e155, 1e-155, 1e150]),
            2 => self.random.subnormal(),
            _ => self.random.finite(),
        }
    }

    /// Stars at the pole: cos dec 0, -0 or next to it.
    pub fn polar(&mut self, mode: u8) -> Case {
        let names = ["IH", "CH", "ID", "TF", "HXSH3", "NP"];
        let m = self.random.within(1, 4);
        let names = self.names(m, &names);
        let n = self.random.within(m, 6);
        let mut case = self.real_of(mode, &names, n);
        for i in 0..n {
            if self.random.below(3) > 0 {
                case.sheets[i] = self.place(self.pool.polar.clone());
            }
        }
        case
    }

    /// Equal names, spelled alike or not.
    pub fn repeated(&mut self, mode: u8) -> Case {
        let pairs = [
            ["IH", "ih"],
            ["ID", "ID"],
            ["TX5", "tx+05"],
            ["CH", "Ch"],
            ["HHSH", "HHSH1"],
        ];
        let mut names = self.random.pick(&pairs).to_vec();
        for _ in 0..self.random.below(3) {
            let name = self.random.pick(&NAMES);
            names.insert(self.random.below(names.len() + 1), name);
        }
        let n = self.random.within(names.len(), 7);
        let mut case = self.real_of(mode, &names, n);
        case.run.fit_tol = self.random.pick(&[0.0, 1e-12, 1e-12, 0.5]);
        case
    }

    /// Some terms can't be told apart: one sheet for all stars, columns of zeros, one pier side.
    pub fn deficient(&mut self, mode: u8) -> Case {
        let mut case = self.real(mode, 5, 7);
        let sheet = case.sheets[0];
        match self.random.below(3) {
            0 => case.sheets.fill(sheet),
            1 => case.set_name(self.random.below(case.m()), b"HASHCD"),
            _ => {
                case.sheets.fill(STILL);
                case.run.piers.fill(2);
            }
        }
        case.run.fit_tol = self.random.pick(&[0.0, 1e-12, 1e-6]);
        case
    }

    /// A column whose squares vanish beside one of size 1: the factorisation makes 30 sweeps.
    pub fn restless(&mut self, mode: u8) -> Case {
        let names = self.random.pick(&[["FO", "DCES"], ["dces", "FO"]]);
        let n = self.random.within(5, 8);
        let mut case = self.real_of(mode, &names, n);
        case.run.fixed.fill(0);
        for i in 0..n {
            case.sheets[i] = self.place(self.pool.restless.clone());
        }
        case
    }

    /// As many stars as free terms, or one fewer.
    pub fn tight(&mut self, mode: u8, fewer: usize) -> Case {
        let mut case = self.real(mode, 6, 6);
        let free = case.run.fixed.iter().filter(|&&f| f == 0).count();
        case.resize_stars(free - fewer);
        self.places(&mut case);
        case
    }
}
