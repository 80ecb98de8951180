//! Faults that the questions find, and calls that have one or several.

use super::runs::{Case, Maker, NOT_FINITE, SINGLE};
use crate::questions::NAME;

/// Names that questions 7, 8, 9 and 10 refuse.
pub const REFUSED_NAMES: [&[&[u8]]; 4] = [
    &[
        b"",
        b"I\xc9",
        b"I\0H",
        b"\0IH",
        b"\xff",
        b"TX\0\0\0\0\0\0\0\0\0\0\0\0\0\x01",
    ],
    &[b"IA", b"ie", b"CA", b"NPAE", b"an", b"Aw"],
    &[
        b"QQ",
        b"TX0",
        b"TX256",
        b"TX+",
        b"I H",
        b"\x7f",
        b"DCE",
        b"ABCDEFGHIJKLMNOP",
    ],
    &[
        b"H",
        b"HHS",
        b"HHSH0",
        b"HHSH12",
        b"hq",
        b"HCES1",
        b"HHSHCDSHCDSHCDS0",
    ],
];

/// The order in which faults are put: those that change a case's shape first.
const SHAPE_FIRST: [u8; 13] = [13, 11, 12, 1, 7, 8, 9, 10, 5, 4, 6, 2, 3];

impl Maker<'_> {
    /// A fault that question `number` finds; see `SHAPE_FIRST` where there are several.
    pub fn fault(&mut self, case: &mut Case, number: u8) {
        match number {
            1 => self.fault_count(case),
            2 => {
                let sort = self.random.below(5);
                let by = self.random.pick(&[-1, 1, -1, 1, 16]);
                self.fault_length(case, sort, by);
            }
            3 => {
                let buffer = self.random.below(5);
                let least = case.required()[buffer];
                case.places[buffer] = self.random.pick(&[least.saturating_sub(1), 0, least / 2]);
            }
            4 => {
                let sorts = if case.mode == SINGLE { 7 } else { 12 };
                let sort = self.random.below(sorts);
                let number = self.random.pick(&NOT_FINITE);
                self.fault_float(case, sort, number);
            }
            5 => self.fault_code(case),
            6 => case.options.max_iter = self.random.pick(&[1001, 1002, 65535]),
            7..=10 if !case.run.names.is_empty() => {
                let name = self.random.pick(REFUSED_NAMES[number as usize - 7]);
                let slots = case.run.names.len() / NAME;
                case.set_name(self.random.below(slots), name);
            }
            11 => case.resize_terms(0),
            12 => case.run.fixed.fill(1),
            13 => case.resize_stars(case.m().saturating_sub(1)),
            _ => {}
        }
        if matches!(number, 1 | 11 | 13) {
            self.places(case);
        }
    }

    /// Too many terms: whole, or coefficients alone.
    fn fault_count(&mut self, case: &mut Case) {
        let m = self.random.within(33, 40);
        if self.random.flip() {
            case.resize_terms(m);
        } else {
            case.run.coefficients.resize(m, 1.0);
        }
    }

    /// A pier code or a fixed flag.
    fn fault_code(&mut self, case: &mut Case) {
        let run = &mut case.run;
        if self.random.flip() && !run.piers.is_empty() {
            let i = self.random.below(run.piers.len());
            run.piers[i] = self.random.pick(&[3, 4, 128, 255]);
        } else if !run.fixed.is_empty() {
            let j = self.random.below(run.fixed.len());
            run.fixed[j] = self.random.pick(&[2, 3, 255]);
        }
    }

    /// Another number of name bytes, flags, declination differences, pier codes or sheet numbers.
    pub fn fault_length(&mut self, case: &mut Case, sort: usize, by: isize) {
        let to = |len: usize| len.saturating_add_signed(by);
        let run = &mut case.run;
        match sort {
            0 => run.names.resize(to(run.names.len()), 0),
            1 => run.fixed.resize(to(run.fixed.len()), 0),
            2 => run.dd.resize(to(run.dd.len()), 1.0),
            3 => run.piers.resize(to(run.piers.len()), 1),
            _ => case.resize_sheets(to(case.sheet_numbers)),
        }
    }

    /// A number that isn't finite in a slice, a scalar or an option.
    pub fn fault_float(&mut self, case: &mut Case, sort: usize, number: f64) {
        let random = &mut self.random;
        let run = &mut case.run;
        let slice = match sort {
            0 => &mut run.coefficients,
            1 => &mut run.dh,
            2 => &mut run.dd,
            3 => {
                if !case.sheets.is_empty() {
                    let i = random.below(case.sheets.len());
                    let refused = &self.pool.refused;
                    case.sheets[i] = random.within(refused.start, refused.end - 1) as u16;
                }
                return;
            }
            _ => {
                *[
                    &mut run.sin_lat,
                    &mut run.cos_lat,
                    &mut run.fit_tol,
                    &mut case.options.tol_rad,
                    &mut case.options.initial_lambda,
                    &mut case.options.lambda_up,
                    &mut case.options.lambda_down,
                    &mut case.options.huber_k,
                ][sort - 4] = number;
                return;
            }
        };
        if !slice.is_empty() {
            let i = random.below(slice.len());
            slice[i] = number;
        }
    }

    /// Two to four faults, mostly of different questions.
    pub fn several_faults(&mut self, case: &mut Case, asked: &[u8]) {
        let mut chosen = Vec::new();
        for _ in 0..self.random.within(2, 4) {
            chosen.push(self.random.pick(asked));
        }
        self.put_faults(case, &chosen);
    }

    pub fn put_faults(&mut self, case: &mut Case, chosen: &[u8]) {
        for number in SHAPE_FIRST {
            if chosen.contains(&number) {
                self.fault(case, number);
            }
        }
    }
}

impl Maker<'_> {
    pub fn faulty(&mut self, modes: &[u8], change: impl FnOnce(&mut Self, &mut Case)) -> Case {
        let mode = self.random.pick(modes);
        let mut case = self.real(mode, 4, 5);
        change(self, &mut case);
        case
    }

    /// Questions 2 and 3: each length off by one and by more, each buffer one and two short.
    pub fn shape_refusals(&mut self, modes: &[u8]) -> Vec<Case> {
        let mut out = Vec::new();
        for sort in 0..5 {
            for by in [-1, 1, -1, 1, -16, 16, -37] {
                out.push(self.faulty(modes, |maker, case| maker.fault_length(case, sort, by)));
            }
            for fewer in [1, 1, 2] {
                out.push(self.faulty(modes, |_, case| {
                    case.places[sort] = case.required()[sort].saturating_sub(fewer);
                }));
            }
        }
        out
    }

    /// Each number that isn't finite in each slice, scalar and option, alone and beside a wrong
    /// code; each refused name; each question's fault, each two of them, and several at once.
    pub fn refusals(&mut self, modes: &[u8], asked: &[u8]) -> Vec<Case> {
        let mut out = Vec::new();
        let floats = if modes == [SINGLE] { 7 } else { 12 };
        for number in NOT_FINITE {
            for sort in 0..floats {
                out.push(self.faulty(modes, |maker, case| maker.fault_float(case, sort, number)));
                out.push(self.faulty(modes, |maker, case| {
                    maker.fault_code(case);
                    maker.fault_float(case, sort, number);
                }));
            }
        }
        for name in REFUSED_NAMES.concat() {
            out.push(self.faulty(modes, |maker, case| {
                case.set_name(maker.random.below(case.m()), name);
            }));
        }
        for (i, &first) in asked.iter().enumerate() {
            for _ in 0..6 {
                out.push(self.faulty(modes, |maker, case| maker.fault(case, first)));
            }
            for second in asked[i + 1..].repeat(3) {
                out.push(self.faulty(modes, |maker, case| {
                    maker.put_faults(case, &[first, second]);
                }));
            }
        }
        for _ in 0..150 {
            out.push(self.faulty(modes, |maker, case| maker.several_faults(case, asked)));
            out.push(self.faulty(modes, Self::refused_names));
        }
        out
    }

    /// Two names or more refused for different reasons: the lowest slot decides.
    pub fn refused_names(&mut self, case: &mut Case) {
        case.resize_terms(case.m() + 2);
        for number in 7..=10 {
            self.fault(case, number);
        }
        self.places(case);
    }
}
