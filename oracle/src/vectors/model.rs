//! `replay_model`: sequences of calls on a model.

use super::faults::REFUSED_NAMES;
use super::mended::{some_flags, Mended};
use super::random::{Random, EXTREME};
use super::runs::{slot, Pool, NAMES, NOT_FINITE};
use super::{angles, put_doubles, Vectors};
use crate::questions::{
    add_term, apply_equatorial, predict_breakdown, set_coefficients, Model, Point, MAX_TERMS, NAME,
};
use crate::sheet::SHEET;

pub struct Calls {
    pub random: Random,
    /// For the flags of models made by hand.
    flags: Random,
    pool: Pool,
    pub model: Model,
    stdin: Vec<u8>,
    calls: usize,
    models: usize,
    added: usize,
    there: usize,
    mended: Mended,
    refused: [usize; 15],
}

/// A sheet's length and place in the pool, the latitude and the pier code.
pub struct Place {
    pub len: usize,
    sheet: usize,
    pub lat: [f64; 2],
    pub pier: u8,
}

/// Whether a call kept what lies behind the count of the model that it gave.
fn kept_behind(before: &Model, after: &Model) -> bool {
    let bits = |model: &Model| model.coefficients.map(f64::to_bits);
    before.names[after.count..] == after.names[after.count..]
        && bits(before)[after.count..] == bits(after)[after.count..]
        && before.pier_sensitive[after.count..] == after.pier_sensitive[after.count..]
}

impl Calls {
    fn new() -> Self {
        let mut random = Random::new(0x6d6f_6465);
        let pool = Pool::new(&mut random, 60);
        Self {
            random,
            flags: Random::new(0x666c_6167),
            stdin: pool.head(),
            pool,
            model: Model::default(),
            calls: 0,
            models: 0,
            added: 0,
            there: 0,
            mended: Mended::default(),
            refused: [0; 15],
        }
    }

    fn new_model(&mut self) {
        self.stdin.push(0);
        self.models += 1;
        self.mended.made(false);
        self.model = Model::default();
    }

    /// A model made by hand, with flags of any sort.
    fn hand_made(&mut self, mut model: Model) {
        model.pier_sensitive = some_flags(&model, &mut self.flags);
        self.by_hand(model);
    }

    pub fn by_hand(&mut self, model: Model) {
        self.stdin.push(5);
        self.stdin.extend((model.count as u16).to_le_bytes());
        self.stdin.extend(model.names.as_flattened());
        put_doubles(&mut self.stdin, &model.coefficients);
        self.stdin.extend(model.pier_sensitive.map(u8::from));
        self.models += 1;
        self.mended.made(true);
        self.model = model;
    }

    fn answer(&mut self, number: u8) {
        self.calls += 1;
        self.refused[number as usize] += 1;
        self.stdin.push(number);
    }

    /// The refusal, then the model that is current from now on.
    fn put_model(&mut self, answer: Result<Model, u8>) {
        self.answer(answer.as_ref().err().copied().unwrap_or(0));
        if let Ok(model) = answer {
            assert!(kept_behind(&self.model, &model));
            self.model = model;
        }
        let places = self.model.count.min(MAX_TERMS);
        self.stdin.extend((self.model.count as u16).to_le_bytes());
        let names = &self.model.names[..places];
        self.stdin.extend(names.as_flattened());
        put_doubles(&mut self.stdin, &self.model.coefficients[..places]);
        let flags = &self.model.pier_sensitive[..places];
        self.stdin.extend(flags.iter().map(|&flag| u8::from(flag)));
    }

    pub fn add(&mut self, slot: &[u8]) {
        self.stdin.extend([1, slot.len() as u8]);
        self.stdin.extend(slot);
        let before = self.model.count;
        let answer = add_term(&self.model, slot);
        if answer.is_ok() {
            let rose = answer.as_ref().is_ok_and(|model| model.count > before);
            self.added += rose as usize;
            self.there += !rose as usize;
        }
        self.mended.changed(&self.model, Some(slot), &answer);
        self.put_model(answer);
    }

    pub fn add_name(&mut self, name: &str) {
        self.add(&slot(name.as_bytes()));
    }

    pub fn set(&mut self, coefficients: &[f64]) {
        self.stdin.extend([2, coefficients.len() as u8]);
        put_doubles(&mut self.stdin, coefficients);
        let answer = set_coefficients(&self.model, coefficients);
        self.mended.changed(&self.model, None, &answer);
        self.put_model(answer);
    }

    /// The correction, then the breakdown.
    pub fn at(&mut self, place: &Place) {
        let sheets = &self.pool.sheets[place.sheet..place.sheet + 2];
        let sheet = sheets.as_flattened()[..place.len].to_vec();
        let point = Point {
            sheet: &sheet,
            sin_lat: place.lat[0],
            cos_lat: place.lat[1],
            pier: place.pier,
        };
        self.put_place(3, place);
        let answer = apply_equatorial(&self.model, &point);
        self.answer(answer.err().unwrap_or(0));
        if let Ok((h, d)) = answer {
            put_doubles(&mut self.stdin, &[h, d]);
        }
        self.put_place(4, place);
        let answer = predict_breakdown(&self.model, &point);
        self.mended.broken_down(&self.model, &answer);
        self.answer(answer.as_ref().err().copied().unwrap_or(0));
        for (h, d, flag) in answer.unwrap_or_default() {
            put_doubles(&mut self.stdin, &[h, d]);
            self.stdin.push(flag as u8);
        }
    }

    fn put_place(&mut self, op: u8, place: &Place) {
        self.stdin.extend([op, place.len as u8]);
        self.stdin.extend((place.sheet as u16).to_le_bytes());
        put_doubles(&mut self.stdin, &place.lat);
        self.stdin.push(place.pier);
    }

    pub fn real_place(&mut self) -> Place {
        let real = self.pool.real.clone();
        Place {
            len: SHEET,
            sheet: self.random.within(real.start, real.end - 1),
            lat: angles::sin_cos(self.random.unit() * 1.5).into(),
            pier: self.random.below(3) as u8,
        }
    }

    /// Mostly real; at times an extreme sheet, the pole, or a fault.
    fn place(&mut self) -> Place {
        let mut place = self.real_place();
        let ranges = [&self.pool.extreme, &self.pool.polar, &self.pool.refused];
        match self.random.below(12) {
            sort @ 0..=2 => {
                let range = ranges[sort];
                // the last sheet has none behind it
                place.sheet = self.random.within(range.start, range.end - 2);
            }
            3 => place.lat[self.random.below(2)] = self.random.pick(&EXTREME),
            4 => place.pier = self.random.pick(&[3, 4, 128, 255]),
            5 => {
                let faults = self.random.within(1, 3);
                self.fault(&mut place, faults);
            }
            _ => {}
        }
        place
    }

    /// Faults that questions 2, 4 and 5 find.
    fn fault(&mut self, place: &mut Place, faults: usize) {
        for _ in 0..faults {
            match self.random.below(4) {
                0 => place.len = self.random.pick(&[0, 1, 36, 38, 40]),
                1 => place.lat[self.random.below(2)] = self.random.pick(&NOT_FINITE),
                2 => place.pier = self.random.pick(&[3, 4, 128, 255]),
                _ => place.sheet = self.pool.refused.start + self.random.below(36),
            }
        }
    }

    fn number(&mut self) -> f64 {
        match self.random.below(12) {
            0 => 0.0,
            1 => -0.0,
            2 => self.random.pick(&EXTREME),
            3 => self.random.finite(),
            4 => self.random.unit() * 1e300,
            _ => self.random.unit() * 300.0,
        }
    }

    pub fn numbers(&mut self, count: usize) -> Vec<f64> {
        (0..count).map(|_| self.number()).collect()
    }

    /// One call, mostly right.
    fn any_call(&mut self) {
        match self.random.below(10) {
            0..=2 => {
                let name = self.random.pick(&NAMES);
                let name = super::names::mixed_case(&mut self.random, name.as_bytes());
                self.add(&slot(&name));
            }
            3 => self.refused_name(),
            4..=6 => {
                let mut count = self.model.count.min(40);
                if self.random.below(6) == 0 {
                    count = self
                        .random
                        .pick(&[count + 1, count.saturating_sub(1), 0, 33, 40]);
                }
                let mut numbers = self.numbers(count.min(40));
                if !numbers.is_empty() && self.random.below(5) == 0 {
                    let j = self.random.below(numbers.len());
                    numbers[j] = self.random.pick(&NOT_FINITE);
                }
                self.set(&numbers);
            }
            _ => {
                let place = self.place();
                self.at(&place);
            }
        }
    }

    /// A name that questions 7 to 10 refuse, or a slot that 2 does, with such a name or a good one.
    fn refused_name(&mut self) {
        let names = self.random.pick(&REFUSED_NAMES);
        let mut slot = slot(self.random.pick(names)).to_vec();
        if self.random.below(3) == 0 {
            let len = self.random.pick(&[0, 1, 8, 15, 17, 32]);
            slot.resize(len, 0);
            if self.random.flip() && len > 1 {
                slot[..2].copy_from_slice(b"IH");
            }
        }
        self.add(&slot);
    }

    /// Names one after the other with calls between.
    fn growing(&mut self, calls: usize) {
        self.new_model();
        for _ in 0..calls {
            self.any_call();
        }
    }

    /// The empty model at every sort of place.
    fn empty(&mut self) {
        self.new_model();
        for _ in 0..30 {
            let place = self.place();
            self.at(&place);
        }
        self.set(&[]);
        self.set(&[1.0]);
        self.set(&[f64::NAN]);
        self.add(b"");
        self.add_name("tx5");
        self.add_name("tx+05");
        self.add_name("TX005");
        self.add_name("HHSH");
        self.add_name("hhsh1");
        self.set(&[1.0, -0.0, f64::INFINITY]);
        self.set(&[1.0, -0.0, 2.0]);
    }

    /// 32 terms: a new name is 14, after all that is asked of it; a repeat leaves the model equal.
    fn full(&mut self) {
        self.new_model();
        let first = self.random.within(1, 200);
        for n in 0..32 {
            match n % 3 {
                0 => self.add_name(&format!("tx{}", first + n)),
                1 => self.add_name(&format!("HDSH{}CD{}", n % 9 + 1, n / 9 + 1)),
                _ => self.add_name(&format!("hhsdch{}sh{}", n % 7 + 1, n / 9 + 1)),
            }
        }
        assert_eq!(self.model.count, 32);
        let numbers = self.numbers(32);
        self.set(&numbers);
        for name in ["IH", "ih", "TX", "HHSH", "TX255"] {
            self.add_name(name);
        }
        self.add_name(&format!("TX+00{first}"));
        self.add_name("HDSH2CD1");
        for _ in 0..6 {
            self.refused_name();
        }
        for _ in 0..4 {
            let place = self.place();
            self.at(&place);
        }
        self.set(&numbers[..31]);
        self.set(&[&numbers[..], &[0.0]].concat());
    }

    /// A model with names as they may be written, coefficients, and anything behind its count.
    fn some_model(&mut self, count: usize) -> Model {
        let mut model = Model {
            count,
            ..Model::default()
        };
        for j in 0..MAX_TERMS {
            if j < count || self.random.flip() {
                let name = self.random.pick(&NAMES);
                model.names[j] = slot(name.as_bytes());
                model.coefficients[j] = self.number();
            } else {
                model.names[j] = [(); NAME].map(|_| self.random.byte());
                model.coefficients[j] = self.random.pick(&NOT_FINITE);
            }
        }
        model
    }

    /// Puts faults into a model that question 4 and 7 to 10 find.
    fn spoil(&mut self, model: &mut Model) {
        for _ in 0..self.random.within(1, 3) {
            let j = self.random.below(model.count.clamp(1, MAX_TERMS));
            if self.random.below(3) == 0 {
                model.coefficients[j] = self.random.pick(&NOT_FINITE);
            } else {
                let names = self.random.pick(&REFUSED_NAMES);
                model.names[j] = slot(self.random.pick(names));
            }
        }
    }

    /// Each call once on a model made by hand.
    fn calls_on(&mut self, model: Model) {
        let count = model.count.min(40);
        self.hand_made(model);
        let name = self.random.pick(&NAMES);
        self.add_name(name);
        // as its first slot is spelled, then in capitals
        let first = self.model.names[0];
        self.add(&first);
        self.add(&first.map(|b| b.to_ascii_uppercase()));
        self.refused_name();
        let numbers = self.numbers(count);
        self.set(&numbers);
        self.set(&[f64::NAN]);
        let mut place = self.real_place();
        self.at(&place);
        let faults = self.random.within(1, 3);
        self.fault(&mut place, faults);
        self.at(&place);
        let place = self.place();
        self.at(&place);
    }

    fn hand_made_models(&mut self) {
        for _ in 0..70 {
            let count = self.random.pick(&[0, 1, 1, 2, 3, 4, 6]);
            let model = self.some_model(count);
            self.calls_on(model);
        }
        for _ in 0..60 {
            let count = self.random.within(1, 6);
            let mut model = self.some_model(count);
            self.spoil(&mut model);
            self.calls_on(model);
        }
        for count in [33, 34, 64, 255, 256, 288, 65535] {
            let mut model = self.some_model(count);
            self.calls_on(model.clone());
            self.spoil(&mut model);
            self.calls_on(model);
        }
        for _ in 0..3 {
            let mut model = self.some_model(32);
            self.calls_on(model.clone());
            self.spoil(&mut model);
            self.calls_on(model);
        }
        self.respelled();
        self.orders();
    }

    /// A model made by hand of these names, with coefficients from 1.5 on.
    pub fn model_of(&mut self, names: &[&str]) -> Model {
        let mut model = Model {
            count: names.len(),
            ..Model::default()
        };
        for (j, name) in names.iter().enumerate() {
            model.names[j] = slot(name.as_bytes());
            model.coefficients[j] = j as f64 + 1.5;
        }
        model
    }

    /// Names that are read, but not as stored: their term is there, however it is spelled, also
    /// where the model is full.
    fn respelled(&mut self) {
        for (spelled, stored) in [("tx+05", "TX5"), ("ih", "IH"), ("hXsHcD2", "HXSHCD2")] {
            let model = self.model_of(&[spelled]);
            self.hand_made(model);
            for name in [spelled, stored, stored, "Dcec", spelled, "DCEC"] {
                self.add_name(name);
            }
            self.set(&[2.5, -2.5]);
            for _ in 0..4 {
                let place = self.real_place();
                self.at(&place);
            }
            let full: Vec<String> = (0..31).map(|n| format!("tx0{}", n + 10)).collect();
            let mut names = vec![spelled];
            names.extend(full.iter().map(String::as_str));
            let model = self.model_of(&names);
            self.hand_made(model);
            for name in [spelled, stored, "TX10", "tx+0040", "TX41", "NP"] {
                self.add_name(name);
            }
        }
        let model = self.model_of(&["np", "NP", "nP"]);
        self.hand_made(model);
        self.add_name("Np");
        self.add_name("HHSH");
    }

    /// Each fault of a model beside each fault of what else a call takes.
    fn orders(&mut self) {
        let faults = [("IH", 1.0), ("IH", f64::NAN), ("", 1.0), ("ie", 1.0)];
        for (name, coefficient) in faults.into_iter().chain([("QQ", 1.0), ("HHS", -0.0)]) {
            let mut model = self.model_of(&["ID", name]);
            model.coefficients[1] = coefficient;
            self.hand_made(model.clone());
            for name in [&b"IH"[..], b"", b"AN", b"ZZ", b"HZZ"] {
                self.add(&slot(name));
                self.add(&slot(name)[..15]);
            }
            self.hand_made(model);
            for numbers in [&[1.0][..], &[f64::NAN], &[f64::NAN, 1.0], &[1.0, 2.0]] {
                self.set(numbers);
            }
            for fault in 0..8 {
                let mut place = self.real_place();
                place.len -= fault & 1;
                place.pier += 3 * (fault as u8 >> 1 & 1);
                place.lat[1] /= if fault > 3 { 0.0 } else { 1.0 };
                self.at(&place);
            }
        }
    }

    /// Contributions of infinite size with opposite signs.
    fn overflowing(&mut self) {
        self.new_model();
        for name in ["ch", "IH", "HXCH", "FO", "NP"] {
            self.add_name(name);
        }
        for numbers in [
            [f64::MAX, 1.0, f64::MAX, -0.0, 0.0],
            [f64::MAX, f64::MIN, f64::MIN, f64::MAX, f64::MAX],
            [1e300, -1e300, 1e300, 5e-324, -1e308],
            [0.0, -0.0, 0.0, -0.0, -0.0],
        ] {
            self.set(&numbers);
            let (polar, extreme) = (self.pool.polar.clone(), self.pool.extreme.clone());
            for sheet in polar.step_by(2).chain(extreme.step_by(9)) {
                let mut place = self.real_place();
                place.sheet = sheet;
                self.at(&place);
            }
        }
    }
}

pub fn vectors() -> Vectors {
    let mut calls = Calls::new();
    // the model that a file starts with is empty
    let place = calls.real_place();
    calls.at(&place);
    calls.empty();
    for _ in 0..90 {
        calls.growing(20);
    }
    for _ in 0..4 {
        calls.full();
    }
    calls.hand_made_models();
    calls.overflowing();
    calls.by_flags();
    let mut stdout = format!("calls {}\nmodels {}\n", calls.calls, calls.models);
    stdout += &format!("added {}\nthere {}\n", calls.added, calls.there);
    stdout += &format!("mended {}\n", calls.mended.count());
    for number in [1, 2, 4, 5, 7, 8, 9, 10, 14] {
        assert!(calls.refused[number] > 0);
        stdout += &format!("refused {number} {}\n", calls.refused[number]);
    }
    stdout += "different 0\n";
    Vectors {
        name: "replay_model",
        stdin: calls.stdin,
        stdout,
    }
}

#[cfg(test)]
mod tests {
    use super::*;

    /// The number that a call of `add_term` gives, or 0 and how many terms there are then.
    fn added(model: &Model, name: &str) -> (u8, usize) {
        match add_term(model, &slot(name.as_bytes())) {
            Ok(model) => (0, model.count),
            Err(number) => (number, model.count),
        }
    }

    fn of(name: &str, count: usize) -> Model {
        let mut model = Model {
            count,
            ..Model::default()
        };
        model.names[..count].fill(slot(name.as_bytes()));
        model
    }

    #[test]
    fn a_term_is_there_however_it_is_spelled() {
        for (spelled, name) in [("ih", "IH"), ("tx+05", "TX5"), ("TX5", "tx+05")] {
            assert_eq!(added(&of(spelled, 1), name), (0, 1));
            assert_eq!(added(&of(spelled, 32), name), (0, 32));
            assert_eq!(added(&of(spelled, 32), "NP"), (14, 32));
            assert_eq!(added(&of(spelled, 1), "NP"), (0, 2));
        }
    }

    #[test]
    fn questions_are_put_in_the_order_of_their_numbers() {
        let model = of("QQ", 1);
        let at = |len| Point {
            sheet: &[1.0; 38][..len],
            sin_lat: 0.0,
            cos_lat: 1.0,
            pier: 3,
        };
        assert_eq!(apply_equatorial(&model, &at(36)).err(), Some(2));
        assert_eq!(apply_equatorial(&model, &at(37)).err(), Some(5));
        assert_eq!(predict_breakdown(&model, &at(38)).err(), Some(2));
        assert_eq!(add_term(&model, b"IH").err(), Some(2));
        assert_eq!(added(&model, ""), (9, 1));
        assert_eq!(set_coefficients(&model, &[]).err(), Some(2));
        assert_eq!(set_coefficients(&model, &[f64::NAN]).err(), Some(4));
        assert_eq!(set_coefficients(&model, &[1.0]).err(), Some(9));
    }
}
