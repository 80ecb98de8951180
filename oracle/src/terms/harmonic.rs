//! docs/src terms/harmonic.rs: harmonic names and their Jacobians.
//! docs/SCOPE.md 4.3: an ill-formed harmonic is 10; sines and cosines are read from the lent sheet.

use super::Term;
use crate::error::Result;
use crate::sheet::{Latitude, Sheet};

#[derive(Debug, Clone, Copy, PartialEq, Eq)]
pub enum TrigFunc {
    Sin,
    Cos,
}

#[derive(Debug, Clone, Copy, PartialEq, Eq)]
pub enum Coordinate {
    H,
    D,
    A,
    E,
    Z,
}

#[derive(Debug, Clone, Copy, PartialEq, Eq)]
pub enum ResultType {
    H,
    D,
    X,
    P,
    A,
    E,
    Z,
    S,
}

#[derive(Debug, Clone)]
pub struct HarmonicComponent {
    pub func: TrigFunc,
    pub coord: Coordinate,
    pub frequency: u8,
}

#[derive(Debug, Clone)]
pub struct HarmonicTerm {
    pub result: ResultType,
    pub components: Vec<HarmonicComponent>,
    pub original_name: String,
}

pub fn parse_harmonic(name: &str) -> Result<HarmonicTerm> {
    let chars: Vec<char> = name.chars().collect();
    if chars.len() < 4 || chars[0] != 'H' {
        return Err(10);
    }
    let result = parse_result_type(chars[1])?;
    let components = parse_components(&chars[2..])?;
    if components.is_empty() {
        return Err(10);
    }
    Ok(HarmonicTerm {
        result,
        components,
        original_name: name.to_string(),
    })
}

fn parse_result_type(ch: char) -> Result<ResultType> {
    match ch {
        'H' => Ok(ResultType::H),
        'D' => Ok(ResultType::D),
        'X' => Ok(ResultType::X),
        'P' => Ok(ResultType::P),
        'A' => Ok(ResultType::A),
        'E' => Ok(ResultType::E),
        'Z' => Ok(ResultType::Z),
        'S' => Ok(ResultType::S),
        _ => Err(10),
    }
}

fn parse_func(ch: char) -> Result<TrigFunc> {
    match ch {
        'S' => Ok(TrigFunc::Sin),
        'C' => Ok(TrigFunc::Cos),
        _ => Err(10),
    }
}

fn parse_coord(ch: char) -> Result<Coordinate> {
    match ch {
        'H' => Ok(Coordinate::H),
        'D' => Ok(Coordinate::D),
        'A' => Ok(Coordinate::A),
        'E' => Ok(Coordinate::E),
        'Z' => Ok(Coordinate::Z),
        _ => Err(10),
    }
}

fn parse_components(chars: &[char]) -> Result<Vec<HarmonicComponent>> {
    let mut components = Vec::new();
    let mut i = 0;
    while i < chars.len() {
        if i + 1 >= chars.len() {
            return Err(10);
        }
        let func = parse_func(chars[i])?;
        let coord = parse_coord(chars[i + 1])?;
        i += 2;
        let frequency = if i < chars.len() && chars[i].is_ascii_digit() {
            let d = chars[i].to_digit(10).unwrap() as u8;
            i += 1;
            d
        } else {
            1
        };
        if frequency == 0 {
            return Err(10);
        }
        components.push(HarmonicComponent {
            func,
            coord,
            frequency,
        });
    }
    Ok(components)
}

impl HarmonicTerm {
    fn evaluate_equatorial(&self, sheet: &Sheet) -> f64 {
        self.components.iter().fold(1.0, |acc, comp| {
            acc * trig_value(comp.func, comp.coord, sheet, comp.frequency)
        })
    }
}

// docs/SCOPE.md 4.3.4: sine and cosine of frequency times h or dec are read from the sheet;
// coordinates A, E and Z have value 0, so their sine is 0 and their cosine 1
fn trig_value(func: TrigFunc, coord: Coordinate, sheet: &Sheet, frequency: u8) -> f64 {
    match func {
        TrigFunc::Sin => match coord {
            Coordinate::H => sheet.sin_h(frequency),
            Coordinate::D => sheet.sin_dec(frequency),
            Coordinate::A | Coordinate::E | Coordinate::Z => 0.0,
        },
        TrigFunc::Cos => match coord {
            Coordinate::H => sheet.cos_h(frequency),
            Coordinate::D => sheet.cos_dec(frequency),
            Coordinate::A | Coordinate::E | Coordinate::Z => 1.0,
        },
    }
}

impl Term for HarmonicTerm {
    fn name(&self) -> &str {
        &self.original_name
    }
    fn description(&self) -> &str {
        "Harmonic correction term"
    }

    fn pier_sensitive(&self) -> bool {
        matches!(self.result, ResultType::P)
    }

    fn jacobian_equatorial(&self, sheet: &Sheet, _lat: Latitude, pier: f64) -> (f64, f64) {
        let val = self.evaluate_equatorial(sheet);
        match self.result {
            ResultType::H => (val, 0.0),
            ResultType::D => (0.0, val),
            ResultType::X => (val / sheet.cos_dec(1), 0.0),
            ResultType::P => (-pier * sheet.tan_dec() * val, 0.0),
            _ => (0.0, 0.0),
        }
    }
}
