//! What a PMF file holds, as values: the mode, the options, the terms and the stars.

use crate::sheet::Sheet;

/// A file holds at most so many terms and stars.
pub const MAX_TERMS: usize = 16;
pub const MAX_STARS: usize = 100;
pub const NAME: usize = 16;

#[derive(Debug, Clone, Copy, PartialEq, Eq)]
pub enum Mode {
    Single,
    Iterated,
    Robust,
}

impl Mode {
    pub fn code(self) -> u8 {
        match self {
            Self::Single => 0,
            Self::Iterated => 1,
            Self::Robust => 3,
        }
    }

    pub fn from_code(code: u8) -> Option<Self> {
        match code {
            0 => Some(Self::Single),
            1 => Some(Self::Iterated),
            3 => Some(Self::Robust),
            _ => None,
        }
    }
}

#[derive(Debug, Clone, Copy, PartialEq, Eq)]
pub enum Pier {
    Unknown,
    East,
    West,
}

impl Pier {
    pub const ALL: [Pier; 3] = [Self::East, Self::West, Self::Unknown];

    pub fn code(self) -> u8 {
        match self {
            Self::Unknown => 0,
            Self::East => 1,
            Self::West => 2,
        }
    }

    pub fn from_code(code: u8) -> Option<Self> {
        match code {
            0 => Some(Self::Unknown),
            1 => Some(Self::East),
            2 => Some(Self::West),
            _ => None,
        }
    }

    pub fn sign(self) -> f64 {
        match self {
            Self::Unknown | Self::East => 1.0,
            Self::West => -1.0,
        }
    }

    pub fn word(self) -> &'static str {
        match self {
            Self::Unknown => "unknown",
            Self::East => "East",
            Self::West => "West",
        }
    }
}

/// The doubles of the header after the latitude, and the limit of the iterations.
#[derive(Debug, Clone, Copy, PartialEq)]
pub struct Options {
    pub fit_tol: f64,
    pub tol_rad: f64,
    pub initial_lambda: f64,
    pub lambda_up: f64,
    pub lambda_down: f64,
    pub huber_k: f64,
    pub max_iter: u16,
}

impl Default for Options {
    /// The published `IterOptions::default()`. fit_tol is no part of it; 1e-12 cuts off only
    /// terms that the stars can't tell apart at all.
    fn default() -> Self {
        Self {
            fit_tol: 1e-12,
            tol_rad: 1e-6,
            initial_lambda: 1e-3,
            lambda_up: 10.0,
            lambda_down: 10.0,
            huber_k: 1.345,
            max_iter: 50,
        }
    }
}

#[derive(Debug, Clone, PartialEq)]
pub struct Term {
    pub name: String,
    pub fixed: bool,
    pub start: f64,
}

#[derive(Debug, Clone, PartialEq)]
pub struct Star {
    pub pier: Pier,
    /// Observed less commanded hour angle, in arcseconds.
    pub dh: f64,
    /// Observed less catalogue declination, in arcseconds.
    pub dd: f64,
    pub sheet: Sheet,
}

#[derive(Debug, Clone, PartialEq)]
pub struct Run {
    pub mode: Mode,
    pub sin_lat: f64,
    pub cos_lat: f64,
    pub options: Options,
    pub terms: Vec<Term>,
    pub stars: Vec<Star>,
}

impl Run {
    /// The eight doubles of a file's head, in its order.
    pub fn doubles(&self) -> [f64; 8] {
        let o = &self.options;
        [
            self.sin_lat,
            self.cos_lat,
            o.fit_tol,
            o.tol_rad,
            o.initial_lambda,
            o.lambda_up,
            o.lambda_down,
            o.huber_k,
        ]
    }

    pub fn free(&self) -> usize {
        self.terms.iter().filter(|t| !t.fixed).count()
    }

    pub fn latitude_degrees(&self) -> f64 {
        self.sin_lat.atan2(self.cos_lat).to_degrees()
    }
}
