//! Runs the Jacobians of docs/src as published (libm's sin, cos, tan, asin, pow, sqrt) beside the
//! oracle's on sheets filled by the same libm, at random real angles with the altitude above 5
//! degrees, and prints for each kind of term how far apart they come. Outside the gate.

use distance::night::sheet;
use distance::random::Random;
use distance::terms;
use oracle::sheet::{Latitude, Sheet};
use std::f64::consts::{FRAC_PI_2, PI};

const POINTS: usize = 100_000;

const NAMES: [&str; 29] = [
    "IH",
    "ID",
    "CH",
    "NP",
    "MA",
    "ME",
    "TF",
    "TX",
    "TX1",
    "TX2",
    "TX3",
    "TX4",
    "TX5",
    "TX7",
    "TX10",
    "TX20",
    "TX50",
    "TX255",
    "DAF",
    "FO",
    "HCES",
    "HCEC",
    "DCES",
    "DCEC",
    "HHSH3",
    "HDCD9SH2",
    "HXSHCD2",
    "HPCH4SZCA",
    "HSSA",
];

struct Point {
    h: f64,
    dec: f64,
    lat: f64,
    pier: f64,
}

/// A point with the altitude above 5 degrees.
fn point(random: &mut Random) -> Point {
    loop {
        let (h, dec, lat) = (
            random.unit() * PI,
            random.unit() * FRAC_PI_2,
            random.unit() * FRAC_PI_2,
        );
        let sin_alt =
            libm::sin(lat) * libm::sin(dec) + libm::cos(lat) * libm::cos(dec) * libm::cos(h);
        let pier = if random.unit() < 0.0 { -1.0 } else { 1.0 };
        if sin_alt > libm::sin(PI / 36.0) {
            return Point { h, dec, lat, pier };
        }
    }
}

/// The largest distances seen of one kind of term.
#[derive(Default)]
struct Distance {
    absolute: f64,
    relative: f64,
    equal: usize,
    infinite: usize,
}

impl Distance {
    fn add(&mut self, ours: (f64, f64), published: (f64, f64)) {
        let mut equal = true;
        for (a, b) in [(ours.0, published.0), (ours.1, published.1)] {
            if a.to_bits() == b.to_bits() {
                continue;
            }
            equal = false;
            if !a.is_finite() || !b.is_finite() {
                self.infinite += 1;
                continue;
            }
            self.absolute = self.absolute.max((a - b).abs());
            self.relative = self.relative.max((a - b).abs() / a.abs().max(b.abs()));
        }
        self.equal += equal as usize;
    }
}

fn main() {
    let random = &mut Random(0x6469_7374);
    let points: Vec<Point> = (0..POINTS).map(|_| point(random)).collect();
    let sheets: Vec<Sheet> = points
        .iter()
        .map(|point| Sheet(sheet(point.h, point.dec)))
        .collect();
    println!("{POINTS} points; distances in units of 1e-16, the relative one to the larger size");
    println!("name       bit-equal pairs     absolute     relative  one side infinite");
    for name in NAMES {
        let published = terms::create_term(name).expect("a name");
        let ours = oracle::terms::create_term(name).expect("a name");
        let mut distance = Distance::default();
        for (point, sheet) in points.iter().zip(&sheets) {
            let lat = Latitude {
                sin: libm::sin(point.lat),
                cos: libm::cos(point.lat),
            };
            distance.add(
                ours.jacobian_equatorial(sheet, lat, point.pier),
                published.jacobian_equatorial(point.h, point.dec, point.lat, point.pier),
            );
        }
        println!(
            "{name:<10} {:>15} {:>12.4e} {:>12.4} {:>18}",
            distance.equal,
            distance.absolute / 1e-16,
            distance.relative / 1e-16,
            distance.infinite
        );
    }
}
