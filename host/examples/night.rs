//! Makes the runs of `examples/`: a simulated night, from fixed seeds. `cargo run --release
//! --offline --example night -- csv` (or `wrong-piers`, or `indat`) prints one.

use host::jacobian::{pair, Point};
use host::sheet::Sheet;
use host::terms;

const LATITUDE: f64 = 34.5;
const STARS: usize = 30;
const NOISE: f64 = 4.0;
const TRUTH: [(&str, f64); 6] = [
    ("IH", -187.3),
    ("ID", 92.6),
    ("CH", -148.2),
    ("NP", 41.5),
    ("MA", 256.8),
    ("ME", -133.4),
];
/// The stars, counted from 1, whose pier side is written down wrongly.
const WRONG: [usize; 2] = [9, 22];

/// splitmix64.
struct Random(u64);

impl Random {
    fn unit(&mut self) -> f64 {
        self.0 = self.0.wrapping_add(0x9e37_79b9_7f4a_7c15);
        let mut z = self.0;
        z = (z ^ (z >> 30)).wrapping_mul(0xbf58_476d_1ce4_e5b9);
        z = (z ^ (z >> 27)).wrapping_mul(0x94d0_49bb_1331_11eb);
        ((z ^ (z >> 31)) >> 11) as f64 / (1u64 << 53) as f64
    }

    fn between(&mut self, low: f64, high: f64) -> f64 {
        low + (high - low) * self.unit()
    }

    /// A normal number of spread 1.
    fn normal(&mut self) -> f64 {
        let radius = (-2.0 * (1.0 - self.unit()).ln()).sqrt();
        radius * (std::f64::consts::TAU * self.unit()).cos()
    }
}

/// A star in whole hundredths of a second of time and tenths of an arcsecond.
struct Star {
    ha: i64,
    dec: i64,
    seen_ha: i64,
    seen_dec: i64,
    west: bool,
}

/// Arcseconds of a whole number of hundredths of a second of time.
fn of_time(hundredths: i64) -> f64 {
    hundredths as f64 * 0.15
}

fn star(random: &mut Random) -> Star {
    let (sin_lat, cos_lat) = LATITUDE.to_radians().sin_cos();
    loop {
        let ha = (random.between(-5.0, 5.0) * 360_000.0).round() as i64;
        let dec = (random.between(-25.0, 80.0) * 36_000.0).round() as i64;
        let h = (of_time(ha) / 3_600.0).to_radians();
        let d = (dec as f64 / 36_000.0).to_radians();
        let sheet = Sheet::of(h, d);
        if sin_lat * d.sin() + cos_lat * d.cos() * h.cos() < 0.4 {
            continue;
        }
        let near = ha.abs() < 360_000 && random.unit() < 0.5;
        let west = (ha < 0) != near;
        let pier = if west { -1.0 } else { 1.0 };
        let point = Point {
            sheet: &sheet,
            sin_lat,
            cos_lat,
            pier,
        };
        let (mut dh, mut dd) = (NOISE * random.normal() / d.cos(), NOISE * random.normal());
        for (name, coefficient) in TRUTH {
            let (_, kind) = terms::read(name).expect("a term");
            let (jh, jd) = pair(&kind, &point);
            dh += coefficient * jh;
            dd += coefficient * jd;
        }
        return Star {
            ha,
            dec,
            seen_ha: ha + (dh / 0.15).round() as i64,
            seen_dec: dec + (dd * 10.0).round() as i64,
            west,
        };
    }
}

/// Hours of hundredths of a second of time.
fn time(hundredths: i64, separator: char) -> String {
    let (sign, t) = (if hundredths < 0 { "-" } else { "" }, hundredths.abs());
    let (h, m, s, f) = (t / 360_000, t / 6_000 % 60, t / 100 % 60, t % 100);
    format!("{sign}{h:02}{separator}{m:02}{separator}{s:02}.{f:02}")
}

/// Degrees of tenths of an arcsecond.
fn arc(tenths: i64, separator: char) -> String {
    let (sign, t) = (if tenths < 0 { '-' } else { '+' }, tenths.abs());
    let (d, m, s, f) = (t / 36_000, t / 600 % 60, t / 10 % 60, t % 10);
    format!("{sign}{d:02}{separator}{m:02}{separator}{s:02}.{f}")
}

fn csv(stars: &[Star], wrong: bool) {
    let title = if wrong { ", two pier sides wrong" } else { "" };
    println!("# A simulated night of {STARS} stars{title}. Made by host/examples/night.rs.");
    println!("latitude,+34 30 00");
    println!("mode,{}", if wrong { "robust" } else { "iterated" });
    println!("# name, free or fixed, start in arcseconds");
    for (name, _) in TRUTH {
        println!("term,{name},free,0");
    }
    println!(
        "# hour angle, declination, observed hour angle, observed declination, pier side of the tube"
    );
    for (i, star) in stars.iter().enumerate() {
        let west = star.west != (wrong && WRONG.contains(&(i + 1)));
        println!(
            "star,{},{},{},{},{}",
            time(star.ha, ':'),
            arc(star.dec, ':'),
            time(star.seen_ha, ':'),
            arc(star.seen_dec, ':'),
            if west { "west" } else { "east" }
        );
    }
}

fn indat(stars: &[Star]) {
    println!("A simulated night of {STARS} stars. Made by host/examples/night.rs.");
    println!(":NODA\n:EQUAT\n+34 30 00 2024 03 01 10.0 1013.0 200.0 0.5 0.55 0.0065");
    const DAY: i64 = 24 * 360_000;
    for (i, star) in stars.iter().enumerate() {
        let lst = 6 * 360_000 + i as i64 * 27_531;
        let turn = if star.west { DAY / 2 } else { 0 };
        let beyond = star.seen_dec.signum() * (180 * 36_000 - star.seen_dec.abs());
        println!(
            "{} {}  {} {}  {}",
            time((lst - star.ha).rem_euclid(DAY), ' '),
            arc(star.dec, ' '),
            time((lst - star.seen_ha + turn).rem_euclid(DAY), ' '),
            arc(if star.west { beyond } else { star.seen_dec }, ' '),
            time(lst.rem_euclid(DAY), ' ')
        );
    }
    println!("END");
}

fn main() {
    let mut random = Random(20_240_301);
    let stars: Vec<Star> = (0..STARS).map(|_| star(&mut random)).collect();
    match std::env::args().nth(1).as_deref() {
        Some("csv") => csv(&stars, false),
        Some("wrong-piers") => csv(&stars, true),
        Some("indat") => indat(&stars),
        _ => eprintln!("night csv | wrong-piers | indat"),
    }
}
