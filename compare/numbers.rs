//! Scratch lengths and square roots.

use oracle::vectors::random::{Random, EXTREME};

/// Sizes around the limits, small ones and any.
pub fn some_sizes(random: &mut Random) -> (usize, usize) {
    let mut size = |limit: usize| match random.below(8) {
        0 => limit,
        1 => limit + 1,
        2 => random.bits() as usize,
        3 => usize::MAX - random.below(2),
        4 => limit + random.below(100),
        _ => random.below(limit + 1),
    };
    (size(32), size(1024))
}

type Make = fn(&mut Random) -> f64;

pub const ROOTS: [(&str, Make); 7] = [
    ("any pattern", |random| f64::from_bits(random.bits())),
    ("positive", |random| random.finite().abs()),
    ("to 4", |random| 2.0 + 2.0 * random.unit()),
    ("subnormal", |random| random.subnormal()),
    ("a square and its neighbours", |random| {
        let root = random.finite().abs();
        let square = root * root;
        random.pick(&[square, square.next_up(), square.next_down()])
    }),
    ("a square of few bits", |random| {
        let root = (random.bits() >> 38) as f64;
        let scale = random.pick(&[1.0, 4.0, 2.0, 2.0_f64.powi(-1060), 2.0_f64.powi(960)]);
        let square = root * root * scale;
        random.pick(&[square, square.next_up(), square.next_down()])
    }),
    ("at the edges", |random| {
        let x = random.pick(&EXTREME);
        random.pick(&[
            x,
            x.next_up(),
            x.next_down(),
            f64::INFINITY,
            f64::NEG_INFINITY,
            f64::NAN,
        ])
    }),
];
