//! The square root of the static library beside the processor's: all edge patterns and many random ones must agree in their bits, and
//! both are timed in one run.
#[path = "../ffi/pointing.rs"]
mod pointing;

use std::hint::black_box;
use std::time::Instant;

fn ours(x: f64) -> f64 {
    pointing::sqrt(x)
}

#[inline(never)]
fn processor(x: f64) -> f64 {
    x.sqrt()
}

struct Random(u64);

impl Random {
    fn next(&mut self) -> u64 {
        self.0 ^= self.0 << 13;
        self.0 ^= self.0 >> 7;
        self.0 ^= self.0 << 17;
        self.0
    }
}

#[derive(Default)]
struct Tried {
    patterns: u64,
    different: u64,
}

impl Tried {
    fn hold(&mut self, bits: u64) {
        let x = f64::from_bits(bits);
        let (a, b) = (ours(x), processor(x));
        self.patterns += 1;
        if a.to_bits() != b.to_bits() && !(a.is_nan() && b.is_nan()) {
            self.different += 1;
            if self.different <= 5 {
                println!(
                    "{bits:016x}: {:016x}, not {:016x}",
                    a.to_bits(),
                    b.to_bits()
                );
            }
        }
    }
}

/// Patterns around each exponent, whole numbers and squares, then 20 million random ones of each sort.
fn agree() -> Tried {
    let mut t = Tried::default();
    for e in 0..4096u64 {
        for k in -3..=3i64 {
            t.hold((e << 52).wrapping_add_signed(k));
            t.hold(((e << 52) + (1 << 51)).wrapping_add_signed(k));
        }
    }
    for i in 1..=2_000_000u64 {
        t.hold((i as f64).to_bits());
        for k in -2..=2i64 {
            t.hold((i as f64 * i as f64).to_bits().wrapping_add_signed(k));
        }
    }
    let mut r = Random(88172645463325252);
    for _ in 0..20_000_000 {
        t.hold(r.next());
        t.hold(r.next() >> 1);
        t.hold(r.next() >> 12 >> (r.next() % 52));
    }
    t
}

/// The least time of a call over several passes, in nanoseconds.
fn time(xs: &[f64], f: impl Fn(f64) -> f64) -> f64 {
    let mut best = f64::INFINITY;
    for _ in 0..25 {
        let start = Instant::now();
        let mut sum = 0.0;
        for _ in 0..100 {
            for &x in xs {
                sum += f(x);
            }
        }
        black_box(sum);
        best = best.min(start.elapsed().as_nanos() as f64 / (100 * xs.len()) as f64);
    }
    best
}

fn main() {
    let t = agree();
    println!("### Square root\n");
    println!(
        "{} patterns, {} different from the processor's. Nanoseconds a call:\n",
        t.patterns, t.different
    );
    println!("| numbers | library | processor | times as long |");
    println!("|---|---|---|---|");
    let mut r = Random(3037000493);
    let sorts: [(&str, fn(u64) -> u64); 3] = [
        ("normal values", |b| {
            b % 0x7fe0_0000_0000_0000 + 0x10_0000_0000_0000
        }),
        ("1 to 2", |b| b >> 12 | 0x3ff0_0000_0000_0000),
        ("subnormal values", |b| b >> 12),
    ];
    for (name, of) in sorts {
        let xs: Vec<f64> = (0..4096).map(|_| f64::from_bits(of(r.next()))).collect();
        let (a, b) = (time(&xs, ours), time(&xs, processor));
        println!("| {name} | {a:.1} | {b:.1} | {:.2} |", a / b);
    }
    std::process::exit(if t.different == 0 { 0 } else { 1 });
}
