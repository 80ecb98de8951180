//! Name slots of every sort.

use oracle::vectors::names::{any_byte, damaged, fixed_name, harmonic, mixed_case, tx_name};
use oracle::vectors::random::Random;

type Make = fn(&mut Random) -> Vec<u8>;

pub const REGIMES: [(&str, Make); 13] = [
    ("fixed", |random| {
        let name = fixed_name(random);
        in_slot(mixed_case(random, &name))
    }),
    ("fixed, damaged", |random| {
        let name = fixed_name(random);
        let name = mixed_case(random, &name);
        in_slot(damaged(random, &name))
    }),
    ("TX with signs and zeros", |random| in_slot(tx_name(random))),
    ("harmonic", |random| in_slot(some_harmonic(random))),
    ("harmonic in mixed case", |random| {
        let name = some_harmonic(random);
        in_slot(mixed_case(random, &name))
    }),
    ("harmonic, damaged", |random| {
        let name = some_harmonic(random);
        in_slot(damaged(random, &name))
    }),
    ("letters of harmonics", |random| {
        let mut name = random
            .pick(&["H", "HH", "HX", "TX", ""])
            .as_bytes()
            .to_vec();
        for _ in 0..random.within(0, 16 - name.len()) {
            name.push(random.pick(b"HDXPAEZSC0123456789"));
        }
        in_slot(name)
    }),
    ("short", |random| {
        let len = random.within(0, 3);
        in_slot((0..len).map(|_| random.byte()).collect())
    }),
    ("any bytes", |random| {
        (0..16).map(|_| random.byte()).collect()
    }),
    ("bytes near those of names", |random| {
        let len = random.within(1, 16);
        in_slot((0..len).map(|_| any_byte(random)).collect())
    }),
    ("a zero inside or bytes behind", |random| {
        let mut name = some_name(random);
        let at = random.within(0, name.len());
        match random.flip() {
            true => name.insert(at, 0),
            false => {
                name.resize(random.within(name.len(), 16), 0);
                *name.last_mut().expect("a name") = any_byte(random);
            }
        }
        in_slot(name)
    }),
    ("a byte above 127", |random| {
        let mut name = some_name(random);
        let at = random.below(name.len());
        name[at] |= 128;
        in_slot(name)
    }),
    ("another slot length", |random| {
        let mut slot = in_slot(some_name(random));
        slot.resize(random.pick(&[0, 1, 2, 8, 15, 17, 31, 32, 33, 64]), 0);
        slot
    }),
];

/// The slot of a name, of which 16 bytes are taken.
fn in_slot(mut name: Vec<u8>) -> Vec<u8> {
    name.resize(16, 0);
    name
}

fn some_harmonic(random: &mut Random) -> Vec<u8> {
    let most = random.within(4, 16);
    harmonic(random, most)
}

pub fn some_name(random: &mut Random) -> Vec<u8> {
    match random.below(3) {
        0 => fixed_name(random),
        1 => tx_name(random),
        _ => some_harmonic(random),
    }
}

/// A slot of some regime.
pub fn some(random: &mut Random) -> (&'static str, Vec<u8>) {
    let (name, make) = random.pick(&REGIMES);
    (name, make(random))
}
