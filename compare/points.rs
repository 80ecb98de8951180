//! Jacobian pairs, corrections and breakdowns at points of every sort.

use crate::call::{Call, Model};
use crate::names;
use oracle::questions::{read_term, MAX_TERMS, NAME};
use oracle::sheet::SHEET;
use oracle::vectors::faults::REFUSED_NAMES;
use oracle::vectors::jacobians::{altitude, filled, real, Block};
use oracle::vectors::names::mixed_case;
use oracle::vectors::random::{Random, EXTREME};
use oracle::vectors::runs::{slot, NAMES, NOT_FINITE};

type Make = fn(&mut Random) -> Block;

pub const POINTS: [(&str, Make); 10] = [
    ("real", any_real),
    ("one extreme number", |random| {
        let x = random.pick(&EXTREME);
        filled(random, |_| x)
    }),
    ("extreme numbers", |random| {
        filled(random, |r| r.pick(&EXTREME))
    }),
    ("large and small numbers", |random| {
        let scale = random.pick(&[1e300, 1e-300, 1e155, 1e-155]);
        filled(random, |r| r.unit() * scale)
    }),
    ("subnormals", |random| filled(random, Random::subnormal)),
    ("any finite numbers", |random| {
        filled(random, Random::finite)
    }),
    ("sin_alt at its edges", |random| {
        let edge = 1e-10_f64;
        let x = random.pick(&[0.0, edge, edge.next_down(), edge.next_up(), 1.0, 1.5, 1e200]);
        let sign = random.pick(&[1.0, -1.0]);
        altitude(random, sign * x)
    }),
    ("at the pole", |random| {
        let mut block = any_real(random);
        block.sheet[19] = random.pick(&[0.0, -0.0, 5e-324, 6e-17]);
        block
    }),
    ("a fault", |random| {
        let mut block = any_real(random);
        fault(random, &mut block);
        block
    }),
    ("several faults", |random| {
        let mut block = any_real(random);
        for _ in 0..random.within(2, 3) {
            fault(random, &mut block);
        }
        block
    }),
];

fn any_real(random: &mut Random) -> Block {
    let pier = random.below(3) as u8;
    real(random, pier)
}

/// A fault that question 2, 4 or 5 finds.
fn fault(random: &mut Random, block: &mut Block) {
    match random.below(4) {
        0 => block
            .sheet
            .resize(random.pick(&[0, 1, 36, 38, 40, 74]), 0.5),
        1 => block.lat[random.below(2)] = random.pick(&NOT_FINITE),
        2 => block.pier = random.pick(&[3, 4, 128, 255]),
        _ if block.sheet.is_empty() => {}
        _ => {
            let at = random.below(block.sheet.len().min(SHEET));
            block.sheet[at] = random.pick(&NOT_FINITE);
        }
    }
}

/// A name that is read, in any case, or now and then one that is refused.
fn some_slot(random: &mut Random) -> [u8; NAME] {
    let name = match random.below(8) {
        0 => {
            let names = random.pick(&REFUSED_NAMES);
            return slot(random.pick(names));
        }
        1..=3 => names::some_name(random),
        _ => random.pick(&NAMES).as_bytes().to_vec(),
    };
    slot(&mixed_case(random, &name))
}

fn accepted_slot(random: &mut Random) -> [u8; NAME] {
    loop {
        let slot = some_slot(random);
        if read_term(&slot).is_ok() {
            return slot;
        }
    }
}

fn number(random: &mut Random) -> f64 {
    match random.below(12) {
        0 => 0.0,
        1 => -0.0,
        2 => random.pick(&EXTREME),
        3 => random.finite(),
        4 => random.unit() * 1e300,
        _ => random.unit() * 300.0,
    }
}

fn model_of(random: &mut Random, count: usize) -> Model {
    Model {
        names: (0..count).flat_map(|_| accepted_slot(random)).collect(),
        coefficients: (0..count).map(|_| number(random)).collect(),
    }
}

type MakeModel = fn(&mut Random) -> Model;

pub const MODELS: [(&str, MakeModel); 10] = [
    ("empty", |random| model_of(random, 0)),
    ("to 6 terms", |random| {
        let count = random.within(1, 6);
        model_of(random, count)
    }),
    ("to 16 terms", |random| {
        let count = random.within(7, 16);
        model_of(random, count)
    }),
    ("32 terms", |random| model_of(random, MAX_TERMS)),
    ("too many terms", |random| {
        let count = random.within(33, 40);
        model_of(random, count)
    }),
    ("a length off", |random| {
        let count = random.within(0, 4);
        let mut model = model_of(random, count);
        let by = random.pick(&[-16, -1, 1, 16]);
        let len = model.names.len().saturating_add_signed(by);
        model.names.resize(len, 0);
        model
    }),
    ("a coefficient not finite", |random| {
        let count = random.within(1, 32);
        let mut model = model_of(random, count);
        model.coefficients[random.below(count)] = random.pick(&NOT_FINITE);
        model
    }),
    ("a name refused", |random| {
        let count = random.within(1, 32);
        let mut model = model_of(random, count);
        refuse(random, &mut model);
        model
    }),
    ("several names refused", |random| {
        let count = random.within(2, 6);
        let mut model = model_of(random, count);
        for _ in 0..3 {
            refuse(random, &mut model);
        }
        model
    }),
    ("several faults", |random| {
        let count = random.within(1, 34);
        let mut model = model_of(random, count);
        refuse(random, &mut model);
        if random.flip() {
            model.coefficients[random.below(count)] = random.pick(&NOT_FINITE);
        }
        if random.flip() {
            model.names.pop();
        }
        model
    }),
];

fn refuse(random: &mut Random, model: &mut Model) {
    let names = random.pick(&REFUSED_NAMES);
    let j = random.below(model.coefficients.len());
    model.names[NAME * j..NAME * (j + 1)].copy_from_slice(&slot(random.pick(names)));
}

/// A Jacobian pair: now and then in a slot of another length.
pub fn some_jacobian(random: &mut Random) -> (&'static str, Call) {
    let (name, make) = random.pick(&POINTS);
    let block = make(random);
    let mut slot = some_slot(random).to_vec();
    if random.below(40) == 0 {
        slot.resize(random.pick(&[0, 1, 15, 17, 32]), 0);
    }
    (name, Call::Jacobian(slot, block))
}

/// A model at a point, mostly one without faults: the correction or the breakdown.
pub fn some_model(random: &mut Random) -> (&'static str, Call) {
    let (name, make) = random.pick(&MODELS);
    let model = make(random);
    let (_, make) = match random.below(3) {
        0 => random.pick(&POINTS),
        _ => POINTS[0],
    };
    let block = make(random);
    match random.flip() {
        true => (name, Call::Correction(model, block)),
        false => (name, Call::Breakdown(model, block)),
    }
}
