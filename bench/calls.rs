//! The small calls of the static library beside the oracle's: names, Jacobian pairs, corrections, breakdowns. Equal in their bits, and timed in
//! the same run by turns.
mod night;
#[path = "../ffi/pointing.rs"]
mod pointing;

use night::{by_turns, lasting, made, sheet, slot, Random, NAMES};
use oracle::questions::{
    apply_equatorial_lent, jacobian, predict_breakdown_lent, read_term, stored_name, LentModel,
    Point,
};
use std::hint::black_box;

const BATCH: usize = 1000;

fn report(what: &str, [ours, theirs]: [f64; 2]) {
    let (ours, theirs) = (ours * 1e9, theirs * 1e9);
    println!(
        "| {what} | {ours:.1} | {theirs:.1} | {:.2} |",
        theirs / ours
    );
}

fn main() {
    let lasting = lasting(1.0);
    println!("### Names, points\n");
    println!("Least time of a call in nanoseconds.\n");
    println!("| call | library | Rust | times as fast |");
    println!("|---|---|---|---|");
    for name in ["IH", "tx+05", "HHSH", "HXSHCD2", "HHSHCDSHCDSHCDSH", "NPAE"] {
        let slot = slot(name);
        let ours = pointing::read_term(&slot);
        match read_term(&slot) {
            Ok(term) => assert_eq!(
                (ours.refusal, ours.name, ours.pier_sensitive),
                (0, stored_name(term.as_ref()), term.pier_sensitive())
            ),
            Err(number) => assert_eq!(ours.refusal, number),
        }
        let least = by_turns(
            lasting,
            BATCH,
            [
                &mut || made(pointing::read_term(black_box(&slot))),
                &mut || made(read_term(black_box(&slot))),
            ],
        );
        report(&format!("the name {name}"), least);
    }

    let mut random = Random(2463534242);
    let sheet = sheet(random.unit(), random.unit());
    let (sin_lat, cos_lat) = 0.72_f64.sin_cos();
    let theirs = Point {
        sheet: &sheet,
        sin_lat,
        cos_lat,
        pier: 2,
    };
    let ours = pointing::Point {
        sheet: &sheet,
        sin_lat,
        cos_lat,
        pier: 2,
    };
    for name in ["IH", "ME", "TX3", "HXSHCD2"] {
        let slot = slot(name);
        let (h, d) = jacobian(&slot, &theirs).expect("a name");
        let pair = pointing::jacobian(&slot, &ours);
        assert_eq!(
            [pair.dh, pair.dd].map(f64::to_bits),
            [h, d].map(f64::to_bits)
        );
        let least = by_turns(
            lasting,
            BATCH,
            [
                &mut || made(pointing::jacobian(black_box(&slot), &ours)),
                &mut || made(jacobian(black_box(&slot), &theirs)),
            ],
        );
        report(&format!("the Jacobian pair of {name}"), least);
    }

    for m in [6, 16] {
        let names: Vec<u8> = NAMES[..m].iter().flat_map(|name| slot(name)).collect();
        let coefficients: Vec<f64> = (0..m).map(|_| random.unit() * 300.0).collect();
        let model = LentModel {
            names: &names,
            coefficients: &coefficients,
        };
        let (h, d) = apply_equatorial_lent(&model, &theirs).expect("a model");
        let pair = pointing::apply_equatorial(&names, &coefficients, &ours);
        assert_eq!(
            [pair.dh, pair.dd].map(f64::to_bits),
            [h, d].map(f64::to_bits)
        );
        let least = by_turns(
            lasting,
            BATCH / 10,
            [
                &mut || {
                    let names = black_box(&names);
                    made(pointing::apply_equatorial(names, &coefficients, &ours));
                },
                &mut || made(apply_equatorial_lent(black_box(&model), &theirs)),
            ],
        );
        report(&format!("a correction of {m} terms"), least);
        let parts = pointing::predict_breakdown(&names, &coefficients, &ours);
        let given = predict_breakdown_lent(&model, &theirs).expect("a model");
        for (j, (h, d, pier_sensitive)) in given.into_iter().enumerate() {
            assert_eq!(
                [parts.dh[j], parts.dd[j]].map(f64::to_bits),
                [h, d].map(f64::to_bits)
            );
            assert_eq!(parts.pier_sensitive[j], pier_sensitive);
        }
        let least = by_turns(
            lasting,
            BATCH / 10,
            [
                &mut || {
                    let names = black_box(&names);
                    made(pointing::predict_breakdown(names, &coefficients, &ours));
                },
                &mut || made(predict_breakdown_lent(black_box(&model), &theirs)),
            ],
        );
        report(&format!("a breakdown of {m} terms"), least);
    }
}
