//! Which terms are pier sensitive, found here another way: from the Jacobian pairs of both sides. And
//! by hand a listing's words, and the flags that a model keeps.

use oracle::pmf::{bits, file, listing};
use oracle::questions::{
    add_term, jacobian, predict_breakdown, read_term, set_coefficients, Model, Point,
};
use oracle::sheet::SHEET;
use oracle::vectors::jacobians::{filled, real, Block};
use oracle::vectors::names::{harmonic, mixed_case};
use oracle::vectors::random::{Random, EXTREME};
use oracle::vectors::runs::{slot, still, Pool, ITERATED, SINGLE};

const UNKNOWN: u8 = 0;
const EAST: u8 = 1;
const WEST: u8 = 2;

/// Every kind but TXN.
const FIXED: [&str; 14] = [
    "IH", "ID", "CH", "NP", "MA", "ME", "TF", "TX", "DAF", "FO", "HCES", "HCEC", "DCES", "DCEC",
];

/// A component's two or three bytes, in every way.
fn components(len: usize) -> Vec<String> {
    let mut out = Vec::new();
    for function in ["S", "C"] {
        for coordinate in ["H", "D", "A", "E", "Z"] {
            let plain = format!("{function}{coordinate}");
            match len {
                2 => out.push(plain),
                _ => out.extend((1..=9).map(|k| format!("{plain}{k}"))),
            }
        }
    }
    out
}

/// The harmonics of 4, 5 and 6 bytes.
fn short_harmonics() -> Vec<String> {
    let two = components(2);
    let pairs = two
        .iter()
        .flat_map(|a| two.iter().map(move |b| a.clone() + b));
    let mut rests = [two.clone(), components(3)].concat();
    rests.extend(pairs);
    let of = |result| rests.iter().map(move |rest| format!("H{result}{rest}"));
    "HDXPAEZS".chars().flat_map(of).collect()
}

/// All kinds, TXN with each number, all short harmonics, and longer ones.
fn names(random: &mut Random) -> Vec<String> {
    let mut out: Vec<String> = FIXED.map(String::from).to_vec();
    out.extend((1..=255).map(|n| format!("TX{n}")));
    let short = short_harmonics();
    let of_len = |len| short.iter().filter(|name| name.len() == len).count();
    assert_eq!([4, 5, 6].map(of_len), [80, 720, 800]);
    out.extend(short);
    while out.len() < 4000 {
        let most = random.within(7, 16);
        let name = harmonic(random, most);
        if name.len() > 6 {
            out.push(String::from_utf8(name).expect("letters and digits"));
        }
    }
    out
}

fn ones() -> Block {
    Block {
        sheet: vec![1.0; SHEET],
        lat: [1.0; 2],
        pier: EAST,
    }
}

/// Sheets and latitudes: of ones, of real angles, of extreme numbers, of any.
fn blocks(random: &mut Random) -> Vec<Block> {
    let mut out = vec![ones()];
    out.extend((0..20).map(|_| real(random, EAST)));
    out.extend(EXTREME.map(|x| filled(random, |_| x)));
    for _ in 0..10 {
        out.push(filled(random, |r| r.pick(&EXTREME)));
        out.push(filled(random, Random::subnormal));
        out.push(filled(random, Random::finite));
    }
    out
}

fn point(block: &Block, pier: u8) -> Point<'_> {
    Point {
        sheet: &block.sheet,
        sin_lat: block.lat[0],
        cos_lat: block.lat[1],
        pier,
    }
}

fn pair(name: &str, block: &Block, pier: u8) -> (f64, f64) {
    jacobian(&slot(name.as_bytes()), &point(block, pier)).expect("an accepted name")
}

fn pair_bits((jh, jd): (f64, f64)) -> [u64; 2] {
    [bits(jh), bits(jd)]
}

fn is_flagged(name: &[u8]) -> bool {
    let term = read_term(&slot(name)).expect("an accepted name");
    term.pier_sensitive()
}

/// Where the flag is false the pair is the same on both sides everywhere; where it is true it isn't
/// on the sheet of ones, if only in the sign of a zero, as where a sine of A, E or Z is a component.
#[test]
fn from_the_pairs_of_both_sides() {
    let random = &mut Random::new(0x7069_6572);
    let (names, blocks) = (names(random), blocks(random));
    let (mut flagged, mut zero, mut same) = (0, 0, 0);
    for name in &names {
        let flag = is_flagged(name.as_bytes());
        assert_eq!(flag, is_flagged(&mixed_case(random, name.as_bytes())));
        let of = |block, pier| pair_bits(pair(name, block, pier));
        for block in &blocks {
            let east = of(block, EAST);
            assert_eq!(of(block, UNKNOWN), east);
            assert!(flag || of(block, WEST) == east, "{name}");
            same += !flag as usize;
        }
        if flag {
            let [east, west] = [EAST, WEST].map(|pier| pair(name, &ones(), pier));
            assert_ne!(pair_bits(east), pair_bits(west), "{name}");
            let turned = [(-west.0, west.1), (west.0, -west.1)].map(pair_bits);
            assert!(turned.contains(&pair_bits(east)), "{name}");
            let sine = ["SA", "SE", "SZ"].iter().any(|part| name.contains(part));
            assert_eq!(east == west, name.starts_with("HP") && sine, "{name}");
            flagged += 1;
            zero += (east == west) as usize;
        }
    }
    println!(
        "{} names, {flagged} pier sensitive, {zero} of them by the sign of a zero alone; {same} pairs",
        names.len()
    );
    assert!(zero > 50 && flagged > zero + 200);
}

/// ID, CH, NP and harmonics of result P, and no others.
#[test]
fn by_their_names() {
    let random = &mut Random::new(0x6e61_6d65);
    for name in names(random) {
        let listed = ["ID", "CH", "NP"].contains(&name.as_str()) || name.starts_with("HP");
        assert_eq!(is_flagged(name.as_bytes()), listed, "{name}");
    }
}

/// The listing of a fit without trials of free terms at 0, all stars on the still sheet.
fn still_listing(mode: u8, names: &[&str], dd: &[f64]) -> String {
    let pool = Pool::new(&mut Random::new(1), 1);
    let mut case = still(mode, dd);
    case.options.max_iter = 0;
    case.resize_terms(names.len());
    for (j, name) in names.iter().enumerate() {
        case.set_name(j, name.as_bytes());
    }
    listing(&file(&case.lent(&pool), &case.options, mode))
}

/// docs/SCOPE.md 11.3.
#[test]
fn lines_by_hand() {
    assert_eq!(
        still_listing(SINGLE, &["ID"], &[-10.0]),
        "fit 1 1 1 yes 1 yes\n\
         ID 4024000000000000 0000000000000000 pier\n\
         sky 0000000000000000 0000000000000000\n"
    );
    assert_eq!(
        still_listing(ITERATED, &["fo"], &[-10.0]),
        "fit 1 1 0 no 1 yes\n\
         FO c024000000000000 0000000000000000 both\n\
         sky 0000000000000000 0000000000000000\n"
    );
    // tan dec is 0, so that the first column is zeros
    assert_eq!(
        still_listing(SINGLE, &["hpch", "dcec"], &[-10.0; 4]),
        "fit 2 1 1 yes 1 yes\n\
         HPCH 0000000000000000 0000000000000000 pier\n\
         DCEC c024000000000000 0000000000000000 both\n\
         sky 0000000000000000 0000000000000000\n"
    );
}

/// A model made by hand of ID, IH and tx+05, with the first flags as given and true behind.
fn by_hand(flags: [bool; 3]) -> Model {
    let mut model = Model {
        count: 3,
        pier_sensitive: [true; 32],
        ..Model::default()
    };
    for (j, name) in ["ID", "IH", "tx+05"].iter().enumerate() {
        model.names[j] = slot(name.as_bytes());
    }
    model.pier_sensitive[..3].copy_from_slice(&flags);
    model
}

/// docs/SCOPE.md 5.8: each accepted change hands the flags of the names back, whatever they were, and
/// leaves those behind the count.
#[test]
fn mended_by_hand() {
    let mended = |model: &Model| [&model.pier_sensitive[..4], &[model.count == 3]].concat();
    for code in 0..8 {
        let model = by_hand([1, 2, 4].map(|bit| code & bit > 0));
        for name in ["ID", "id", "TX5", "tx005", "ih"] {
            let there = add_term(&model, &slot(name.as_bytes())).expect("a term that is there");
            assert_eq!(mended(&there), [true, false, false, true, true]);
        }
        let set = set_coefficients(&model, &[1.0, 2.0, 3.0]).expect("three coefficients");
        assert_eq!(mended(&set), [true, false, false, true, true]);
        for (name, flag) in [("ma", false), ("Np", true), ("hpsh", true), ("HHSD", false)] {
            let longer = add_term(&model, &slot(name.as_bytes())).expect("a new term");
            assert_eq!(mended(&longer), [true, false, false, flag, false]);
            assert!(longer.pier_sensitive[4..].iter().all(|&kept| kept));
        }
        let shown = predict_breakdown(&model, &point(&ones(), EAST)).expect("a breakdown");
        let shown: Vec<bool> = shown.into_iter().map(|(.., flag)| flag).collect();
        assert_eq!(shown, [true, false, false]);
    }
}

#[test]
fn of_new_models() {
    let mut model = Model::default();
    assert_eq!(model.pier_sensitive, [false; 32]);
    for name in ["ih", "id", "hpcd2", "CH", "hces"] {
        model = add_term(&model, &slot(name.as_bytes())).expect("a new term");
    }
    let mut flags = [false; 32];
    flags[1..4].fill(true);
    assert_eq!(model.pier_sensitive, flags);
}
