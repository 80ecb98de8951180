//! `replay_jacobians`: the pair of each name on each block's sheet.

use super::random::{Random, EXTREME};
use super::{angles, put_doubles, Vectors};
use crate::questions::{jacobian, Point};
use crate::sheet::SHEET;

/// A sheet of any length with latitude and pier code.
#[derive(Clone)]
pub struct Block {
    pub sheet: Vec<f64>,
    pub lat: [f64; 2],
    pub pier: u8,
}

/// The slots: every kind, every entry of a sheet, every result, function and coordinate, and
/// refused names.
pub fn slots() -> Vec<Vec<u8>> {
    let mut names: Vec<String> = [
        "IH", "ID", "CH", "NP", "MA", "ME", "TF", "TX", "DAF", "FO", "HCES", "HCEC", "DCES",
        "DCEC", "TX1", "TX2", "TX3", "TX7", "TX255", "ma", "tx+05",
    ]
    .map(String::from)
    .to_vec();
    let results = ["H", "D", "X", "P", "A", "E", "Z", "S"];
    for (i, part) in ["SH", "CH", "SD", "CD"].iter().enumerate() {
        for k in 1..=9 {
            names.push(format!("H{}{part}{k}", results[(i + k) % 4]));
        }
    }
    for (i, result) in results.iter().enumerate() {
        let coordinate = ["A", "E", "Z"][i % 3];
        names.push(format!("H{result}S{coordinate}{}", i + 1));
        names.push(format!("H{result}C{coordinate}CH{}SD{}", i + 1, 9 - i));
    }
    for name in [
        "HHSHCDSHCDSHCDSH",
        "HDCDCDCDCDCDCDCD",
        "HXSH9CD8SH7CD6",
        "HPCACECZSDCDSHCH",
        "HXSD2SD2SD2SD2",
        "hpshcd",
    ] {
        names.push(name.into());
    }
    let mut slots: Vec<Vec<u8>> = names
        .iter()
        .chain(&[
            String::new(),
            "I\u{e9}".into(),
            "I\0H".into(),
            "NPAE".into(),
            "aw".into(),
            "QQ".into(),
            "TX0".into(),
            "TX256".into(),
            "HHSH0".into(),
            "HQSH".into(),
        ])
        .map(|name| {
            let mut slot = name.clone().into_bytes();
            slot.resize(16, 0);
            slot
        })
        .collect();
    slots.push(Vec::new());
    slots.push(b"IH".to_vec());
    slots.push([b'I', b'H'].into_iter().chain([0; 15]).collect());
    slots.push(b"NPAE".iter().copied().chain([0; 28]).collect());
    slots
}

pub fn real(random: &mut Random, pier: u8) -> Block {
    let h = random.unit() * std::f64::consts::PI;
    let dec = random.unit() * 1.56;
    Block {
        sheet: angles::sheet(h, dec).to_vec(),
        lat: angles::sin_cos(random.unit() * 1.5).into(),
        pier,
    }
}

pub fn filled(random: &mut Random, mut number: impl FnMut(&mut Random) -> f64) -> Block {
    Block {
        sheet: (0..SHEET).map(|_| number(random)).collect(),
        lat: [number(random), number(random)],
        pier: random.below(3) as u8,
    }
}

/// A real block whose sin_alt is `x`: latitude 0, cos dec 1, cos h `x`.
pub fn altitude(random: &mut Random, x: f64) -> Block {
    let mut block = real(random, 1);
    block.lat = [0.0, 1.0];
    block.sheet[1] = x;
    block.sheet[19] = 1.0;
    block
}

fn accepted(random: &mut Random) -> Vec<Block> {
    let mut blocks = Vec::new();
    for i in 0..120 {
        blocks.push(real(random, i % 3));
    }
    for x in EXTREME {
        blocks.push(filled(random, |_| x));
    }
    for _ in 0..30 {
        blocks.push(filled(random, |r| r.pick(&EXTREME)));
    }
    for scale in [1e300, 1e-300, 1e155, 1e-155] {
        for _ in 0..4 {
            blocks.push(filled(random, |r| r.unit() * scale));
        }
    }
    for _ in 0..6 {
        blocks.push(filled(random, Random::subnormal));
    }
    for _ in 0..40 {
        blocks.push(filled(random, Random::finite));
    }
    let below = 1e-10f64.next_down();
    let above = 1e-10f64.next_up();
    for x in [
        0.0, -0.0, 1e-10, below, above, -1e-10, -below, -above, 1e-9, 0.01, 1.0, -1.0, 1.5, -1.5,
        1e200,
    ] {
        blocks.push(altitude(random, x));
    }
    for cos_dec in [0.0, -0.0, 5e-324, 6e-17] {
        for pier in 0..3 {
            let mut block = real(random, pier);
            block.sheet[19] = cos_dec;
            blocks.push(block);
        }
    }
    blocks
}

fn refused(random: &mut Random) -> Vec<Block> {
    let mut blocks = Vec::new();
    let strange = [f64::NAN, f64::INFINITY, f64::NEG_INFINITY];
    for place in 0..SHEET + 2 {
        let mut block = real(random, (place % 3) as u8);
        let x = strange[place % 3];
        match place {
            SHEET.. => block.lat[place - SHEET] = x,
            _ => block.sheet[place] = x,
        }
        blocks.push(block);
    }
    for pier in [3, 4, 128, 255] {
        blocks.push(real(random, pier));
    }
    for len in [0, 1, 36, 38, 40] {
        let mut block = real(random, 1);
        block.sheet.resize(len, 0.5);
        blocks.push(block);
    }
    // several faults at once
    let mut block = real(random, 3);
    block.sheet[5] = f64::NAN;
    blocks.push(block.clone());
    block.sheet.truncate(36);
    blocks.push(block.clone());
    block.pier = 2;
    blocks.push(block);
    let mut block = real(random, 255);
    block.lat[1] = f64::INFINITY;
    blocks.push(block.clone());
    block.sheet.push(f64::NAN);
    blocks.push(block.clone());
    block.sheet.clear();
    blocks.push(block);
    blocks
}

pub fn vectors() -> Vectors {
    let random = &mut Random::new(0x6a61_636f);
    let slots = slots();
    let mut stdin = (slots.len() as u16).to_le_bytes().to_vec();
    for slot in &slots {
        stdin.push(slot.len() as u8);
        stdin.extend(slot);
        stdin.extend(vec![0; 32 - slot.len()]);
    }
    let mut blocks = accepted(random);
    blocks.extend(refused(random));
    let (mut pairs, mut not_numbers) = (0, 0);
    let mut counts = [0; 11];
    for block in &blocks {
        stdin.push(block.sheet.len() as u8);
        put_doubles(&mut stdin, &block.sheet);
        put_doubles(&mut stdin, &block.lat);
        stdin.push(block.pier);
        let point = Point {
            sheet: &block.sheet,
            sin_lat: block.lat[0],
            cos_lat: block.lat[1],
            pier: block.pier,
        };
        for slot in &slots {
            match jacobian(slot, &point) {
                Err(number) => {
                    stdin.push(number);
                    counts[number as usize] += 1;
                }
                Ok((jh, jd)) => {
                    stdin.push(0);
                    put_doubles(&mut stdin, &[jh, jd]);
                    pairs += 1;
                    not_numbers += (jh.is_nan() || jd.is_nan()) as usize;
                }
            }
        }
    }
    let mut stdout = format!("blocks {}\npairs {pairs}\n", blocks.len());
    for number in [2, 4, 5, 7, 8, 9, 10] {
        stdout += &format!("refused {number} {}\n", counts[number]);
    }
    stdout += &format!("not numbers {not_numbers}\ndifferent 0\n");
    Vectors {
        name: "replay_jacobians",
        stdin,
        stdout,
    }
}
