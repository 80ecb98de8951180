//! `replay_names`: what a name slot is read as.

use super::pier::{self, Spelled};
use super::random::Random;
use super::Vectors;
use crate::questions::{read_term, stored_name};
use crate::terms::harmonic::{parse_harmonic, Coordinate, TrigFunc};
use crate::terms::Term;
use std::collections::BTreeSet;

pub const KINDS: [&str; 15] = [
    "IH", "ID", "CH", "NP", "MA", "ME", "TF", "TX", "TXN", "DAF", "FO", "HCES", "HCEC", "DCES",
    "DCEC",
];
pub const HARMONIC: u8 = 15;
const ALTAZ: [&str; 6] = ["IA", "IE", "CA", "NPAE", "AN", "AW"];

/// The bytes that the reader of harmonics compares with, and one of each other sort: another
/// letter, a letter of other names, marks, controls and bytes that aren't ASCII.
const HARMONIC_BYTES: &[u8] = b"HDXPAEZSC0123456789BT+!\x01\x7f\x80\xff";

/// Kind, number, result, count of the components, whether the term is pier sensitive, and the
/// components as they are stored.
pub fn describe(term: &dyn Term) -> Vec<u8> {
    let name = term.name();
    let flag = term.pier_sensitive() as u8;
    if let Some(kind) = KINDS.iter().position(|k| *k == name) {
        return vec![kind as u8, 0, 0, 0, flag];
    }
    if let Some(number) = name.strip_prefix("TX") {
        return vec![8, number.parse().expect("a number"), 0, 0, flag];
    }
    let harmonic = parse_harmonic(name).expect("a harmonic");
    let mut out = vec![
        HARMONIC,
        0,
        harmonic.result as u8,
        harmonic.components.len() as u8,
        flag,
    ];
    for component in &harmonic.components {
        out.push((component.func == TrigFunc::Cos) as u8);
        out.push(match component.coord {
            Coordinate::H => 0,
            Coordinate::D => 1,
            Coordinate::A => 2,
            Coordinate::E => 3,
            Coordinate::Z => 4,
        });
        out.push(component.frequency);
    }
    out
}

fn is_short_harmonic(given: &[u8], description: &[u8]) -> bool {
    description[0] == HARMONIC
        && (4..=6).contains(&given.len())
        && !given.iter().any(u8::is_ascii_lowercase)
}

/// The accepted harmonics of a length without small letters, in byte order. Only a name that
/// begins with H is read as harmonic; the bytes after it run over `bytes`.
fn short_harmonics(len: usize, bytes: &[u8]) -> Vec<Vec<u8>> {
    let mut sorted = bytes.to_vec();
    sorted.sort();
    let mut found = Vec::new();
    let mut slot = [0u8; 16];
    slot[0] = b'H';
    let places = len - 1;
    for number in 0..sorted.len().pow(places as u32) {
        let mut rest = number;
        for place in (1..len).rev() {
            slot[place] = sorted[rest % sorted.len()];
            rest /= sorted.len();
        }
        if let Ok(term) = read_term(&slot) {
            if is_short_harmonic(&slot[..len], &describe(term.as_ref())) {
                found.push(slot[..len].to_vec());
            }
        }
    }
    found
}

#[derive(Default)]
struct Records {
    stdin: Vec<u8>,
    names: usize,
    refused: [usize; 11],
    pier_sensitive: usize,
    short: [usize; 3],
    /// The short harmonics stand in the file once, where they are all listed.
    listed: bool,
    /// What was read, by kind and spelling.
    spelled: BTreeSet<Spelled>,
}

impl Records {
    fn add(&mut self, given: &[u8], slot_len: usize) {
        let mut slot = given.to_vec();
        slot.resize(slot_len, 0);
        let mut answer = Vec::new();
        match read_term(&slot) {
            Err(number) => {
                answer.push(number);
                self.refused[number as usize] += 1;
            }
            Ok(term) => {
                let description = describe(term.as_ref());
                if is_short_harmonic(given, &description) {
                    if self.listed {
                        return;
                    }
                    self.short[given.len() - 4] += 1;
                }
                self.pier_sensitive += term.pier_sensitive() as usize;
                self.spelled.insert(Spelled::of(given, &description));
                answer.push(0);
                answer.extend(stored_name(term.as_ref()));
                answer.extend(description);
                self.refused[0] += 1;
            }
        }
        self.names += 1;
        self.stdin.extend([given.len() as u8, slot_len as u8]);
        self.stdin.extend(given);
        self.stdin.extend(answer);
    }

    fn add16(&mut self, given: &[u8]) {
        self.add(given, 16);
    }
}

/// Each letter small or capital.
pub fn mixed_case(random: &mut Random, name: &[u8]) -> Vec<u8> {
    name.iter()
        .map(|&b| match random.flip() {
            true => b.to_ascii_lowercase(),
            false => b.to_ascii_uppercase(),
        })
        .collect()
}

/// A byte near those of names, or any.
pub fn any_byte(random: &mut Random) -> u8 {
    match random.below(3) {
        0 => random.byte(),
        1 => random.within(0x20, 0x7e) as u8,
        _ => random.pick(b"HDXPAEZSCIMNTFOWhdxpsctz0123456789+- "),
    }
}

/// A byte changed, added or removed.
pub fn damaged(random: &mut Random, name: &[u8]) -> Vec<u8> {
    let mut out = name.to_vec();
    let at = random.below(name.len());
    match random.below(3) {
        0 => out[at] = any_byte(random),
        1 => out.insert(random.within(0, name.len()), any_byte(random)),
        _ => {
            out.remove(at);
        }
    }
    out.truncate(16);
    out
}

fn component(random: &mut Random) -> Vec<u8> {
    let mut out = vec![random.pick(b"SC"), random.pick(b"HDAEZ")];
    if random.flip() {
        out.push(random.pick(b"123456789"));
    }
    out
}

/// A harmonic of up to seven components and up to `most` bytes.
pub fn harmonic(random: &mut Random, most: usize) -> Vec<u8> {
    let mut out = vec![b'H', random.pick(b"HDXPAEZS")];
    for _ in 0..random.within(1, 7) {
        let next = component(random);
        if out.len() + next.len() <= most {
            out.extend(next);
        }
    }
    out
}

pub fn fixed_name(random: &mut Random) -> Vec<u8> {
    match random.below(4) {
        0 => random.pick(&ALTAZ).into(),
        1 => format!("TX{}", random.within(0, 300)).into(),
        _ => random.pick(&KINDS).into(),
    }
}

/// TX with a sign, leading zeros and digits, up to 16 bytes and sometimes damaged.
pub fn tx_name(random: &mut Random) -> Vec<u8> {
    let sign = random.pick(&["", "", "+", "-", "++"]);
    let digits = random.pick(&[
        "0", "1", "9", "10", "99", "100", "255", "256", "999", "65791",
    ]);
    let zeros = "0".repeat(random.below(13));
    let mut out = mixed_case(random, format!("TX{sign}{zeros}{digits}").as_bytes());
    if random.below(4) == 0 {
        let at = random.below(out.len());
        out[at] = any_byte(random);
    }
    out.truncate(16);
    out
}

fn add_exhaustive(records: &mut Records) {
    for len in 4..=6 {
        for name in short_harmonics(len, HARMONIC_BYTES) {
            records.add16(&name);
        }
    }
    records.listed = true;
    records.add16(b"");
    for a in 1..=255 {
        records.add16(&[a]);
    }
    for a in 1..=255 {
        for b in 1..=255 {
            records.add16(&[a, b]);
        }
    }
    let marks = b"+-0123456789";
    for tx in [b"TX", b"tx"] {
        for len in 1..=3 {
            for number in 0..marks.len().pow(len) {
                let mut name = tx.to_vec();
                for place in 0..len {
                    name.push(marks[number / marks.len().pow(len - 1 - place) % marks.len()]);
                }
                records.add16(&name);
            }
        }
    }
}

fn add_chosen(records: &mut Records) {
    for name in KINDS.iter().chain(&ALTAZ) {
        records.add16(name.as_bytes());
        records.add16(name.to_ascii_lowercase().as_bytes());
    }
    for name in [
        "tx+05",
        "TX0000000000255",
        "TX00000000000255",
        "TX00000000000256",
        "TX00000000000000",
        "TX+0000000000255",
        "TX+0000000000001",
        "TX-0000000000001",
        "TX+",
        "TX++1",
        "TX+-1",
        "TX 1",
        "TX1 ",
        "TX1.0",
        "TX0x1",
        "TX1e1",
        "TXA",
        "TXN",
        "TXTX1",
        "TX99999999999999",
        "HCES",
        "hces",
        "HCES1",
        "HCEC2",
        "HHS",
        "HHSH0",
        "HHSH12",
        "HHSHS",
        "HHSHSH0",
        "HHSH1SH1",
        "HXSHCD2",
        "hxshcd2",
        "H",
        "HH",
        "HHH",
        "HSSH1CD9SZ",
        "HHSHCDSACESZCHSD",
        "HHSH1CD2SA3CE4S",
        "HHSH1CD2SA3CE4SZ",
        "HHSH9CD9SA9CE9S5",
        "H0SH",
        "HHsh",
        "hHSh9",
        "Ih",
        "iD",
        "IHX",
        "XIH",
        "I H",
        " IH",
        "IH ",
        "NPAE1",
        "NPA",
        "DAF1",
        "DA",
        "FO0",
        "DCES",
        "DCEC",
        "DCED",
    ] {
        records.add16(name.as_bytes());
    }
    // the long s, whose capital is S for Rust's `to_uppercase` but isn't ASCII
    records.add16("HH\u{17f}H".as_bytes());
    records.add16("T\u{131}".as_bytes());
}

fn add_random(records: &mut Records, random: &mut Random) {
    for _ in 0..1000 {
        let name = fixed_name(random);
        let name = mixed_case(random, &name);
        records.add16(&name);
        for _ in 0..3 {
            let bad = damaged(random, &name);
            records.add16(&bad);
        }
    }
    for _ in 0..1500 {
        let most = random.within(4, 16);
        let name = harmonic(random, most);
        records.add16(&mixed_case(random, &name));
        records.add16(&name);
        let bad = damaged(random, &name);
        records.add16(&bad);
    }
    for _ in 0..800 {
        records.add16(&tx_name(random));
    }
    for _ in 0..300 {
        let start = random.pick(&["", "H", "TX", "HHSH", "IH", "TX0"]);
        let mut name = start.as_bytes().to_vec();
        while name.len() < 16 {
            name.push(random.pick(b"HDXPAEZSC0123456789"));
        }
        records.add16(&name);
    }
    for _ in 0..1000 {
        let len = random.within(1, 16);
        let wide = random.flip();
        let name: Vec<u8> = (0..len)
            .map(|_| {
                if wide {
                    random.byte()
                } else {
                    any_byte(random)
                }
            })
            .collect();
        records.add16(&name);
    }
}

/// Zeros inside and behind a name, bytes that aren't ASCII, slots of other lengths.
fn add_slots(records: &mut Records, random: &mut Random) {
    for _ in 0..400 {
        let name = match random.flip() {
            true => fixed_name(random),
            false => harmonic(random, 12),
        };
        let at = random.within(0, name.len());
        let mut with_zero = name.clone();
        with_zero.insert(at, 0);
        records.add16(&with_zero);
        let mut padded = name.clone();
        padded.resize(random.within(name.len(), 16), 0);
        records.add16(&padded);
        if padded.len() > name.len() {
            *padded.last_mut().expect("a byte") = any_byte(random);
            records.add16(&padded);
        }
        let mut high = name.clone();
        let at = random.below(high.len());
        high[at] |= 128;
        records.add16(&high);
    }
    for slot_len in [0, 1, 2, 8, 15, 17, 31, 32, 33, 64] {
        records.add(b"", slot_len);
        for _ in 0..20 {
            let mut name = match random.flip() {
                true => fixed_name(random),
                false => harmonic(random, 16),
            };
            name.truncate(slot_len);
            records.add(&name, slot_len);
        }
    }
}

pub fn vectors() -> Vectors {
    let mut records = Records::default();
    let random = &mut Random::new(0x6e61_6d65);
    add_exhaustive(&mut records);
    add_chosen(&mut records);
    add_random(&mut records, random);
    add_slots(&mut records, random);
    for name in pier::names() {
        records.add16(&name);
    }
    pier::assert_spelled(&records.spelled);
    let mut stdout = format!("names {}\nread {}\n", records.names, records.refused[0]);
    stdout += &format!("pier sensitive {}\n", records.pier_sensitive);
    for number in [2, 7, 8, 9, 10] {
        stdout += &format!("refused {number} {}\n", records.refused[number]);
    }
    let [four, five, six] = records.short;
    stdout += &format!("harmonics of 4, 5 and 6 bytes {four} {five} {six}\ndifferent 0\n");
    Vectors {
        name: "replay_names",
        stdin: records.stdin,
        stdout,
    }
}

#[cfg(test)]
mod tests {
    use super::*;

    fn bytes_but_small_letters() -> Vec<u8> {
        (1..=255u8).filter(|b| !b.is_ascii_lowercase()).collect()
    }

    #[test]
    fn short_harmonics_are_80_720_and_800() {
        let count = |len| short_harmonics(len, HARMONIC_BYTES).len();
        assert_eq!([count(4), count(5), count(6)], [80, 720, 800]);
        let every_byte = short_harmonics(4, &bytes_but_small_letters());
        assert_eq!(every_byte, short_harmonics(4, HARMONIC_BYTES));
    }

    /// All bytes at all places: some 100 million names.
    #[test]
    #[ignore]
    fn short_harmonics_of_five_over_every_byte() {
        let ascii: Vec<u8> = bytes_but_small_letters()
            .into_iter()
            .filter(|b| *b < 128)
            .collect();
        assert_eq!(
            short_harmonics(5, &ascii),
            short_harmonics(5, HARMONIC_BYTES)
        );
    }

    /// Any byte at any place of a listed name: what is accepted is listed too.
    #[test]
    fn a_changed_byte_gives_no_other_harmonic() {
        for len in 4..=6 {
            let names = short_harmonics(len, HARMONIC_BYTES);
            for name in &names {
                for at in 0..len {
                    for byte in bytes_but_small_letters() {
                        let mut slot = [0; 16];
                        slot[..len].copy_from_slice(name);
                        slot[at] = byte;
                        let read = read_term(&slot).ok().map(|t| describe(t.as_ref())[0]);
                        let listed = names.binary_search(&slot[..len].to_vec()).is_ok();
                        assert_eq!(read == Some(HARMONIC), listed);
                    }
                }
            }
        }
    }
}
