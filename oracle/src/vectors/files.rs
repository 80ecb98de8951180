//! `replay_files`: listings of whole and damaged files.

use super::pier;
use super::random::Random;
use super::runs::{still, Case, Maker, Pool, ITERATED, NAMES, ROBUST, SINGLE};
use super::Vectors;
use crate::pmf::{file, file_size, listing};
use std::collections::BTreeSet;

const MODES: [u8; 3] = [SINGLE, ITERATED, ROBUST];
const HEADER: usize = 9;
/// The bytes of the longest listing: 16 names of 16 bytes, each count and word as long as it can be.
const LONGEST: usize = "fit 16 16 1000 yes 30 yes\n".len() + 16 * 56 + 38;
/// Questions whose "no" a file's fields can have.
const ASKED: [u8; 10] = [4, 5, 6, 7, 8, 9, 10, 11, 12, 13];

/// The infinities, several NaN and the largest number.
const PATTERNS: [u64; 6] = [
    0x7ff0_0000_0000_0000,
    0xfff0_0000_0000_0000,
    0x7ff8_0000_0000_0000,
    0x7ff0_0000_0000_0001,
    0xffff_ffff_ffff_ffff,
    0x7fef_ffff_ffff_ffff,
];

#[derive(Default)]
struct Records {
    stdin: Vec<u8>,
    base: Vec<u8>,
    files: usize,
    fits: usize,
    refused: [usize; 16],
    /// First lines that end in 30 no, and in 30 yes.
    thirty: [usize; 2],
    /// The names and last words of term lines.
    lines: BTreeSet<(String, String)>,
    /// The most bytes of a listing.
    longest: usize,
}

impl Records {
    fn record(&mut self, kind: u8, number: usize, bytes: &[u8], input: &[u8]) {
        self.stdin.push(kind);
        self.stdin.extend((number as u32).to_le_bytes());
        self.stdin.extend(bytes);
        let listing = listing(input);
        self.stdin.extend((listing.len() as u16).to_le_bytes());
        self.stdin.extend(listing.as_bytes());
        self.files += 1;
        match listing.strip_prefix("no ") {
            Some(number) => {
                let number: usize = number.trim_end().parse().expect("a number");
                self.refused[number] += 1;
            }
            None => self.fits += 1,
        }
        let first = listing.lines().next().expect("a first line");
        self.thirty[0] += first.ends_with(" 30 no") as usize;
        self.thirty[1] += first.ends_with(" 30 yes") as usize;
        for line in listing.lines() {
            if let [name, _, _, word] = line.split(' ').collect::<Vec<_>>()[..] {
                self.lines.insert((name.into(), word.into()));
            }
        }
        self.longest = self.longest.max(listing.len());
    }

    /// A whole file, the base of the damaged ones after it.
    fn whole(&mut self, input: Vec<u8>) {
        assert!(input.len() <= 40_000);
        self.record(0, input.len(), &input, &input);
        self.base = input;
    }

    fn cut(&mut self, len: usize) {
        let input = self.base[..len].to_vec();
        self.record(1, len, &[], &input);
    }

    fn change(&mut self, at: usize, bytes: &[u8]) {
        let mut input = self.base.clone();
        input[at..at + bytes.len()].copy_from_slice(bytes);
        let kind = if bytes.len() == 1 { 2 } else { 3 };
        self.record(kind, at, bytes, &input);
    }

    fn append(&mut self, count: usize) {
        let mut input = self.base.clone();
        input.resize(input.len() + count, 0);
        self.record(4, count, &[], &input);
    }
}

fn bytes(maker: &Maker, case: &Case) -> Vec<u8> {
    file(&case.lent(maker.pool), &case.options, case.mode)
}

/// A good file of two terms and two stars, one of them West.
fn small(maker: &mut Maker, mode: u8) -> Vec<u8> {
    let mut case = maker.real_of(mode, &["IH", "hdch5"], 2);
    case.run.fixed = vec![0, 0];
    case.run.piers = vec![1, 2];
    bytes(maker, &case)
}

/// The places of the doubles in a file.
fn doubles(m: usize, n: usize) -> Vec<usize> {
    let mut out: Vec<usize> = (0..8).map(|k| HEADER + 8 * k).collect();
    let coefficients = HEADER + 66 + 17 * m;
    out.extend((0..m).map(|j| coefficients + 8 * j));
    for i in 0..n {
        let star = coefficients + 8 * m + 313 * i;
        out.extend((0..39).map(|k| star + 1 + 8 * k));
    }
    out
}

/// The file of docs/SCOPE.md 11.3.5 in each mode, cut everywhere, and every header byte changed to every value.
fn documented(records: &mut Records, maker: &Maker) {
    for mode in MODES {
        records.whole(bytes(maker, &still(mode, &[-10.0])));
        let mut limited = still(mode, &[-10.0]);
        limited.options.max_iter = 0;
        records.whole(bytes(maker, &limited));
        records.whole(bytes(maker, &still(mode, &[-10.0, -20.0, -10.0, -20.0])));
    }
    records.whole(bytes(maker, &still(SINGLE, &[-10.0])));
    for len in 0..=records.base.len() {
        records.cut(len);
    }
    for at in 0..HEADER {
        for value in 0..=255 {
            records.change(at, &[value]);
        }
    }
    for count in [0, 1, 7, 8, 37, 64] {
        records.append(count);
    }
}

/// Copies of a good file in each mode: cut, every byte changed, every float not finite.
fn damaged(records: &mut Records, maker: &mut Maker) {
    for mode in MODES {
        records.whole(small(maker, mode));
        let len = records.base.len();
        for cut in (0..=len).step_by(1 + 10 * (mode != ROBUST) as usize) {
            records.cut(cut);
        }
        for at in 0..HEADER {
            for value in [0, 1, 2, 3, 4, 16, 17, b'F', b'M', b'P', 100, 101, 128, 255] {
                records.change(at, &[value]);
            }
        }
        for at in HEADER..len {
            let value = records.base[at] ^ 1 << maker.random.below(8);
            records.change(at, &[value]);
            if at % 3 == mode as usize % 3 {
                records.change(at, &[255]);
            }
        }
        for at in doubles(2, 2) {
            for bits in PATTERNS {
                records.change(at, &bits.to_le_bytes());
            }
            let number = maker.random.finite();
            records.change(at, &number.to_le_bytes());
        }
        for count in [1, 2, 8, 25, 64] {
            records.append(count);
        }
    }
}

/// Options that mode 0 takes no notice of, but for the questions; limits of max_iter.
fn options(records: &mut Records, maker: &mut Maker) {
    for mode in MODES {
        for max_iter in [0, 1, 2, 999, 1000, 1001, 1024, 65535] {
            let mut case = maker.real_of(mode, &["ID"], 2);
            case.options.max_iter = max_iter;
            records.whole(bytes(maker, &case));
        }
        records.whole(small(maker, mode));
        for field in 3..8 {
            for number in [0.0, -0.0, -1.0, 5e-324, 1e300] {
                records.change(HEADER + 8 * field, &f64::to_le_bytes(number));
            }
        }
    }
}

/// The limits of m and n, reached and passed, with the right length and with others.
fn limits(records: &mut Records, maker: &mut Maker) {
    for (mode, n) in [(SINGLE, 100), (ROBUST, 16)] {
        let case = maker.real_of(mode, &NAMES[..16], n);
        records.whole(bytes(maker, &case));
        for len in [0, 8, 9, 10, 1000, records.base.len() - 1] {
            records.cut(len);
        }
        records.append(1);
        for (at, value) in [
            (5, 17),
            (5, 15),
            (5, 255),
            (7, 101),
            (7, 99),
            (8, 1),
            (8, 255),
        ] {
            records.change(at, &[value]);
        }
    }
    for (m, n) in [(17, 1), (1, 101), (17, 0), (0, 0), (0, 3), (16, 1), (40, 2)] {
        let mut case = still(SINGLE, &vec![-10.0; n]);
        case.resize_terms(m);
        records.whole(bytes(maker, &case));
        assert_eq!(records.base.len(), file_size(m, n));
        records.cut(HEADER);
        records.append(1);
        // mark, version and mode come before the limits
        for at in [0, 1, 2, 3, 4, 6] {
            records.change(at, &[2]);
        }
    }
    // longer than any good file
    let mut long = bytes(maker, &still(SINGLE, &[-10.0]));
    long.resize(32_000, 7);
    records.whole(long);
    records.change(5, &[17]);
    records.change(0, b"p");
}

fn regimes(records: &mut Records, maker: &mut Maker) {
    for i in 0..180 {
        let mode = MODES[i % 3];
        let case = match i / 3 % 6 {
            0 | 1 => maker.real(mode, 4, 6),
            2 => maker.extreme(mode),
            3 => maker.repeated(mode),
            4 => maker.polar(mode),
            _ => maker.deficient(mode),
        };
        records.whole(bytes(maker, &case));
    }
    for i in 0..30 {
        let names = &NAMES[i..i + 3];
        let case = maker.real_of(MODES[i % 3], names, 3);
        records.whole(bytes(maker, &case));
    }
    for i in 0..24 {
        let case = maker.tight(MODES[i % 3], i % 2);
        records.whole(bytes(maker, &case));
    }
}

/// Fields that the questions refuse, in each mode: also options that mode 0 doesn't take.
fn refusals(records: &mut Records, maker: &mut Maker) {
    let cases = maker.refusals(&[ITERATED], &ASKED);
    for (i, mut case) in cases.into_iter().enumerate() {
        case.mode = MODES[i % 3];
        records.whole(bytes(maker, &case));
    }
}

/// First lines that end in 30 no and in 30 yes, of 16 terms and 100 stars, in each mode; small runs
/// of nearly dependent columns, of one whose squares vanish, and of one free term.
fn sweeps(records: &mut Records, maker: &mut Maker) {
    for settled in [false, true] {
        let case = maker.thirty(SINGLE, 16, settled);
        records.whole(bytes(maker, &case));
        records.change(6, &[ITERATED]);
        records.change(6, &[ROBUST]);
    }
    for mode in MODES {
        for case in [
            maker.nearly_dependent(mode, 6, 8, 2),
            maker.restless(mode),
            maker.one_free(mode, 4),
        ] {
            records.whole(bytes(maker, &case));
        }
    }
}

/// Terms that are pier sensitive and others; the longest listings that end in 30 no and in 30 yes.
fn terms(records: &mut Records, maker: &mut Maker) {
    for case in maker.by_terms(&MODES) {
        records.whole(bytes(maker, &case));
    }
    for settled in [false, true] {
        let case = maker.longest(settled);
        records.whole(bytes(maker, &case));
        records.change(6, &[SINGLE]);
    }
}

pub fn vectors() -> Vectors {
    let mut random = Random::new(0x6669_6c65);
    let mut pool = Pool::new(&mut random, 220);
    pool.add_near();
    let maker = &mut Maker {
        random,
        pool: &pool,
    };
    let records = &mut Records::default();
    documented(records, maker);
    damaged(records, maker);
    options(records, maker);
    limits(records, maker);
    regimes(records, maker);
    refusals(records, maker);
    sweeps(records, maker);
    terms(records, maker);
    assert!(records.thirty.iter().all(|&count| count >= MODES.len()));
    pier::assert_lines(&records.lines);
    assert_eq!(records.longest, LONGEST);
    let mut stdout = format!("files {}\nfits {}\n", records.files, records.fits);
    for (number, count) in records.refused.iter().enumerate() {
        if *count > 0 {
            stdout += &format!("refused {number} {count}\n");
        }
    }
    stdout += "different 0\n";
    Vectors {
        name: "replay_files",
        stdin: std::mem::take(&mut records.stdin),
        stdout,
    }
}
