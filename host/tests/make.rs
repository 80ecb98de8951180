//! `pmf-make` as a user runs it: the examples made anew, and bad input.

mod common;

use common::{bytes, code, err, out, path, run, text, written};
use host::pmf::decode;
use host::run::{Mode, Pier, Run};

/// The same but for the last bits of sines and cosines, which another libm may round otherwise.
fn assert_same(made: &[u8], stored: &[u8]) {
    let (mut made, stored) = (decode(made).expect("made"), decode(stored).expect("stored"));
    assert!((made.sin_lat - stored.sin_lat).abs() < 1e-15);
    assert!((made.cos_lat - stored.cos_lat).abs() < 1e-15);
    for (star, other) in made.stars.iter_mut().zip(&stored.stars) {
        for (x, y) in star.sheet.0.iter().zip(&other.sheet.0) {
            assert!((x - y).abs() <= 4e-16 * y.abs().max(1.0));
        }
        star.sheet = other.sheet;
    }
    let made = Run {
        sin_lat: stored.sin_lat,
        cos_lat: stored.cos_lat,
        ..made
    };
    assert_eq!(made, stored);
}

#[test]
fn the_file_case_byte_for_byte() {
    let made = run("pmf-make", &[&path("document-01.csv")], b"");
    assert_eq!((code(&made), err(&made).as_str()), (0, ""));
    assert_eq!(made.stdout, bytes("document-01.pmf"));
    // by docs/SCOPE.md 11.3.5, not by pmf-make
    let mut expected = b"PMF\x01\x00\x01\x00\x01\x00".to_vec();
    for x in [0.0, 1.0, 0.0, 1e-6, 1e-3, 10.0, 10.0, 1.345f64] {
        expected.extend(x.to_le_bytes());
    }
    expected.extend([50, 0]);
    expected.extend(b"ID\0\0\0\0\0\0\0\0\0\0\0\0\0\0\0");
    expected.extend(0f64.to_le_bytes());
    expected.push(1);
    for x in [0.0, -10.0f64] {
        expected.extend(x.to_le_bytes());
    }
    for _ in 0..18 {
        expected.extend(0f64.to_le_bytes());
        expected.extend(1f64.to_le_bytes());
    }
    expected.extend(0f64.to_le_bytes());
    assert_eq!(made.stdout, expected);
}

#[test]
fn examples_from_standard_input() {
    for name in [
        "document-01",
        "night",
        "wrong-piers",
        "many-terms",
        "no-iterations",
        "one-place",
        "refused",
    ] {
        let made = run("pmf-make", &[], &bytes(&format!("{name}.csv")));
        assert_eq!(code(&made), 0, "{name}: {}", err(&made));
        assert_same(&made.stdout, &bytes(&format!("{name}.pmf")));
    }
}

#[test]
fn indat_to_a_file() {
    let file = written("indat.pmf");
    let words = [
        "--indat",
        &path("night-indat.dat"),
        "-o",
        &file,
        &path("night-indat.csv"),
    ];
    let made = run("pmf-make", &words, b"");
    assert_eq!(
        (code(&made), out(&made).as_str()),
        (0, ""),
        "{}",
        err(&made)
    );
    let made = std::fs::read(&file).expect("written");
    assert_same(&made, &bytes("night-indat.pmf"));
    // the same night as the CSV tells
    let (made, csv) = (
        decode(&made).expect("made"),
        decode(&bytes("night.pmf")).expect("night"),
    );
    assert_eq!(made.stars.len(), csv.stars.len());
    for (star, other) in made.stars.iter().zip(&csv.stars) {
        assert_eq!(star.pier, other.pier);
        assert!((star.dh - other.dh).abs() < 1e-9 && (star.dd - other.dd).abs() < 1e-9);
        assert!((star.sheet.hour_angle() - other.sheet.hour_angle()).abs() < 1e-12);
    }
}

#[test]
fn wrong_piers_differ_from_the_night_in_two_stars() {
    let (night, wrong) = (
        decode(&bytes("night.pmf")),
        decode(&bytes("wrong-piers.pmf")),
    );
    let (night, wrong) = (night.expect("night"), wrong.expect("wrong-piers"));
    assert_eq!((night.mode, wrong.mode), (Mode::Iterated, Mode::Robust));
    let piers = |run: &Run| run.stars.iter().map(|s| s.pier).collect::<Vec<Pier>>();
    let other: Vec<usize> = (0..30)
        .filter(|&i| piers(&night)[i] != piers(&wrong)[i])
        .collect();
    assert_eq!(other, [8, 21]);
}

/// Ends with 1, says the line, writes nothing.
fn assert_bad(input: &str, words: &str) {
    let made = run("pmf-make", &[], input.as_bytes());
    assert_eq!(code(&made), 1, "{input}");
    assert!(made.stdout.is_empty(), "{input}");
    let said = err(&made);
    assert!(said.starts_with("pmf-make: standard input: "), "{said}");
    assert!(said.contains(words), "{said}");
}

/// Each good part of the night's text replaced by a bad one.
fn assert_bad_parts(parts: &[(&str, &str, &str)]) {
    let night = text("night.csv");
    for (good, bad, words) in parts {
        assert!(night.contains(good), "{good}");
        assert_bad(&night.replacen(good, bad, 1), words);
    }
}

#[test]
fn bad_settings() {
    let latitude = "latitude,+34 30 00";
    assert_bad_parts(&[
        (
            "mode,iterated",
            "mode,twice",
            "line 3: mode: 'twice': expected single",
        ),
        (
            latitude,
            "latitude,+34 30",
            "line 2: latitude: '+34 30' is no angle",
        ),
        (
            latitude,
            "lattitude,+34 30 00",
            "line 2: unknown key 'lattitude'",
        ),
        (latitude, "", "no latitude: expected a line"),
    ]);
}

#[test]
fn bad_terms() {
    let term = "term,NP,free,0";
    assert_bad_parts(&[
        (term, "term,NP,free", "line 8: column 4 (start) is missing"),
        (
            term,
            "term,NP,free,1e999",
            "line 8: start: '1e999' is not finite",
        ),
        (
            term,
            "term,NON-PERPENDICULAR,free,0",
            "line 8: name: 'NON-PERPENDICULAR'",
        ),
    ]);
}

#[test]
fn bad_stars() {
    let dec = ",+08:28:29.8,";
    assert_bad_parts(&[
        (
            dec,
            ",+08:28:29,8,",
            "line 12: 7 columns: expected star,hour angle",
        ),
        (
            dec,
            ",+08:61:29.8,",
            "line 12: declination: '61' is out of range",
        ),
        (
            "23.3,east",
            "23.3,both",
            "line 12: pier side: 'both': expected east",
        ),
    ]);
}

#[test]
fn bytes_that_are_no_text() {
    let made = run("pmf-make", &[], b"latitude,0\nterm,\xff,free,0\n");
    assert_eq!(code(&made), 1);
    assert!(
        err(&made).contains("line 2: this is not UTF-8 text"),
        "{}",
        err(&made)
    );
}

#[test]
fn what_comes_twice() {
    let stars = path("night-indat.dat");
    let both = run("pmf-make", &["--indat", &stars], b"latitude,0\n");
    assert!(err(&both).contains("line 1: the latitude comes from the INDAT file"));
    let both = run("pmf-make", &["--indat", &stars], b"\ndiff,0,0,0,0,E\n");
    assert!(err(&both).contains("line 2: the stars come from the INDAT file"));
    assert_eq!(code(&both), 1);
}

#[test]
fn an_indat_fault_names_its_file() {
    let bad = run("pmf-make", &["--indat", &path("night.csv")], b"");
    assert_eq!(code(&bad), 1);
    assert!(
        err(&bad).contains("night.csv: line 2: 3 numbers: expected the site"),
        "{}",
        err(&bad)
    );
}

#[test]
fn usage() {
    let help = run("pmf-make", &["--help"], b"");
    assert_eq!(code(&help), 0);
    assert!(out(&help).starts_with("pmf-make [--indat STARS.dat]"));
    for words in [
        &["--what"][..],
        &["a", "b"],
        &["-o"],
        &["-o", "a", "-o", "b"],
        &["--indat", "-"],
    ] {
        let wrong = run("pmf-make", words, b"");
        assert_eq!(code(&wrong), 2, "{words:?}");
        assert!(err(&wrong).contains("pmf-make --help"), "{words:?}");
    }
    let missing = run("pmf-make", &["/no/such/file.csv"], b"");
    assert_eq!(code(&missing), 1);
    assert!(err(&missing).contains("/no/such/file.csv: "));
}
