//! `pmf-card` as a user runs it, on the oracle's listings of `examples/`.

mod common;

use common::{bytes, code, err, out, path, run, text, written, FITTED};
use host::belongs;
use host::listing::{self, Listing};
use host::pmf::decode;
use host::residuals::rms;

/// The night's listing with another first line.
fn night_with(first: &str) -> String {
    let listing = text("night.listing");
    let (_, rest) = listing.split_once('\n').expect("a first line");
    format!("{first}\n{rest}")
}

fn card(name: &str) -> String {
    let made = run(
        "pmf-card",
        &[
            &path(&format!("{name}.pmf")),
            &path(&format!("{name}.listing")),
        ],
        b"",
    );
    assert_eq!((code(&made), err(&made).as_str()), (0, ""), "{name}");
    out(&made)
}

#[test]
fn the_night() {
    let card = card("night");
    for words in [
        "POINTING CARD  night.pmf\n",
        "Latitude        +34.5000 degrees\n",
        "Converged       yes, after 2 iterations\n",
        "Solution        settled after 6 sweeps\n",
        "Terms           6 free, 0 fixed; rank 6\n",
        "Term    Coefficient        Sigma          Start  State  Sides  Description\n",
        "IH         -187.11\"        1.73\"          0.00\"  free   both   Hour angle index error\n",
        "NP           43.32\"        3.00\"          0.00\"  free   pier   Non-perpendicularity of axes\n",
        "Sigmas are by stars: the squared residuals' sum is divided by stars less rank, at least 1 (here 24).\n",
        "Sky RMS              4.89\"",
        "Population SD        5.46\"",
        "East         15 stars  sky RMS      4.16\"",
    ] {
        assert!(card.contains(words), "{words}\n{card}");
    }
    assert!(
        !card.contains("WARNING") && !card.contains("Farther off"),
        "{card}"
    );
}

#[test]
fn wrong_piers_are_pointed_out() {
    let card = card("wrong-piers");
    let far: Vec<&str> = card
        .lines()
        .filter(|line| line.starts_with("  star "))
        .collect();
    assert_eq!(far.len(), 2, "{card}");
    assert!(far[0].starts_with("  star   9 ") && far[1].starts_with("  star  22 "));
    assert!(card.contains("iterated and robust"));
}

#[test]
fn many_terms() {
    let card = card("many-terms");
    for words in [
        "WARNING: rank 2 is below the 3 free terms: 1 combination of the terms can't be told",
        "Terms           3 free, 13 fixed; rank 2\n",
        "TX3              1.50\"            -          1.50\"  fixed  both   Tube flexure (tan^3 zeta)\n",
        "ID             224.53\"",
        "Harmonic in hour angle: sin h * cos A with A = 0\n",
    ] {
        assert!(card.contains(words), "{words}\n{card}");
    }
}

#[test]
fn document_01() {
    let card = card("document-01");
    assert!(card.contains(
        "ID           10.00\"        0.00\"          0.00\"  free   pier   Declination index error\n"
    ));
    assert!(card.contains("stars less rank, at least 1 (here 1)."));
    assert!(card.contains("Population SD            -  not known: no more stars than free terms"));
}

/// The terms of a card that its column of sides has a word for.
fn marked(card: &str, word: &str) -> Vec<String> {
    let marked = |line: &str| {
        let words: Vec<&str> = line.split_whitespace().collect();
        (words.len() > 6 && words[5] == word).then(|| words[0].to_string())
    };
    card.lines().filter_map(marked).collect()
}

/// ID, CH, NP and harmonics of result P flip with the mount.
#[test]
fn terms_that_flip() {
    for name in ["night", "night-indat", "wrong-piers", "one-place"] {
        let card = card(name);
        assert_eq!(marked(&card, "pier"), ["ID", "CH", "NP"], "{card}");
        assert_eq!(marked(&card, "both"), ["IH", "MA", "ME"], "{card}");
    }
    let card = card("many-terms");
    assert_eq!(marked(&card, "pier"), ["ID", "HPCH3"], "{card}");
    let both = [
        "IH", "HASH", "TF", "TX", "TX3", "DAF", "FO", "HCES", "HCEC", "DCES", "DCEC", "HXSHCD2",
        "HDSD9", "HHSHCA",
    ];
    assert_eq!(marked(&card, "both"), both, "{card}");
    for words in [
        "Sides: a term marked 'pier' flips with the mount: what it adds changes its sign when the tube changes\n",
        "sides of the pier (unknown counts as East). A term marked 'both' adds the same on both sides.\n",
        "Stars on one side alone can't show which errors flip: observe on both.\n",
    ] {
        assert!(card.contains(words), "{words}\n{card}");
    }
}

#[test]
fn not_converged() {
    let card = card("no-iterations");
    assert!(card.contains("Converged       NO, after 0 iterations"));
    assert!(card.contains("WARNING: the fit did not converge"));
    assert!(card.contains("ID           10.00\""));
}

#[test]
fn one_place() {
    let card = card("one-place");
    for words in [
        "Solution        NOT settled: 30 sweeps made, the most\n",
        "WARNING: rank 2 is below the 6 free terms: 4 combinations of the terms can't be told",
        "WARNING: the solution did not settle: the terms were still being told apart when 30 sweeps,\n",
        "stars less rank, at least 1 (here 8).",
    ] {
        assert!(card.contains(words), "{words}\n{card}");
    }
}

#[test]
fn settled_or_not() {
    let settled = |first: &str| {
        let listing = night_with(first);
        let made = run("pmf-card", &[&path("night.pmf")], listing.as_bytes());
        assert_eq!((code(&made), err(&made).as_str()), (0, ""), "{first}");
        let card = out(&made);
        let line = card.lines().find(|line| line.starts_with("Solution"));
        let warned = card.contains("WARNING: the solution did not settle: the terms were still");
        assert_eq!(card.contains("WARNING"), warned, "{card}");
        (line.expect("a line").to_string(), warned)
    };
    for (first, line, warned) in [
        ("fit 6 6 2 yes 1 yes", "settled after 1 sweep", false),
        ("fit 6 6 2 yes 29 yes", "settled after 29 sweeps", false),
        ("fit 6 6 2 yes 30 yes", "settled after 30 sweeps", false),
        (
            "fit 6 6 2 yes 30 no",
            "NOT settled: 30 sweeps made, the most",
            true,
        ),
    ] {
        let expected = (format!("Solution        {line}"), warned);
        assert_eq!(settled(first), expected, "{first}");
    }
}

/// The residuals worked out here give the oracle's sky RMS.
#[test]
fn residuals_agree_with_the_oracle() {
    for name in FITTED {
        let run = decode(&bytes(&format!("{name}.pmf"))).expect(name);
        let Ok(Listing::Fit(fit)) = listing::read(&text(&format!("{name}.listing"))) else {
            panic!("{name}");
        };
        let fitted = belongs::pair(run, fit).expect(name);
        let (here, there) = (rms(fitted.residuals.iter()), fitted.fit.sky_rms);
        assert!(
            (here - there).abs() <= 1e-12 * there,
            "{name}: {here} {there}"
        );
    }
}

#[test]
fn plots() {
    for name in FITTED {
        let file = written(&format!("{name}.svg"));
        let (pmf, listing) = (
            path(&format!("{name}.pmf")),
            path(&format!("{name}.listing")),
        );
        let made = run("pmf-card", &["--svg", &file, &pmf, &listing], b"");
        assert_eq!(code(&made), 0, "{name}: {}", err(&made));
        let svg = std::fs::read_to_string(&file).expect(name);
        assert!(svg.starts_with("<svg ") && svg.ends_with("</svg>\n"));
        assert!(!svg.contains("NaN") && !svg.contains("inf"), "{name}");
        let stars = decode(&bytes(&format!("{name}.pmf")))
            .expect(name)
            .stars
            .len();
        assert_eq!(svg.matches("stroke-width=\"1.6\"").count(), stars, "{name}");
        assert!(svg.contains("hour angle in hours") && svg.contains("declination in degrees"));
        assert!(svg.contains("Pier side") && svg.contains("East: "));
    }
    let svg = std::fs::read_to_string(written("night.svg")).expect("night");
    assert!(svg.contains("10\" on the sky") && svg.contains("West: 15, RMS 5.52\""));
}

#[test]
fn a_refusal() {
    let (file, card) = (written("refused.svg"), written("refused.txt"));
    let words = [
        "--svg",
        &file,
        "-o",
        &card,
        &path("refused.pmf"),
        &path("refused.listing"),
    ];
    let made = run("pmf-card", &words, b"");
    assert_eq!((code(&made), out(&made).as_str()), (1, ""));
    assert!(err(&made).contains("the fit refused it with number 8"));
    assert!(!std::path::Path::new(&file).exists());
    let card = std::fs::read_to_string(&card).expect("a card");
    assert!(card.contains("REFUSED with number 8") && card.contains("term 3 is 'NPAE'"));
}

#[test]
fn a_refusal_of_a_damaged_file() {
    let file = written("damaged.pmf");
    std::fs::write(&file, &bytes("night.pmf")[..1000]).expect("written");
    let made = run("pmf-card", &[&file], b"no 15\n");
    assert_eq!(code(&made), 1);
    assert!(
        out(&made).contains("In this file: 1000 bytes: 6 terms and 30 stars make 9615."),
        "{}",
        out(&made)
    );
}

/// Ends with 1, says why, makes no card.
fn assert_bad(pmf: &str, listing: &str, words: &str) {
    let made = run("pmf-card", &[pmf], listing.as_bytes());
    assert_eq!(code(&made), 1, "{words}");
    assert!(made.stdout.is_empty(), "{words}");
    assert!(err(&made).contains(words), "{}", err(&made));
}

#[test]
fn listings_of_other_files() {
    let (night, pmf) = (text("night.listing"), path("night.pmf"));
    assert_bad(
        &pmf,
        &text("document-01.listing"),
        "the listing has 1 terms and the file 6",
    );
    assert_bad(
        &pmf,
        &night.replace("NP ", "TF "),
        "line 5: the listing has TF where the file has NP",
    );
    assert_bad(
        &pmf,
        &night.replace("fit 6", "fit 5"),
        "line 1: the listing has 5 free terms and the file 6",
    );
    assert_bad(
        &pmf,
        &night.replace("fit 6 6", "fit 6 7"),
        "line 1: rank 7 of 6 free terms",
    );
    assert_bad(
        &pmf,
        &night.replace("fit 6 6 2", "fit 6 6 51"),
        "line 1: 51 iterations: the file allows 50",
    );
    assert_bad(
        &path("wrong-piers.pmf"),
        &night,
        "the listing's sky RMS is 4.8",
    );
    let fixed = text("many-terms.listing").replace("TF 4029", "TF 4039");
    assert_bad(
        &path("many-terms.pmf"),
        &fixed,
        "line 5: TF was fixed at 12.5",
    );
}

/// The listing of an example with another end of a term's line, behind its sigma.
fn with_end(name: &str, term: &str, end: &str) -> String {
    let listing = text(&format!("{name}.listing"));
    let changed = |line: &str| {
        let words: Vec<&str> = line.split(' ').collect();
        match words[0] == term {
            true => format!("{}{end}\n", words[..3].join(" ")),
            false => format!("{line}\n"),
        }
    };
    listing.lines().map(changed).collect()
}

#[test]
fn words_that_are_not_their_terms() {
    for (name, line, term, right, wrong) in [
        ("night", 2, "IH", "both", "pier"),
        ("night", 3, "ID", "pier", "both"),
        ("night", 7, "ME", "both", "pier"),
        ("many-terms", 14, "HXSHCD2", "both", "pier"),
        ("many-terms", 15, "HPCH3", "pier", "both"),
    ] {
        assert_bad(
            &path(&format!("{name}.pmf")),
            &with_end(name, term, &format!(" {wrong}")),
            &format!("line {line}: the listing says '{wrong}' of {term}: expected '{right}'"),
        );
    }
}

#[test]
fn term_lines_without_a_good_word() {
    let pmf = path("night.pmf");
    assert_bad(
        &pmf,
        &with_end("night", "NP", ""),
        "line 5: the listing is of an older fit program, which did not tell which terms flip with the mount: fit the file again",
    );
    for end in [" ", " east", " pier ", " pier pier"] {
        assert_bad(
            &pmf,
            &with_end("night", "NP", end),
            "line 5: expected a name, two numbers of 16 hexadecimal digits, and 'pier' or 'both'",
        );
    }
    for end in [" both", " pier"] {
        assert_bad(
            &pmf,
            &with_end("night", "sky", end),
            "line 8: expected 'sky' and two numbers",
        );
    }
}

#[test]
fn a_refusal_of_another_file() {
    for number in 1..=15 {
        let listing = format!("no {number}\n");
        let made = run("pmf-card", &[&path("night.pmf")], listing.as_bytes());
        assert_eq!(code(&made), 1);
        assert!(
            out(&made).contains("Nothing of the kind was found"),
            "{number}"
        );
    }
}

/// What is found in files that the fit refuses with the number.
#[test]
fn refusals_of_changed_files() {
    for (number, place, value, words) in [
        (4, 15, &[0xf0, 0x7f][..], "the latitude or an option"),
        (4, 0x5c + 6, &[0xf0, 0x7f], "the start of term 1"),
        (4, 0x75 + 6, &[0xf0, 0xff], "a number of star 1"),
        (5, 0x5b, &[2], "term 1: fixed flag 2"),
        (5, 0x64, &[9], "star 1: pier code 9"),
        (6, 73, &[0xe9, 3], "max_iter is 1001"),
        (7, 75, &[0], "term 1: its slot holds no name"),
        (8, 75, b"IA", "term 1 is 'IA'"),
        (9, 75, b"TX0", "term 1 is 'TX0'"),
        (10, 75, b"HHS", "term 1 is 'HHS'"),
        (12, 0x5b, &[1], "1 terms, 0 of them free, and 1 stars"),
        (15, 3, &[2], "version 2: expected 1"),
    ] {
        let mut pmf = bytes("document-01.pmf");
        pmf[place..place + value.len()].copy_from_slice(value);
        let found = host::refusal::found(number, &pmf).unwrap_or_default();
        assert!(found.contains(words), "{number}: {found}");
    }
}

#[test]
fn bad_listings_and_files() {
    let pmf = path("night.pmf");
    assert_bad(&pmf, "", "standard input: line 1: empty");
    assert_bad(&pmf, "no 16\n", "line 1: expected 'fit");
    assert_bad(
        &pmf,
        &night_with("fit 6 6 2 yes"),
        "line 1: the listing is of an older fit program, which did not count sweeps: fit the file again",
    );
    assert_bad(
        &pmf,
        &night_with("fit 6 6 2 yes 31 no"),
        "line 1: 31 sweeps: expected 1 to 30",
    );
    assert_bad(
        &pmf,
        &night_with("fit 6 6 2 yes 6 no"),
        "line 1: not settled after 6 sweeps",
    );
    assert_bad(
        &pmf,
        "fit 6 6 2 yes 6 yes\nIH c067\n",
        "line 2: the last line is not 'sky'",
    );
    assert_bad(&path("night.csv"), &text("night.listing"), "no mark PMF");
}

#[test]
fn usage() {
    let help = run("pmf-card", &["-h"], b"");
    assert_eq!(code(&help), 0);
    assert!(out(&help).starts_with("pmf-card [--svg PLOT.svg]"));
    for words in [&[][..], &["-"], &["--what"], &["a", "b", "c"], &["--svg"]] {
        assert_eq!(code(&run("pmf-card", words, b"")), 2, "{words:?}");
    }
    assert_eq!(
        code(&run("pmf-card", &["/no/such/file.pmf"], b"no 15\n")),
        1
    );
}
