//! docs/SCOPE.md 12.1.

use oracle::pmf::{file, file_size, listing};
use oracle::questions::*;
use oracle::solver::IterOptions;

fn slot(name: &str) -> [u8; 16] {
    let mut out = [0; 16];
    out[..name.len()].copy_from_slice(name.as_bytes());
    out
}

fn read(name: &str) -> Result<String, u8> {
    read_term(&slot(name)).map(|t| t.name().to_string())
}

/// Sines and the tangent 0, cosines 1.
fn still_sheet() -> [f64; 37] {
    let mut sheet = [0.0; 37];
    for k in 0..18 {
        sheet[2 * k + 1] = 1.0;
    }
    sheet
}

/// East stars on the still sheet with hour-angle difference 0.
fn run(names: &[&str], coefficients: &[f64], fixed: &[u8], dd: &[f64]) -> Run {
    Run {
        names: names.iter().flat_map(|name| slot(name)).collect(),
        fixed: fixed.to_vec(),
        coefficients: coefficients.to_vec(),
        dh: vec![0.0; dd.len()],
        dd: dd.to_vec(),
        piers: vec![1; dd.len()],
        sheets: dd.iter().flat_map(|_| still_sheet()).collect(),
        sin_lat: 0.0,
        cos_lat: 1.0,
        fit_tol: 0.0,
        sigma_by: BY_STARS,
    }
}

fn file_case() -> Run {
    run(&["ID"], &[0.0], &[0], &[-10.0])
}

fn single(run: &Run) -> Result<Buffers, u8> {
    let mut buffers = Buffers::exact(run.m(), run.n(), 7.0);
    fit_model(run, &mut buffers).map(|_| buffers)
}

#[test]
fn names() {
    assert_eq!(read("ih"), Ok("IH".into()));
    assert_eq!(read("tx+05"), Ok("TX5".into()));
    assert_eq!(read("TX0"), Err(9));
    assert_eq!(read("TX256"), Err(9));
    assert_eq!(read(""), Err(7));
    assert_eq!(read("NPAE"), Err(8));
    assert_eq!(read("HCES"), Ok("HCES".into()));
    let hces = read_term(&slot("HCES")).unwrap();
    assert_eq!(hces.description(), "HA centering error (sin)");
    for name in ["HHS", "HHSH0", "HHSH12", "H", "HCES1"] {
        assert_eq!(read(name), Err(10), "{name}");
    }
    assert_eq!(read("HXSHCD2"), Ok("HXSHCD2".into()));
    for (name, pier_sensitive) in [
        ("ID", true),
        ("CH", true),
        ("NP", true),
        ("HPSH", true),
        ("MA", false),
        ("HHSH", false),
    ] {
        let term = read_term(&slot(name)).unwrap();
        assert_eq!(term.pier_sensitive(), pier_sensitive, "{name}");
    }
    for name in ["TX+", "TX-0", "TX ", "\u{1}", "\u{7f}"] {
        assert_eq!(read(name), Err(9), "{name}");
    }
    assert_eq!(read_term(b"IH").err(), Some(2));
}

#[test]
fn pairs() {
    let mut sheet = still_sheet();
    sheet[19] = 0.5;
    let point = Point {
        sheet: &sheet,
        sin_lat: 0.0,
        cos_lat: 1.0,
        pier: 2,
    };
    assert_eq!(jacobian(&slot("CH"), &point), Ok((2.0, 0.0)));
    assert_eq!(jacobian(&slot("IH"), &point), Ok((-1.0, 0.0)));
    let horizon = Point {
        sin_lat: 0.0,
        cos_lat: 0.0,
        ..point
    };
    assert_eq!(jacobian(&slot("TX2"), &horizon), Ok((0.0, 0.0)));
    let faults = Point {
        sin_lat: f64::NAN,
        pier: 3,
        ..point
    };
    assert_eq!(jacobian(&slot("NPAE"), &faults), Err(4));
    assert_eq!(jacobian(b"IH", &faults), Err(2));
}

#[test]
fn file_program() {
    let options = IterOptions::default();
    let input = file(&file_case(), &options, 0);
    assert_eq!(input.len(), file_size(1, 1));
    assert_eq!(
        listing(&input),
        "fit 1 1 1 yes 1 yes\nID 4024000000000000 0000000000000000 pier\nsky 0000000000000000 0000000000000000\n"
    );
    assert_eq!(listing(&input[..8]), "no 15\n");
    assert_eq!(listing(&input[..input.len() - 1]), "no 15\n");
    let damaged = |at: usize, bytes: &[u8]| {
        let mut damaged = input.clone();
        damaged[at..at + bytes.len()].copy_from_slice(bytes);
        listing(&damaged)
    };
    assert_eq!(damaged(0, b"Q"), "no 15\n");
    assert_eq!(damaged(3, &[2]), "no 15\n");
    assert_eq!(damaged(6, &[2]), "no 15\n");
    assert_eq!(damaged(5, &[17]), "no 1\n");
    assert_eq!(damaged(7, &[101]), "no 1\n");
    assert_eq!(damaged(5, &[2]), "no 15\n");
    // tol_rad, though mode 0 takes no options
    assert_eq!(damaged(33, &f64::NAN.to_le_bytes()), "no 4\n");
    assert_eq!(damaged(91, &[2]), "no 5\n");
    assert_eq!(damaged(74, &[4]), "no 6\n");
    assert_eq!(damaged(75, &[0]), "no 7\n");
    assert_eq!(damaged(75, b"IA"), "no 8\n");
    assert_eq!(damaged(75, b"IB"), "no 9\n");
    assert_eq!(damaged(75, b"HB"), "no 10\n");
    assert_eq!(damaged(91, &[1]), "no 12\n");
}

#[test]
fn file_case_iterated() {
    let options = IterOptions {
        max_iter: 0,
        ..IterOptions::default()
    };
    let run = file_case();
    for robust in [false, true] {
        let options = IterOptions {
            robust,
            ..options.clone()
        };
        let mut buffers = Buffers::exact(1, 1, 7.0);
        let fit = fit_model_iterated(&run, &options, &mut buffers).unwrap();
        assert_eq!(buffers.coefficients, [10.0]);
        assert_eq!(fit.rank_info.rank, 1);
        assert_eq!(fit.iter_report.iterations, 0);
        assert!(!fit.iter_report.converged);
        assert_eq!(fit.iter_report.final_step_norm, f64::INFINITY);
        let mode = if robust { 3 } else { 1 };
        let listing = listing(&file(&run, &options, mode));
        assert!(listing.starts_with("fit 1 1 0 no 1 yes\nID 4024000000000000 "));
    }
}

/// docs/SCOPE.md 6.2: a single free term is swept once; a column whose squares vanish turns in every sweep, and changes in none.
#[test]
fn sweeps() {
    let of = |run: &Run| {
        let mut buffers = Buffers::exact(run.m(), run.n(), 7.0);
        let single = fit_model(run, &mut buffers).unwrap();
        let iterated = fit_model_iterated(run, &IterOptions::default(), &mut buffers).unwrap();
        let counts = [&single, &iterated].map(|fit| (fit.sweeps, fit.settled));
        assert_eq!(counts[0], counts[1]);
        counts[0]
    };
    assert_eq!(of(&file_case()), (1, true));
    // IH and ID have no row in common
    let apart = run(&["IH", "ID"], &[0.0; 2], &[0; 2], &[-10.0; 2]);
    assert_eq!(of(&apart), (1, true));
    // on one side of the pier ID and FO differ in the sign: a turn makes one of them zeros
    let opposite = run(&["ID", "FO"], &[0.0; 2], &[0; 2], &[-10.0; 2]);
    assert_eq!(of(&opposite), (2, true));
    let beside = run(&["ID", "FO"], &[0.0; 2], &[0, 1], &[-10.0; 2]);
    assert_eq!(of(&beside), (1, true));
    let mut vanishing = run(&["FO", "DCES"], &[0.0; 2], &[0; 2], &[-10.0; 5]);
    for sheet in vanishing.sheets.chunks_mut(37) {
        sheet[18] = 1.5e-162;
    }
    assert_eq!(of(&vanishing), (30, false));
    let input = file(&vanishing, &IterOptions::default(), 0);
    assert!(listing(&input).starts_with("fit 2 1 1 yes 30 no\n"));
}

#[test]
fn four_stars() {
    let mut run = run(&["ID"], &[0.0], &[0], &[-10.0, -20.0, -10.0, -20.0]);
    for (sigma_by, divisor) in [(BY_STARS, 3.0), (BY_ROWS, 7.0)] {
        run.sigma_by = sigma_by;
        let mut buffers = Buffers::exact(1, 4, 7.0);
        buffers.scratch.push(3.0);
        let fit = fit_model(&run, &mut buffers).unwrap();
        assert_eq!(buffers.coefficients, [15.0]);
        assert_eq!(buffers.sigma, [(100.0_f64 / divisor * 0.25).sqrt()]);
        assert_eq!(fit.sky_rms, 5.0);
        for star in buffers.diagnostics.chunks(3) {
            assert_eq!(star[1], 0.25);
        }
        let (tail, zeros) = buffers.scratch.split_last().unwrap();
        assert_eq!(*tail, 3.0);
        assert!(zeros.iter().all(|x| x.to_bits() == 0));
    }
    run.sigma_by = 2;
    assert_eq!(single(&run).err(), Some(5));
}

#[test]
fn scratch_lengths() {
    for (m, n, length) in [(0, 0, 0), (1, 1, 21), (16, 100, 4896), (32, 1024, 77_056)] {
        assert_eq!(scratch_length(m, n), Ok(length));
    }
    assert_eq!(scratch_length(33, 1), Err(1));
    assert_eq!(scratch_length(1, 1025), Err(1));
    let run = run(&["ID"], &[0.0], &[0], &[-10.0, -20.0, -10.0, -20.0]);
    let of = |length: usize| {
        let mut buffers = Buffers::exact(1, 4, 7.0);
        buffers.scratch = vec![7.0; length];
        let refusal = fit_model(&run, &mut buffers).err();
        (refusal, buffers)
    };
    assert_eq!(of(50).0, Some(3));
    // 59 is what document 01 asked
    for length in [51, 52, 59] {
        let (refusal, buffers) = of(length);
        assert_eq!(refusal, None);
        assert_eq!(buffers.coefficients, [15.0]);
        assert_eq!(buffers.scratch[..51], [0.0; 51]);
        assert!(buffers.scratch[51..].iter().all(|&x| x == 7.0));
    }
}

#[test]
fn limits() {
    let dd = vec![-10.0; 1025];
    let many = vec!["ID"; 33];
    let free = [0; 33];
    let start = vec![0.0; 33];
    let of = |m: usize, n: usize| run(&many[..m], &start[..m], &free[..m], &dd[..n]);
    assert!(single(&of(32, 1024)).is_ok());
    assert_eq!(single(&of(33, 1024)).err(), Some(1));
    assert_eq!(single(&of(32, 1025)).err(), Some(1));
    assert!(single(&of(3, 3)).is_ok());
    assert_eq!(single(&of(3, 2)).err(), Some(13));
    assert_eq!(single(&of(0, 2)).err(), Some(11));
    let all_fixed = run(&["ID"], &[0.0], &[1], &dd[..1]);
    assert_eq!(single(&all_fixed).err(), Some(12));
}

#[test]
fn fixed_negative_zero() {
    let run = run(&["ID", "IH"], &[0.0, -0.0], &[0, 1], &[-10.0, -10.0]);
    let buffers = single(&run).unwrap();
    assert_eq!(buffers.coefficients[1].to_bits(), 0.0f64.to_bits());
    let mut buffers = Buffers::exact(2, 2, 7.0);
    fit_model_iterated(&run, &IterOptions::default(), &mut buffers).unwrap();
    assert_eq!(buffers.coefficients[1].to_bits(), (-0.0f64).to_bits());
}

#[test]
fn short_buffers() {
    let run = file_case();
    let exact = Buffers::exact(1, 1, 7.0);
    let cut = |field: usize| {
        let mut buffers = exact.clone();
        match field {
            0 => buffers.coefficients.pop(),
            1 => buffers.change.pop(),
            2 => buffers.sigma.pop(),
            3 => buffers.diagnostics.pop(),
            _ => buffers.scratch.pop(),
        };
        fit_model(&run, &mut buffers).err()
    };
    for field in 0..5 {
        assert_eq!(cut(field), Some(3));
    }
}

#[test]
fn models() {
    let sheet = still_sheet();
    let point = Point {
        sheet: &sheet,
        sin_lat: 0.0,
        cos_lat: 1.0,
        pier: 1,
    };
    let mut model = Model::default();
    assert_eq!(apply_equatorial(&model, &point), Ok((0.0, 0.0)));
    for name in ["id", "TX5", "tx+05", "ID"] {
        model = add_term(&model, &slot(name)).unwrap();
    }
    assert_eq!(model.count, 2);
    assert_eq!(model.names[1], slot("TX5"));
    assert_eq!(set_coefficients(&model, &[1.0]).err(), Some(2));
    assert_eq!(set_coefficients(&model, &[1.0, f64::NAN]).err(), Some(4));
    model = set_coefficients(&model, &[3.0, 0.0]).unwrap();
    assert_eq!(apply_equatorial(&model, &point), Ok((0.0, -3.0)));
    assert_eq!(
        predict_breakdown(&model, &point).map(|b| b[0]),
        Ok((0.0, -3.0, true))
    );
    for n in 10..40 {
        model = add_term(&model, &slot(&format!("TX{n}"))).unwrap();
    }
    assert_eq!(model.count, 32);
    assert_eq!(add_term(&model, &slot("IH")).err(), Some(14));
    assert_eq!(add_term(&model, &slot("ID")).unwrap().count, 32);
    assert_eq!(add_term(&model, &slot("IA")).err(), Some(8));
    model.count = 33;
    assert_eq!(add_term(&model, &slot("IA")).err(), Some(1));
}

#[test]
fn robust_weights_change_the_fit() {
    let mut run = run(&["ID", "IH"], &[0.0; 2], &[0; 2], &[-10.0; 9]);
    run.dd[4] = 5000.0;
    let answer = |robust: bool| {
        let options = IterOptions {
            robust,
            ..IterOptions::default()
        };
        let mut buffers = Buffers::exact(2, 9, 7.0);
        fit_model_iterated(&run, &options, &mut buffers).unwrap();
        buffers.coefficients[0]
    };
    // unweighted, the mean of the differences
    assert!((answer(false) - (80.0 - 5000.0) / 9.0).abs() < 1e-6);
    assert_ne!(answer(true), answer(false));
}
