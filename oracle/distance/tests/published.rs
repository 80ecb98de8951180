//! What the Rust as published does where this product refuses, as docs/DIFFERENCES.md lists it.

use distance::both::{Answer, Published};
use distance::error::Error;
use distance::model::PointingModel;
use distance::night::{sheet, Night};
use distance::random::Random;
use distance::regimes::NAMES;
use distance::terms::equatorial::TXN;
use distance::terms::harmonic::{
    Coordinate, HarmonicComponent, HarmonicTerm, ResultType, TrigFunc,
};
use distance::terms::{create_term, Term};
use oracle::questions::{
    add_term, apply_equatorial_lent, fit_model, fit_model_iterated, jacobian,
    predict_breakdown_lent, read_term, set_coefficients, Buffers, LentModel, Model, Point,
};
use oracle::solver::IterOptions;
use std::sync::mpsc::{channel, Receiver, RecvTimeoutError};
use std::time::{Duration, Instant};

fn night(names: &[&str], n: usize) -> Night {
    let random = &mut Random(1);
    let mut night = Night::blank(random, names, n);
    night.observe(random, 3.0);
    night
}

/// The number with which the oracle refuses a run, as the library does.
fn refused(night: &Night, options: Option<&IterOptions>) -> Option<u8> {
    let run = night.lent();
    let mut buffers = Buffers::exact(run.m(), run.n(), 0.0);
    match options {
        None => fit_model(&run, &mut buffers).err(),
        Some(options) => fit_model_iterated(&run, options, &mut buffers).err(),
    }
}

fn read(name: &str) -> Option<String> {
    create_term(name).ok().map(|term| term.name().to_string())
}

/// A name in its slot, as far as it goes in.
fn slot(name: &str) -> Vec<u8> {
    let mut slot = name.as_bytes().to_vec();
    slot.resize(slot.len().max(16), 0);
    slot
}

/// A point on the East side, as the oracle is lent it.
fn point(sheet: &[f64], lat: f64) -> Point<'_> {
    Point {
        sheet,
        sin_lat: libm::sin(lat),
        cos_lat: libm::cos(lat),
        pier: 1,
    }
}

/// The numbers with which the oracle refuses correction and breakdown by names.
fn refused_at(names: &[&str], point: &Point) -> [Option<u8>; 2] {
    let slots: Vec<u8> = names.iter().flat_map(|name| slot(name)).collect();
    let coefficients = vec![1.0; names.len()];
    let model = LentModel {
        names: &slots,
        coefficients: &coefficients,
    };
    let correction = apply_equatorial_lent(&model, point).err();
    [correction, predict_breakdown_lent(&model, point).err()]
}

/// A published model of coefficients 1.
fn model(names: &[&str]) -> PointingModel {
    let mut model = PointingModel::new();
    for name in names {
        model.add_term(name).expect("a name");
    }
    model
        .set_coefficients(&vec![1.0; names.len()])
        .expect("one for each term");
    model
}

/// What becomes of a published fit.
#[derive(Debug, Clone, Copy, PartialEq)]
enum End {
    Answers,
    Panics,
    /// No answer in two seconds.
    Never,
}

/// The ends of published fits, all made at the same time.
fn ends(runs: &[(Night, Option<IterOptions>)]) -> Vec<End> {
    let mut answers = Vec::new();
    for (night, options) in runs.iter().cloned() {
        let (send, answer) = channel();
        std::thread::spawn(move || send.send(Published::of(&night).fit(options.as_ref())));
        answers.push(answer);
    }
    let until = Instant::now() + Duration::from_secs(2);
    let left = || until.saturating_duration_since(Instant::now());
    let end = |answer: &Receiver<Answer>| match answer.recv_timeout(left()) {
        Ok(_) => End::Answers,
        Err(RecvTimeoutError::Disconnected) => End::Panics,
        Err(RecvTimeoutError::Timeout) => End::Never,
    };
    answers.iter().map(end).collect()
}

#[test]
fn names_read_by_the_rust_alone() {
    for (name, stored, number) in [
        ("\u{131}H", "IH", 7),
        ("HH\u{17f}H", "HHSH", 7),
        ("ia", "IA", 8),
        ("IE", "IE", 8),
        ("CA", "CA", 8),
        ("NPAE", "NPAE", 8),
        ("AN", "AN", 8),
        ("AW", "AW", 8),
        ("HHSHCDSHCDSHCDSHCD", "HHSHCDSHCDSHCDSHCD", 2),
        ("TX000000000000005", "TX5", 2),
    ] {
        assert_eq!(read(name).as_deref(), Some(stored), "{name}");
        assert_eq!(read_term(&slot(name)).err(), Some(number), "{name}");
    }
}

#[test]
fn names_refused_by_both() {
    assert!(matches!(create_term(""), Err(Error::UnknownTerm(_))));
    for name in ["IH\0", "I\0H", "TX\x005", "\0HHSH"] {
        let read = create_term(name);
        assert!(matches!(read, Err(Error::UnknownTerm(_))), "{name:?}");
    }
    for name in ["HH\0SH", "hhsh\0", "H\0", "HHSH\x001"] {
        let read = create_term(name);
        assert!(matches!(read, Err(Error::InvalidHarmonic(_))), "{name:?}");
    }
    assert!(matches!(create_term("XX"), Err(Error::UnknownTerm(_))));
    assert!(matches!(create_term("TX256"), Err(Error::UnknownTerm(_))));
    assert!(matches!(create_term("HHS"), Err(Error::InvalidHarmonic(_))));
    let number = |name: &str| read_term(&slot(name)).err();
    assert_eq!(number(""), Some(7));
    for name in ["I\0H", "TX\x005", "\0HHSH", "HH\0SH", "HHSH\x001"] {
        assert_eq!(number(name), Some(7), "{name:?}");
    }
    assert_eq!([number("XX"), number("TX256")], [Some(9); 2]);
    assert_eq!(number("HHS"), Some(10));
    // zeros behind a name only fill its slot
    assert_eq!(number("IH\0"), None);
}

#[test]
fn runs_refused_by_both() {
    let mut fixed = night(&["IH", "ID", "CH"], 20);
    fixed.fixed.fill(true);
    let runs = [
        (night(&[], 20), 11),
        (fixed, 12),
        (night(&["IH", "ID", "CH"], 2), 13),
    ];
    for (night, number) in &runs {
        for options in [None, Some(&IterOptions::default())] {
            let fit = Published::of(night).try_fit(options);
            assert!(matches!(fit, Err(Error::Fit(_))), "{number}");
            assert_eq!(refused(night, options), Some(*number));
        }
    }
}

/// Parallel flags are nothing to this product; the Rust's single step makes them itself.
#[test]
fn parallel_flags_for_other_terms() {
    let night = night(&["IH", "ID", "CH"], 20);
    let mut published = Published::of(&night);
    published.parallel.pop();
    assert!(published.try_fit(None).is_ok());
    let fit = published.try_fit(Some(&IterOptions::default()));
    assert!(matches!(fit, Err(Error::Fit(_))));
}

#[test]
fn an_alt_azimuth_term_is_a_column_of_zeros() {
    for name in ["IA", "IE", "CA", "NPAE", "AN", "AW"] {
        let term = create_term(name).expect("a name");
        assert_eq!(term.jacobian_equatorial(0.5, 0.4, 0.7, 1.0), (0.0, 0.0));
    }
    let night = night(&["IH", "ID", "MA"], 20);
    let mut with = night.clone();
    with.names[2] = "AW".into();
    let fit = Published::of(&with).fit(None);
    assert_eq!((fit.free, fit.rank, fit.coefficients[2]), (3, 2, 0.0));
    assert_eq!(refused(&with, None), Some(8));
}

#[test]
fn more_terms_and_stars() {
    let mut names = NAMES.to_vec();
    names.push("TX4");
    let terms = night(&names, 100);
    assert_eq!(Published::of(&terms).fit(None).rank, 33);
    assert_eq!(refused(&terms, None), Some(1));
    let stars = night(&["IH", "ID"], 1025);
    assert_eq!(Published::of(&stars).fit(None).rank, 2);
    assert_eq!(refused(&stars, None), Some(1));
}

#[test]
fn more_iterations() {
    let options = IterOptions {
        max_iter: 1001,
        ..IterOptions::default()
    };
    let night = night(&["IH", "ID"], 20);
    assert!(Published::of(&night).fit(Some(&options)).converged);
    assert_eq!(refused(&night, Some(&options)), Some(6));
}

#[test]
fn numbers_that_are_not_finite() {
    let mut night = night(&["IH", "ID"], 20);
    night.stars[3].dd = f64::NAN;
    let fit = Published::of(&night).fit(None);
    assert!(fit.coefficients[1].is_nan() && fit.sky_rms.is_nan());
    assert_eq!(refused(&night, None), Some(4));
    let iterated = Published::of(&night).fit(Some(&IterOptions::default()));
    assert!(!iterated.converged && iterated.sky_rms.is_nan());
    night.stars[3].dd = 0.0;
    night.start[0] = f64::INFINITY;
    assert!(Published::of(&night).fit(None).sky_rms.is_nan());
    assert_eq!(refused(&night, None), Some(4));
}

#[test]
fn a_point_that_is_not_finite() {
    let term = |name: &str| create_term(name).expect("a name");
    let (ih, tx) = (term("IH"), term("TX"));
    let model = model(&["IH", "TX"]);
    for x in [f64::NAN, f64::INFINITY, f64::NEG_INFINITY] {
        for (h, dec, lat) in [(x, 0.4, 0.7), (0.5, x, 0.7), (0.5, 0.4, x)] {
            assert_eq!(ih.jacobian_equatorial(h, dec, lat, 1.0), (-1.0, 0.0));
            let pair = tx.jacobian_equatorial(h, dec, lat, 1.0);
            assert!(pair.0.is_nan() && pair.1.is_nan());
            let sum = model.apply_equatorial(h, dec, lat, 1.0);
            assert!(sum.0.is_nan() && sum.1.is_nan());
            let breakdown = model.predict_breakdown(h, dec, lat, 1.0);
            assert!(breakdown[0] == ("IH".into(), -1.0, 0.0) && breakdown[1].1.is_nan());
            let sheet = sheet(h, dec);
            let point = point(&sheet, lat);
            for name in ["IH", "TX"] {
                assert_eq!(jacobian(&slot(name), &point).err(), Some(4));
                assert_eq!(refused_at(&[name], &point), [Some(4); 2]);
            }
        }
    }
}

#[test]
fn flags_for_other_terms() {
    let whole = night(&["IH", "ID", "CH"], 20);
    let mut fewer = whole.clone();
    fewer.fixed.pop();
    let fit = Published::of(&fewer).fit(None);
    assert_eq!((fit.free, fit.coefficients[2]), (2, 0.0));
    assert_eq!(refused(&fewer, None), Some(2));
    let iterated = Some(IterOptions::default());
    let no_trial = Some(IterOptions {
        max_iter: 0,
        ..IterOptions::default()
    });
    for fixed in [false, true] {
        let mut more = whole.clone();
        more.fixed.push(fixed);
        assert_eq!(refused(&more, None), Some(2));
        let runs = [None, iterated.clone(), no_trial.clone()];
        let last = if fixed { End::Answers } else { End::Panics };
        assert_eq!(
            ends(&runs.map(|options| (more.clone(), options))),
            [End::Panics, End::Panics, last]
        );
    }
}

#[test]
fn a_pier_that_is_no_side() {
    let id = create_term("ID").expect("a name");
    assert_eq!(id.jacobian_equatorial(0.0, 0.0, 0.0, 0.25), (0.0, -0.25));
}

#[test]
fn coefficients_for_other_terms() {
    let panics = |night: &Night, options: Option<&IterOptions>| {
        let fit = || Published::of(night).fit(options);
        std::panic::catch_unwind(std::panic::AssertUnwindSafe(fit)).is_err()
    };
    let iterated = IterOptions::default();
    let mut night = night(&["IH", "ID", "CH"], 20);
    night.start.push(0.0);
    assert!(!panics(&night, None) && !panics(&night, Some(&iterated)));
    assert_eq!(refused(&night, None), Some(2));
    night.start[3] = 1.0;
    assert!(panics(&night, None) && !panics(&night, Some(&iterated)));
    night.start.truncate(2);
    assert!(panics(&night, None) && panics(&night, Some(&iterated)));
    assert_eq!(refused(&night, None), Some(2));
}

#[test]
fn options_that_are_not_finite() {
    let mut night = night(&["IH", "ID", "TF", "MA"], 20);
    let options = IterOptions {
        tol_rad: f64::NAN,
        lambda_up: f64::INFINITY,
        huber_k: f64::NAN,
        robust: true,
        ..IterOptions::default()
    };
    let down = IterOptions {
        lambda_down: f64::INFINITY,
        ..IterOptions::default()
    };
    for options in [options, down] {
        let fit = Published::of(&night).fit(Some(&options));
        assert!(fit.sky_rms.is_finite());
        assert_eq!(refused(&night, Some(&options)), Some(4));
    }
    // the damping becomes a NaN after a kept step, and after a rejected one
    let down = IterOptions {
        lambda_down: f64::NAN,
        ..IterOptions::default()
    };
    let up = IterOptions {
        lambda_up: f64::NAN,
        tol_rad: 0.0,
        ..IterOptions::default()
    };
    for options in [&down, &up] {
        assert_eq!(refused(&night, Some(options)), Some(4));
    }
    let runs = [down, up].map(|options| (night.clone(), Some(options)));
    assert_eq!(ends(&runs), [End::Never; 2]);
    let with_zero = Published::of(&night).fit(None);
    night.fit_tol = f64::NAN;
    let with_nan = Published::of(&night).fit(None);
    assert_eq!(with_zero.coefficients, with_nan.coefficients);
    assert_eq!(refused(&night, None), Some(4));
}

#[test]
fn a_damping_that_is_not_finite() {
    let night = night(&["IH", "ID", "TF", "MA"], 20);
    let with = |initial_lambda: f64, max_iter: usize| IterOptions {
        initial_lambda,
        max_iter,
        ..IterOptions::default()
    };
    let endless = [with(f64::NAN, 50), with(f64::INFINITY, 1)];
    let answered = [
        with(f64::NEG_INFINITY, 50),
        with(f64::NAN, 0),
        with(f64::INFINITY, 0),
    ];
    for options in endless.iter().chain(&answered) {
        assert_eq!(refused(&night, Some(options)), Some(4));
    }
    let endless = endless.map(|options| (night.clone(), Some(options)));
    assert_eq!(ends(&endless), [End::Never; 2]);
    for options in &answered {
        let fit = Published::of(&night).fit(Some(options));
        assert!(fit.sky_rms.is_finite());
    }
}

/// Runs with an hour angle, a declination and a latitude that are not finite; the oracle refuses all.
fn not_finite(names: &[&str]) -> [Night; 3] {
    let mut nights = [(); 3].map(|()| night(names, 20));
    nights[0].stars[3].h = f64::INFINITY;
    nights[1].stars[3].dec = f64::NAN;
    nights[2].latitude = f64::NEG_INFINITY;
    for night in &nights {
        assert_eq!(refused(night, None), Some(4));
    }
    nights
}

/// With a NaN in the matrix nalgebra panics where it has two columns, and goes on without end where it has more.
#[test]
fn angles_that_are_not_finite() {
    let single = |night: &Night| (night.clone(), None);
    let iterated = |night: &Night| (night.clone(), Some(IterOptions::default()));
    let four = not_finite(&["IH", "ID", "TF", "MA"]);
    assert_eq!(ends(&four.each_ref().map(single)), [End::Never; 3]);
    assert_eq!(ends(&four.each_ref().map(iterated)), [End::Never; 3]);
    let two = not_finite(&["TF", "MA"]);
    assert_eq!(ends(&two.each_ref().map(single)), [End::Panics; 3]);
    for one in not_finite(&["TF"]) {
        assert!(Published::of(&one).fit(None).coefficients[0].is_nan());
    }
    // IH, ID and CH read neither hour angle nor latitude; a declination is in every column by its cosine
    let names = ["IH", "ID", "CH"];
    let [h, dec, latitude] = not_finite(&names);
    assert!(Published::of(&h).fit(None).sky_rms.is_nan());
    assert_eq!(ends(&[single(&dec)]), [End::Never]);
    let fit = Published::of(&latitude).fit(None);
    let finite = Published::of(&night(&names, 20)).fit(None);
    assert_eq!(fit.coefficients, finite.coefficients);
    // a fixed term reads the latitude
    let [.., mut fixed] = not_finite(&["IH", "ID", "TF", "MA"]);
    fixed.fixed[2] = true;
    assert_eq!(ends(&[single(&fixed), iterated(&fixed)]), [End::Answers; 2]);
}

/// Runs that this product fits.
#[test]
fn a_nan_that_comes_of_finite_numbers() {
    let whole = night(&["IH", "ID", "TX50"], 20);
    let options = IterOptions {
        lambda_down: 0.0,
        ..IterOptions::default()
    };
    let mut low = whole.clone();
    (low.stars[3].dec, low.stars[3].h) = (0.0, std::f64::consts::FRAC_PI_2 - 1e-8);
    let runs = [(whole, Some(options)), (low, None)];
    for (night, options) in &runs {
        assert_eq!(refused(night, options.as_ref()), None);
    }
    assert_eq!(ends(&runs), [End::Never; 2]);
}

#[test]
fn a_correction_by_more_terms() {
    let mut names = NAMES.to_vec();
    names.push("TX4");
    let (h, dec, lat, pier) = (0.5, 0.4, 0.7, 0.25);
    let model = model(&names);
    let breakdown = model.predict_breakdown(h, dec, lat, pier);
    assert_eq!((breakdown.len(), breakdown[0].0.as_str()), (33, "IH"));
    let sum = |(x, y): (f64, f64), (_, h, d): &(String, f64, f64)| (x + h, y + d);
    let sum = breakdown.iter().fold((0.0, 0.0), sum);
    assert_eq!(model.apply_equatorial(h, dec, lat, pier), sum);
    let sheet = sheet(h, dec);
    let point = point(&sheet, lat);
    assert_eq!(refused_at(&names, &point), [Some(1); 2]);
    assert_eq!(refused_at(&NAMES, &point), [None; 2]);
}

#[test]
fn a_model_of_more_terms() {
    let mut model = PointingModel::new();
    let mut ours = Model::default();
    for name in NAMES {
        model.add_term(name).expect("a name");
        ours = add_term(&ours, &slot(name)).expect("a name");
    }
    model.add_term("ih").expect("a name that is there");
    assert_eq!(model.term_count(), 32);
    assert_eq!(add_term(&ours, &slot("TX4")).err(), Some(14));
    model.add_term("TX4").expect("a new name");
    assert_eq!(model.term_count(), 33);
    model.set_coefficients(&[f64::NAN; 33]).expect("any number");
    assert_eq!(set_coefficients(&ours, &[f64::NAN; 32]).err(), Some(4));
    assert_eq!(set_coefficients(&ours, &[0.0; 31]).err(), Some(2));
    assert!(model.set_coefficients(&[0.0; 31]).is_err());
}

#[test]
fn terms_made_by_hand() {
    let (h, dec, lat) = (0.5, 0.4, 0.7);
    let pair = TXN::new(0).jacobian_equatorial(h, dec, lat, 1.0);
    assert!(pair.0.is_finite() && read_term(&slot("TX0")).err() == Some(9));
    let term = HarmonicTerm {
        result: ResultType::H,
        components: vec![HarmonicComponent {
            func: TrigFunc::Sin,
            coord: Coordinate::H,
            frequency: 12,
        }],
        original_name: "HHSH12".into(),
    };
    let pair = term.jacobian_equatorial(h, dec, lat, 1.0);
    assert_eq!(pair, (libm::sin(12.0 * h), 0.0));
    assert_eq!(read_term(&slot("HHSH12")).err(), Some(10));
}
