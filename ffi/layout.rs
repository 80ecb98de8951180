//! Prints a C file that asserts of `include/pointing.h` what `pointing.rs` has: of each constant its value, of each struct its size and places.

mod pointing;

use pointing::{Breakdown, FitAnswer, FitOptions, Pair, Scratch, Term};
use pointing::{BY_ROWS, BY_STARS, MAX_STARS, MAX_TERMS, NAME, SHEET};
use std::mem::{offset_of, size_of};

macro_rules! layout {
    ($rust:ident, $c:literal, $($field:ident),*) => {
        println!("_Static_assert(sizeof({}) == {}, \"{}\");", $c, size_of::<$rust>(), $c);
        $(println!(
            "_Static_assert(offsetof({}, {}) == {}, \"{}.{}\");",
            $c, stringify!($field), offset_of!($rust, $field), $c, stringify!($field)
        );)*
    };
}

fn constants() {
    for (name, value) in [
        ("NAME", NAME),
        ("SHEET", SHEET),
        ("MAX_TERMS", MAX_TERMS),
        ("MAX_STARS", MAX_STARS),
        ("BY_STARS", usize::from(BY_STARS)),
        ("BY_ROWS", usize::from(BY_ROWS)),
    ] {
        println!("_Static_assert(POINTING_{name} == {value}, \"{name}\");");
    }
}

fn terms_and_points() {
    layout!(Scratch, "pointing_scratch", refusal, length);
    layout!(
        Term,
        "pointing_term",
        refusal,
        kind,
        number,
        result,
        count,
        name,
        functions,
        coordinates,
        frequencies,
        pier_sensitive
    );
    layout!(Pair, "pointing_pair", refusal, dh, dd);
    layout!(
        Breakdown,
        "pointing_breakdown",
        refusal,
        dh,
        dd,
        pier_sensitive
    );
}

fn fits() {
    layout!(
        FitOptions,
        "pointing_fit_options",
        max_iter,
        tol_rad,
        initial_lambda,
        lambda_up,
        lambda_down,
        robust,
        huber_k
    );
    layout!(
        FitAnswer,
        "pointing_fit_answer",
        refusal,
        sky_rms,
        popn_sd,
        n_free,
        rank,
        sigma_max,
        sigma_min,
        tol,
        iterations,
        converged,
        final_lambda,
        final_step_norm,
        sweeps,
        settled
    );
}

fn main() {
    println!("#include \"pointing.h\"");
    constants();
    terms_and_points();
    fits();
}
