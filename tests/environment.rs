//! Tests that `default_environment` of `ffi/pointing.rs` tells the default floating-point environment from every other one: each rounding, with and
//! without subnormals flushed, and each exception unmasked.

#[path = "../ffi/pointing.rs"]
mod pointing;

use std::arch::asm;
use std::process::ExitCode;

const DAZ: u32 = 1 << 6;
const MASKS: u32 = 0x3f << 7;
const ROUNDING: u32 = 1 << 13;
const FTZ: u32 = 1 << 15;

fn set(mxcsr: u32) {
    unsafe { asm!("ldmxcsr [{}]", in(reg) &mxcsr, options(nostack, preserves_flags)) };
}

/// What `default_environment` says in an environment; nothing else is worked out in it.
fn said_in(mxcsr: u32) -> bool {
    set(mxcsr);
    let said = pointing::default_environment();
    set(MASKS);
    said
}

fn main() -> ExitCode {
    let at_start = pointing::default_environment();
    let mut wrong = usize::from(!at_start);
    for rounding in 0..4 {
        for flushed in [0, FTZ, DAZ, FTZ | DAZ] {
            let said = said_in(MASKS | rounding * ROUNDING | flushed);
            wrong += usize::from(said != (rounding == 0 && flushed == 0));
        }
    }
    for exception in 0..6 {
        wrong += usize::from(said_in(MASKS & !(1 << (7 + exception))));
        wrong += usize::from(!said_in(MASKS | 1 << exception));
    }
    match wrong {
        0 => ExitCode::SUCCESS,
        _ => {
            println!("default_environment is wrong {wrong} times");
            ExitCode::FAILURE
        }
    }
}
