//! A call that does not come back: where a signal ends it or it takes too long, it is saved before the end.

use std::sync::atomic::{AtomicPtr, Ordering};

/// The seconds that a call may take.
const LIMIT: u32 = 120;

const ALARM: i32 = 14;

/// Linux's numbers of the signals that end a call: illegal instruction, abort, bus, arithmetic, memory, alarm.
const SIGNALS: [i32; 6] = [4, 6, 7, 8, 11, ALARM];

extern "C" {
    fn signal(number: i32, handler: extern "C" fn(i32)) -> usize;
    fn alarm(seconds: u32) -> u32;
    fn _exit(status: i32) -> !;
}

/// Says what became of a call, and saves it.
type Tell<'a> = &'a dyn Fn(&str) -> String;

static IN_HAND: AtomicPtr<Tell> = AtomicPtr::new(std::ptr::null_mut());

extern "C" fn ended(number: i32) {
    let tell = IN_HAND.swap(std::ptr::null_mut(), Ordering::SeqCst);
    let what = match number {
        ALARM => format!("no answer after {LIMIT} seconds"),
        _ => format!("ended by signal {number}"),
    };
    if !tell.is_null() {
        eprintln!("compare: {}", unsafe { (*tell)(&what) });
    }
    unsafe { _exit(1) }
}

/// To be called once, before the first call.
pub fn begin() {
    for number in SIGNALS {
        unsafe { signal(number, ended) };
    }
}

/// Does the work; `tell` is called if it does not come back.
pub fn watched<T>(mut tell: Tell, work: impl FnOnce() -> T) -> T {
    let tell: *mut Tell = &mut tell;
    IN_HAND.store(tell.cast(), Ordering::SeqCst);
    unsafe { alarm(LIMIT) };
    let answer = work();
    unsafe { alarm(0) };
    IN_HAND.store(std::ptr::null_mut(), Ordering::SeqCst);
    answer
}
