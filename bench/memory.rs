//! The memory of the largest fit: its lent numbers, and the stack that it takes. The call is made on a thread whose stack is memory of ours,
//! painted before; what is no longer painted afterwards was used, less what a thread uses that calls nothing.
mod night;
#[path = "../ffi/pointing.rs"]
mod pointing;

use night::{night, ours, slot, Random};
use oracle::questions::{Buffers, NAME};
use oracle::solver::IterOptions;
use std::ffi::c_void;

const STACK: usize = 4 << 20;
const PAINT: u8 = 0xa5;

type Start = extern "C" fn(*mut c_void) -> *mut c_void;

// The C library's threads; an attribute has 56 bytes on x86-64 Linux.
extern "C" {
    fn pthread_attr_init(attr: *mut [u64; 16]) -> i32;
    fn pthread_attr_setstack(attr: *mut [u64; 16], stack: *mut c_void, size: usize) -> i32;
    fn pthread_create(
        thread: *mut usize,
        attr: *const [u64; 16],
        start: Start,
        lent: *mut c_void,
    ) -> i32;
    fn pthread_join(thread: usize, answer: *mut *mut c_void) -> i32;
}

struct Work<'a>(&'a mut dyn FnMut());

extern "C" fn start(lent: *mut c_void) -> *mut c_void {
    let work = unsafe { &mut *lent.cast::<Work>() };
    (work.0)();
    std::ptr::null_mut()
}

/// The bytes of stack that a thread uses which does the work.
fn deepest(work: &mut dyn FnMut()) -> usize {
    let pages = STACK / 4096;
    let mut stack = vec![[PAINT; 4096]; pages + 1];
    let used = unsafe {
        let base = stack.as_mut_ptr().cast::<u8>();
        let base = base.add(base.align_offset(4096));
        let mut attr = [0; 16];
        let mut thread = 0;
        assert_eq!(pthread_attr_init(&mut attr), 0);
        assert_eq!(pthread_attr_setstack(&mut attr, base.cast(), STACK), 0);
        let mut work = Work(work);
        let lent = (&mut work as *mut Work).cast();
        assert_eq!(pthread_create(&mut thread, &attr, start, lent), 0);
        assert_eq!(pthread_join(thread, std::ptr::null_mut()), 0);
        let painted = std::slice::from_raw_parts(base, STACK);
        STACK - painted.iter().take_while(|&&b| b == PAINT).count()
    };
    assert!(used < STACK / 2);
    used
}

fn main() {
    let (m, n) = (32, 1024);
    let mut random = Random(88172645463325252);
    let run = night(&mut random, n, m);
    let mut buffers = Buffers::exact(m, n, 0.0);
    let scratch = pointing::scratch_length(m, n);
    assert_eq!(
        (scratch.refusal, scratch.length),
        (0, buffers.scratch.len())
    );
    println!("### Memory\n");
    println!("The largest fit, {m} terms and {n} stars.\n");
    println!("| lent | numbers | bytes |");
    println!("|---|---|---|");
    let line = |what: &str, numbers: usize, bytes: usize| {
        println!("| {what} | {numbers} | {bytes} |");
    };
    line(
        "scratch (`pointing_scratch_length`)",
        scratch.length,
        8 * scratch.length,
    );
    let answer = 3 * m + 3 * n;
    line(
        "coefficients, change, sigma, diagnostics",
        answer,
        8 * answer,
    );
    line("sheets", run.sheets.len(), 8 * run.sheets.len());
    let rest = m + 2 * n;
    line(
        "names, flags, starts, differences, pier codes",
        NAME * m + m + rest + n,
        NAME * m + m + 8 * rest + n,
    );

    println!("\n| call | bytes of stack |\n|---|---|");
    let nothing = deepest(&mut || ());
    let table = |what: &str, work: &mut dyn FnMut()| {
        let used = deepest(work) - nothing;
        println!("| {what} | {} |", used.next_multiple_of(16));
    };
    let default = IterOptions::default();
    let robust = IterOptions {
        robust: true,
        ..IterOptions::default()
    };
    let small = night(&mut random, 20, 6);
    for (what, run, options) in [
        ("single step", &run, None),
        ("iterated", &run, Some(&default)),
        ("robust", &run, Some(&robust)),
        ("robust, 6 terms and 20 stars", &small, Some(&robust)),
    ] {
        let mut answered = 99;
        table(what, &mut || {
            answered = ours(run, options, &mut buffers).refusal;
        });
        assert_eq!(answered, 0);
    }
    let point = pointing::Point {
        sheet: &run.sheets[..37],
        sin_lat: run.sin_lat,
        cos_lat: run.cos_lat,
        pier: 1,
    };
    let coefficients = &buffers.coefficients.clone();
    let slot = slot("HHSHCDSHCDSHCDSH");
    let (mut pair, mut parts, mut term) = (99, 99, 99);
    table("a correction of 32 terms", &mut || {
        pair = pointing::apply_equatorial(&run.names, coefficients, &point).refusal;
    });
    table("a breakdown of 32 terms", &mut || {
        parts = pointing::predict_breakdown(&run.names, coefficients, &point).refusal;
    });
    table("a name", &mut || term = pointing::read_term(&slot).refusal);
    assert_eq!([pair, parts, term], [0; 3]);
}
