//! What a fuzzer runs: its bytes choose the calls, the lengths and the contents of slices; each call is held to the header as in
//! `harness::boundary`. A panic ends the process, since it may not leave a C function.
#![no_main]

use harness::boundary::{Boundary, Choices};
use std::ffi::c_int;
use std::sync::atomic::{AtomicU64, Ordering};

static CALLS: AtomicU64 = AtomicU64::new(0);

unsafe extern "C" {
    safe fn atexit(last: extern "C" fn()) -> c_int;
}

extern "C" fn print_calls() {
    eprintln!("{} calls", CALLS.load(Ordering::Relaxed));
}

#[unsafe(no_mangle)]
pub extern "C" fn LLVMFuzzerInitialize(_: *mut c_int, _: *mut *mut *mut u8) -> c_int {
    atexit(print_calls)
}

/// # Safety
/// The bytes are there.
#[unsafe(no_mangle)]
pub unsafe extern "C" fn LLVMFuzzerTestOneInput(bytes: *const u8, len: usize) -> c_int {
    // SAFETY: as said above; an empty slice needs no bytes.
    let tape = if len == 0 { &[] } else { unsafe { std::slice::from_raw_parts(bytes, len) } };
    let mut boundary = Boundary::new(Choices::taped(tape));
    boundary.run_tape();
    CALLS.fetch_add(boundary.tally().calls(), Ordering::Relaxed);
    0
}
