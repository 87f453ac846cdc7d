//! A fuzz target for libFuzzer. Inputs are made into logs, sheets and scripts of sessions, which are
//! handed to the library and to the tests' own reader, table of patterns, search for an order, test
//! of orders, excerpts, narrowings, pages and sessions. All that the library answers and writes is
//! compared.
//!
//! The library is not built with what guides the fuzzer. The tests' own are: an input is kept, and
//! changed further, if they take it in a new way.

mod choices;
mod damage;
mod inputs;
mod logs;
mod orders;
mod reached;
mod rooms;
mod scripts;
mod seeds;
mod writer;

use std::os::raw::{c_int, c_uint, c_void};
use std::path::Path;
use std::sync::Mutex;
use std::{env, process, slice};

use reached::Reached;

/// What was reached by all inputs so far.
static REACHED: Mutex<Reached> = Mutex::new(Reached::new());

extern "C" {
    fn atexit(function: extern "C" fn()) -> c_int;
    fn _exit(status: c_int) -> !;
}

/// What libFuzzer calls at the start. With `--seeds=FOLDER` the inputs to start from are written and
/// nothing else is done. With `--reached` the end of the run tells which answers were reached, and
/// the exit status is 1 if some were not. libFuzzer itself takes no option of two dashes.
#[no_mangle]
pub extern "C" fn LLVMFuzzerInitialize(_: *mut c_int, _: *mut *mut *mut u8) -> c_int {
    for argument in env::args() {
        if let Some(folder) = argument.strip_prefix("--seeds=") {
            seeds::write(Path::new(folder)).expect("seeds are written");
            process::exit(0);
        }
        if argument == "--reached" {
            assert_eq!(unsafe { atexit(report) }, 0, "atexit");
        }
    }
    0
}

/// What libFuzzer calls with each input.
///
/// # Safety
/// `data` points to `size` bytes, unless that is 0.
#[no_mangle]
pub unsafe extern "C" fn LLVMFuzzerTestOneInput(data: *const u8, size: usize) -> c_int {
    let input = match size {
        0 => &[],
        _ => slice::from_raw_parts(data, size),
    };
    inputs::compare(
        input,
        &mut REACHED.lock().expect("no input panics and goes on"),
    );
    0
}

extern "C" fn report() {
    let reached = REACHED.lock().expect("no input panics and goes on");
    if !reached.report() {
        unsafe { _exit(1) };
    }
}

/// Stands in for the C library's random bytes. The hash maps of the tests' own draw their keys from
/// these, and with other keys they would take an input in other ways from run to run.
///
/// # Safety
/// `buffer` points to `length` bytes.
#[no_mangle]
pub unsafe extern "C" fn getrandom(buffer: *mut c_void, length: usize, _: c_uint) -> isize {
    buffer.cast::<u8>().write_bytes(0, length);
    length as isize
}
