// Makes one read or write of a program fail, as a full disk or a signal would. It is loaded ahead of the C library:
//
//     FAIL_CALL=write FAIL_AT=2 FAIL_WITH=28 LD_PRELOAD=libfail_once.so PROGRAM
//
// lets the second write fail with error 28, and every other call do what it does.
use std::env;
use std::ffi::{c_int, c_long, c_void};
use std::sync::atomic::{AtomicU64, Ordering::Relaxed};

const READ: c_long = 0;
const WRITE: c_long = 1;

static READS: AtomicU64 = AtomicU64::new(0);
static WRITES: AtomicU64 = AtomicU64::new(0);

extern "C" {
    fn syscall(number: c_long, file: c_int, bytes: *mut c_void, count: usize) -> isize;
    fn __errno_location() -> *mut c_int;
}

fn number(name: &str) -> Option<u64> {
    env::var(name).ok()?.parse().ok()
}

// The error of a call, where it is the one that fails.
fn error(name: &str, calls: &AtomicU64) -> Option<c_int> {
    let call = calls.fetch_add(1, Relaxed) + 1;
    if env::var("FAIL_CALL").ok()? == name && number("FAIL_AT")? == call {
        return number("FAIL_WITH").map(|error| error as c_int);
    }
    None
}

unsafe fn call(error: Option<c_int>, number: c_long, file: c_int, bytes: *mut c_void, count: usize) -> isize {
    if let Some(error) = error {
        *__errno_location() = error;
        return -1;
    }
    syscall(number, file, bytes, count)
}

#[no_mangle]
pub unsafe extern "C" fn read(file: c_int, bytes: *mut c_void, count: usize) -> isize {
    call(error("read", &READS), READ, file, bytes, count)
}

#[no_mangle]
pub unsafe extern "C" fn write(file: c_int, bytes: *mut c_void, count: usize) -> isize {
    call(error("write", &WRITES), WRITE, file, bytes, count)
}
