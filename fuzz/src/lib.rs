//! What a fuzzer runs on one input: `kvcalls` held to the model of the paper, the boundary to the lifted Rust.
mod ends;

use std::process::abort;
use std::slice;

extern "C" {
    fn guard_new_input();
}

/// Plays the bytes as a call file and holds what the program prints to what the model prints.
///
/// # Safety
/// `data` points to `size` bytes.
#[no_mangle]
pub unsafe extern "C" fn fuzz_calls(data: *const u8, size: usize) -> i32 {
    let file = unsafe { bytes_of(data, size) };
    let wanted = kvasm::model::play(file).output().into_bytes();
    let played = ends::played(file);
    if played.status != 0 || played.output != wanted {
        stop(&format!(
            "wanted {:?}, ours {:?}, status {}",
            String::from_utf8_lossy(&wanted),
            String::from_utf8_lossy(&played.output),
            played.status
        ));
    }
    0
}

/// Makes the calls that the bytes say on both sides and compares what each answers and leaves.
///
/// # Safety
/// `data` points to `size` bytes.
#[no_mangle]
pub unsafe extern "C" fn fuzz_boundary(data: *const u8, size: usize) -> i32 {
    unsafe { guard_new_input() };
    if let Some(difference) = oracle::fuzz::difference(unsafe { bytes_of(data, size) }) {
        stop(&difference);
    }
    0
}

/// The input; a fuzzer's first one has no bytes and may have no place.
///
/// # Safety
/// `data` points to `size` bytes.
unsafe fn bytes_of<'a>(data: *const u8, size: usize) -> &'a [u8] {
    if size == 0 {
        return &[];
    }
    unsafe { slice::from_raw_parts(data, size) }
}

/// Says what is wrong, and stops so that the fuzzer keeps the input.
fn stop(what: &str) -> ! {
    eprintln!("{what}");
    abort()
}
