//! The program's two ends: its standard input is the fuzzer's bytes, its standard output is kept.
use std::cell::RefCell;
use std::slice;

extern "C" {
    fn kvcalls_main(count: i32, words: *const *const u8) -> i32;
}

/// A run of the program.
pub struct Played {
    pub output: Vec<u8>,
    pub status: i32,
}

/// What is left of the input, what came out, and the most bytes that one read or write moves.
#[derive(Default)]
struct Ends {
    input: Vec<u8>,
    output: Vec<u8>,
    most: usize,
}

thread_local! {
    static ENDS: RefCell<Ends> = RefCell::default();
}

/// Plays a file whose last byte says in how small pieces it comes.
pub fn played(file: &[u8]) -> Played {
    let most = match file.last() {
        Some(0..=15) => 1 + file.len() / 64,
        _ => usize::MAX,
    };
    ENDS.set(Ends {
        input: file.to_vec(),
        output: Vec::new(),
        most,
    });
    let status = unsafe { kvcalls_main(0, std::ptr::null()) };
    Played {
        output: ENDS.take().output,
        status,
    }
}

/// What the program calls to read.
///
/// # Safety
/// `to` points to `count` bytes.
#[no_mangle]
pub unsafe extern "C" fn kvcalls_read(_file: i32, to: *mut u8, count: usize) -> isize {
    ENDS.with_borrow_mut(|ends| {
        let count = count.min(ends.most).min(ends.input.len());
        let rest = ends.input.split_off(count);
        let to = unsafe { slice::from_raw_parts_mut(to, count) };
        to.copy_from_slice(&ends.input);
        ends.input = rest;
        count as isize
    })
}

/// What the program calls to write.
///
/// # Safety
/// `from` points to `count` bytes.
#[no_mangle]
pub unsafe extern "C" fn kvcalls_write(_file: i32, from: *const u8, count: usize) -> isize {
    ENDS.with_borrow_mut(|ends| {
        let count = count.min(ends.most);
        ends.output
            .extend_from_slice(unsafe { slice::from_raw_parts(from, count) });
        count as isize
    })
}

/// What the program calls to ask where its input stands; this has no place, as a pipe has none.
#[no_mangle]
pub extern "C" fn kvcalls_lseek(_file: i32, _by: i64, _from: i32) -> i64 {
    -1
}
