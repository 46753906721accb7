//! What is asked of valgrind's callgrind from within, and what it writes.
use std::arch::asm;
use std::ffi::CString;

/// The requests that callgrind answers.
const ZERO: u64 = 0x4354_0001;
const DUMP_AT: u64 = 0x4354_0003;
const START: u64 = 0x4354_0004;
const STOP: u64 = 0x4354_0005;

/// Has the instructions of some work counted and written under a name; without valgrind the work alone is done.
pub fn counted(name: &str, work: impl FnOnce()) {
    let name = CString::new(name).expect("a name has no zero byte");
    request(START, 0);
    request(ZERO, 0);
    work();
    request(DUMP_AT, name.as_ptr() as u64);
    request(STOP, 0);
}

/// Makes a request with one argument: rotations that together change nothing, which valgrind knows, and an instruction that nothing else
/// has, by which an emulator's plugin knows them.
fn request(number: u64, argument: u64) {
    let arguments = [number, argument, 0, 0, 0, 0];
    #[cfg(target_arch = "x86_64")]
    unsafe {
        asm!(
            "rol rdi, 3",
            "rol rdi, 13",
            "rol rdi, 61",
            "rol rdi, 51",
            "xchg rbx, rbx",
            in("rax") arguments.as_ptr(),
            inout("rdx") 0u64 => _,
        );
    }
    #[cfg(target_arch = "aarch64")]
    unsafe {
        asm!(
            "ror x12, x12, #3",
            "ror x12, x12, #13",
            "ror x12, x12, #51",
            "ror x12, x12, #61",
            "orr x10, x10, x10",
            in("x4") arguments.as_ptr(),
            inout("x3") 0u64 => _,
        );
    }
}

/// The name that a file of callgrind's was asked for under, and the instructions in it; none where nobody asked.
pub fn parsed(file: &str) -> Option<(String, u64)> {
    let field = |name| file.lines().find_map(|line| line.strip_prefix(name));
    let name = field("desc: Trigger: Client Request: ")?;
    let counts = field("totals: ").or_else(|| field("summary: "))?;
    let count = counts.split_whitespace().next()?.parse().ok()?;
    Some((name.to_string(), count))
}

#[cfg(test)]
mod tests {
    use super::*;

    /// A file of callgrind's with some lines for its trigger and its counts.
    fn file(trigger: &str, counts: &str) -> String {
        format!(
            "# callgrind format\nversion: 1\ncreator: callgrind-3.19.0\npart: 1\n\n\ndesc: I1 cache: \n\n\
             desc: Timerange: Basic block 0 - 99\ndesc: Trigger: {trigger}\n\npositions: line\nevents: Ir\n\
             {counts}\nfn=(12) sums\n264 24\n"
        )
    }

    #[test]
    fn a_file_has_its_name_and_its_count() {
        let name = "Client Request: sums F32, Ours";
        let wanted = Some(("sums F32, Ours".to_string(), 13_751_618));
        for counts in [
            "summary: 13751618",
            "totals: 13751618",
            "summary: 18446744073708240815\ntotals: 13751618",
            "totals: 13751618 7",
        ] {
            assert_eq!(parsed(&file(name, counts)), wanted, "{counts}");
        }
    }

    #[test]
    fn what_nobody_asked_for_is_left_out() {
        assert_eq!(parsed(&file("Program termination", "totals: 8")), None);
        assert_eq!(parsed(&file("Client Request: x", "")), None);
        assert_eq!(parsed(&file("Client Request: x", "totals: many")), None);
        assert_eq!(parsed("==28293== Events    : Ir\n"), None);
    }

    #[test]
    fn work_is_done_without_valgrind_too() {
        let mut done = false;
        counted("work", || done = true);
        assert!(done);
    }
}
