//! The processor time of this thread, and the name of the processor. Other programs on the machine disturb this time less than wall-clock
//! time.

use std::ffi::c_int;

#[repr(C)]
struct Timespec {
    seconds: i64,
    nanoseconds: i64,
}

extern "C" {
    fn clock_gettime(clock: c_int, time: *mut Timespec) -> c_int;
}

/// CLOCK_THREAD_CPUTIME_ID of Linux.
const THREAD: c_int = 3;

/// Nanoseconds since an arbitrary start.
pub fn now() -> u64 {
    let mut time = Timespec { seconds: 0, nanoseconds: 0 };
    // SAFETY: the pointer is to a local timespec in the layout of 64-bit Linux.
    let failed = unsafe { clock_gettime(THREAD, &mut time) };
    assert_eq!(failed, 0, "the thread has a clock");
    time.seconds as u64 * 1_000_000_000 + time.nanoseconds as u64
}

/// The processor as Linux names it: ratios differ from one processor to another.
pub fn processor() -> String {
    let text = std::fs::read_to_string("/proc/cpuinfo").unwrap_or_default();
    let field = |name: &str| {
        let value = |line: &str| line.split_once(':').filter(|(key, _)| key.trim() == name).map(|(_, value)| value.trim().to_string());
        text.lines().find_map(value).unwrap_or_else(|| "unknown".to_string())
    };
    format!("{}, family {}, model {}", field("model name"), field("cpu family"), field("model"))
}
