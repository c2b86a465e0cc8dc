// Taking times: the processor time of this thread, the best of several runs, so that what else the machine does counts least.
use std::ffi::{c_int, c_long};

#[repr(C)]
struct Time {
    seconds: c_long,
    nanoseconds: c_long,
}

unsafe extern "C" {
    fn clock_gettime(clock: c_int, time: *mut Time) -> c_int;
    fn mallopt(parameter: c_int, value: c_int) -> c_int;
}

const THREAD_CPU_TIME: c_int = 3;
const TRIM_THRESHOLD: c_int = -1;
const MMAP_MAX: c_int = -4;

// Memory that was given back stays with the program, so that later runs do not wait for the system to clear pages.
pub fn keep_memory() {
    unsafe {
        mallopt(MMAP_MAX, 0);
        mallopt(TRIM_THRESHOLD, c_int::MAX);
    }
}

fn now() -> f64 {
    let mut time = Time {
        seconds: 0,
        nanoseconds: 0,
    };
    let status = unsafe { clock_gettime(THREAD_CPU_TIME, &mut time) };
    assert_eq!(status, 0, "no clock");
    time.seconds as f64 * 1e9 + time.nanoseconds as f64
}

// The answer of the work, and its best time in nanoseconds over several runs.
pub fn best<T>(runs: usize, mut work: impl FnMut() -> T) -> (T, f64) {
    let mut best = f64::INFINITY;
    let mut answer = None;
    for _ in 0..runs.max(1) {
        let start = now();
        answer = Some(std::hint::black_box(work()));
        best = best.min(now() - start);
    }
    (answer.expect("at least one run"), best)
}
