//! The time that this thread has had of the processor: what others take does not count.

/// Linux's number of CLOCK_THREAD_CPUTIME_ID.
const THREAD: i32 = 3;

#[repr(C)]
struct Timespec {
    seconds: i64,
    nanoseconds: i64,
}

extern "C" {
    fn clock_gettime(clock: i32, time: *mut Timespec) -> i32;
}

/// Linux has this clock since 2.6.12, so that the call does not fail.
fn nanoseconds() -> i64 {
    let mut time = Timespec { seconds: 0, nanoseconds: 0 };
    unsafe { clock_gettime(THREAD, &mut time) };
    time.seconds * 1_000_000_000 + time.nanoseconds
}

/// What a work costs, in nanoseconds.
pub fn cost(work: impl FnOnce() -> u64) -> f64 {
    let begun = nanoseconds();
    std::hint::black_box(work());
    (nanoseconds() - begun) as f64
}
