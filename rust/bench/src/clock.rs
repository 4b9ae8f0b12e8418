//! The CPU time of this thread: what others use of the machine is not in it.

/// C's `struct timespec`, on Linux of 64 bits.
#[repr(C)]
struct Timespec {
    seconds: i64,
    nanoseconds: i64,
}

const CLOCK_THREAD_CPUTIME_ID: i32 = 3;

extern "C" {
    fn clock_gettime(clock: i32, time: *mut Timespec) -> i32;
}

/// In nanoseconds.
pub fn now() -> i64 {
    let mut time = Timespec { seconds: 0, nanoseconds: 0 };
    let status = unsafe { clock_gettime(CLOCK_THREAD_CPUTIME_ID, &mut time) };
    assert!(status == 0, "the thread's CPU time cannot be read");
    time.seconds * 1_000_000_000 + time.nanoseconds
}
